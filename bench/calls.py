"""Times `migrate calls` against reading the same classes, side by side.

The runs alternate, and the least time of each counts. All read the files from the system's cache; `calls` lists the folder beside
that, and looks at classes by several threads, so that the processor's time is printed too.
"""

import sys

from timing import timed

# Packages with few sites, with more, and with most of them.
PACKAGES = ["javax.naming", "java.util", "java"]
ROUNDS, AIM = 5, 1.5


def asked(program, place, package):
    """One run over the classes, and its last line."""
    with open(f"{place}/sites", "wb") as file:
        run = timed([program, "calls", "--from", f"{place}/classes", "--package", package], stdout=file)
    with open(f"{place}/sites", encoding="ascii") as file:
        return run, file.readlines()[-1].strip()


def least(runs):
    """The least time by the clock, and the least of the processor."""
    return min(run.seconds for run in runs), min(run.used for run in runs)


def main():
    program, bench, place = sys.argv[1:]
    reading, asking, last = [], {package: [] for package in PACKAGES}, {}
    for _ in range(ROUNDS):
        reading.append(timed([bench, "scan", f"{place}/list"]))
        for package in PACKAGES:
            run, last[package] = asked(program, place, package)
            asking[package].append(run)
    beside, used = least(reading)
    print(f"reading: {beside:.2f} s, {used:.2f} s of the processor")
    for package in PACKAGES:
        seconds, own = least(asking[package])
        peak = max(run.peak for run in asking[package]) / 1e6
        print(f"calls of {package}: {seconds:.2f} s, {seconds / beside:.2f} times reading (aim: at most {AIM}); "
              f"{own:.2f} s of the processor, {own / used:.2f} times; {peak:.0f} MB; {last[package]}")


main()

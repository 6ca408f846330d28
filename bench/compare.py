"""Times `migrate compare` against reading the classes of both sides, side by side, for few classes and for many.

An application of so many classes is migrated by the ready rules. It is compared with what the run wrote; and with the same where
each constant pool has one entry more, which nothing names, so that no two classes have the same bytes. The runs alternate, and the
least time of each counts. All read the files from the system's cache.
"""

import os
import struct
import subprocess
import sys

from runs import make
from timing import timed

FEW, ALL, ROUNDS = 3_000, 1_000_000, 5
AIM, GROWTH = 3, 1.2
# What `compare` takes of both sides together.
LIMIT = 1_073_741_824
# How many bytes stand behind the tag of an entry of the pool, but for texts.
SIZES = {3: 4, 4: 4, 5: 8, 6: 8, 7: 2, 8: 2, 9: 4, 10: 4, 11: 4, 12: 4, 15: 3, 16: 2, 17: 4, 18: 4, 19: 2, 20: 2}


def files_below(folder):
    """The paths of the files below a folder, in order."""
    return sorted(os.path.join(at, name) for at, _, names in os.walk(folder) for name in names)


def with_entry(data):
    """A class with one number more behind its pool."""
    count, = struct.unpack_from(">H", data, 8)
    at, index = 10, 1
    while index < count:
        tag = data[at]
        at += 3 + struct.unpack_from(">H", data, at + 1)[0] if tag == 1 else 1 + SIZES[tag]
        index += 2 if tag in (5, 6) else 1
    return b"".join((data[:8], struct.pack(">H", count + 1), data[10:at], struct.pack(">BI", 3, 7), data[at:]))


def write_other_pools(written, other):
    """Copies the classes that the run wrote, each with another pool."""
    for path in files_below(written):
        target = os.path.join(other, os.path.relpath(path, written))
        os.makedirs(os.path.dirname(target), exist_ok=True)
        with open(path, "rb") as old, open(target, "wb") as new:
            new.write(with_entry(old.read()))


def compared(program, rules, app, other, files):
    """One comparison, in which both sides have to be the same."""
    run = timed([program, "compare", "--rules", rules, "--from", app, "--other", other], stdout=subprocess.PIPE)
    if run.out != f"same files={files}\n".encode():
        sys.exit(f"compare printed {run.out[:200]}")
    return run


def least(runs):
    """The least time by the clock, and the least of the processor."""
    return min(run.seconds for run in runs), min(run.used for run in runs)


def measured(program, bench, rules, place, most):
    """Prints what so many classes take, and gives their number and the seconds of each kind."""
    app, written, other = (f"{place}/{side}{most}" for side in ("app", "written", "other"))
    files, size = make(place, app, most)
    ledger = f"{place}/ledger{most}"
    timed([program, "run", "--rules", rules, "--from", app, "--to", written, "--ledger", ledger])
    write_other_pools(written, other)
    together = size + sum(map(os.path.getsize, files_below(other)))
    if together > LIMIT:
        sys.exit(f"both sides have {together} bytes")
    with open(f"{place}/list{most}", "w", encoding="utf-8") as names:
        names.writelines(path + "\n" for side in (app, written) for path in files_below(side))
    kinds = {"what the run wrote": written, "other pools": other}
    reading, runs = [], {kind: [] for kind in kinds}
    for _ in range(ROUNDS):
        reading.append(timed([bench, "scan", f"{place}/list{most}"]))
        for kind, folder in kinds.items():
            runs[kind].append(compared(program, rules, app, folder, files))
    beside, used = least(reading)
    print(f"{files} classes, {together / 1e6:.0f} MB of both sides: reading both {beside:.2f} s, {used:.2f} s of the processor")
    took = {"reading": beside}
    for kind in kinds:
        seconds, own = least(runs[kind])
        peak = max(run.peak for run in runs[kind])
        print(f"  with {kind}: {seconds:.2f} s, {seconds / beside:.2f} times reading (aim: at most {AIM}); {own:.2f} s of the processor, "
              f"{own / used:.2f} times; {peak / 1e6:.0f} MB, {peak / together:.2f} times the bytes of both sides")
        took[f"with {kind}"] = seconds
    return files, took


def main():
    words = sys.argv[1:]
    few, of_few = measured(*words, FEW)
    many, of_many = measured(*words, ALL)
    print(f"the time a class among {many} to that among {few} (aim: at most {GROWTH}):")
    for kind, seconds in of_many.items():
        print(f"  {kind}: {seconds / many / (of_few[kind] / few):.2f} times")


main()

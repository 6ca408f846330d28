"""Prints scan and build as a ratio to reading the same classes, how they and building alone grow with the number of classes,
and the peak memory. What only makes the classes up, or reads their files, is taken off each time. Where valgrind is installed it
prints the same ratios by instructions, which other work on the machine doesn't change.

    graph.py PROGRAM [LIST]     LIST names class files, one a line
"""

import re
import resource
import shutil
import subprocess
import sys
import tempfile

from timing import timed

program, *lists = sys.argv[1:]
ROUNDS = 10
FEW = 3_000


def once(mode, what):
    """The processor seconds of one run."""
    return timed([program, "graph", mode, str(what)]).used


def best(modes, what):
    """The least seconds of each mode, whose runs alternate."""
    times = [[once(mode, what) for mode in modes] for _ in range(ROUNDS)]
    return [min(row[i] for row in times) for i in range(len(modes))]


def compare(what, said):
    """Scan and build beside reading; the seconds that scan and build take."""
    make, read, graph = best(["make", "read", "graph"], what)
    print(f"{said}: read in {read - make:.2f} s, scanned and built in {graph - read:.2f} s, "
          f"ratio {(graph - read) / (read - make):.2f} (aim: at most 0.5)")
    return graph - read


def counted(what, count):
    """The instructions of reading, and of scan and build, a class."""
    seen = []
    for mode in ("make", "read", "graph"):
        words = ["valgrind", "--tool=cachegrind", "--cache-sim=no", "--cachegrind-out-file=/dev/null", program, "graph", mode, what]
        said = subprocess.run(words, capture_output=True, check=True, text=True).stderr
        seen.append(int(re.search(r"I\s+refs:\s+([0-9,]+)", said)[1].replace(",", "")))
    make, read, graph = seen
    return (read - make) / count, (graph - read) / count


def compare_counted(few, all_of_them, count):
    """Scan and build beside reading, and how they grow, by instructions."""
    read, more = counted(all_of_them, count)
    _, some = counted(few, FEW)
    print(f"by instructions: {read:,.0f} a class read, {more:,.0f} scanned and built, ratio {more / read:.2f}, "
          f"and {more / some:.2f} times those of a class of {FEW:,}")


def some_of(paths, count):
    """A list of so many of these paths, evenly spread, and of the class whose node the program asks for."""
    file = tempfile.NamedTemporaryFile("w", encoding="utf-8")
    file.writelines(path for path in paths if path.endswith("/java/lang/String.class\n"))
    file.writelines(paths[place * len(paths) // count] for place in range(count))
    file.flush()
    return file


# The memory comes first, since the system tells the greatest of all runs so far.
subprocess.run([program, "graph", "build", "200000"], stdout=subprocess.DEVNULL, check=True)
peak = resource.getrusage(resource.RUSAGE_CHILDREN).ru_maxrss * 1024 / 1e6
print(f"200,000 classes with 3,200,000 held names: {peak:.0f} MB at the peak (aim: at most 250 MB)")

compare(20_000, "20,000 generated classes")
for file in lists:
    with open(file, encoding="utf-8") as lines:
        paths = lines.readlines()
    all_of_them = compare(file, f"{len(paths):,} classes of a JDK") / len(paths) * 1e6
    with some_of(paths, FEW) as few:
        some = compare(few.name, f"{FEW:,} of them") / FEW * 1e6
        if shutil.which("valgrind"):
            compare_counted(few.name, file, len(paths))
    print(f"scanning and building take {some:.1f} microseconds a class of {FEW:,} and {all_of_them:.1f} of {len(paths):,}, "
          f"ratio {all_of_them / some:.2f} (aim: at most 1.2)")

each = {}
for count in (3_000, 30_000):
    names, build = best(["names", "build"], count)
    each[count] = (build - names) / count * 1e6
print(f"building alone, of made-up classes, takes {each[3_000]:.1f} microseconds a class of 3,000 and {each[30_000]:.1f} of 30,000, "
      f"ratio {each[30_000] / each[3_000]:.2f}")

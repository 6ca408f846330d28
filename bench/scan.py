"""Times the class reader against `cat` of the same files, side by side.

The runs of the two alternate, and the least time of each counts. Both read the files from the system's cache.
"""

import os
import subprocess
import sys

from timing import timed

ROUNDS = 5


def main():
    program, files = sys.argv[1:]
    with open(files) as paths:
        size = sum(os.path.getsize(path.rstrip("\n")) for path in paths)
    plain, desk, told = [], [], b""
    for _ in range(ROUNDS):
        plain.append(timed(["xargs", "-a", files, "cat"]).seconds)
        run = timed([program, "scan", files], stdout=subprocess.PIPE)
        desk.append(run.seconds)
        told = run.out
    print(told.decode(), end="")
    rates = [size / 1e6 / min(times) for times in (desk, plain)]
    print(f"reader {min(desk):.2f} s, {rates[0]:.0f} MB/s; cat {min(plain):.2f} s, {rates[1]:.0f} MB/s; ratio {rates[0] / rates[1]:.2f}")


main()

"""Runs the gate, `rt ci`, from the top of the repository, and prints the processor seconds of each crate by what they went into.

Four times a second it reads from /proc what each process of the gate has taken so far, so that up to a quarter of a second of each
is missing. A crate's wrong bodies are checked one after another over what was proved before: the first proves the whole crate,
and where there are two or more, a last check is of the crate itself. Told to stop (SIGTERM), it stops the gate, and prints what was
read so far.
"""

import os
import signal
import subprocess
import sys
import time
from collections import defaultdict
from typing import NamedTuple

PAUSE = 0.25
TICKS = os.sysconf("SC_CLK_TCK")
LIBRARY, PROGRAM, BODIES = "proof as a library", "proof as a program", "wrong bodies"
LLVM, OWN, OTHER = "by LLVM", "by Rattle's compiler", "the rest"


class Process(NamedTuple):
    """A process: its parent, when it began, and the seconds that it has taken itself."""

    parent: int
    began: int
    seconds: float


def processes():
    """All processes by their numbers."""
    found = {}
    for number in map(int, filter(str.isdigit, os.listdir("/proc"))):
        try:
            with open(f"/proc/{number}/stat", encoding="utf-8", errors="replace") as stat:
                fields = stat.read().rpartition(")")[2].split()
        except OSError:
            continue
        found[number] = Process(int(fields[1]), int(fields[19]), (int(fields[11]) + int(fields[12])) / TICKS)
    return found


def part_of(number):
    """The crate and the part of the gate that a process says by its words, if it does."""
    try:
        with open(f"/proc/{number}/cmdline", "rb") as file:
            words = file.read().decode(errors="replace").split("\0")
        place = os.readlink(f"/proc/{number}/cwd")
    except OSError:
        return None
    if os.path.basename(words[0]) != "rattle" or "--crate-name" not in words:
        return None
    crate = words[words.index("--crate-name") + 1]
    if "rt-edit-" in place:
        return crate, BODIES
    if "--backend" in words:
        return crate, LLVM if words[words.index("--backend") + 1] == "llvm" else OWN
    return crate, LIBRARY if words[1] == "build" else PROGRAM


def above(number, top, found):
    """A process and those above it, up to `top`; none where it isn't below."""
    line = []
    while number in found and number != top:
        line.append(number)
        number = found[number].parent
    return [*line, top] if number == top else []


def take(top, taken):
    """Writes down what the process `top` and those below it have taken."""
    found = processes()
    for number, process in found.items():
        line = above(number, top, found)
        if line:
            # (a process that has ended says no words until it is waited for)
            before = taken.get((number, process.began), (("", OTHER), 0))[0]
            part = next(filter(None, map(part_of, line)), before)
            taken[number, process.began] = (part, process.seconds)


def told(taken):
    """Prints the seconds by crate and part, and their sums."""
    sums, checks = defaultdict(float), defaultdict(int)
    for (crate, part), seconds in taken.values():
        sums[crate, part] += seconds
        checks[crate, part] += 1
    parts = [LIBRARY, PROGRAM, LLVM, OWN, BODIES]
    print("| Crate |", " | ".join(parts), "| checks of wrong bodies |")
    for crate in sorted({crate for crate, _ in sums} - {""}):
        cells = [f"{sums[crate, part]:.0f}" if sums[crate, part] else "" for part in parts]
        print(f"| `{crate}` |", " | ".join(cells), f"| {checks[crate, BODIES] or ''} |")
    for part in [*parts, OTHER]:
        print(f"{part}: {sum(it for (_, found), it in sums.items() if found == part) / 60:.1f} processor minutes")
    print(f"in all: {sum(sums.values()) / 60:.1f} processor minutes")


def main():
    start, taken = time.monotonic(), {}
    gate = subprocess.Popen(sys.argv[1:] or ["rt", "ci"])
    signal.signal(signal.SIGTERM, lambda *_: gate.terminate())
    while gate.poll() is None:
        take(gate.pid, taken)
        time.sleep(PAUSE)
    told(taken)
    print(f"by the clock: {(time.monotonic() - start) / 60:.1f} minutes")
    sys.exit(gate.returncode)


main()

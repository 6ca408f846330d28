#!/usr/bin/env python3
"""Kills the program at random moments of runs over a folder of many small files, and looks at what is left.

Usage: tests/kills.py [KILLS], by default 100. The program has to be built (examples/first/run.sh).

After each kill every row of the ledger whose source stands there with the row's digest must have at its target what a fresh
run writes there, and then a run to the end must make a target folder equal to that of a run that was never stopped. The runs
start by turns from nothing, from a whole run over older files, and from a run that was killed before, by 1 and by 4 workers.
Where strace is installed, runs over a small application (classes, service files, a manifest, a text and copies) are killed too
at each call of the system that they make, whichever it is, and looked at in the same way. It prints the counts of untrue ledgers
and of differences, and ends with 1 unless all are 0.
"""

import os
import random
import re
import shutil
import subprocess
import sys
import tempfile
import time

from ledgers import copy_ledger, rows, tree, untrue

FILES, FEW = 2000, 4
WORKERS = (1, 4)
TOP = os.path.join(os.path.dirname(os.path.abspath(__file__)), "..")
PROGRAM = os.path.join(TOP, "crates", "migrate", "out", "migrate")
EXAMPLE = os.path.join(TOP, "examples", "first")


def settle(place):
    """Goes to a folder, and puts the rules there."""
    os.chdir(place)
    shutil.copytree(os.path.join(EXAMPLE, "rules"), "rules")


def make(version, files, example):
    """Writes the source; a third of its files differs from version to version."""
    shutil.rmtree("app", ignore_errors=True)
    if example:
        shutil.copytree(os.path.join(EXAMPLE, "app"), "app")
    for i in range(files):
        at = f"app/d{i % 50}/META-INF/services/javax.servlet.S{i}" if i % 5 == 0 else f"app/d{i % 50}/file{i}.txt"
        text = f"javax.servlet.Filter # {i} {version if i % 3 == 0 else 0}\n" * (1 + i % 7)
        os.makedirs(os.path.dirname(at), exist_ok=True)
        with open(at, "w") as file:
            file.write(text)


def words(to, ledger, workers):
    return [PROGRAM, "run", "--rules", "rules", "--from", "app", "--to", to, "--ledger", ledger, "--workers", str(workers)]


def finish(to, ledger):
    """Runs to the end, and answers how long it took."""
    start = time.perf_counter()
    run = subprocess.run(words(to, ledger, 1), stdout=subprocess.PIPE)
    if run.returncode:
        sys.exit(f"a run to the end ended with {run.returncode}: {run.stdout[-200:]}")
    return time.perf_counter() - start


def kill_after(seconds, workers):
    """Starts a run and kills it after this time; whether it was still running."""
    process = subprocess.Popen(words("out", "ledger", workers), stdout=subprocess.DEVNULL)
    time.sleep(seconds)
    process.kill()
    return process.wait() < 0


def traced(options, workers):
    """A run under strace, of each of its threads; whether it was killed."""
    trace = ["strace", "-f", "-qq", *options, *words("out", "ledger", workers)]
    return subprocess.run(trace, stdout=subprocess.DEVNULL).returncode < 0


def calls_of(workers):
    """The names of the system's calls that a run makes, each once."""
    traced(["-o", "trace"], workers)
    with open("trace", encoding="ascii", errors="replace") as file:
        names = re.findall(r"^[0-9]+ +([a-z_0-9]+)\(", file.read(), re.MULTILINE)
    return list(dict.fromkeys(names))


def kill_at(call, number, workers):
    """Runs until a thread makes so many calls of this name, and kills the run there; whether one did."""
    return traced(["-o", "/dev/null", "-e", f"trace={call}", "-e", f"inject={call}:signal=KILL:when={number}"], workers)


def clear(*names):
    for name in names:
        shutil.rmtree(name, ignore_errors=True)
        for end in ("", "-wal", "-shm"):
            if os.path.isfile(name + end):
                os.remove(name + end)


class Counts:
    """What was seen after kills."""

    def __init__(self):
        self.kills = self.untrue = self.differences = self.some = 0

    def look(self, images):
        """Looks at the ledger and the target after a kill, and has the run brought to its end."""
        self.kills += 1
        self.untrue += bool(untrue("app", "out", "ledger", images))
        self.some += 0 < len(rows("ledger")) < len(images)
        finish("out", "ledger")
        self.differences += tree("out") != images

    def is_bad(self):
        return self.untrue or self.differences

    def __str__(self):
        return f"kills={self.kills} untrue={self.untrue} differences={self.differences} ({self.some} ledgers had some of the rows)"


def prepare(files, example):
    """A whole run over older files, and one over the files that stand then; the images, and how long the second took."""
    clear("out", "ledger", "old", "old.ledger", "fresh", "fresh.ledger")
    make(1, files, example)
    finish("out", "ledger")
    copy_ledger("ledger", "old.ledger")
    os.rename("out", "old")
    make(2, files, example)
    length = finish("fresh", "fresh.ledger")
    return tree("fresh"), length


def begin(is_old):
    """Clears the target and the ledger, or takes those of the whole run over older files."""
    clear("out", "ledger")
    if is_old:
        shutil.copytree("old", "out")
        copy_ledger("old.ledger", "ledger")


def at_random(kills):
    images, length = prepare(FILES, False)
    counts = Counts()
    turn = 0
    while counts.kills < kills:
        begin(turn % 3 == 1)
        workers = WORKERS[turn // 3 % 2]
        if turn % 3 == 2:
            kill_after(random.uniform(0, length), workers)
        turn += 1
        if kill_after(random.uniform(0, length), workers):
            counts.look(images)
    print(f"at random moments of runs over {FILES} files ({length:.2f} s): {counts}", flush=True)
    return counts


def at_each_call_of(call, is_old, workers, images, counts):
    """Kills runs at each call of a name, until a run has no more of them."""
    number = 1
    begin(is_old)
    while kill_at(call, number, workers):
        counts.look(images)
        number += 1
        begin(is_old)


def at_each_call():
    images, _ = prepare(FEW, True)
    counts = Counts()
    for workers in WORKERS:
        for is_old in (False, True):
            begin(is_old)
            for call in calls_of(workers):
                at_each_call_of(call, is_old, workers, images, counts)
    print(f"at each call of runs over {len(images)} files: {counts}", flush=True)
    return counts


def main():
    kills = int(sys.argv[1]) if len(sys.argv) > 1 else 100
    if not os.access(PROGRAM, os.X_OK):
        sys.exit("build the program first: examples/first/run.sh")
    with tempfile.TemporaryDirectory() as place:
        settle(place)
        seen = [at_each_call()] if shutil.which("strace") else []
        seen.append(at_random(kills))
        os.chdir("/")
    failed = sum(counts.is_bad() for counts in seen)
    print(f"{len(seen) - failed} passed, {failed} failed, {2 - len(seen)} skipped")
    sys.exit(1 if failed else 0)


if __name__ == "__main__":
    main()

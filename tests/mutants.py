#!/usr/bin/env python3
"""Gives two programs the same damaged class files, and compares what they answer, byte by byte.

Usage: tests/mutants.py OTHER [COUNT [SEED]]: another build of the program, such as one of an earlier commit; how many classes are
made, by default 20,000; and the number that the random choices begin with, by default 1. Both programs have to be built
(examples/first/run.sh builds crates/migrate/out/migrate). It needs a JDK with its modules, and writes some 500 MB below the
temporary folder.

Each made class is one of the JDK's with one to four changes: a bit or a byte exchanged, a number of two bytes set, two such numbers
exchanged, bytes left out, doubled or put in, the end cut off, and a byte of a text exchanged for one that means something in names,
descriptors or modified UTF-8; most of them stand in the constant pool. One in twenty is left as it is. Both programs run over all of
them by rules that rename packages and strings of most classes, by 1 and by 4 workers, list call sites, and compare the classes with
the targets of one of them. Statuses, reports, answers and targets must be the same. It prints how many classes were refused, and
for which reasons, and ends with 1 unless nothing differs.
"""

import os
import random
import re
import shutil
import subprocess
import sys
import tempfile
from collections import Counter

TOP = os.path.join(os.path.dirname(os.path.abspath(__file__)), "..")
PROGRAM = os.path.join(TOP, "crates", "migrate", "out", "migrate")
MEANT = b"/.;[L()<>*:^VIJDZ\x00\x7f\x80\xbf\xc0\xe0\xed\xf0\xff"
RENAMES = "java.util.*=x.tools\njava.io=y.files\njavax.*=jakarta\nsun.*=moon\n"
DIRECT = "UTF-8=utf8\njava.home=x.home\nLjava/util/List;=Lx/tools/List;\n"


def jdk_home():
    """The home of the JDK whose compiler is on the path, where it has its modules."""
    javac = shutil.which("javac")
    home = os.path.dirname(os.path.dirname(os.path.realpath(javac))) if javac else ""
    return home if os.path.isfile(os.path.join(home, "lib", "modules")) else None


def classes_of(home, place):
    """The class files of a JDK's module java.base and of two others, in order of their paths."""
    subprocess.run([os.path.join(home, "bin", "jimage"), "extract", "--dir", place, os.path.join(home, "lib", "modules")], check=True)
    found = []
    for module in ("java.base", "java.xml", "java.desktop"):
        for folder, _, names in os.walk(os.path.join(place, module)):
            found += [os.path.join(folder, name) for name in names if name.endswith(".class")]
    return sorted(found)


def pool_end(data):
    """About where the constant pool of a class ends: behind its last entry as far as the tags tell."""
    sizes = {3: 5, 4: 5, 5: 9, 6: 9, 7: 3, 8: 3, 9: 5, 10: 5, 11: 5, 12: 5, 15: 4, 16: 3, 17: 5, 18: 5, 19: 3, 20: 3}
    at, index, count = 10, 1, int.from_bytes(data[8:10], "big")
    while index < count and at < len(data):
        tag = data[at]
        at += 3 + int.from_bytes(data[at + 1 : at + 3], "big") if tag == 1 else sizes.get(tag, len(data))
        index += 2 if tag in (5, 6) else 1
    return min(at, len(data))


def change(data, choice, end):
    """Makes one change in the bytes of a class, most of them before `end`."""
    at = choice.randrange(8, end) if choice.random() < 0.8 and end > 8 else choice.randrange(len(data))
    kind = choice.randrange(9)
    if kind == 0:
        data[at] ^= 1 << choice.randrange(8)
    elif kind == 1:
        data[at] = choice.randrange(256)
    elif kind == 2:
        data[at : at + 2] = choice.randrange(choice.choice((4, 300, 65536))).to_bytes(2, "big")
    elif kind == 3:
        other = choice.randrange(8, len(data) - 1)
        data[at : at + 2], data[other : other + 2] = data[other : other + 2], data[at : at + 2]
    elif kind == 4:
        del data[at : at + choice.choice((1, 2, 4))]
    elif kind == 5:
        data[at:at] = data[at : at + choice.choice((1, 2, 8, 40))]
    elif kind == 6:
        data[at:at] = bytes(choice.randrange(256) for _ in range(choice.choice((1, 2))))
    elif kind == 7 and choice.random() < 0.3:
        del data[at:]
    else:
        data[at] = choice.choice(MEANT)


def make(files, count, choice):
    """Writes the classes below the folder `app`."""
    for number in range(count):
        with open(choice.choice(files), "rb") as file:
            data = bytearray(file.read())
        end = pool_end(data)
        for _ in range(0 if number % 20 == 0 else choice.choice((1, 1, 1, 2, 4))):
            if len(data) > 16:
                change(data, choice, min(end, len(data)))
        path = f"app/{number // 1000:03}/made{number:06}.class"
        os.makedirs(os.path.dirname(path), exist_ok=True)
        with open(path, "wb") as file:
            file.write(data)


def write(path, text):
    os.makedirs(os.path.dirname(path), exist_ok=True)
    with open(path, "w", encoding="ascii") as file:
        file.write(text)


def answer(program, *words):
    """The status of a program, and what it writes to standard output."""
    run = subprocess.run([program, *words], stdout=subprocess.PIPE, stderr=subprocess.DEVNULL, check=False)
    return run.returncode, run.stdout


def same_folders(one, other):
    """Whether two folders have the same files with the same bytes."""
    return subprocess.run(["diff", "-rq", one, other], stdout=subprocess.DEVNULL, check=False).returncode == 0


def run(program, to, workers):
    """Runs a program over the classes, into a new folder."""
    shutil.rmtree(to, ignore_errors=True)
    for name in (f"{to}.ledger", f"{to}.ledger-wal"):
        if os.path.exists(name):
            os.remove(name)
    return answer(program, "run", "--rules", "rules", "--from", "app", "--to", to, "--ledger", f"{to}.ledger", "--workers", workers)


def main():
    if len(sys.argv) < 2:
        sys.exit(__doc__.split("\n\n")[1])
    other, count = os.path.abspath(sys.argv[1]), int(sys.argv[2]) if len(sys.argv) > 2 else 20000
    choice = random.Random(int(sys.argv[3]) if len(sys.argv) > 3 else 1)
    home = jdk_home()
    if home is None:
        print("skipped: no JDK with its modules is here\n0 passed, 0 failed, 1 skipped")
        return
    checks = []

    def check(name, held):
        checks.append(held)
        if not held:
            print(f"differs: {name}", file=sys.stderr)

    with tempfile.TemporaryDirectory() as place:
        os.chdir(place)
        files = classes_of(home, "modules")
        make(files, count, choice)
        shutil.rmtree("modules")
        write("rules/renames.properties", RENAMES)
        write("rules/direct.properties", DIRECT)
        own = run(PROGRAM, "own", "1")
        for workers in ("1", "4"):
            theirs = run(other, "other", workers)
            check(f"status and report of a run by {workers} workers", theirs == own)
            check(f"targets of a run by {workers} workers", same_folders("own", "other"))
        check("a run by 4 workers beside one by 1", run(PROGRAM, "four", "4") == own and same_folders("own", "four"))
        for package in ("java.util", "java"):
            words = ("calls", "--from", "app", "--package", package)
            check(f"call sites of {package}", answer(PROGRAM, *words) == answer(other, *words))
        words = ("compare", "--rules", "rules", "--from", "app", "--other", "own")
        check("the comparison", answer(PROGRAM, *words) == answer(other, *words))
        lines = own[1].decode(errors="replace").splitlines()
        refused = Counter(re.sub(r"[ =].*", "", line.split(" ", 2)[2]) for line in lines if line.startswith("refused "))
        print(f"status {own[0]}, {count} classes, refused: {dict(refused)}; {lines[-1] if lines else 'no report'}")
    print(f"{sum(checks)} passed, {len(checks) - sum(checks)} failed, 0 skipped")
    sys.exit(not all(checks))


main()

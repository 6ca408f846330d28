"""Times the program, whose ledger is a file, beside runs with the ledger in memory, and the rows of a ledger in memory as an
SQL database beside those of a table, and prints ratios."""

import os
import shutil
import subprocess
import sys
import tempfile

from timing import timed

FILES, ROWS, ROUNDS = 30000, 20000, 5


def make(place):
    os.makedirs(f"{place}/rules")
    with open(f"{place}/rules/renames.properties", "w") as rules:
        rules.write("javax.servlet=jakarta.servlet\n")
    for i in range(FILES):
        folder = f"{place}/app/folder{i % 300}/META-INF/services"
        os.makedirs(folder, exist_ok=True)
        with open(f"{folder}/javax.servlet.Provider{i}", "w") as file:
            file.write(f"javax.servlet.http.Filter{i}\n" * 4)


def run(words):
    """How long the program ran, and what it wrote to standard error."""
    ended = timed(words, stderr=subprocess.PIPE)
    return ended.seconds, ended.out


def words_of(place):
    return ["run", "--rules", f"{place}/rules", "--from", f"{place}/app", "--to", f"{place}/out", "--ledger", f"{place}/ledger"]


def clear(place):
    """Removes what a run wrote, and waits until the disk has done so, since the next run would wait for it."""
    shutil.rmtree(f"{place}/out", ignore_errors=True)
    for name in ("ledger", "ledger-wal"):
        if os.path.exists(f"{place}/{name}"):
            os.remove(f"{place}/{name}")
    os.sync()


def in_file(program, place):
    """The seconds of a first run, and of one that keeps every file, each a run of the program."""
    clear(place)
    return [run([program] + words_of(place))[0] for _ in range(2)]


def tried(program, place, runs):
    """The seconds of so many runs in one process over one ledger in memory, by the program of the tests of runs."""
    clear(place)
    words = ["desk"] + words_of(place)
    with tempfile.TemporaryFile() as cases:
        cases.write("\n".join(["real-folders", "room 100000000", *[" ".join(words)] * runs, ""]).encode())
        cases.seek(0)
        return timed([program], stdin=cases).seconds


def in_memory(program, place):
    """The same two runs with the ledger in memory: the second is what two of them take beyond one."""
    once = tried(program, place, 1)
    return [once, tried(program, place, 2) - once]


def sums(place):
    """The seconds that sha256sum takes over source and target."""
    return run(["sh", "-c", f"find {place}/app {place}/out -type f -print0 | xargs -0 sha256sum"])[0]


def looked(program, name, place):
    """Prints what a run with --verify takes that keeps every file, beside sha256sum."""
    in_file(program, place)
    looks, plain = [], []
    for _ in range(ROUNDS):
        plain.append(sums(place))
        looks.append(run([program] + words_of(place) + ["--verify"])[0])
    print(f"{name}: a run with --verify that keeps every file takes {min(looks) / min(plain):.2f} times sha256sum over source and target ({min(looks):.2f} s to {min(plain):.2f} s; aim: at most 1.5)")


def before(program, other, name, place):
    """Prints what a first run takes beside that of another program."""
    new, old = [], []
    for _ in range(ROUNDS):
        old.append(in_file(other, place)[0])
        new.append(in_file(program, place)[0])
    print(f"{name}: a first run takes {min(new) / min(old):.2f} times that of the other program ({min(new):.2f} s to {min(old):.2f} s; aim: at most 1.1)")


def rows(program, kind):
    """The seconds in which so many rows of a ledger in memory are put, found and put again."""
    return [int(word) / 1e6 for word in run([program, "rows", kind, str(ROWS)])[1].split()]


def in_sql(program):
    """Prints what rows of an SQL database in memory take beside those of a table."""
    tables, databases = [], []
    for _ in range(ROUNDS):
        tables.append(rows(program, "memory"))
        databases.append(rows(program, "sql"))
    for i, what in enumerate(("to put", "to find", "to put again")):
        least, beside = (min(it[i] for it in all) for all in (databases, tables))
        print(f"{what} each of {ROWS} rows in an SQL database in memory takes {least / beside:.0f} times that in a table ({least / ROWS * 1e6:.1f} to {beside / ROWS * 1e6:.2f} microseconds a row)")


def main():
    migrate, bench, tests, disk, memory, *others = sys.argv[1:]
    in_sql(bench)
    for name, place in (("on disk", disk), ("in /dev/shm", memory)):
        make(place)
        file, held = [], []
        for _ in range(ROUNDS):
            held.append(in_memory(tests, place))
            file.append(in_file(migrate, place))
        for i, what, aim in ((0, "a first run", 1.3), (1, "a run that keeps every file", 1.2)):
            least, beside = min(f[i] for f in file), min(h[i] for h in held)
            print(f"{name}: {what} takes {least / beside:.2f} times that with the ledger in memory ({least:.2f} s to {beside:.2f} s; aim: at most {aim})")
        looked(migrate, name, place)
        for other in others:
            before(migrate, other, name, place)


main()

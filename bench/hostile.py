"""Times the class reader, and the program where it is built, over classes that name long texts again and again, each
against a class of the same size."""

import os
import shutil
import subprocess
import sys

from timing import timed

ROUNDS, READINGS = 5, 10
LONG = 60000
AIM = 3
NONE = b"\x00\x00"


def two(number):
    return number.to_bytes(2, "big")


def utf8(text):
    return b"\x01" + two(len(text)) + text


class Pool:
    """A constant pool that grows; `add` gives the index of an entry of one slot."""

    def __init__(self):
        self.entries = [utf8(b"A"), b"\x07" + two(1), utf8(b"java/lang/Object"), b"\x07" + two(3)]

    def add(self, entry):
        self.entries.append(entry)
        return len(self.entries)


def written(pool, interfaces=(), methods=(), attributes=()):
    """The bytes of a class of a pool, with the indices of its interfaces, its methods, each with the bytes of its attributes, and its
    attributes."""
    parts = [b"\xca\xfe\xba\xbe\x00\x00\x00\x34", two(len(pool.entries) + 1), *pool.entries, b"\x00\x21\x00\x02\x00\x04"]
    parts += [two(len(interfaces))] + [two(index) for index in interfaces]
    parts += [two(0), two(len(methods))] + [two(1025) + two(name) + two(descriptor) + rest for name, descriptor, rest in methods]
    parts += [two(len(attributes))] + [two(name) + len(body).to_bytes(4, "big") + body for name, body in attributes]
    return b"".join(parts)


def long_text(front, number=0):
    return front + b"a" * (LONG - 10 - len(front)) + b"%09d" % number


def annotations(hostile):
    """65,535 annotations of one type, whose descriptor is long."""
    pool = Pool()
    name = pool.add(utf8(b"RuntimeVisibleAnnotations"))
    long = pool.add(utf8(long_text(b"L") + b";"))
    short = pool.add(utf8(b"LA;"))
    body = two(65535) + 65535 * (two(long if hostile else short) + two(0))
    return written(pool, attributes=[(name, body)])


def classes(hostile):
    """60,000 classes of one long name, and as many interfaces."""
    pool = Pool()
    long, short = pool.add(utf8(long_text(b"B"))), pool.add(utf8(b"B"))
    named = [pool.add(b"\x07" + two(long if hostile else short)) for _ in range(60000)]
    return written(pool, interfaces=named)


def references(hostile):
    """20,000 names and types of one long descriptor, and 40,000 methods that are called by them."""
    pool = Pool()
    name = pool.add(utf8(b"m"))
    long = pool.add(utf8(b"(" + long_text(b"L") + b";)V"))
    short = pool.add(utf8(b"()V"))
    typed = [pool.add(b"\x0c" + two(name) + two(long if hostile else short)) for _ in range(20000)]
    for index in typed + typed:
        pool.add(b"\x0a" + two(2) + two(index))
    return written(pool)


def members(hostile, first=b""):
    """60,000 methods of 200 long names that have one front, each name with 300 descriptors of one first parameter."""
    pool = Pool()
    long = [pool.add(utf8(long_text(b"m", number))) for number in range(200)]
    short = [pool.add(utf8(b"m%09d" % number)) for number in range(200)]
    descriptors = [pool.add(utf8(b"(" + first + b"I" * (1 + number % 20) + b"J" * (number // 20) + b")V")) for number in range(300)]
    return written(pool, methods=[(name, descriptor, NONE) for name in (long if hostile else short) for descriptor in descriptors])


def entries(hostile):
    """As many methods, each of an entry of its own for one of these names."""
    pool = Pool()
    long = [pool.add(utf8(b"m" * 900 + b"%05d" % number)) for number in range(20000)]
    short = [pool.add(utf8(b"%05d" % number)) for number in range(20000)]
    descriptor = pool.add(utf8(b"()V"))
    return written(pool, methods=[(name, descriptor, NONE) for name in (long if hostile else short)])


def signatures(hostile):
    """20,000 methods of one long descriptor, each with the same text as its signature, so that the roles of this text take turns."""
    pool = Pool()
    signature = pool.add(utf8(b"Signature"))
    long = pool.add(utf8(b"(" + long_text(b"L") + b";)V"))
    short = pool.add(utf8(b"(LA;)V"))
    text = long if hostile else short
    attributes = two(1) + two(signature) + (2).to_bytes(4, "big") + two(text)
    return written(pool, methods=[(pool.add(utf8(b"m%d" % number)), text, attributes) for number in range(20000)])


def seconds_of(program, place, content):
    with open(f"{place}/some.class", "wb") as file:
        file.write(content)
    with open(f"{place}/list", "w") as paths:
        paths.write(f"{place}/some.class\n" * READINGS)
    run = timed([program, "scan", f"{place}/list"], stdout=subprocess.PIPE)
    if f"classes {READINGS}\n".encode() not in run.out:
        sys.exit(f"a class has a fault: {run.out.decode()}")
    return run.seconds / READINGS


def renamed_members(hostile):
    """Those methods, with a parameter whose class is renamed."""
    return members(hostile, b"Ljavax/B;")


def seconds_to_migrate(program, place, content):
    """The time to migrate a folder with this class under some names."""
    for name in ("rules", "app", "out"):
        shutil.rmtree(f"{place}/{name}", ignore_errors=True)
    for name in ("ledger", "ledger-wal"):
        if os.path.exists(f"{place}/{name}"):
            os.remove(f"{place}/{name}")
    for name in ("rules", "app"):
        os.mkdir(f"{place}/{name}")
    with open(f"{place}/rules/renames.properties", "w") as rules:
        rules.write("javax.*=jakarta\n")
    for number in range(READINGS):
        with open(f"{place}/app/some{number}.class", "wb") as file:
            file.write(content)
    words = [program, "run", "--rules", f"{place}/rules", "--from", f"{place}/app", "--to", f"{place}/out", "--ledger", f"{place}/ledger"]
    run = timed(words, stdout=subprocess.PIPE)
    if f"written={READINGS} ".encode() not in run.out:
        sys.exit(f"a class isn't written: {run.out.decode()}")
    return run.seconds / READINGS


def compare(name, make, seconds_to_do):
    """Prints the least time for a hostile class as a ratio to that for a class of the same size."""
    long, plain = make(True), make(False)
    times = {True: [], False: []}
    for _ in range(ROUNDS):
        for hostile, content in ((True, long), (False, plain)):
            times[hostile].append(seconds_to_do(content))
    ratio = min(times[True]) / min(times[False])
    print(f"{name}: {ratio:.2f} times a class of {len(plain)} bytes ({min(times[True]) * 1000:.1f} ms to {min(times[False]) * 1000:.1f} ms; aim: at most {AIM})")


def main():
    reader, program, place = sys.argv[1:]
    for make in (annotations, classes, references, members, entries):
        compare(make.__name__, make, lambda content: seconds_of(reader, place, content))
    if os.access(program, os.X_OK):
        compare("members, migrated", renamed_members, lambda content: seconds_to_migrate(program, place, content))
        compare("signatures, migrated", signatures, lambda content: seconds_to_migrate(program, place, content))
    else:
        print("members and signatures, migrated: not timed, since the program isn't built (examples/first/run.sh builds it)")


main()

"""Times the program against a plain copy of the same files, side by side."""

import os
import sys

from timing import timed

FILES, SIZE, ROUNDS = 1000, 65536, 5


def make(place):
    os.makedirs(f"{place}/rules")
    os.makedirs(f"{place}/app/META-INF/services")
    with open(f"{place}/rules/renames.properties", "w") as rules:
        rules.write("javax.servlet=jakarta.servlet\n")
    line = b"javax.servlet.Filter # a provider of the bench\n"
    for i in range(FILES):
        if i % 10 == 0:
            path, content = f"{place}/app/META-INF/services/bench.S{i}", (line * (SIZE // len(line) + 1))[:SIZE]
        else:
            path, content = f"{place}/app/file{i}.bin", os.urandom(SIZE)
        with open(path, "wb") as file:
            file.write(content)


def copied(place, turn):
    copy = timed(["cp", "-r", f"{place}/app", f"{place}/copy{turn}"]).seconds
    read = timed(["sh", "-c", f"cat {place}/copy{turn}/*.bin {place}/copy{turn}/META-INF/services/* > /dev/null"]).seconds
    return copy + read


def digested(place):
    return timed(["sh", "-c", f"sha256sum {place}/app/*.bin {place}/app/META-INF/services/*"]).seconds


def migrated(program, place, turn):
    return timed([program, "run", "--rules", f"{place}/rules", "--from", f"{place}/app", "--to", f"{place}/out{turn}", "--ledger", f"{place}/ledger{turn}"])


def main():
    program, place = sys.argv[1:]
    make(place)
    plain, digest, desk, peak = [], [], [], 0
    for turn in range(ROUNDS):
        plain.append(copied(place, turn))
        digest.append(digested(place))
        run = migrated(program, place, turn)
        desk.append(run.seconds)
        peak = max(peak, run.peak)
    size = FILES * SIZE
    print(f"time: {min(desk) / min(plain):.2f} times cp -r and reading once more ({min(desk):.3f} s to {min(plain):.3f} s; aim: at most 3)")
    print(f"beside it: sha256sum of the same files takes {min(digest) / min(plain):.2f} times that, and the digests are part of a run")
    print(f"peak memory: {(peak - (64 << 20)) / size:.2f} times the files' bytes, besides 64 MiB ({peak} of {size} bytes; aim: at most 2)")


main()

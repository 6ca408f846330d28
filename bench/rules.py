#!/usr/bin/env python3
"""Writes rule files of 10 and 1,000 rules, and prints the times of look-ups as ratios to those of hashing; and how the time
to build a rule set, and that to write its inverse, grow with the number of renames.

    rules.py BENCH FOLDER [MIGRATE]

BENCH is the program of the benches, FOLDER a temporary one with the names of classes, and MIGRATE the program that inverts.
"""
import os
import subprocess
import sys

from timing import timed

program, folder, migrate = sys.argv[1], sys.argv[2], sys.argv[3] if len(sys.argv) > 3 else None
NAMES, TIMES, ROUNDS = 100_000, 40, 5

with open(os.path.join(folder, "classes")) as file:
    classes = [line.strip() for line in file if "/" in line]
names = (classes * (NAMES // len(classes) + 1))[:NAMES]
with open(os.path.join(folder, "names"), "w") as file:
    file.write("\n".join(names) + "\n")
packages = sorted({name.rsplit("/", 1)[0].replace("/", ".") for name in classes})


def rules(count):
    """Rules for real packages at even distances, every other one for what lies below it too, and made up ones to fill up."""
    real = packages[:: max(1, len(packages) // count)][: count // 2]
    made = [f"org.made{i % 40}.part{i}" for i in range(count - len(real))]
    path = os.path.join(folder, f"rules-{count}")
    with open(path, "w") as file:
        for i, package in enumerate(real + made):
            file.write(f"{package}{'.*' if i % 2 else ''}=renamed{i}.x\n")
    return path


def seconds(mode, times, path):
    with open(os.path.join(folder, "names"), "rb") as file:
        return timed([program, "rules", mode, str(times), path], stdin=file).used


def best(mode, path):
    return min(seconds(mode, TIMES, path) - seconds(mode, 0, path) for _ in range(ROUNDS))


def apart(count):
    """So many exact renames, of which none leads to another."""
    return [f"a{i}=b{i}\n" for i in range(count)]


def one_target(count):
    """So many exact renames: half of them to one package, and half of packages two segments below it, of which none leads to another."""
    half = count // 2
    return [f"a{i}=b\n" for i in range(half)] + [f"b.x{i}.y=c{i}\n" for i in range(count - half)]


def below(count):
    """So many renames of packages with all below them, of which none leads to another."""
    return [f"a{i}.*=b{i}\n" for i in range(count)]


def one_front(count):
    """So many exact renames to packages below one front, of which none leads to another, beside one more."""
    return [f"a{i}=b.x{i}\n" for i in range(count - 1)] + ["z=zz\n"]


def one_package(count):
    """So many exact renames to one package, which can't be taken back."""
    return [f"a{i}=b\n" for i in range(count)]


def a_front_too(count):
    """So many exact renames to packages below one front, beside one that gives the front, which can't be taken back."""
    return [f"a{i}=b.x{i}\n" for i in range(count - 1)] + ["z=b\n"]


def building(shape, count):
    """The least time to build the rule set of so many renames of a shape."""
    path = os.path.join(folder, f"{shape.__name__}-{count}")
    with open(path, "w") as file:
        file.writelines(shape(count))
    return min(timed([program, "rules", "look", "0", path], stdin=subprocess.DEVNULL).used for _ in range(ROUNDS))


def inverting(shape, count, status):
    """The least time to write the inverse of so many renames of a shape, or to say that there is none."""
    rules = os.path.join(folder, f"inverted-{shape.__name__}-{count}")
    os.makedirs(rules, exist_ok=True)
    with open(os.path.join(rules, "renames.properties"), "w") as file:
        file.writelines(shape(count))
    runs = [timed([migrate, "invert", "--rules", rules], may_fail=True) for _ in range(ROUNDS)]
    if any(run.status != status for run in runs):
        sys.exit(f"inverting {shape.__name__} ended with {runs[0].status}")
    return min(run.used for run in runs)


# Renames to invert, with the status that comes of it.
SHAPES = [
    (apart, 0, "exact renames"),
    (below, 0, "renames of all below a package"),
    (one_front, 0, "exact renames to packages below one front"),
    (one_package, 31, "exact renames to one package, which is refused"),
    (a_front_too, 31, "exact renames to a front and to packages below it, which is refused"),
]

few, many = rules(10), rules(1000)
hashing = best("hash", few)
ten, thousand = best("look", few), best("look", many)
print(f"hashing {NAMES} names: {hashing / TIMES * 1000:.2f} ms a pass")
print(f"among 10 rules: {ten / hashing:.2f} times hashing, {NAMES * TIMES / ten / 1e6:.1f} million look-ups a second (aim: at most 4)")
print(f"among 1,000 rules: {thousand / hashing:.2f} times hashing, {NAMES * TIMES / thousand / 1e6:.1f} million look-ups a second (aim: at most 4)")
print(f"1,000 rules against 10: {thousand / ten:.2f} (aim: at most 2)")
for shape, what in ((apart, "exact renames"), (one_target, "renames to one package and of packages below it")):
    fewer, more = building(shape, 15_000), building(shape, 60_000)
    print(f"building 60,000 {what}: {more:.2f} s, {more / fewer:.1f} times 15,000 (aim: at most 5)")
for shape, status, what in SHAPES if migrate else []:
    fewer, more = inverting(shape, 15_000, status), inverting(shape, 60_000, status)
    print(f"inverting 60,000 {what}: {more:.2f} s, {more / fewer:.1f} times 15,000 (aim: at most 5)")

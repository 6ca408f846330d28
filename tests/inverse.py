"""What tests/inverse.sh needs beside the program.

    inverse.py inverse FILE            what `migrate invert` should print of a file of renames of which no two overlap
    inverse.py changing FILE           the renames of such a file that change a package, in byte order of their keys
    inverse.py free FOLDER FILE        of the folders in FOLDER those in whose files no new package of the renames is named
    inverse.py compare OLD BACK        how the files below two folders differ, but for the indices of the constant pools of
                                       classes, and how the headers of manifests are folded; counts go to standard error
"""
import os
import re
import sys

from printed import printed, resolved

# How many differences are printed.
MOST = 20


def renames(file):
    """The renames of a rule file without escapes that change a package: each key with its package."""
    for line in open(file, encoding="utf-8"):
        key, _, package = line.strip().partition("=")
        if key and key[0] not in "#!" and key.removesuffix(".*") != package:
            yield key, package


def told(pairs):
    """A rule file of keys and packages, in byte order of the keys."""
    return "".join(f"{key}={package}\n" for key, package in sorted(pairs, key=lambda it: it[0].encode()))


def inverse(file):
    exchanged = [(package + key[len(key.removesuffix(".*")):], key.removesuffix(".*")) for key, package in renames(file)]
    print(told(exchanged), end="")


def changing(file):
    print(told(renames(file)), end="")


def files_below(folder):
    """The paths of the files below a folder, from that folder."""
    return sorted(os.path.relpath(os.path.join(at, name), folder) for at, _, names in os.walk(folder) for name in names)


def content(*path):
    with open(os.path.join(*path), "rb") as file:
        return file.read()


def free(folder, file):
    """A package counts wherever its segments stand with `.` or `/` between them, in a path or in a file."""
    forms = [r"[./]".join(map(re.escape, package.split("."))) for _, package in renames(file)]
    found = re.compile("|".join(forms).encode())
    for name in sorted(os.listdir(folder)):
        if not any(found.search(os.fsencode(path)) or found.search(content(folder, name, path))
                   for path in files_below(os.path.join(folder, name))):
            print(name)


def headers(data):
    """A manifest with each header on one line."""
    return re.sub(rb"(?:\r\n|\r|\n) ", b"", data)


def differences(old, back):
    """Each path whose file differs, with how it does."""
    paths, others = set(files_below(old)), set(files_below(back))
    for path in sorted(paths ^ others):
        yield f"{path}: {'missing' if path in paths else 'new'}"
    differ = [path for path in sorted(paths & others) if content(old, path) != content(back, path)]
    classes = [path for path in differ if path.endswith(".class")]
    manifests = [path for path in differ if path.endswith("META-INF/MANIFEST.MF")]
    for path in manifests:
        if headers(content(old, path)) != headers(content(back, path)):
            yield f"{path}: other headers"
    for path in sorted(set(differ) - set(classes) - set(manifests)):
        yield f"{path}: other bytes"
    for (path, before), (_, after) in zip(printed(old, classes), printed(back, classes), strict=True):
        for line, other in zip(resolved(before) + [None], resolved(after) + [None]):
            if line != other:
                yield f"{path}: {line} -> {other}"
                break
    print(f"{len(paths)} files, {len(differ)} of them in other bytes: {len(classes)} classes and {len(manifests)} manifests", file=sys.stderr)


def compare(old, back):
    found = list(differences(old, back))
    for line in found[:MOST]:
        print(line)
    if len(found) > MOST:
        print(f"and {len(found) - MOST} more")


{"inverse": inverse, "changing": changing, "free": free, "compare": compare}[sys.argv[1]](*sys.argv[2:])

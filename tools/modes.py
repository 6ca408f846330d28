#!/usr/bin/env python3
"""Gives each target of a migration the mode and the time of its source, by the report: the program copies bytes alone.

    tools/modes.py FROM TO REPORT
"""
import os
import re
import sys


def plain(shown):
    """The bytes of a path that a report shows."""
    return re.sub(rb"\\([0-9a-f]{2})", lambda it: bytes([int(it[1], 16)]), shown.encode("ascii"))


def main():
    source, target, report = sys.argv[1:]
    for line in open(report, encoding="ascii"):
        words = line.split()
        if words and words[0] in ("written", "kept"):
            old = os.stat(os.path.join(os.fsencode(source), plain(words[1])))
            new = os.path.join(os.fsencode(target), plain(words[2]))
            os.chmod(new, old.st_mode & 0o7777)
            os.utime(new, ns=(old.st_atime_ns, old.st_mtime_ns))


if len(sys.argv) != 4:
    sys.exit("usage: modes.py FROM TO REPORT")
try:
    main()
except (OSError, IndexError, ValueError) as error:
    sys.exit(f"modes.py: {error}")

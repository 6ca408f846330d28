#!/usr/bin/env python3
"""Reads ledgers and targets as they stand after a run, and says what is untrue of them. Other scripts import it.

Usage: tests/ledgers.py SOURCE TARGET LEDGER IMAGES, where IMAGES is the target folder of a run that was never stopped. It prints
`untrue PATH` for each row that claims a target which isn't the image of its source, and `other PATH` for each file of the target
that isn't an image. A target that isn't there holds no files, and a ledger that isn't there no rows.
"""

import hashlib
import os
import shutil
import sqlite3
import sys
import tempfile


def tree(root):
    """The content of each file below a folder, by its path; none of what is no file."""
    found = {}
    for folder, _, names in os.walk(root):
        for name in names:
            path = os.path.join(folder, name)
            if os.path.isfile(path) and not os.path.islink(path):
                with open(path, "rb") as file:
                    found[os.path.relpath(path, root)] = file.read()
    return found


def copy_ledger(source, target):
    for end in ("", "-wal"):
        if os.path.exists(source + end):
            shutil.copy(source + end, target + end)


def read(ledger):
    """The rows of a ledger that nothing else reads."""
    connection = sqlite3.connect(ledger)
    tables = [name for (name,) in connection.execute("SELECT name FROM sqlite_schema WHERE type = 'table' ORDER BY name")]
    if tables not in ([], ["folder", "header", "rows2"]):
        sys.exit(f"the ledger has the tables {tables}")
    found = connection.execute("SELECT target, source, digest FROM rows2").fetchall() if tables else []
    connection.close()
    return found


def rows(ledger):
    """The rows of a copy of the ledger, so that reading it changes nothing. One that is half made has none."""
    with tempfile.TemporaryDirectory() as place:
        seen = os.path.join(place, "seen")
        copy_ledger(ledger, seen)
        if not os.path.exists(seen) or open(seen, "rb").read(1) in (b"", b"\0"):
            return []
        return read(seen)


def content(path):
    """The bytes of a file; none where no file is."""
    try:
        with open(path, "rb") as file:
            return file.read()
    except (FileNotFoundError, NotADirectoryError, IsADirectoryError):
        return None


def is_untrue(row, source, target, images):
    """Whether a row claims a target that isn't the image of its source. Of a source that has another digest it claims nothing."""
    to, at, digest = row
    old = content(os.path.join(os.fsencode(source), at))
    if old is None or hashlib.sha256(old).digest() != digest:
        return False
    new = content(os.path.join(os.fsencode(target), to))
    return new is None or new != images.get(os.fsdecode(to))


def untrue(source, target, ledger, images):
    """The targets of the rows that are untrue."""
    return [os.fsdecode(row[0]) for row in rows(ledger) if is_untrue(row, source, target, images)]


def others(target, images):
    """The files of a target that aren't images."""
    return sorted(path for path, held in tree(target).items() if images.get(path) != held)


def main():
    source, target, ledger, folder = sys.argv[1:]
    images = tree(folder)
    for path in untrue(source, target, ledger, images):
        print("untrue", path)
    for path in others(target, images):
        print("other", path)


if __name__ == "__main__":
    main()

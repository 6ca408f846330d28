#!/usr/bin/env python3
"""Packs a folder as an archive, and each folder in it named *.jar, *.war, *.ear or *.rar as an archive in it, to any depth:

    tools/pack.py FOLDER ARCHIVE [ENTRIES [REPORT]]

ENTRIES is the record that tools/unpack.py wrote: an entry that was stored stays stored, each has its time and its mode, and
empty folders come back. REPORT is the report of the migration, by which an entry's new path is found. An entry that the
record doesn't name is deflated, of 1 January 1980 and mode 644. META-INF/MANIFEST.MF comes first, all others in the byte
order of their paths. So the same folder and record give the same bytes each time, whatever the files' own times are.
"""
import io
import os
import re
import sys
import zipfile

ARCHIVE = re.compile(rb".*\.(jar|war|ear|rar)")
OLDEST = (1980, 1, 1, 0, 0, 0)


def plain(shown):
    """The bytes of a path that a report or a record shows."""
    return re.sub(rb"\\([0-9a-f]{2})", lambda it: bytes([int(it[1], 16)]), shown.encode("ascii"))


class Entry:
    def __init__(self, kind, time, mode):
        self.kind = zipfile.ZIP_STORED if kind == "stored" else zipfile.ZIP_DEFLATED
        self.time = tuple(map(int, re.findall("[0-9]+", time)))
        self.mode = int(mode, 8)


def read_targets(file):
    """The target of each path that a report names."""
    targets = {}
    for line in open(file, encoding="ascii"):
        words = line.split()
        if words and words[0] in ("written", "kept"):
            targets[plain(words[1])] = plain(words[2])
    return targets


def name_of(path):
    return path.decode("utf-8")


def add(archive, name, content, entry, is_folder=False):
    info = zipfile.ZipInfo(name_of(name), entry.time if entry else OLDEST)
    info.create_system = 3
    mode = entry.mode if entry and entry.mode else 0o755 if is_folder else 0o644
    info.external_attr = (0o040000 if is_folder else 0o100000) << 16 | mode << 16 | (0x10 if is_folder else 0)
    info.compress_type = zipfile.ZIP_STORED if is_folder else entry.kind if entry else zipfile.ZIP_DEFLATED
    archive.writestr(info, content)


def names_below(folder, path):
    """Paths below a folder: files, folders that stand for archives, and other folders with a / at their end."""
    found = []
    for item in os.scandir(os.path.join(folder, path) if path else folder):
        below = os.path.join(path, item.name) if path else item.name
        if item.is_symlink():
            raise ValueError(f"{os.fsdecode(below)} is a link")
        if not item.is_dir():
            found.append(below)
        elif ARCHIVE.fullmatch(item.name):
            found.append(below)
        else:
            found.append(below + b"/")
            found += names_below(folder, below)
    return found


class Record:
    """What the record says: the entry of each new path, and the folders in which no file lay."""

    def __init__(self, file, targets):
        self.entries, self.empty = {}, set()
        full = set()
        for line in open(file, encoding="ascii") if file else ():
            kind, time, mode, path = line.split()
            path = plain(path)
            self.entries[targets.get(path, path)] = Entry(kind, time, mode)
            if path.endswith(b"/"):
                self.empty.add(path[:-1])
            else:
                full.update(folders_of(path))
        self.empty -= full

    def empty_below(self, root):
        """The empty folders of the archive that a path stands for; the path is empty for the outermost one."""
        front = root + b"/" if root else b""
        for path in self.empty:
            rest = path[len(front):]
            if path.startswith(front) and not any(ARCHIVE.fullmatch(part) for part in rest.split(b"/")):
                yield rest + b"/"


def folders_of(path):
    at = path.rfind(b"/")
    while at > 0:
        yield path[:at]
        at = path.rfind(b"/", 0, at)


def pack(folder, root, record):
    """The bytes of the archive that the folder's part below root stands for."""
    base = os.path.join(folder, root) if root else folder
    found = sorted({*names_below(base, b""), *record.empty_below(root)}, key=lambda path: (path != b"META-INF/MANIFEST.MF", path))
    room = io.BytesIO()
    with zipfile.ZipFile(room, "w") as archive:
        for path in found:
            whole = root + b"/" + path if root else path
            entry = record.entries.get(whole)
            if path.endswith(b"/"):
                add(archive, path, b"", entry, True)
            elif os.path.isdir(os.path.join(folder, whole)):
                add(archive, path, pack(folder, whole, record), entry)
            else:
                with open(os.path.join(folder, whole), "rb") as file:
                    add(archive, path, file.read(), entry)
    return room.getvalue()


def main():
    folder, to, *files = sys.argv[1:]
    try:
        targets = read_targets(files[1]) if len(files) > 1 else {}
        record = Record(files[0] if files else None, targets)
        content = pack(os.fsencode(folder).rstrip(b"/"), b"", record)
        with open(to, "wb") as file:
            file.write(content)
    except (OSError, ValueError) as error:
        sys.exit(f"pack.py: {error}")


if len(sys.argv) not in (3, 4, 5):
    sys.exit("usage: pack.py FOLDER ARCHIVE [ENTRIES [REPORT]]")
main()

#!/usr/bin/env python3
"""Unpacks an archive into a folder, and each archive in it into a folder of its own name, to any depth:

    tools/unpack.py ARCHIVE FOLDER

FOLDER must not be there. Beside it the record FOLDER.entries is written, which tools/pack.py reads: for each entry
"stored" or "deflated", its time, its mode and its path as the report of a migration shows it. A signed archive is named on
standard error, and its signature files (META-INF/*.SF, *.RSA, *.DSA, *.EC, SIG-*) aren't unpacked: no signature survives a
change. An entry named *.jar, *.war, *.ear or *.rar that is no archive is named and stays a file. Of two entries of one path,
which are named too, the last is taken, as a JVM does. Status 1 where the archive can't be read, or an entry would lie outside
the folder.
"""
import calendar
import io
import os
import re
import sys
import zipfile

ARCHIVE = re.compile(rb".*\.(jar|war|ear|rar)")
SIGNATURE = re.compile(rb"META-INF/([^/]*\.(SF|RSA|DSA|EC)|SIG-[^/]*)", re.IGNORECASE)


def shown(path):
    return "".join(chr(b) if 0x21 <= b <= 0x7E and b != 0x5C else f"\\{b:02x}" for b in path)


def said(path, what):
    print(f"{what}: {shown(path)}", file=sys.stderr)


def name_of(info):
    """An entry's name in bytes: UTF-8 is what archives of Java have, whether they say so or not."""
    return info.orig_filename.encode("utf-8" if info.flag_bits & 0x800 else "cp437")


def is_inside(name):
    parts = name.rstrip(b"/").split(b"/")
    return bool(name) and not any(part in (b"", b".", b"..") for part in parts) and b"\0" not in name


def write_record(record, info, path):
    kind = "stored" if info.compress_type == zipfile.ZIP_STORED else "deflated"
    time = "%04d-%02d-%02dT%02d:%02d:%02d" % info.date_time
    mode = info.external_attr >> 16 & 0o777
    record.append(f"{kind} {time} {mode:o} {shown(path)}")


def entries_of(archive, path):
    """The entries of an archive by their names, without signature files, and whether it has such files."""
    entries, signed = {}, False
    for info in archive.infolist():
        name = name_of(info)
        whole = path + b"/" + name if path else name
        if not is_inside(name):
            raise ValueError(f"{shown(whole)} would lie outside the folder")
        if SIGNATURE.fullmatch(name):
            signed = True
            continue
        if name in entries and not name.endswith(b"/"):
            said(whole, "stands twice, and the last is taken")
        entries[name] = info
    return entries, signed


def unpack(archive, outer, path, record):
    """Unpacks an archive to outer/path; the path is empty for the outermost one."""
    os.mkdir(os.path.join(outer, path) if path else outer)
    entries, signed = entries_of(archive, path)
    for name, info in entries.items():
        whole = path + b"/" + name if path else name
        write_record(record, info, whole)
        target = os.path.join(outer, whole)
        if name.endswith(b"/"):
            os.makedirs(target, exist_ok=True)
            continue
        os.makedirs(os.path.dirname(target), exist_ok=True)
        content = archive.read(info)
        inner = open_archive(content, whole) if ARCHIVE.fullmatch(name) else None
        if inner is not None:
            with inner:
                unpack(inner, outer, whole, record)
            continue
        with open(target, "xb") as file:
            file.write(content)
        os.chmod(target, info.external_attr >> 16 & 0o777 | 0o600 if info.external_attr >> 16 else 0o644)
        stamp = seconds(info.date_time)
        os.utime(target, (stamp, stamp))
    if signed:
        said(path or b".", "signed, and its signature files are left out")


def seconds(time):
    """An entry's time as that of a file; an entry without a date is of 1 January 1980."""
    year, month, day, *rest = time
    return calendar.timegm((year, min(max(month, 1), 12), max(day, 1), *rest, 0, 0, 0))


def open_archive(content, path):
    try:
        return zipfile.ZipFile(io.BytesIO(content))
    except zipfile.BadZipFile:
        said(path, "no archive, and stays a file")
        return None


def main():
    source, folder = map(os.fsencode, sys.argv[1:])
    folder = folder.rstrip(b"/")
    if os.path.lexists(folder):
        sys.exit(f"unpack.py: {shown(folder)} is there already")
    record = []
    try:
        with zipfile.ZipFile(os.fsdecode(source)) as archive:
            unpack(archive, folder, b"", record)
    except (OSError, ValueError, NotImplementedError, RuntimeError, zipfile.BadZipFile) as error:
        sys.exit(f"unpack.py: {error}")
    with open(folder + b".entries", "w", encoding="ascii") as file:
        file.write("".join(line + "\n" for line in record))


if len(sys.argv) != 3:
    sys.exit("usage: unpack.py ARCHIVE FOLDER")
main()

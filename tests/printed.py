"""What `javap -v -p` prints of the class files below a folder."""
import os
import re
import subprocess

# How many files one call takes, and the words of the call. The JVM that prints lives for seconds: it needn't compile twice.
MOST = 800
JAVAP = ["javap", "-J-Dfile.encoding=UTF-8", "-J-XX:TieredStopAtLevel=1", "-J-XX:+UseSerialGC", "-v", "-p"]


def class_files(folder):
    """The paths of the class files below a folder, from that folder, in byte order."""
    found = [os.path.relpath(os.path.join(at, name), folder) for at, _, names in os.walk(folder) for name in names]
    return sorted((path for path in found if path.endswith(".class")), key=os.fsencode)


def printed(folder, paths=None):
    """Each class file's path from the folder, and the lines that javap prints of it: of those paths, or of all class files. The
    order is that of the paths."""
    paths = class_files(folder) if paths is None else list(paths)
    for first in range(0, len(paths), MOST):
        yield from batch(folder, paths[first:first + MOST])


def batch(folder, paths):
    """The same by one call."""
    words = JAVAP + [os.path.join(folder, path) for path in paths]
    path, lines = None, []
    with subprocess.Popen(words, stdout=subprocess.PIPE) as run:
        for line in run.stdout:
            line = line.decode("utf-8", "replace").rstrip("\n")
            if line.startswith("Classfile "):
                if path is not None:
                    yield path, lines
                path, lines = os.path.relpath(line[len("Classfile "):], os.path.abspath(folder)), []
            elif path is not None:
                lines.append(line)
    if path is not None:
        yield path, lines


def resolved(lines):
    """A class without its pool, its digest, the indices of entries, and the blanks that align comments."""
    kept, in_pool = [], False
    for line in lines:
        if line == "Constant pool:":
            in_pool = True
        elif in_pool and line == "{":
            in_pool = False
        if not in_pool and not re.match("  (Last modified|SHA-256 checksum) ", line):
            kept.append(re.sub(r" +", " ", re.sub(r"#[0-9]+", "#", line)).strip())
    return kept

#!/usr/bin/env python3
"""Writes the table tools/api_classes.txt, the names of the public classes of the APIs of Java EE 8 and of the files beside them:

    tools/api_classes.py ARCHIVE.. >tools/api_classes.txt

An ARCHIVE is a jar, a package of Debian (`apt-get download NAME`), whose jars are read, or a list of names
(tools/api_classes_by_hand.txt). A class counts where it stands in a package that moved or in javax.annotation (JSR 250 and JSR
305), is public, and lies in no class that isn't; of files schemas and DTDs count. In an archive of Jakarta EE 9 `jakarta` stands
for `javax`; its files don't count. The table's head names the archives and how many names each brought.
"""
import io
import os
import struct
import subprocess
import sys
import tarfile
import zipfile

import rules

# Of each tag of a constant pool how many bytes its body has, but for texts (JVMS 4.4).
BODIES = {3: 4, 4: 4, 5: 8, 6: 8, 7: 2, 8: 2, 9: 4, 10: 4, 11: 4, 12: 4, 15: 3, 16: 2, 17: 4, 18: 4, 19: 2, 20: 2}
PUBLIC, SYNTHETIC, MODULE = 0x0001, 0x1000, 0x8000


class Class:
    """A class file's name, whether it may be seen from outside its package, and the class that it lies in, if it does."""

    def __init__(self, data):
        self.data, self.pool, at = data, {}, 10
        count = self.number(8)
        index = 1
        while index < count:
            tag, at = data[at], at + 1
            if tag == 1:
                size = self.number(at)
                self.pool[index] = data[at + 2:at + 2 + size].decode("utf-8", "replace")
                at += 2 + size
            else:
                self.pool[index] = self.number(at) if tag == 7 else None
                at += BODIES[tag]
            index += 2 if tag in (5, 6) else 1
        flags, own = self.number(at), self.number(at + 2)
        self.name, self.outer = self.named(own), None
        at = self.behind_members(at + 8 + 2 * self.number(at + 6))
        for name, body in self.attributes(at):
            if name == "InnerClasses":
                flags = self.flags_inside(body, own, flags)
        self.seen = bool(flags & PUBLIC) and not flags & (SYNTHETIC | MODULE)

    def number(self, at):
        return struct.unpack_from(">H", self.data, at)[0]

    def named(self, index):
        return self.pool[self.pool[index]]

    def attributes(self, at):
        """The name and the offset of each attribute of a list, and at last None and the offset behind them."""
        count, at = self.number(at), at + 2
        for _ in range(count):
            yield self.pool[self.number(at)], at + 6
            at += 6 + struct.unpack_from(">I", self.data, at + 2)[0]
        yield None, at

    def behind_members(self, at):
        """The offset behind the fields and the methods."""
        for _ in range(2):
            count, at = self.number(at), at + 2
            for _ in range(count):
                *_, (_, at) = self.attributes(at + 6)
        return at

    def flags_inside(self, at, own, flags):
        """The flags that the list of inner classes has for the class itself."""
        for entry in range(at + 2, at + 2 + 8 * self.number(at), 8):
            inner, outer, _, inside = struct.unpack_from(">HHHH", self.data, entry)
            if self.named(inner) == self.named(own):
                self.outer = self.named(outer) if outer else ""
                return inside
        return flags


def jars_of(archive):
    """The jars of an archive, as bytes."""
    with open(archive, "rb") as file:
        data = file.read()
    if not archive.endswith(".deb"):
        return [data]
    run = subprocess.run(["dpkg-deb", "--fsys-tarfile", archive], capture_output=True, check=True)
    with tarfile.open(fileobj=io.BytesIO(run.stdout)) as files:
        return [files.extractfile(it).read() for it in files if it.isfile() and it.name.endswith(".jar")]


def named(name):
    """The name of Java EE 8 of a class's name, with dots."""
    front, _, rest = name.replace("/", ".").partition(".")
    return "javax." + rest if front == "jakarta" else f"{front}.{rest}"


def counts(name):
    """Whether a class of this name is of an API that moved, or of JSR 305."""
    package = name.rpartition(".")[0]
    return any(rules.image(package, ready) != package for ready in rules.SETS) or package.startswith("javax.annotation.")


def names_of(jar):
    """The names of the public classes of the APIs in a jar, and of the schemas and DTDs beside them."""
    with zipfile.ZipFile(io.BytesIO(jar)) as entries:
        paths = entries.namelist()
        found = [Class(entries.read(it)) for it in paths if it.endswith(".class") and it.startswith(("javax/", "jakarta/"))]
    by_name = {it.name: it for it in found}
    files = {it for it in paths if it.startswith("javax/") and it.endswith((".xsd", ".dtd"))}

    def seen(one):
        outer = by_name.get(one.outer)
        return one.seen and one.outer != "" and (one.outer is None or outer is None or seen(outer))

    files = {it for it in files if counts(it.replace("/", "."))}
    return files | {named(it.name) for it in found if seen(it) and counts(named(it.name))}


def names_in(archive):
    """The names that an archive has."""
    if archive.endswith(".txt"):
        with open(archive, encoding="utf-8") as file:
            return {it.strip() for it in file if it.strip() and not it.startswith("#")}
    return set().union(*map(names_of, jars_of(archive)))


def main():
    names, heads = set(), []
    for archive in sys.argv[1:]:
        own = names_in(archive)
        heads.append(f"#   {os.path.basename(archive)}: {len(own)}, {len(own - names)} of them new")
        names |= own
    print("# The public classes of the APIs of Java EE 8, and of JSR 305, which shares a package with one of them; then, as paths, the")
    print("# schemas and DTDs in their packages. Written by tools/api_classes.py from these packages of Debian 12, in this order (of")
    print("# each: how many names it has).")
    print("\n".join(heads))
    print("\n".join(sorted(names, key=lambda it: ("/" in it, it))))


main()

"""What tests/compare.sh needs beside the program.

    compare.py wanted IMAGES OTHERS MIXED   of each library, a folder below both, the line that `migrate compare` should print where
                                            IMAGES holds what a run wrote and OTHERS the other side: NAME all LINE, and for the class
                                            files alone NAME classes LINE; MIXED/NAME is made as IMAGES/NAME, but for the classes of
                                            OTHERS that say the same; counts go to standard error
    compare.py change IMAGES TO             changes one class of each library in each way that it has a place for, and prints for
                                            each what is wanted, the way, the library and the path; the class goes to TO/WAY/NAME/PATH
    compare.py put WAY FILE                 changes one class file in place
    compare.py ways                         the ways

Whether two classes say the same is seen in what `javap -v -p` prints of both: the table of the constant pool is dropped, and so is
an index where javap prints beside it what it leads to.
"""
import os
import re
import shutil
import struct
import sys

from class_names import LAYOUTS, ClassFile
from printed import printed


# ---- what javap prints


def contents(lines):
    """A class as javap prints it, without its pool and the indices of entries."""
    kept, in_pool = [], False
    for line in lines:
        if line == "Constant pool:":
            in_pool = True
        elif in_pool and line == "{":
            in_pool = False
        if not in_pool and not re.match("  (Last modified|SHA-256 checksum) ", line):
            kept.append(free_line(line))
    return kept


def free_line(line):
    """A line without indices. Behind `//` stands what they lead to, where the number of a bootstrap method is none."""
    front, mark, behind = line.partition(" // ")
    if mark:
        return re.sub(r"#[0-9]+", "#", front).rstrip() + mark + behind
    found = re.match(r" +(?:[0-9]+: )?#[0-9]+ ", line)
    if found:
        # A bootstrap method or an argument of one.
        return re.sub(r"#[0-9]+ $", "# ", found[0]) + line[found.end():]
    if re.match(r" +(?:[0-9]+: #[0-9]+\(|default_value: )", line):
        # An annotation or a value of one; what they hold stands on the lines behind.
        return re.sub(r"#[0-9]+", "#", line)
    return line


def files_below(folder):
    """The paths of the files below a folder, from that folder."""
    return {os.path.relpath(os.path.join(at, name), folder) for at, _, names in os.walk(folder) for name in names}


def content(*path):
    with open(os.path.join(*path), "rb") as file:
        return file.read()


def put(data, *path):
    path = os.path.join(*path)
    os.makedirs(os.path.dirname(path), exist_ok=True)
    with open(path, "wb") as file:
        file.write(data)


def shown(path):
    """A path as `migrate` shows it."""
    return "".join(chr(b) if 0x21 <= b <= 0x7E and b != 0x5C else f"\\{b:02x}" for b in os.fsencode(path))


def is_class(path):
    return path.endswith(".class") and not re.fullmatch(r"(.*/)?META-INF/services/[^/]*", path)


def wanted_line(ours, others, differ):
    """The line for these two sets of paths, of which some differ, with how they do."""
    for path in sorted(ours | others, key=os.fsencode):
        what = "missing" if path not in others else "extra" if path not in ours else differ.get(path)
        if what:
            return f"differs {shown(path)} {what}"
    return f"same files={len(ours)}"


def wanted(images, others, mixed):
    total = total_alike = 0
    for name in sorted(os.listdir(images)):
        image, other = os.path.join(images, name), os.path.join(others, name)
        ours, theirs = files_below(image), files_below(other)
        unlike = sorted((path for path in ours & theirs if content(image, path) != content(other, path)), key=os.fsencode)
        classes = [path for path in unlike if is_class(path)]
        differ = {path: "bytes" for path in unlike if not is_class(path)}
        alike = []
        for (path, before), (_, after) in zip(printed(image, classes), printed(other, classes), strict=True):
            if contents(before) == contents(after):
                alike.append(path)
            else:
                differ[path] = "tree"
        print(name, "all", wanted_line(ours, theirs, differ))
        print(name, "classes", wanted_line(set(filter(is_class, ours)), set(filter(is_class, theirs)), differ))
        shutil.copytree(image, os.path.join(mixed, name))
        for path in alike:
            put(content(other, path), mixed, name, path)
        classes_of_it, trees = sum(map(is_class, ours)), sum(what == "tree" for what in differ.values())
        print(f"{name}: {classes_of_it} classes, {len(alike)} of them say the same in other bytes, {trees} differ", file=sys.stderr)
        total, total_alike = total + classes_of_it, total_alike + len(alike)
    print(f"all: {total} classes, {total_alike} of them say the same in other bytes", file=sys.stderr)


# ---- changes of a class

# How long the instruction of an opcode is (JVMS 6.5), by the first opcode of each row; the two switches and `wide` are 0.
LENGTHS = {0x00: 1, 0x10: 2, 0x11: 3, 0x12: 2, 0x13: 3, 0x15: 2, 0x1A: 1, 0x36: 2, 0x3B: 1, 0x84: 3, 0x85: 1, 0x99: 3, 0xA9: 2, 0xAA: 0,
           0xAC: 1, 0xB2: 3, 0xB9: 5, 0xBB: 3, 0xBC: 2, 0xBD: 3, 0xBE: 1, 0xC0: 3, 0xC2: 1, 0xC4: 0, 0xC5: 4, 0xC6: 3, 0xC8: 5}
# Opcodes whose instruction has an index of two bytes; that of `ldc`, 0x12, has one.
INDEXED = {0x13, 0x14, *range(0xB2, 0xBC), 0xBD, 0xC0, 0xC1, 0xC5}


class Places(ClassFile):
    """A class file with the places of some of its parts, from the front of the file."""

    def __init__(self, data):
        # Of each entry its tag; of each field and method its kind, its first byte and the one behind it; of each code its first byte
        # and its length; of each number or string in an annotation its kind and its index.
        self.entries, self.members, self.codes, self.values = {}, [], [], []
        # The first byte of the attribute of the class, a field or a method that is read.
        self.base = None
        super().__init__(data)

    def read_pool(self):
        at = self.bytes.at + 2
        pool = super().read_pool()
        for index, (tag, *fields) in pool.items():
            self.entries[index] = at
            at += 3 + len(fields[0]) if tag == 1 else 1 + struct.calcsize(LAYOUTS[tag])
        # The flags of the class stand behind the pool.
        self.flags = at
        return pool

    def attributes(self, data, place):
        first = data.at - 6
        super().attributes(data, place)
        if place in ("field", "method"):
            self.members.append((place, first, data.at))

    def attribute(self, name, body, place):
        self.base = self.bytes.at - len(body.data) if place in ("class", "field", "method") else None
        if name == b"Code":
            self.codes.append((self.base + 8, int.from_bytes(body.data[4:8], "big")))
        super().attribute(name, body, place)

    def value(self, body):
        tag = body.data[body.at:body.at + 1]
        if self.base is not None and tag in b"BCDFIJSZs":
            self.values.append((tag, self.base + body.at + 1))
        super().value(body)

    def means(self, index):
        """What an entry leads to."""
        tag, *fields = self.pool[index]
        if tag in (1, 3, 4, 5, 6):
            return tag, *fields
        numbers = 1 if tag in (15, 17, 18) else 0
        return tag, *fields[:numbers], *map(self.means, fields[numbers:])

    def other(self, index, most=0xFFFF):
        """An entry of another meaning and the same tag whose index has the same high byte; or None."""
        tag, means = self.pool[index][0], self.means(index)
        fits = (it for it in self.pool if it >> 8 == index >> 8 and it <= most and self.pool[it][0] == tag and self.means(it) != means)
        return next(fits, None)


def number(data, at):
    return int.from_bytes(data[at:at + 2], "big")


def instructions(data, first, length):
    """The place and the opcode of each instruction."""
    at = first
    while at < first + length:
        opcode = data[at]
        yield at, opcode
        size = next(size for start, size in reversed(LENGTHS.items()) if start <= opcode)
        if not size:
            table = at + 4 - (at - first) % 4
            low, high = (int.from_bytes(data[table + by:table + by + 4], "big", signed=True) for by in (4, 8))
            if opcode == 0xAA:
                size = table + 12 + 4 * (high - low + 1) - at
            elif opcode == 0xAB:
                size = table + 8 + 8 * low - at
            else:
                size = 6 if data[at + 1] == 0x84 else 4
        at += size


def with_byte(data, at, byte):
    return data[:at] + bytes([byte]) + data[at + 1:]


def code(it, data):
    """The local variable of an instruction, or the number that it loads."""
    for first, length in it.codes:
        for at, opcode in instructions(data, first, length):
            if opcode in (0x03, 0x04, 0x1A, 0x2A):
                return with_byte(data, at, opcode + 1)


def index_in_code(it, data):
    """The entry that an instruction names."""
    for first, length in it.codes:
        for at, opcode in instructions(data, first, length):
            if opcode == 0x12 or opcode in INDEXED:
                index = data[at + 1] if opcode == 0x12 else number(data, at + 1)
                other = it.other(index, 0xFF if opcode == 0x12 else 0xFFFF)
                if other:
                    return with_byte(data, at + (1 if opcode == 0x12 else 2), other & 0xFF)


def other_letter(data, place, text):
    """The last letter of a text in the pool."""
    return with_byte(data, place + 2 + len(text), ord("y") if text.endswith(b"x") else ord("x"))


def name_of_member(it, data):
    """A name of a field or a method, which other parts of the class may have, too."""
    for _, first, _ in it.members:
        index = number(data, first + 2)
        text = it.pool[index][1]
        if re.fullmatch(rb"[a-z][A-Za-z]+", text) and not any(other[:2] == (1, text[:-1] + mark) for other in it.pool.values()
                                                              for mark in (b"x", b"y")):
            return other_letter(data, it.entries[index], text)


def string(it, data):
    """A string that code loads, of more than one word: no other part of a class has such a text."""
    for first, length in it.codes:
        for at, opcode in instructions(data, first, length):
            if opcode in (0x12, 0x13):
                tag, *fields = it.pool[data[at + 1] if opcode == 0x12 else number(data, at + 1)]
                if tag == 8 and re.fullmatch(rb"[A-Za-z]+ [A-Za-z ]*[A-Za-z]", it.pool[fields[0]][1]):
                    return other_letter(data, it.entries[fields[0]], it.pool[fields[0]][1])


def flag(it, data):
    """Whether a field or a method is final."""
    for _, first, _ in it.members:
        return with_byte(data, first + 1, data[first + 1] ^ 0x10)


def flag_of_class(it, data):
    """Whether the class is public."""
    return with_byte(data, it.flags + 1, data[it.flags + 1] ^ 0x01)


def order(it, data):
    """Two fields or two methods that follow each other, exchanged."""
    for (kind, first, middle), (other, _, end) in zip(it.members, it.members[1:]):
        if kind == other:
            return data[:first] + data[middle:end] + data[first:middle] + data[end:]


def annotation(it, data):
    """A number or a string in an annotation."""
    for _, at in it.values:
        other = it.other(number(data, at))
        if other:
            return with_byte(data, at + 1, other & 0xFF)


def version(_, data):
    """The release that the class is compiled for, by one less."""
    return with_byte(data, 7, data[7] - 1) if data[7] > 45 else None


def tag(it, data):
    """The tag of an entry, which becomes one that is none."""
    return with_byte(data, it.entries[1], 2)


def index_of_name(it, data):
    """The name of a field or a method, which becomes an index outside the pool."""
    if len(it.pool) < 0xFE00:
        for _, first, _ in it.members:
            return with_byte(data, first + 2, 0xFF)


def cut(_, data):
    """The last byte is missing."""
    return data[:-1]


def doubled(it, data):
    """Two entries more: one that stands there already, which a field or method has as its name instead, and one that nothing names."""
    for _, first, _ in it.members:
        count = number(data, 8)
        text = it.pool[number(data, first + 2)][1]
        more = struct.pack(">BH", 1, len(text)) + text + struct.pack(">BI", 3, 7)
        return b"".join((data[:8], struct.pack(">H", count + 2), data[10:it.flags], more,
                         data[it.flags:first + 2], struct.pack(">H", count), data[first + 4:]))


# Each way to change a class, with what is wanted of it: `same`, or how the class differs.
WAYS = {"code": (code, "tree"), "index-in-code": (index_in_code, "tree"), "name": (name_of_member, "tree"), "string": (string, "tree"),
        "flag": (flag, "tree"), "flag-of-class": (flag_of_class, "tree"), "order": (order, "tree"), "annotation": (annotation, "tree"),
        "version": (version, "tree"), "tag": (tag, "malformed"), "index-of-name": (index_of_name, "malformed"),
        "cut": (cut, "malformed"), "doubled": (doubled, "same")}


def changed(way, data):
    """A class with one change; or None where it has no place for it."""
    return WAYS[way][0](Places(data), data)


def change(images, to):
    told = []
    for name in sorted(os.listdir(images)):
        paths = sorted(filter(is_class, files_below(os.path.join(images, name))))
        for number_of_way, way in enumerate(WAYS):
            # Another part of the library for each way.
            first = len(paths) * number_of_way // len(WAYS)
            for path in paths[first:] + paths[:first]:
                data = changed(way, content(images, name, path))
                if data:
                    put(data, to, way, name, path)
                    told.append((way, name, path))
                    break
    seen = [it for it in told if WAYS[it[0]][1] != "malformed"]
    before_each = printed(images, [f"{name}/{path}" for _, name, path in seen])
    after_each = printed(to, ["/".join(it) for it in seen])
    for (way, name, path), (_, before), (_, after) in zip(seen, before_each, after_each, strict=True):
        if (contents(before) == contents(after)) != (WAYS[way][1] == "same"):
            sys.exit(f"javap sees another difference: {way} {name} {path}")
    for way, name, path in told:
        print(WAYS[way][1], way, name, path)


def put_change(way, path):
    data = changed(way, content(path))
    if not data:
        sys.exit(f"no place for {way} in {path}")
    put(data, path)


if __name__ == "__main__":
    {"wanted": wanted, "change": change, "put": put_change, "ways": lambda: print(*WAYS, sep="\n")}[sys.argv[1]](*sys.argv[2:])

"""What tests/calls.sh needs beside the program.

    calls.py sites FOLDER TO PACKAGE..   writes to TO/PACKAGE what `migrate calls` should print of the class files below FOLDER,
                                         as javap reads them: all of them have to be well-formed
    calls.py made FOLDER                 writes class files of its own: below FOLDER/good those that read, below FOLDER/bad others
    calls.py code FILE BYTE              puts a byte, in hexadecimal digits, in place of the first one of the first code of a class
"""
import os
import re
import struct
import sys

from class_names import ClassFile
from printed import class_files, printed

# The opcodes of the instructions that name a member.
OPCODES = {"getstatic": 0xB2, "putstatic": 0xB3, "getfield": 0xB4, "putfield": 0xB5, "invokevirtual": 0xB6, "invokespecial": 0xB7,
           "invokestatic": 0xB8, "invokeinterface": 0xB9}
INSTRUCTION = re.compile(r" +([0-9]+): (" + "|".join(OPCODES) + r") +#([0-9]+)\b")
ENTRY = re.compile(r" *#([0-9]+) = (\w+)")
# What javap writes in place of a byte within a text of the pool.
ESCAPE = re.compile(r"\\(?:([tnr\"'\\])|u([0-9a-f]{4}))")
ESCAPED = {"t": "\t", "n": "\n", "r": "\r", '"': '"', "'": "'", "\\": "\\"}


# ---- what javap prints


def shown(text):
    """A text as `migrate` shows it; in class files texts are modified UTF-8."""
    data = text if isinstance(text, bytes) else b"".join(map(modified, text))
    return "".join(chr(b) if 0x21 <= b <= 0x7E and b != 0x5C else f"\\{b:02x}" for b in data) or "\\-"


def modified(mark):
    """A character in modified UTF-8 (JVMS 4.4.7)."""
    if mark == "\0":
        return b"\xc0\x80"
    units = mark.encode("utf-16-be", "surrogatepass")
    parts = [units[at:at + 2].decode("utf-16-be", "surrogatepass") for at in range(0, len(units), 2)]
    return b"".join(part.encode("utf-8", "surrogatepass") for part in parts)


class Pool:
    """The constant pool of one class, as javap prints it."""

    def __init__(self):
        self.entries = {}

    def read(self, line):
        """Takes a line of the table."""
        found = ENTRY.match(line)
        if not found:
            return
        # The value stands behind the tag's column of 18 places and a blank.
        value = line[found.start(2) + 19:]
        if found[2] == "Utf8":
            value = ESCAPE.sub(lambda it: ESCAPED[it[1]] if it[1] else chr(int(it[2], 16)), value)
        self.entries[int(found[1])] = value

    def parts(self, index):
        """The indices within an entry."""
        return [int(part) for part in re.findall("#([0-9]+)", self.entries[index].split("//")[0])]

    def member(self, index):
        """The class, the name and the descriptor of a member."""
        owner, pair = self.parts(index)
        return [self.entries[at] for at in (self.parts(owner)[0], *self.parts(pair))]


def method_name(header, descriptor, owner):
    """The name of a method by the line that declares it, in a class of this name."""
    if header.endswith("{};"):
        return "<clinit>"
    words = header.split("(")[0].split(" ")
    is_constructor = words[-1] == owner.replace("/", ".") and descriptor.endswith(")V") and "void" not in words[-2:-1]
    return "<init>" if is_constructor else words[-1]


def sites(lines):
    """Of a class that javap prints, in the order of its code: method, descriptor, place, opcode, and the member's class, name and
    descriptor of each instruction that names a member."""
    pool, place, owner, header, descriptor = Pool(), "head", "", "", ""
    for line in lines:
        if place == "head":
            if line.startswith("  this_class: "):
                owner = line.split("// ")[1].strip('"')
            elif line == "Constant pool:":
                place = "pool"
        elif place == "pool":
            if line == "{":
                place = "members"
            pool.read(line)
        elif line[:2] == "  " and line[2:3] not in ("", " "):
            header = line.strip()
        elif line.startswith("    descriptor: "):
            descriptor = line[len("    descriptor: "):]
        elif found := INSTRUCTION.match(line):
            yield method_name(header, descriptor, owner), descriptor, int(found[1]), OPCODES[found[2]], *pool.member(int(found[3]))


def lies_in(name, package):
    """Whether a class, of an array that of its elements, lies in a package or below it."""
    if name.startswith("["):
        element = name.lstrip("[")
        name = element[1:-1] if element.startswith("L") else ""
    return name.startswith(package.replace(".", "/") + "/")


def write_sites(folder, to, *packages):
    counts = dict.fromkeys(packages, 0)
    files = {package: open(os.path.join(to, package), "w", encoding="ascii") for package in packages}
    paths, seen = class_files(folder), []
    for path, lines in printed(folder, paths):
        seen.append(path)
        for method, descriptor, at, opcode, *member in sites(lines):
            for package in packages:
                if lies_in(member[0], package):
                    where = " ".join(map(shown, (os.fsencode(path), method, descriptor)))
                    files[package].write(f"site {where} at={at} op={opcode:02x} {' '.join(map(shown, member))}\n")
                    counts[package] += 1
    if seen != paths:
        sys.exit(f"javap printed {len(seen)} of {len(paths)} classes")
    for package, file in files.items():
        file.write(f"sites classes={len(paths)} refused=0 sites={counts[package]}\n")
        file.close()


# ---- classes of its own


class Made:
    """A class file that is put together of its parts."""

    def __init__(self, name):
        self.pool, self.methods = [], []
        self.name, self.parent = self.class_(name), self.class_("java/lang/Object")

    def entry(self, data):
        if data not in self.pool:
            self.pool.append(data)
        return self.pool.index(data) + 1

    def text(self, text):
        data = text if isinstance(text, bytes) else text.encode()
        return self.entry(struct.pack(">BH", 1, len(data)) + data)

    def class_(self, name):
        return self.entry(struct.pack(">BH", 7, self.text(name)))

    def member(self, opcode, owner, name, descriptor):
        """The bytes of an instruction that names a member."""
        tag = 9 if opcode < 0xB6 else 11 if opcode == 0xB9 else 10
        pair = self.entry(struct.pack(">BHH", 12, self.text(name), self.text(descriptor)))
        index = self.entry(struct.pack(">BHH", tag, self.class_(owner), pair))
        return struct.pack(">BH", opcode, index) + (b"\1\0" if opcode == 0xB9 else b"")

    def method(self, name, descriptor, code):
        attribute = struct.pack(">HIHHI", self.text("Code"), 12 + len(code), 9, 9, len(code)) + code + b"\0\0\0\0"
        self.methods.append(struct.pack(">HHHH", 0x0009, self.text(name), self.text(descriptor), 1) + attribute)

    def bytes(self):
        return b"".join([
            struct.pack(">IHHH", 0xCAFEBABE, 0, 52, len(self.pool) + 1), *self.pool,
            struct.pack(">HHHHHH", 0x0021, self.name, self.parent, 0, 0, len(self.methods)), *self.methods, b"\0\0"])


RETURN = b"\xb1"


def opcodes():
    """Every instruction that names a member, within the package and outside it."""
    it = Made("p/Opcodes")
    for owner, name in (("a/b/In", "in"), ("a/Out", "out")):
        code = b""
        for opcode in range(0xB2, 0xBA):
            code += it.member(opcode, owner, name, "I" if opcode < 0xB6 else "()V")
        it.method(name, "()V", code + RETURN)
    return it


def packages():
    """Members of classes of packages that begin alike, and of arrays."""
    it = Made("p/Packages")
    owners = ["a/b/C", "a/b/c/D", "a/bc/E", "a/b", "a/C", "b/C", "x/a/b/C", "[La/b/C;", "[[La/b/c/D;", "[La/bc/E;", "[I", "[[La/b;"]
    it.method("all", "()V", b"".join(it.member(0xB6, owner, "m", "()V") for owner in owners) + RETURN)
    return it


def places():
    """Sites behind instructions of every length: each of the tables begins at a place of another remainder."""
    it = Made("p/Places")
    site = it.member(0xB8, "a/b/C", "m", "()V")
    table = lambda at: b"\xaa" + bytes(-(at + 1) % 4) + struct.pack(">iiiii", 8, -1, 1, 8, 8) + struct.pack(">i", 8)
    pairs = lambda at: b"\xab" + bytes(-(at + 1) % 4) + struct.pack(">iiii", 8, 1, 7, 8)
    code = b""
    for made in (table, pairs):
        for _ in range(4):
            code += made(len(code)) + site + b"\0" * (-len(code) % 3)
    for more in ("1005", "110005", "1201", "840101", "c41500ff", "c4840100ffff", "c800000005", "bc0a", "1500", "a900"):
        code += bytes.fromhex(more.replace("1201", "12%02x" % it.entry(struct.pack(">BI", 3, 5)))) + site
    code += b"\xc5" + struct.pack(">HB", it.class_("[[La/b/C;"), 2) + site + RETURN
    it.method("all", "()V", code)
    return it


def names():
    """Texts that are shown with escapes."""
    it = Made("p/Names")
    site = it.member(0xB8, "a/b/\u00e9 \\", b"\xc0\x80 !~\x7f", "(La/b/\u00e9 ;)V")
    it.method("m\u00e9\\", "(La/b/\u00e9;)V", site + RETURN)
    return it


# Code that doesn't read, in hexadecimal digits; tests/calls.sh says what is wrong in each.
FAULTY = [
    # no opcode: at once, behind another instruction, behind the mark of wide operands
    "ca", "00 00 fe b1", "c4 b1",
    # the code ends within an instruction, within a wide one, within the fixed part of a table
    "11 00", "00 b8 00", "c4", "c4 84 00 01 00", "aa 00 00 00 00 00 00 00",
    # a table of 257 places, and one of 256 pairs, in a code that is shorter
    "aa 00 00 00 00 00 00 00 00 00 00 00 00 00 01 00 00 00 00 00", "ab 00 00 00 00 00 00 00 00 00 01 00 00 00 00 00",
    # a table from 1 to 0, and one of -1 pairs
    "00 aa 00 00 00 00 00 00 00 00 00 01 00 00 00 00", "ab 00 00 00 00 00 00 00 ff ff ff ff",
    # an index of a text, also as one byte; one outside the pool, and 0
    "b8 00 01", "00 12 01", "bb ff ff", "b2 00 00",
]


def faulty(*codes):
    """A class with a method that reads and has a site, and behind it methods of these codes."""
    it = Made("p/Faulty")
    it.method("first", "()V", it.member(0xB8, "a/b/C", "m", "()V") + RETURN)
    for number, code in enumerate(codes):
        it.method(f"m{number}", "()V", bytes.fromhex(code))
    return it.bytes()


def write_made(folder):
    good, bad = os.path.join(folder, "good"), os.path.join(folder, "bad")
    for path, made in (("None.class", Made("p/None")), ("p q/N\u00e9.class", names()), ("p-1/Places.class", places()),
                       ("p.jar/Opcodes.class", opcodes()), ("p/Packages.class", packages())):
        put(os.path.join(good, path), made.bytes())
    for number, code in enumerate(FAULTY):
        put(os.path.join(bad, f"{number:02}.class"), faulty(code))
    put(os.path.join(bad, "two.class"), faulty("b1", "10", "ca"))
    put(os.path.join(bad, "cut.class"), faulty("ca")[:-1])
    put(os.path.join(bad, "text.class"), b"no class")
    put(os.path.join(bad, "text.txt"), b"no class")
    put(os.path.join(bad, "META-INF/services/text.class"), b"no class")
    put(os.path.join(bad, "z/Opcodes.class"), opcodes().bytes())


class Codes(ClassFile):
    """A class file with the places of the first bytes of its codes, from the front of the file, in their order."""

    def __init__(self, data):
        self.places = []
        super().__init__(data)

    def attribute(self, name, body, place):
        if name == b"Code":
            self.places.append(self.bytes.at - len(body.data) + 8)


def put(path, data):
    os.makedirs(os.path.dirname(path), exist_ok=True)
    with open(path, "wb") as file:
        file.write(data)


def put_code(path, byte):
    """Changes the first code byte of a class file, and prints its place."""
    data = bytearray(open(path, "rb").read())
    at = Codes(bytes(data)).places[0]
    data[at] = int(byte, 16)
    put(path, data)
    print(at)


{"sites": write_sites, "made": write_made, "code": put_code}[sys.argv[1]](*sys.argv[2:])

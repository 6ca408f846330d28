"""Which classes a class file names, read after the Java Virtual Machine Specification (Java SE 21), chapter 4: the class entries of
its constant pool, and the classes in its descriptors and signatures. Of an array it is the class of its elements, and of a type in
a signature that is written with dots the outermost class."""
import re
import struct

# Where an attribute has a meaning (table 4.7-C). Anywhere else it is bytes.
ANNOTATIONS = {"class", "field", "method", "component"}
PLACES = {
    b"Code": {"method"},
    b"Record": {"class"},
    b"Signature": ANNOTATIONS,
    b"LocalVariableTable": {"code"},
    b"LocalVariableTypeTable": {"code"},
    b"AnnotationDefault": {"method"},
    b"RuntimeVisibleAnnotations": ANNOTATIONS,
    b"RuntimeInvisibleAnnotations": ANNOTATIONS,
    b"RuntimeVisibleParameterAnnotations": {"method"},
    b"RuntimeInvisibleParameterAnnotations": {"method"},
    b"RuntimeVisibleTypeAnnotations": ANNOTATIONS | {"code"},
    b"RuntimeInvisibleTypeAnnotations": ANNOTATIONS | {"code"},
}
# Of each tag of the pool how its body is laid out, but for texts.
LAYOUTS = {3: ">I", 4: ">I", 5: ">Q", 6: ">Q", 7: ">H", 8: ">H", 9: ">HH", 10: ">HH", 11: ">HH", 12: ">HH", 15: ">BH", 16: ">H",
           17: ">HH", 18: ">HH", 19: ">H", 20: ">H"}
# How many bytes stand behind a type annotation's target type, but for the tables of local variables.
TARGETS = {0x00: 1, 0x01: 1, 0x10: 2, 0x11: 2, 0x12: 2, 0x13: 0, 0x14: 0, 0x15: 0, 0x16: 1, 0x17: 2, 0x42: 2, 0x43: 2, 0x44: 2,
           0x45: 2, 0x46: 2, 0x47: 3, 0x48: 3, 0x49: 3, 0x4A: 3, 0x4B: 3}


class Bytes:
    """Bytes that are read from the front."""

    def __init__(self, data):
        self.data, self.at = data, 0

    def take(self, count):
        part = self.data[self.at:self.at + count]
        if len(part) != count:
            raise ValueError("cut")
        self.at += count
        return part

    def number(self, count):
        return int.from_bytes(self.take(count), "big")


def in_descriptor(text):
    """The classes of a field's or method's descriptor, or of an array."""
    return re.findall(rb"[BCDFIJSZV\[()]*L([^;]+);", text) if b"L" in text else []


class Signature:
    """A signature, read by the grammar of 4.7.9.1; `names` are its classes."""

    def __init__(self, text, kind):
        self.text, self.at, self.names = text, 0, []
        getattr(self, kind)()
        if self.at != len(text):
            raise ValueError("more behind a signature")

    def next(self):
        return self.text[self.at:self.at + 1]

    def skip(self, marks):
        if not self.next() or self.next() not in marks:
            raise ValueError("no signature")
        self.at += 1

    def identifier(self):
        found = re.compile(rb"[^.;\[/<>:]+").match(self.text, self.at)
        if not found:
            raise ValueError("no identifier")
        self.at = found.end()
        return found[0]

    def class_type(self):
        self.skip(b"L")
        name = self.identifier()
        while self.next() == b"/":
            self.at += 1
            name += b"/" + self.identifier()
        self.names.append(name)
        self.arguments()
        while self.next() == b".":
            self.at += 1
            self.identifier()
            self.arguments()
        self.skip(b";")

    def arguments(self):
        if self.next() != b"<":
            return
        self.at += 1
        while True:
            if self.next() == b"*":
                self.at += 1
            else:
                if self.next() in (b"+", b"-"):
                    self.at += 1
                self.reference()
            if self.next() == b">":
                self.at += 1
                return

    def reference(self):
        if self.next() == b"L":
            self.class_type()
        elif self.next() == b"T":
            self.at += 1
            self.identifier()
            self.skip(b";")
        else:
            self.skip(b"[")
            self.type()

    def type(self):
        if self.next() and self.next() in b"BCDFIJSZ":
            self.at += 1
        else:
            self.reference()

    def parameters(self):
        if self.next() != b"<":
            return
        self.at += 1
        while self.next() != b">":
            self.identifier()
            self.skip(b":")
            if self.next() not in (b":", b">") and re.compile(rb"[LT\[]").match(self.text, self.at):
                self.reference()
            while self.next() == b":":
                self.at += 1
                self.reference()
        self.at += 1

    def class_(self):
        self.parameters()
        self.class_type()
        while self.at < len(self.text):
            self.class_type()

    def method(self):
        self.parameters()
        self.skip(b"(")
        while self.next() != b")":
            self.type()
        self.at += 1
        if self.next() == b"V":
            self.at += 1
        else:
            self.type()
        while self.next() == b"^":
            self.at += 1
            self.reference()

    def field(self):
        self.reference()


class ClassFile:
    """A class file: its `name`, the set `held` of the classes that it names, its own included, and in `texts` the descriptors and
    signatures of its members and its own signature, in the order of the file, each behind its kind: `f` and `m` are descriptors of
    fields and methods, `F`, `M` and `C` signatures of fields, methods and classes."""

    def __init__(self, data):
        self.held, self.texts = set(), []
        self.bytes = Bytes(data)
        if self.bytes.number(4) != 0xCAFEBABE:
            raise ValueError("no class file")
        self.bytes.take(4)
        self.pool = self.read_pool()
        self.bytes.take(2)
        self.name = self.pool[self.pool[self.bytes.number(2)][1]][1]
        self.bytes.take(2)
        self.bytes.take(2 * self.bytes.number(2))
        for kind in ("field", "method"):
            for _ in range(self.bytes.number(2)):
                self.bytes.take(4)
                index = self.bytes.number(2)
                self.texts.append((kind[0], self.pool[index][1]))
                self.descriptor(index)
                self.attributes(self.bytes, kind)
        self.attributes(self.bytes, "class")
        if self.bytes.at != len(data):
            raise ValueError("more behind a class")

    def read_pool(self):
        count = self.bytes.number(2)
        pool = {}
        index = 1
        while index < count:
            tag = self.bytes.number(1)
            if tag == 1:
                pool[index] = (tag, self.bytes.take(self.bytes.number(2)))
            else:
                pool[index] = (tag, *struct.unpack(LAYOUTS[tag], self.bytes.take(struct.calcsize(LAYOUTS[tag]))))
            index += 2 if tag in (5, 6) else 1
        for tag, *fields in pool.values():
            if tag == 7:
                text = pool[fields[0]][1]
                self.held.update(in_descriptor(text) if text.startswith(b"[") else [text])
            elif tag in (12, 16):
                self.held.update(in_descriptor(pool[fields[-1]][1]))
        return pool

    def descriptor(self, index):
        self.held.update(in_descriptor(self.pool[index][1]))

    def signature(self, index, kind):
        try:
            self.held.update(Signature(self.pool[index][1], kind).names)
        except ValueError:
            pass

    def attributes(self, data, place):
        for _ in range(data.number(2)):
            name = self.pool[data.number(2)][1]
            body = Bytes(data.take(data.number(4)))
            if place in PLACES.get(name, ()):
                self.attribute(name, body, place)

    def attribute(self, name, body, place):
        if name == b"Code":
            body.take(4)
            body.take(body.number(4))
            body.take(8 * body.number(2))
            self.attributes(body, "code")
        elif name == b"Record":
            for _ in range(body.number(2)):
                body.take(2)
                self.descriptor(body.number(2))
                self.attributes(body, "component")
        elif name == b"Signature":
            index = body.number(2)
            if place != "component":
                self.texts.append((place[0].upper(), self.pool[index][1]))
            self.signature(index, {"class": "class_", "method": "method"}.get(place, "field"))
        elif name.startswith(b"LocalVariable"):
            for _ in range(body.number(2)):
                body.take(6)
                index = body.number(2)
                self.descriptor(index) if name == b"LocalVariableTable" else self.signature(index, "field")
                body.take(2)
        elif name == b"AnnotationDefault":
            self.value(body)
        else:
            for _ in range(body.number(1) if b"Parameter" in name else 1):
                for _ in range(body.number(2)):
                    if b"Type" in name:
                        self.target(body)
                    self.annotation(body)

    @staticmethod
    def target(body):
        kind = body.number(1)
        body.take(6 * body.number(2) if kind in (0x40, 0x41) else TARGETS[kind])
        body.take(2 * body.number(1))

    def annotation(self, body):
        self.descriptor(body.number(2))
        for _ in range(body.number(2)):
            body.take(2)
            self.value(body)

    def value(self, body):
        tag = body.take(1)
        if tag == b"@":
            self.annotation(body)
        elif tag == b"[":
            for _ in range(body.number(2)):
                self.value(body)
        elif tag == b"c":
            self.descriptor(body.number(2))
        elif tag == b"e":
            self.descriptor(body.number(2))
            body.take(2)
        else:
            body.take(2)

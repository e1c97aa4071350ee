"""Writes a heap dump that is hard to show: names with markup, quotes, line ends and 100,000 bytes, classes in circles and missing ones.

    viewer/tests/hostile.py FILE [4]    (identifiers of four bytes in place of eight)
"""

import struct
import sys
from pathlib import Path

OBJECT, BOOLEAN, CHAR, FLOAT, DOUBLE, BYTE, SHORT, INT, LONG = 2, 4, 5, 6, 7, 8, 9, 10, 11
NUMBERS = {BOOLEAN: 1, CHAR: 2, FLOAT: 4, DOUBLE: 8, BYTE: 1, SHORT: 2, INT: 4, LONG: 8}
NAMES = {
    "script": b"<script>alert(1)</script>",
    "image": b"\"><img src=x onerror=alert(1)>",
    "quote": b"it's \"quoted\" & &lt;escaped&gt; \\u003cb\\u003e \\",
    "end": b"</title></style></table></script><h1>",
    "zero": b"a\xc0\x80b",
    "raw zero": b"a\0b",
    "lines": b"one\ntwo\r\nthree\n\nobject 1\tend",
    "turned": "\u202etxet denrut\u202c \u200b\ufeff".encode(),
    "alone": b"\xed\xa0\x80",
    "smile": b"\xed\xa0\xbd\xed\xb8\x80 \xe4\xbd\xa0\xe5\xa5\xbd",
    "broken": b"\xff\xfe<b>",
    "long": b"very/" + b"long" * 24_999,
    "long escapes": "\u202e".encode() * 33_000,
    "empty": b"",
    "spaces": b" 7 super 7 bytes 1 objects 1 ",
    "type": b"byte[]",
    "unknown": b"\\?",
    "address": b"javascript:alert(1)//../..?q=%0d%0aX: y#",
}


class Writer:
    """The records and sub-records of a dump."""

    def __init__(self, size):
        self.size = size
        self.records = []
        self.subs = []
        self.names = 0x10_0000
        self.serial = 0

    def id(self, number):
        return number.to_bytes(self.size, "big")

    def name(self, text):
        self.names += 16
        self.records.append(self.record(0x01, self.id(self.names) + text))
        return self.names

    @staticmethod
    def record(tag, body):
        return struct.pack(">BII", tag, 0, len(body)) + body

    def load(self, this, text):
        self.serial += 1
        name = self.name(text) if text is not None else 0x77
        self.records.append(self.record(0x02, struct.pack(">I", self.serial) + self.id(this) + struct.pack(">I", 0) + self.id(name)))

    def class_dump(self, this, text, parent=0, fields=(), statics=(), constants=(), held_by=(0, 0, 0)):
        """A class: own fields (name, type), statics (name, type, bits), constants (type, bits); its loader, signers and domain."""
        self.load(this, text)
        body = b"\x20" + self.id(this) + bytes(4) + b"".join(map(self.id, (parent, *held_by, 0, 0))) + bytes(4)
        body += self.counted([struct.pack(">HB", 3 * index, kind) + bits for index, (kind, bits) in enumerate(constants)])
        body += self.counted([self.id(self.name(name)) + bytes([kind]) + bits for name, kind, bits in statics])
        self.subs.append(body + self.counted([self.id(self.name(name)) + bytes([kind]) for name, kind in fields]))

    @staticmethod
    def counted(entries):
        return struct.pack(">H", len(entries)) + b"".join(entries)

    def instance(self, this, kind, held=b""):
        self.subs.append(b"\x21" + self.id(this) + bytes(4) + self.id(kind) + struct.pack(">I", len(held)) + held)

    def objects(self, this, kind, elements):
        self.subs.append(b"\x22" + self.id(this) + struct.pack(">II", 0, len(elements)) + self.id(kind) + b"".join(map(self.id, elements)))

    def numbers(self, this, kind, held):
        self.subs.append(b"\x23" + self.id(this) + struct.pack(">IIB", 0, len(held) // NUMBERS[kind], kind) + held)

    def root(self, tag, this, rest=b""):
        self.subs.append(bytes([tag]) + self.id(this) + rest)

    def whole(self):
        head = b"JAVA PROFILE 1.0.2\0" + struct.pack(">IQ", self.size, (1 << 64) - 1)
        return head + b"".join(self.records) + b"".join(self.record(0x1C, sub) for sub in self.subs)


def classes(dump):
    """Classes with each of the names, and an object of each; circles, and classes without a superclass, a name or a load."""
    for place, text in enumerate(NAMES.values()):
        this = 0x1000 + 16 * place
        fields = [(text, INT), (b"value", OBJECT)]
        statics = [(text, OBJECT, dump.id(this)), (text, CHAR, b"\0<")]
        dump.class_dump(this, text, 0x10, fields, statics, [(BOOLEAN, b"\2"), (OBJECT, dump.id(0x9999))])
        dump.instance(0x2000 + 16 * place, this, b"\xff\xff\xff\xfe" + dump.id(0x3000))
    dump.class_dump(0x10, b"java/lang/Object")
    dump.class_dump(0x100, b"circle/One", 0x110)
    dump.class_dump(0x110, b"circle/Other", 0x100)
    dump.class_dump(0x120, b"circle/Alone", 0x120)
    dump.class_dump(0x130, b"lost/Child", 0x140)
    dump.load(0x150, b"lost/Class<i>")
    dump.class_dump(0x170, None)
    dump.class_dump((1 << 8 * dump.size) - 1, b"edge/Last", 0x10, held_by=(0x9999, 0x430, 0x440))
    for place, kind in enumerate((0x100, 0x110, 0x120, 0x130, 0x150, 0x160, 0x170)):
        dump.instance(0x2800 + 16 * place, kind, bytes(8))
    dump.instance(0x2900, 0x1000, b"too short"[:3])


def many(dump):
    """A class with many entries and subclasses, an instance with many fields, and many references to one object."""
    fields = [(b"field%d" % place, INT) for place in range(250)]
    statics = [(b"static%d" % place, OBJECT, dump.id(0x2000)) for place in range(250)]
    dump.class_dump(0x400, b"many/Entries", 0x10, fields, statics, [(LONG, b"\xff" * 8)] * 120)
    dump.instance(0x410, 0x400, b"".join(struct.pack(">i", -place) for place in range(250)))
    for place in range(110):
        dump.class_dump(0x8000 + 16 * place, b"many/Sub%d" % place, 0x400)
    for place in range(150):
        dump.instance(0xA000 + 16 * place, 0x8000, bytes(200 - place))
    dump.class_dump(0x420, b"[Ljava/lang/Object;", 0x10)
    dump.objects(0x430, 0x420, [0x2000, 0, 0x9999, 0x430, 0x10] * 60)
    dump.objects(0x440, 0x420, [])
    dump.objects(0x450, 0x160, [0x430])


def arrays(dump):
    """Arrays of each type with its edges, long ones, an empty one, and strings."""
    for kind, width in NUMBERS.items():
        edges = [0, 1, 2, 1 << (8 * width - 1), (1 << 8 * width) - 1, (1 << (8 * width - 1)) - 1, 0x41, 0x3C]
        dump.numbers(0x5000 + 16 * kind, kind, b"".join(edge.to_bytes(width, "big") for edge in edges))
        dump.numbers(0x5200 + 16 * kind, kind, bytes(width * 250))
        dump.numbers(0x5400 + 16 * kind, kind, b"")
    dump.numbers(0x5600, FLOAT, bytes.fromhex("7fc000007f800000ff80000000000001"))
    dump.numbers(0x5610, BYTE, b"<script>alert(1)</script>\0\n\xff" * 4000)
    dump.numbers(0x5620, CHAR, "<b>\u202e\ud800\U0001f600\0\n".encode("utf-16-be", "surrogatepass") * 30)
    dump.class_dump(0x600, b"java/lang/String", 0x10, [(b"value", OBJECT), (b"coder", BYTE)])
    dump.numbers(0x3010, BYTE, "<script>\u202e\0\n\u20ac</pre>".encode("utf-16-le"))
    values = (0x3010, 1), (0x5610, 0), (0x5620, 0), (0, 0), (0x9999, 0), (0x3060, 0)
    for this, (value, coder) in zip((0x3000, 0x3020, 0x3030, 0x3040, 0x3050, 0x3060), values):
        dump.instance(this, 0x600, dump.id(value) + bytes([coder]))


def roots(dump):
    """Roots of each kind, some of one object, and an object that has the identifier of a class, and one at 0."""
    thread, none = struct.pack(">I", 7), b"\xff" * 4
    for tag, rest in ((0xFF, b""), (0x01, dump.id(0x66)), (0x02, thread + none), (0x03, thread + thread), (0x04, thread), (0x05, b""),
                      (0x06, thread), (0x07, b""), (0x08, thread + none)):
        dump.root(tag, 0x2000, rest)
    for number in range(150):
        dump.root(0x03, 0x430, struct.pack(">II", number, 0))
    dump.root(0x05, 0x9999)
    dump.instance(0x1000, 0x600, dump.id(0x3010) + b"\1")
    dump.instance(0, 0x10)


def hostile(size=8):
    """The bytes of the dump."""
    dump = Writer(size)
    for part in (classes, many, arrays, roots):
        part(dump)
    return dump.whole()


if __name__ == "__main__":
    Path(sys.argv[1]).write_bytes(hostile(int(sys.argv[2]) if len(sys.argv) > 2 else 8))

#!/usr/bin/env python3
"""Writes two small heap dumps beside itself: monday.hprof and friday.hprof.

They are dumps of one made-up server, `shop.Server`, as a JDK 17 writes them: names and loads first, then frames and traces, then segments
of class dumps, objects and roots. The server forgets to close its sessions, so Friday's dump has more of them. Identifiers have eight
bytes, and are others on Friday. A thread sends mails, which it keeps in a queue: one of them holds a session that was closed. Of another
closed session a frame has a weak reference, and a third is garbage.
"""

import struct
from pathlib import Path

HERE = Path(__file__).resolve().parent
OBJECT, BOOLEAN, CHAR, BYTE, INT, LONG = 2, 4, 5, 8, 10, 11
WIDTH = {OBJECT: 8, BOOLEAN: 1, CHAR: 2, BYTE: 1, INT: 4, LONG: 8}
NONE = 0


class Dump:
    """The records of a dump, and the identifiers that were given out."""

    def __init__(self, millis, first):
        self.millis = millis
        self.next = first
        self.names = {}
        self.records = {"names": [], "loads": [], "stacks": []}
        self.subs = {"classes": [], "objects": [], "roots": []}
        self.classes = {}

    def identifier(self, size):
        """The identifier of an object with so many bytes behind its header."""
        given = self.next
        self.next += (16 + size + 7) // 8 * 8
        return given

    def record(self, kind, tag, body):
        self.records[kind].append(struct.pack(">BII", tag, 0, len(body)) + body)

    def name(self, text):
        if text not in self.names:
            self.names[text] = 0x7F00_5000_0000 + 32 * (len(self.names) + 1)
            self.record("names", 0x01, struct.pack(">Q", self.names[text]) + text.encode())
        return self.names[text]

    def class_dump(self, name, parent, fields=(), statics=(), loader=NONE):
        """A class with own fields (name, type) and static fields (name, type, value)."""
        this = self.identifier(96)
        above = self.classes[parent] if parent else {"id": NONE, "fields": []}
        self.classes[name] = {"id": this, "fields": [*fields, *above["fields"]]}
        size = sum(WIDTH[kind] for _, kind in self.classes[name]["fields"])
        self.record("loads", 0x02, struct.pack(">IQIQ", len(self.classes), this, 1, self.name(name)))
        self.classes[name]["dump"] = (this, above["id"], loader, size, fields)
        self.set_statics(name, statics)
        return this

    def set_statics(self, name, statics):
        self.classes[name]["statics"] = statics

    def write_classes(self):
        for one in self.classes.values():
            this, parent, loader, size, fields = one["dump"]
            body = struct.pack(">BQI6QIH", 0x20, this, 1, parent, loader, NONE, NONE, NONE, NONE, size, 0)
            body += struct.pack(">H", len(one["statics"]))
            for name, kind, value in one["statics"]:
                body += struct.pack(">QB", self.name(name), kind) + value.to_bytes(WIDTH[kind], "big")
            body += struct.pack(">H", len(fields))
            for name, kind in fields:
                body += struct.pack(">QB", self.name(name), kind)
            self.subs["classes"].append(body)

    def instance(self, name, *values, this=None):
        """An instance with the values of its own fields, then those of the fields of its superclasses."""
        fields = self.classes[name]["fields"]
        assert len(fields) == len(values)
        held = b"".join(value.to_bytes(WIDTH[kind], "big") for (_, kind), value in zip(fields, values))
        this = this or self.identifier(len(held))
        self.subs["objects"].append(struct.pack(">BQIQI", 0x21, this, 1, self.classes[name]["id"], len(held)) + held)
        return this

    def objects(self, name, elements):
        this = self.identifier(8 * len(elements))
        head = struct.pack(">BQIIQ", 0x22, this, 1, len(elements), self.classes[name]["id"])
        self.subs["objects"].append(head + struct.pack(f">{len(elements)}Q", *elements))
        return this

    def numbers(self, kind, count, held):
        this = self.identifier(len(held))
        self.subs["objects"].append(struct.pack(">BQIIB", 0x23, this, 1, count, kind) + held)
        return this

    def text(self, text):
        """A string, as JDK 9 and later keep it: a byte array of Latin-1, and which coding it is."""
        value = self.numbers(BYTE, len(text), text.encode("latin-1"))
        return self.instance("java/lang/String", value, 0, 0, 0)

    def frame(self, method, signature, name, line, source="Server.java"):
        this = 0x7F00_6000_0000 + 8 * (1 + sum(1 for one in self.records["stacks"] if one[0] == 0x04))
        serial = list(self.classes).index(name) + 1
        source = self.name(source)
        self.record("stacks", 0x04, struct.pack(">QQQQIi", this, self.name(method), self.name(signature), source, serial, line))
        return this

    def trace(self, serial, thread, frames):
        self.record("stacks", 0x05, struct.pack(f">III{len(frames)}Q", serial, thread, len(frames), *frames))

    def root(self, tag, this, *numbers):
        self.subs["roots"].append(struct.pack(">BQ", tag, this) + struct.pack(f">{len(numbers)}I", *numbers))

    def jni_global(self, this, reference):
        self.subs["roots"].append(struct.pack(">BQQ", 0x01, this, reference))

    def write(self, path):
        self.write_classes()
        header = b"JAVA PROFILE 1.0.2\0" + struct.pack(">IQ", 8, self.millis)
        parts = [header, *self.records["names"], *self.records["loads"], *self.records["stacks"]]
        for subs in self.subs.values():
            body = b"".join(subs)
            parts.append(struct.pack(">BII", 0x1C, 0, len(body)) + body)
        parts.append(struct.pack(">BII", 0x2C, 0, 0))
        path.write_bytes(b"".join(parts))


def library(dump):
    """The classes of the JDK that the server needs."""
    dump.class_dump("java/lang/Object", None)
    dump.class_dump("java/lang/String", "java/lang/Object",
                    [("value", OBJECT), ("coder", BYTE), ("hash", INT), ("hashIsZero", BOOLEAN)])
    dump.class_dump("java/lang/Thread", "java/lang/Object", [("name", OBJECT), ("daemon", BOOLEAN)])
    dump.class_dump("java/util/AbstractList", "java/lang/Object", [("modCount", INT)])
    dump.class_dump("java/util/ArrayList", "java/util/AbstractList", [("elementData", OBJECT), ("size", INT)])
    dump.class_dump("[Ljava/lang/Object;", "java/lang/Object")


def server(dump):
    """The classes of the server, and their loader, which keeps them alive."""
    app = "jdk/internal/loader/ClassLoaders$AppClassLoader"
    dump.class_dump("java/lang/ClassLoader", "java/lang/Object", [("name", OBJECT), ("classes", OBJECT)])
    dump.class_dump(app, "java/lang/ClassLoader")
    loader = dump.identifier(16)
    fields = [("user", OBJECT), ("cart", OBJECT), ("page", OBJECT), ("opened", LONG)]
    classes = [
        dump.class_dump("shop/Session", "java/lang/Object", fields, loader=loader),
        dump.class_dump("shop/Server", "java/lang/Object", loader=loader),
    ]
    return dump.instance(app, dump.text("app"), array_list(dump, classes, 2), this=loader)


def array_list(dump, elements, room):
    """A list with room for so many elements."""
    data = dump.objects("[Ljava/lang/Object;", [*elements, *[NONE] * (room - len(elements))])
    return dump.instance("java/util/ArrayList", data, len(elements), len(elements))


def session(dump, user, items, opened):
    cart = array_list(dump, [dump.text(item) for item in items], len(items))
    page = f"<h1>Hello {user}</h1><p>{len(items)} items in your cart</p>".encode()
    return dump.instance("shop/Session", dump.text(user), cart, dump.numbers(BYTE, len(page), page), opened)


def mailer(dump, count, closed):
    """The thread that sends mails, and its queue of so many; the last one holds the closed session."""
    dump.class_dump("shop/Mail", "java/lang/Object", [("next", OBJECT), ("session", OBJECT), ("subject", OBJECT)])
    dump.class_dump("shop/Mailer", "java/lang/Object")
    mail = dump.instance("shop/Mail", NONE, closed, dump.text("Bye kim"))
    for number in range(count - 1, 0, -1):
        mail = dump.instance("shop/Mail", mail, NONE, dump.text(f"News {number}"))
    thread = dump.instance("java/lang/Thread", dump.text("mailer"), 1)
    frames = [
        dump.frame("sleep", "(J)V", "java/lang/Thread", -3, "Thread.java"),
        dump.frame("run", "()V", "shop/Mailer", 31, "Mailer.java"),
        dump.frame("run", "()V", "java/lang/Thread", 840, "Thread.java"),
    ]
    dump.trace(3, 2, frames)
    dump.root(0x08, thread, 2, 3)
    dump.root(0x03, mail, 2, 1)


def weakly(dump, held):
    """A weak reference, with the fields that a JDK 17 gives it."""
    fields = [("referent", OBJECT), ("queue", OBJECT), ("next", OBJECT), ("discovered", OBJECT)]
    dump.class_dump("java/lang/ref/Reference", "java/lang/Object", fields)
    dump.class_dump("java/lang/ref/WeakReference", "java/lang/ref/Reference")
    return dump.instance("java/lang/ref/WeakReference", held, NONE, NONE, NONE)


def make(path, millis, first, sessions, mails):
    dump = Dump(millis, first)
    library(dump)
    loader = server(dump)
    opened = [session(dump, user, items, millis - 60_000 * (place + 1)) for place, (user, items) in enumerate(sessions)]
    listed = array_list(dump, opened, 10)
    closed = session(dump, "kim", [], millis - 3_600_000)
    dump.set_statics("shop/Server", [("SESSIONS", OBJECT, listed), ("port", INT, 8080)])
    thread = dump.instance("java/lang/Thread", dump.text("main"), 0)
    dump.trace(1, 0, [])
    frames = [dump.frame("accept", "()V", "shop/Server", 42), dump.frame("main", "([Ljava/lang/String;)V", "shop/Server", 17)]
    dump.trace(2, 1, frames)
    dump.root(0x08, thread, 1, 2)
    dump.root(0x03, opened[-1], 1, 0)
    dump.jni_global(loader, 0x7F00_7000_0008)
    dump.root(0x07, thread)
    for name in ("java/lang/Object", "java/lang/String", "java/lang/Thread", "java/util/ArrayList"):
        dump.root(0x05, dump.classes[name]["id"])
    mailer(dump, mails, closed)
    dump.root(0x03, weakly(dump, session(dump, "lou", [], millis - 5_400_000)), 1, 1)
    assert session(dump, "max", [], millis - 7_200_000)
    dump.write(path)


MONDAY = [("ada", ["tea"]), ("bob", ["ink", "pen"])]
FRIDAY = [*MONDAY, ("cyd", ["cup"]), ("dan", ["jam"]), ("eve", ["tea", "cup"]), ("fay", []), ("gil", ["pen"]), ("hal", ["ink"])]

make(HERE / "monday.hprof", 1_795_420_800_000, 0x7_1000_0000, MONDAY, 2)
make(HERE / "friday.hprof", 1_795_766_400_000, 0x7_4000_0000, FRIDAY, 6)

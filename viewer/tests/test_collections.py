"""Maps and lists: their entries are found from the fields of java.util's classes, and nothing is told where a layout is another one."""

import struct
import tempfile
import unittest
from pathlib import Path

from .hostile import BYTE, INT, LONG, OBJECT, Writer
from .running import Viewer

# The classes, by name: their identifiers, their superclasses, and their own fields as JDK 21 has them, as far as they count.
HASH_NODE = [(b"hash", INT), (b"key", OBJECT), (b"value", OBJECT), (b"next", OBJECT)]
HASH_MAP = [(b"table", OBJECT), (b"entrySet", OBJECT), (b"size", INT), (b"modCount", INT), (b"threshold", INT)]
CONCURRENT_NODE = [(b"hash", INT), (b"key", OBJECT), (b"val", OBJECT), (b"next", OBJECT)]
CLASSES = {
    b"java/lang/Object": (0x10, 0, []),
    b"java/lang/String": (0x11, 0x10, [(b"value", OBJECT), (b"coder", BYTE)]),
    b"[Ljava/lang/Object;": (0x12, 0x10, []),
    b"java/util/ArrayList": (0x20, 0x10, [(b"elementData", OBJECT), (b"size", INT)]),
    b"java/util/ArrayDeque": (0x21, 0x10, [(b"elements", OBJECT), (b"head", INT), (b"tail", INT)]),
    b"java/util/LinkedList": (0x22, 0x10, [(b"size", INT), (b"first", OBJECT), (b"last", OBJECT)]),
    b"java/util/LinkedList$Node": (0x23, 0x10, [(b"item", OBJECT), (b"next", OBJECT), (b"prev", OBJECT)]),
    b"java/util/HashMap": (0x24, 0x10, HASH_MAP),
    b"java/util/HashMap$Node": (0x25, 0x10, HASH_NODE),
    b"java/util/LinkedHashMap": (0x26, 0x24, [(b"head", OBJECT), (b"tail", OBJECT)]),
    b"java/util/LinkedHashMap$Entry": (0x27, 0x25, [(b"before", OBJECT), (b"after", OBJECT)]),
    b"java/util/HashMap$TreeNode": (0x28, 0x27, [(b"parent", OBJECT), (b"prev", OBJECT)]),
    b"java/util/HashSet": (0x29, 0x10, [(b"map", OBJECT)]),
    b"java/util/concurrent/ConcurrentHashMap": (0x2A, 0x10, [(b"table", OBJECT), (b"baseCount", LONG)]),
    b"java/util/concurrent/ConcurrentHashMap$Node": (0x2B, 0x10, CONCURRENT_NODE),
    b"java/util/concurrent/ConcurrentHashMap$TreeBin": (0x2C, 0x2B, [(b"root", OBJECT), (b"first", OBJECT)]),
    b"java/util/concurrent/ConcurrentHashMap$TreeNode": (0x2D, 0x2B, [(b"parent", OBJECT)]),
    b"shop/Map": (0x2E, 0x24, []),
}
BY_ID = {this: (parent, fields) for this, parent, fields in CLASSES.values()}


def layout(kind):
    """The fields of a class, then those of its superclass, and so on."""
    parent, fields = BY_ID[kind]
    return fields + (layout(parent) if parent else [])


class Dump(Writer):
    """A dump of collections: an object is written with the values of some fields; the others are 0."""

    def __init__(self):
        super().__init__(8)
        for text, (this, parent, fields) in CLASSES.items():
            self.class_dump(this, text, parent, fields)

    def object(self, this, label, **values):
        packed = {OBJECT: ">Q", INT: ">i", BYTE: ">b", LONG: ">q"}
        kind = CLASSES[label][0]
        self.instance(this, kind, b"".join(struct.pack(packed[form], values.get(name.decode(), 0)) for name, form in layout(kind)))

    def text(self, this, text):
        self.object(this, b"java/lang/String", value=this + 1)
        self.numbers(this + 1, BYTE, text)

    def array(self, this, elements):
        self.objects(this, 0x12, elements)


def lists(dump):
    for place in range(8):
        dump.text(0x1000 + 16 * place, b"text %d" % place)
    texts = [0x1000 + 16 * place for place in range(8)]
    dump.array(0x2000, texts[:3] + [0, 0])
    dump.object(0x2010, b"java/util/ArrayList", elementData=0x2000, size=3)
    dump.object(0x2020, b"java/util/ArrayList", elementData=0x2000, size=6)
    dump.array(0x2100, [texts[2], 0, 0, texts[0], texts[1]])
    dump.object(0x2110, b"java/util/ArrayDeque", elements=0x2100, head=3, tail=1)
    for place in range(120):
        last = place == 119
        dump.object(0x3000 + place, b"java/util/LinkedList$Node", item=texts[place % 8], next=0 if last else 0x3001 + place)
    dump.object(0x2210, b"java/util/LinkedList", size=120, first=0x3000, last=0x3077)
    dump.object(0x2220, b"java/util/LinkedList", size=121, first=0x3000, last=0x3077)
    dump.object(0x2230, b"java/util/LinkedList$Node", item=texts[0], next=0x2230)
    dump.object(0x2240, b"java/util/LinkedList", size=2, first=0x2230)


def maps(dump):
    """A map of two buckets, of which one has a chain; the same as a tree, in order, as a set, and as one for many threads."""
    keys = [0x1000, 0x1010, 0x1020]
    node, tree, linked = b"java/util/HashMap$Node", b"java/util/HashMap$TreeNode", b"java/util/LinkedHashMap$Entry"
    dump.object(0x4000, node, key=keys[0], value=0x1030, next=0x4010)
    dump.object(0x4010, node, key=keys[1], value=0x10, next=0)
    dump.object(0x4020, tree, key=keys[2], value=0)
    dump.array(0x4100, [0, 0x4000, 0, 0x4020])
    dump.object(0x4110, b"java/util/HashMap", table=0x4100, size=3)
    dump.object(0x4120, b"java/util/HashMap")
    dump.object(0x4130, b"java/util/HashSet", map=0x4110)
    dump.object(0x4140, b"shop/Map", table=0x4100, size=3)
    dump.object(0x4150, b"java/util/HashMap", table=0x4100, size=4)
    dump.object(0x4160, b"java/util/HashMap", table=0x1001, size=1)
    dump.object(0x4200, linked, key=keys[1], value=keys[0], after=0x4210)
    dump.object(0x4210, linked, key=keys[0], value=keys[1])
    dump.object(0x4220, b"java/util/LinkedHashMap", size=2, head=0x4200, tail=0x4210)
    prefix = b"java/util/concurrent/ConcurrentHashMap"
    dump.object(0x4300, prefix + b"$Node", key=keys[0], val=keys[1], next=0)
    dump.object(0x4310, prefix + b"$TreeBin", hash=-2, first=0x4320)
    dump.object(0x4320, prefix + b"$TreeNode", key=keys[1], val=keys[2], next=0x4330)
    dump.object(0x4330, prefix + b"$TreeNode", key=keys[2], val=keys[0])
    dump.array(0x4340, [0x4300, 0, 0x4310])
    dump.object(0x4350, prefix, table=0x4340, baseCount=3)


def entries(page):
    """The rows of the entries of a page."""
    found = [place for place, row in enumerate(page.rows) if row[0] == "Place"]
    if not found:
        return None
    end = next((place for place, row in enumerate(page.rows) if row[0] == "Field"), len(page.rows))
    return page.rows[found[0] + 1 : end]


class Collections(unittest.TestCase):
    @classmethod
    def setUpClass(cls):
        folder = tempfile.TemporaryDirectory()
        cls.addClassCleanup(folder.cleanup)
        path = Path(folder.name) / "collections.hprof"
        dump = Dump()
        lists(dump)
        maps(dump)
        path.write_bytes(dump.whole())
        cls.viewer = Viewer(path).__enter__()
        cls.addClassCleanup(cls.viewer.end)

    def of(self, this):
        page = self.viewer.page(f"object/{this:x}")
        self.assertEqual(page.faults, [])
        return entries(page)

    def test_lists(self):
        texts = [f"{0x1000 + 16 * place:x} java.lang.String text {place}" for place in range(8)]
        self.assertEqual(self.of(0x2010), [["0", texts[0]], ["1", texts[1]], ["2", texts[2]]])
        self.assertEqual(self.of(0x2110), [["0", texts[0]], ["1", texts[1]], ["2", texts[2]]])
        page = self.viewer.page("object/2210")
        self.assertIn("120 entries", page.text)
        self.assertEqual((len(entries(page)), entries(page)[9]), (100, ["9", texts[1]]))
        self.assertEqual(entries(self.viewer.page("object/2210?entries=2"))[19], ["119", texts[7]])
        self.viewer.page("object/2210?entries=3", 404)

    def test_maps(self):
        texts = [f"{0x1000 + 16 * place:x} java.lang.String text {place}" for place in range(4)]
        rows = [["0", texts[0], texts[3]], ["1", texts[1], "10 class java.lang.Object"], ["2", texts[2], "null"]]
        self.assertEqual(self.of(0x4110), rows)
        self.assertEqual(self.of(0x4130), [row[:2] for row in rows])
        self.assertEqual(self.of(0x4220), [["0", texts[1], texts[0]], ["1", texts[0], texts[1]]])
        self.assertEqual(self.of(0x4350), [["0", texts[0], texts[1]], ["1", texts[1], texts[2]], ["2", texts[2], texts[0]]])
        self.assertIn("0 entries", self.viewer.page("object/4120").text)

    def test_another_layout(self):
        """A size that the array has no room for, a list that is shorter than it says or runs in a circle, a subclass, no table."""
        for this in (0x2020, 0x2240, 0x4140, 0x4150, 0x4160):
            self.assertIsNone(self.of(this), f"{this:x}")
        self.assertIsNotNone(self.of(0x2220))
        self.assertIsNone(entries(self.viewer.page("object/2220?entries=2")))

"""How lines are taken apart, with lines of the worked cases, and with names that have spaces."""

import unittest

from hprof import Frame, Holder, Kept, Node, Reference, Root, Sum, UnexpectedAnswer
from hprof.reports import asked

WHO = """root JNI local thread 1 no frame
  20 java/lang/Thread "main" at work" at shop.Node.arrives at noon(Node.java:41)
root JNI global 66
root thread object thread 7 trace 2
  at \\?9
21 times [Lshop/Node; element
6 times java/lang/ref/WeakReference weak field referent
1 times class java/lang/Object static value
1 times p/Holder field element
10 java/lang/ref/WeakReference weak field 0 referent
10 java/lang/ref/WeakReference field 1 next
66 class java/lang/ref/WeakReference super 0
11 p/Test$adds field 2 of it field 0 this$0
12 p/A static 1 
"""
THREADS = """thread 1 20 java/lang/Thread "the "main" one" .. 3 more
  at java.lang.Thread.park(Native Method)
  at shop.Node.go(Unknown Source:7)
  at \\?.x(Node.java, compiled)
  at shop.Node.\\?1d(Node.java)
  at \\?12b
    10 byte[]
  frame 9
    11 shop/Node
  no frame
    23 not in the dump
thread 7
  native stack
    10 byte[]
"""
SHOW = """10 p/B
  field 0 a = 11 java/lang/String "x = y"
  from p/A
  field 1 c = '\\u00e9'
  field 2 d = -0x1.8p1
  field 3 e = false
"""


class LinesOfReports(unittest.TestCase):
    def read(self, word, text):
        return asked((word, 1) if asked_about(word) else word).read(text)

    def test_roots(self):
        local, of_jni, thread = self.read("who", WHO).roots
        holder = Node(0x20, "object", "java/lang/Thread", 'main" at work', 0)
        self.assertEqual(local, Root("JNI local", None, 1, None, None, holder, local.at))
        self.assertEqual((local.at.class_name, local.at.method, local.at.line), ("shop.Node", "arrives at noon", 41))
        self.assertEqual(of_jni, Root("JNI global", 0x66, None, None, None, None, None))
        self.assertEqual(thread, Root("thread object", None, 7, None, 2, None, Frame("\\?9", None, None, None, None, False)))

    def test_sums(self):
        self.assertEqual(self.read("who", WHO).sums, (
            Sum(21, False, "[Lshop/Node;", "element", None, False),
            Sum(6, False, "java/lang/ref/WeakReference", "field", "referent", True),
            Sum(1, True, "java/lang/Object", "static", "value", False),
            Sum(1, False, "p/Holder", "field", "element", False),
        ))

    def test_holders(self):
        self.assertEqual(self.read("who", WHO).holders, (
            Holder(Node(0x10, "object", "java/lang/ref/WeakReference"), Reference("field", 0, "referent", True)),
            Holder(Node(0x10, "object", "java/lang/ref/WeakReference"), Reference("field", 1, "next", False)),
            Holder(Node(0x66, "class", "java/lang/ref/WeakReference"), Reference("super", 0, None, False)),
            Holder(Node(0x11, "object", "p/Test$adds field 2 of it"), Reference("field", 0, "this$0", False)),
            Holder(Node(0x12, "object", "p/A"), Reference("static", 1, "", False)),
        ))

    def test_threads(self):
        one, other = self.read("threads", THREADS)
        self.assertEqual((one.name, one.node.left_out, other.name, other.node), ('the "main" one', 3, None, None))
        frames = [(found.frame.class_name, found.frame.method, found.frame.source, found.frame.line) for found in one.stack]
        self.assertEqual(frames, [
            ("java.lang.Thread", "park", None, None), ("shop.Node", "go", None, 7), ("\\?", "x", "Node.java", None),
            ("shop.Node", "\\?1d", "Node.java", None), (None, None, None, None),
        ])
        self.assertEqual([found.frame.native for found in one.stack], [True] + [False] * 4)
        self.assertEqual(one.stack[4].objects, (Node(0x10, "values", "byte[]"),))
        self.assertEqual([(found.place, found.number) for found in one.elsewhere], [("frame", 9), ("no frame", None)])
        self.assertEqual(one.elsewhere[1].objects, (Node(0x23, "missing", ""),))
        self.assertEqual([(found.place, len(found.objects)) for found in other.elsewhere], [("native stack", 1)])

    def test_a_folded_chain(self):
        lines = [f"{100 - place} {50 - place} {place + 1:x} A\n" for place in range(20)]
        text = "100 50 roots\nsuspect 60% 60\n" + "".join(lines[:10]) + ".. 7 more\n" + "".join(lines[10:]) + "  60 3 a b\n"
        (found,) = self.read("suspects", text).suspects
        self.assertEqual((len(found.keepers), found.left_out, found.pieces), (20, 7, ((60, 3, "a b"),)))
        self.assertEqual(found.keepers[10], Kept(90, 40, Node(11, "object", "A")))

    def test_show(self):
        fields = self.read("show", SHOW).dump.entries
        self.assertEqual([(one.name, one.owner) for one in fields], [("a", None), ("c", "p/A"), ("d", "p/A"), ("e", "p/A")])
        self.assertEqual((fields[0].value.id, fields[0].value.node.text), (0x11, "x = y"))
        self.assertEqual([one.value for one in fields[1:]], ["\u00e9", -3.0, False])
        self.assertEqual(asked(("show", 2)).read("2 classes have this name\n").dump.node, Node(2, "object", "classes have this name"))
        array = self.read("show", "10 [Lp/A; of 9\n  element 3 = 11 p/A\n  .. 2 more\n  6 null\n").dump
        self.assertEqual((array.length, array.node.label, array.left_out, array.nulls, array.entries[0].position), (9, "[Lp/A;", 2, 6, 3))

    def test_numbers_that_do_not_agree(self):
        wrong = (
            ("object", "values 10 short elements 2\nbytes 000100\n"), ("object", "values 10 byte elements 1\n"),
            ("object", "objects 10 class 64 elements 2 [LA;\nelement 0 11\n"), ("text", "text 4 cyd\n"), ("text", "text 3 cyd\nmore\n"),
            ("keeps", "not reached\n1 1 10 A\n"), ("path", "not reached\ndistance 1\n"), ("why", "distance 0\n10 A\n11 B\n"),
            ("who", "nothing refers to 10\n11 A field 0 b\n"), ("check", "names 1\n"), ("suspects", "1 1 roots\n1 1 10 A\n"),
        )
        for word, text in wrong:
            with self.subTest(word=word, text=text), self.assertRaises(UnexpectedAnswer):
                self.read(word, text)


def asked_about(word):
    """Whether a report is on an identifier."""
    return word not in ("threads", "suspects", "check")

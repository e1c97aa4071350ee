"""The parts of reports, read one after the other as the viewer does: pages of rows, windows of arrays, and lines that are cut."""

import re
import unittest
from itertools import islice

from hprof import Kept, Name, Node, Reference, Referrer, Size, Step, Sum, UnexpectedAnswer
from hprof import contents, counts, holding, paths, referrers, texts
from hprof.answers import WHOLE, Answer, Stream
from hprof.lines import Lines
from hprof.nodes import RootLine, root_lines
from hprof.threads import Threads

WHY = """distance 9
root Java frame thread 2 frame 1
  1f java/lang/Thread "mailer" at shop.Mailer.run(Mailer.java:31)
root JNI local thread 0 no frame
root unknown
2a shop/Mail
  field 0 next
.. 4 more
2f shop/Mail
  element 7
3a A
  weak field 1 referent
3b B
"""
KEEPERS = "".join(f"{800 - place} 9 {place + 1:x} A\n" for place in range(50))
BELOW = "".join(f"  {300 - place} 1 {place + 0x100:x} byte[]\n" for place in range(250))
KEEPS = f"900 99 roots\n7 2 only by weak references\n{KEEPERS}{BELOW}"
THREADS = """thread 1 20 java/lang/Thread "main"
  at a.b(c)
    10 byte[]
    11 byte[]
  at d.e(f)
  no frame
    12 not in the dump
thread 2
thread 7
  frame 9
    13 A
"""
OBJECT = """class 10 super 8 loader 0 signers 0 domain 0 size 4 p/A
constant 0 7 int 00000001
static 0 int 00000002 a
static 1 object 0000000000000010 b
own 0 int value
own 1 object values
instance 10 class 20 bytes 8 p/B
field 0 20 object 0000000000000030 next
field 1 20 int ffffffff count
"""
BYTES = "values 30 short elements 6\nbytes 000100020003ffff00050006\n"
WHO = """root unknown
root sticky class
21 times p/A field x
3 times class p/B static 1 times y
30 times A field 0 z
"""


def lines_of(text, size=7, limit=WHOLE):
    """The lines of an answer that comes in pieces of a size."""
    data = text.encode() + b"\n"
    pieces = [data[place : place + size] for place in range(0, len(data), size)]
    return Lines(Answer(Stream(lambda _: pieces.pop(0) if pieces else b"")), limit)


class Pages(unittest.TestCase):
    def steps(self, size):
        lines = lines_of(WHY, size)
        self.assertEqual(paths.reached(lines), ("strongly", 9))
        self.assertEqual(list(root_lines(lines)), [
            RootLine("Java frame thread 2 frame 1", 2, '1f java/lang/Thread "mailer" at shop.Mailer.run(Mailer.java:31)'),
            RootLine("JNI local thread 0 no frame", 0, None), RootLine("unknown", None, None),
        ])
        return paths.Steps(lines)

    def test_steps(self):
        whole = [
            Step(Node(0x2A, "object", "shop/Mail"), Reference("field", 0, "next", False), 4),
            Step(Node(0x2F, "object", "shop/Mail"), Reference("element", 7, None, False), 0),
            Step(Node(0x3A, "object", "A"), Reference("field", 1, "referent", True), 0),
            Step(Node(0x3B, "object", "B"), None, 0),
        ]
        for size in (1, 30, 1000):
            self.assertEqual(list(self.steps(size)), whole)
            for first in range(7):
                for count in range(5):
                    steps = self.steps(size)
                    self.assertEqual(steps.skip(first), min(first, 4))
                    self.assertEqual(list(islice(steps, count)), whole[first : first + count])
                    self.assertEqual(steps.rest(), len(whole[first + count :]))

    def test_steps_that_are_not_whole(self):
        for text in ("", "1 A\n  field 0 a\n", "1 A\n2 B\n", "1 A\n  field x a\n"):
            with self.subTest(text=text), self.assertRaises(UnexpectedAnswer):
                list(paths.Steps(lines_of(text)))

    def test_what_keeps_and_is_kept(self):
        for size in (1, 999):
            lines = lines_of(KEEPS, size)
            self.assertEqual(holding.reached(lines), ("strongly", Size(900, 99), Size(7, 2)))
            chain, below = holding.chain(lines, 10), holding.below(lines)
            self.assertEqual([one.id for one in chain.outer], list(range(1, 11)))
            self.assertEqual((chain.left_out, [one.id for one in chain.inner]), (30, list(range(41, 51))))
            self.assertEqual(next(below), Kept(300, 1, Node(0x100, "values", "byte[]")))
            self.assertEqual((below.skip(200), next(below).id, below.rest()), (200, 0x100 + 201, 48))

    def test_a_short_chain(self):
        lines = lines_of("9 9 roots\n8 2 1 A\n7 1 2 B\n  3 1 3 C\n")
        self.assertEqual(holding.reached(lines), ("strongly", (9, 9), None))
        chain = holding.chain(lines, 10)
        self.assertEqual(([one.id for one in chain.outer], chain.left_out, chain.inner), ([1, 2], 0, ()))
        self.assertEqual([one.id for one in holding.below(lines)], [3])
        for text, reached in (("only by weak references\n", "weakly"), ("not reached\n", "not")):
            self.assertEqual(holding.reached(lines_of(text)), (reached, None, None))

    def test_threads(self):
        for size in (1, 50, 999):
            threads = Threads(lines_of(THREADS, size))
            self.assertEqual(next(threads), (1, Node(0x20, "object", "java/lang/Thread", "main")))
            places = []
            for place in threads.places():
                held = threads.held()
                places.append((place.words, place.at, place.place, place.number, [one.id for one in islice(held, 1)], held.rest()))
            self.assertEqual(places, [
                ("at a.b(c)", "a.b(c)", None, None, [0x10], 1), ("at d.e(f)", "d.e(f)", None, None, [], 0),
                ("no frame", None, "no frame", None, [0x12], 0),
            ])
            self.assertEqual((next(threads).number, threads.skip(1), threads.rest()), (2, 1, 0))
            threads = Threads(lines_of(THREADS, size))
            self.assertEqual((threads.skip(2), next(threads), [place[2:] for place in threads.places()]), (2, (7, None), [("frame", 9)]))
            self.assertEqual([head.number for head in Threads(lines_of(THREADS, size))], [1, 2, 7])
            self.assertEqual(Threads(lines_of(THREADS, size)).rest(), 3)

    def test_counts(self):
        rows = list(counts.check_rows(lines_of("part 1: version 1.0.2 ids 8 time 5 records 2 facts 3 end no\nbad names 4\n")))
        self.assertEqual(rows, [(1, "1.0.2", 8, 5, 2, 3, False), counts.Count("bad names", 4)])


class Contents(unittest.TestCase):
    def test_the_parts_of_a_class_and_an_object(self):
        for size in (1, 60, 999):
            lines = lines_of(OBJECT, size)
            head = contents.class_head(lines)
            self.assertEqual((head.id, head.superclass, head.size, head.label), (0x10, 8, 4, "p/A"))
            self.assertEqual(contents.constants(lines).rest(), 1)
            statics = contents.statics(lines)
            self.assertEqual((statics.skip(1), [(one.name, one.value) for one in statics]), (1, [("b", 0x10)]))
            self.assertEqual([one.name for one in contents.own_fields(lines)], ["value", "values"])
            self.assertEqual(contents.object_head(lines), contents.InstanceHead(0x10, 0x20, 8, Name("p/B")))
            self.assertIsNone(contents.no_fields(lines))
            fields = contents.fields(lines)
            self.assertEqual((fields.skip(1), next(fields).value, lines.are_over()), (1, -1, True))
            self.assertIsNone(contents.object_head(lines))

    def test_an_object_behind_a_class(self):
        lines = lines_of(OBJECT)
        self.assertEqual(contents.head_of_object(lines).label, "p/B")
        self.assertEqual(contents.head_of_object(lines_of(BYTES)).label, "short[]")
        self.assertIsNone(contents.head_of_object(lines_of(OBJECT[: OBJECT.index("instance")])))

    def test_an_own_field_by_its_name(self):
        for name, is_there in (("value", True), ("values", True), ("valu", False), ("lue", False), ("a", False), ("next", False)):
            for limit in (5, WHOLE):
                lines = lines_of(OBJECT, 50, limit)
                next(lines)
                self.assertEqual(contents.declares(lines, name), is_there, name)

    def test_windows_of_numbers(self):
        held = bytes.fromhex("000100020003ffff00050006")
        for size in (1, 40, 999):
            for first, count in ((0, 6), (0, 1), (2, 3), (5, 1), (4, 100), (6, 5), (9, 5)):
                lines = lines_of(BYTES, size)
                head = contents.object_head(lines)
                self.assertEqual((head.length, head.label), (6, "short[]"))
                self.assertEqual(contents.held(lines, head, first, count), held[2 * first : 2 * (first + count)])
                self.assertTrue(lines.are_over())
        for text in ("values 30 short elements 6\nbytes 0001\n", "values 30 byte elements 2\nbytes 0x01\n", "values 30 byte elements 2\n"):
            lines = lines_of(text)
            with self.subTest(text=text), self.assertRaises(UnexpectedAnswer):
                contents.held(lines, contents.object_head(lines), 0, 6)
        lines = lines_of("values 30 byte elements 0\n")
        self.assertEqual(contents.held(lines, contents.object_head(lines), 0, 6), b"")

    def test_the_start_of_a_text(self):
        self.assertEqual(texts.start(lines_of("text 9 abc\\u00e9def\n", 4, 10)), (9, "abc"))
        self.assertEqual(texts.start(lines_of("text 0 \n")), (0, ""))
        self.assertIsNone(texts.start(lines_of("no text at 7\n")))


class Referrers(unittest.TestCase):
    def test_sums_end_where_their_references_do(self):
        """The last line would be taken for a sum if it was not known how many references there are."""
        for most, found in ((9, 2), (1, 1)):
            lines = lines_of(WHO)
            referrers.pass_roots(lines)
            both = Sum(21, False, "p/A", "field", "x", False), Sum(3, True, "p/B", "static", "1 times y", False)
            self.assertEqual(referrers.sums(lines, 24, most), both[:found])
            self.assertEqual(list(lines), ["30 times A field 0 z"])

    def test_few_references_have_no_sums(self):
        lines = lines_of("30 times A field 0 z\n")
        referrers.pass_roots(lines)
        self.assertEqual((referrers.sums(lines, 20, 9), list(lines)), ((), ["30 times A field 0 z"]))

    def test_a_sum_that_is_cut(self):
        cut = lines_of("21 times class " + "x" * 90 + " field y\n", 9, 40)
        self.assertEqual(referrers.sums(cut, 21, 9), (Sum(21, True, "x" * 25, "", None, False),))
        with self.assertRaises(UnexpectedAnswer):
            referrers.sums(lines_of("A field 0 x\n"), 21, 9)

    def test_a_weak_reference_whatever_names_there_are(self):
        one = Referrer(0x10, "field", 2)
        self.assertTrue(referrers.is_weak("10 p/A weak field 2 referent field 3 x", one, Name("p/A"), False))
        self.assertTrue(referrers.is_weak("10 class p/A weak field 2 r", one, Name("p/A"), True))
        for line in ("10 p/A field 2 weak field 2 r", "10 p/A weak field 3 r", "11 p/A weak field 2 r", "10 class p/A weak field 2 r"):
            self.assertFalse(referrers.is_weak(line, one, Name("p/A"), False), line)


class Cut(unittest.TestCase):
    def test_names_at_the_ends_of_lines_are_cut(self):
        long = "x" * 100
        self.assertEqual([row.label for row in counts.histogram(lines_of(f"1 2 3 {long}\n4 5 - byte[]\n", 9, 30))], ["x" * 24, "byte[]"])
        (row,) = counts.classes(lines_of(f"3 super 2 bytes 1 objects 0 {long}\n", 9, 50))
        self.assertEqual(row, (3, 2, 1, 0, "x" * 22))
        self.assertEqual([one.node.label for one in holding.biggest(lines_of(f"1 2 3 {long}\n", 9, 10))], ["xxxx"])

    def test_lines_that_are_looked_through_are_whole(self):
        long = "x" * 100
        found = counts.histogram_found(lines_of(f"1 2 3 {long}y\n4 5 - byte[]\n", 9, 10), re.compile(b"y$|byte"))
        self.assertEqual([row.label for row in found], [long + "y", "byte[]"])

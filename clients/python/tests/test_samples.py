"""The reports on the sample dumps, with the values that README shows."""

import unittest

import hprof
from hprof import Growth, HistogramRow, Kept, Name, Node, Reference, RetainedRow, Size

from .support import FRIDAY, MONDAY, program, within

CYD, KIM, LIST = 0x740000850, 0x740000F20, 0x740000E58


class Samples(unittest.TestCase):
    @classmethod
    def setUpClass(cls):
        cls.heap = hprof.open(FRIDAY)

    @classmethod
    def tearDownClass(cls):
        cls.heap.close()

    def test_histogram(self):
        rows = self.heap.histogram()
        self.assertEqual(rows[0], HistogramRow(605, 40, None, "byte[]"))
        self.assertEqual(rows[2], HistogramRow(352, 11, 0x7400003A0, "shop/Session"))
        self.assertEqual(len(rows), 9)

    def test_check(self):
        found = self.heap.check()
        self.assertEqual([(part.number, part.version, part.id_size, part.has_end) for part in found.parts], [(0, "1.0.2", 8, True)])
        self.assertEqual((found.classes, found.starts, found.bad_names), (14, 0, 0))

    def test_classes(self):
        by_name = {row.label: row for row in self.heap.classes()}
        session = by_name["shop/Session"]
        self.assertEqual((session.id, session.bytes, session.count), (0x7400003A0, 352, 11))
        self.assertEqual(session.superclass, by_name["java/lang/Object"].id)
        self.assertEqual(by_name["java/lang/Object"].superclass, 0)

    def test_suspects(self):
        found = self.heap.suspects()
        first = found.suspects[0]
        self.assertEqual(found.total, Size(1729, 117))
        self.assertEqual((first.percent, first.bytes, first.left_out), (60, 1050, 0))
        self.assertEqual([one.id for one in first.keepers][2:4], [0x7400004B8, 0x740000410])
        self.assertEqual(first.keepers[3], Kept(1066, 61, Node(0x740000410, "class", "shop/Server")))
        self.assertEqual(first.pieces, ((970, 7, "shop/Session"),))

    def test_retained_and_biggest(self):
        self.assertEqual(self.heap.retained()[0], RetainedRow(1215, 288, 9, "shop/Session"))
        for kind in ("shop.Session", "shop/Session", 0x7400003A0):
            rows = self.heap.biggest(kind)
            self.assertEqual([(row.bytes, row.objects, row.id) for row in rows[:2]], [(160, 10, 0x740000738), (160, 10, 0x740000AC0)])

    def test_objects(self):
        rows = self.heap.objects("shop.Session")
        self.assertEqual([row.id for row in rows[7:]], [0x740000DC8, KIM, 0x7400013C8, 0x7400015B0])
        self.assertEqual({row.bytes for row in rows}, {32})
        self.assertEqual(len(self.heap.objects("byte[]")), 40)

    def test_show(self):
        found = self.heap.show(KIM)
        self.assertIsNone(found.class_dump)
        user, cart, page, opened = found.dump.entries
        self.assertEqual((user.kind, user.position, user.name), ("field", 0, "user"))
        self.assertEqual((user.value.id, user.value.node.text), (0x740000EC0, "kim"))
        self.assertEqual(cart.value.label, "java/util/ArrayList")
        self.assertEqual((page.value.label, page.value.length), ("byte[]", 45))
        self.assertEqual(opened.value, 1795762800000)

    def test_object(self):
        found = self.heap.object(KIM)
        self.assertIsNone(found.class_dump)
        self.assertEqual(found.dump.label, "shop/Session")
        self.assertEqual((found.dump.value("opened"), found.dump.value("user")), (1795762800000, 0x740000EC0))
        with self.assertRaises(KeyError):
            found.dump.value("closed")

    def test_text(self):
        self.assertEqual(self.heap.text(0x7400007F0), "cyd")
        self.assertEqual(self.heap.text(0x740000810), "<h1>Hello cyd</h1><p>1 items in your cart</p>")
        self.assertIsNone(self.heap.text(KIM))

    def test_why(self):
        found = self.heap.why(KIM)
        self.assertEqual((found.reached, found.distance), ("strongly", 6))
        (root,) = found.roots
        self.assertEqual((root.kind, root.thread, root.frame), ("Java frame", 2, 1))
        self.assertEqual((root.holder.id, root.holder.text), (0x740001300, "mailer"))
        self.assertEqual((root.at.class_name, root.at.method, root.at.source, root.at.line), ("shop.Mailer", "run", "Mailer.java", 31))
        self.assertEqual([step.id for step in found.steps], [0x7400012A0, 0x7400010C0, KIM])
        self.assertEqual([step.left_out for step in found.steps], [4, 0, 0])
        self.assertEqual(found.steps[1].reference, Reference("field", 1, "session", False))
        self.assertIsNone(found.steps[2].reference)

    def test_why_by_weak_references_alone_and_not(self):
        weak = self.heap.why(0x7400013C8)
        self.assertEqual((weak.reached, weak.distance), ("weakly", 1))
        self.assertEqual(weak.steps[0].reference, Reference("field", 0, "referent", True))
        self.assertEqual(self.heap.why(0x7400015B0), ("not", None, (), ()))
        self.assertEqual(self.heap.path(0x7400015B0), (None, ()))

    def test_threads(self):
        mailer = self.heap.threads()[1]
        self.assertEqual((mailer.number, mailer.name, mailer.elsewhere), (2, "mailer", ()))
        frames = ["java.lang.Thread.sleep(Native Method)", "shop.Mailer.run(Mailer.java:31)"]
        self.assertEqual([one.frame.text for one in mailer.stack][:2], frames)
        self.assertTrue(mailer.stack[0].frame.native)
        self.assertEqual([node.id for node in mailer.stack[1].objects], [0x7400012A0])

    def test_who(self):
        found = self.heap.who(KIM)
        self.assertEqual((found.roots, found.sums), ((), ()))
        (holder,) = found.holders
        self.assertEqual((holder.id, holder.label, holder.reference), (0x7400010C0, "shop/Mail", ("field", 1, "session", False)))

    def test_refs_and_path(self):
        self.assertEqual(self.heap.refs(LIST), ((0x740000410, "static", 0),))
        found = self.heap.path(KIM)
        self.assertEqual((found.distance, len(found.ids), found.ids[-1]), (6, 7, KIM))

    def test_keeps(self):
        found = self.heap.keeps(CYD)
        self.assertEqual((found.reached, found.total, found.weak), ("strongly", (1729, 117), None))
        keepers = [(1066, 60, LIST), (1050, 59, 0x740000DF8), (135, 8, CYD)]
        self.assertEqual([(one.bytes, one.objects, one.id) for one in found.keepers[4:]], keepers)
        self.assertEqual([one.label for one in found.kept], ["byte[]", "java/util/ArrayList", "java/lang/String"])
        self.assertEqual(self.heap.keeps(0x7400013C8).reached, "weakly")
        self.assertEqual(self.heap.keeps(0x7400015B0).reached, "not")
        self.assertIsNotNone(self.heap.keeps(0).weak)

    def test_many_questions_at_once(self):
        questions = [("text", 0x7400007F0), "check", ("text", 1), ("why", "no.Such"), ("refs", LIST), ("path", 0x7400015B0)]
        found = self.heap.ask_all(questions * 500)
        self.assertEqual(len(found), 3000)
        self.assertEqual(set(found[::6]), {"cyd"})
        self.assertEqual({type(one) for one in found[2::6]}, {hprof.NothingAt})
        self.assertEqual({type(one) for one in found[3::6]}, {hprof.NoSuchClass})
        self.assertEqual(found[-2], ((0x740000410, "static", 0),))
        self.assertEqual(self.heap.text(0x7400007F0), "cyd")

    def test_more_questions_and_answers_than_pipes_hold(self):
        with within(60):
            found = self.heap.ask_all([("text", 0x740000810)] * 50_000)
        self.assertEqual((len(found), set(found)), (50_000, {"<h1>Hello cyd</h1><p>1 items in your cart</p>"}))

    def test_all_objects_at_once(self):
        """Long answers to many questions, in the order of the questions."""
        ids = [one.id for kind in self.heap.histogram() for one in self.heap.objects(kind.id or str(kind.label))]
        shown = self.heap.ask_all([("show", id) for id in ids])
        self.assertEqual(len(ids), 116)
        self.assertEqual([one.dump.node.id for one in shown], ids)

    def test_refusals(self):
        with self.assertRaises(hprof.NothingAt) as caught:
            self.heap.show(0x1)
        self.assertEqual((caught.exception.id, caught.exception.text), (1, "nothing at 1"))
        with self.assertRaises(LookupError):
            self.heap.objects("no.Such")
        with self.assertRaises(hprof.NotUnderstood):
            self.heap.show("two words")
        with self.assertRaises(hprof.NotUnderstood):
            self.heap.objects("x" * 5000)
        self.assertEqual(self.heap.text(0x7400007F0), "cyd")


class Opening(unittest.TestCase):
    def test_diff(self):
        found = hprof.diff(MONDAY, FRIDAY)
        self.assertEqual(found[0], Growth(330, 22, Name("byte[]")))
        self.assertEqual(found[2], (192, 6, "shop/Session"))
        self.assertEqual(hprof.diff(FRIDAY, MONDAY)[-1], (-330, -22, "byte[]"))
        self.assertEqual(hprof.diff(FRIDAY, FRIDAY), ())

    def test_refusals(self):
        with self.assertRaises(hprof.Conflict) as caught:
            hprof.open(MONDAY, FRIDAY)
        self.assertEqual((caught.exception.text, caught.exception.what, caught.exception.number), ("conflict at load 1", "load", 1))
        self.assertIsNone(caught.exception.part)
        for call in (hprof.open, lambda part: hprof.diff(FRIDAY, part)):
            with self.assertRaises(hprof.CannotOpen):
                call("/nowhere/at all")
        with self.assertRaises(hprof.Malformed) as caught:
            hprof.diff(FRIDAY, __file__)
        self.assertEqual((caught.exception.part, caught.exception.offset, caught.exception.reason), (1, 0, "BadMagic"))
        with self.assertRaises(hprof.Refused) as caught:
            hprof.open()
        self.assertIsInstance(caught.exception, hprof.Error)

    def test_the_program(self):
        with hprof.open(str(FRIDAY), program=program()) as heap:
            self.assertEqual(heap.text(0x7400007F0), "cyd")
        with self.assertRaises(ValueError):
            heap.check()
        for nothing in ("/nowhere/hprof", FRIDAY):
            with self.assertRaises(hprof.ProgramMissing):
                hprof.open(FRIDAY, program=nothing)

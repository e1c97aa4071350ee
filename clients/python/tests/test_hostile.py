"""The dump with hostile names: each report of it is understood, and names are what the dump has."""

import tempfile
import unittest
from pathlib import Path

import hprof
from hprof import Referred
from hprof.dialogue import Reading
from hprof.reports import asked

from . import printing
from .support import hostile_module

HOSTILE = hostile_module()


def name_of(held):
    """The name that bytes of a dump are: of modified UTF-8 its text, of others `\\x` and the bytes."""
    if b"\0" in held:
        return "\\x" + held.hex()
    try:
        units = held.replace(b"\xc0\x80", b"\0").decode("utf-8", "surrogatepass")
    except UnicodeDecodeError:
        return "\\x" + held.hex()
    return units.encode("utf-16-be", "surrogatepass").decode("utf-16-be", "surrogatepass")


class Hostile(unittest.TestCase):
    @classmethod
    def setUpClass(cls):
        cls.folder = tempfile.TemporaryDirectory()
        path = Path(cls.folder.name) / "hostile.hprof"
        path.write_bytes(HOSTILE.hostile())
        cls.heap = hprof.open(path)
        cls.ids = [row.id for row in cls.heap.classes()]
        cls.ids += [one.id for row in cls.heap.histogram() for one in cls.heap.objects(row.label.printed if row.id is None else row.id)]

    @classmethod
    def tearDownClass(cls):
        cls.heap.close()
        cls.folder.cleanup()

    def test_names(self):
        labels = {row.id: row.label for row in self.heap.classes()}
        for place, held in enumerate(HOSTILE.NAMES.values()):
            with self.subTest(held=held[:40]):
                label = labels[0x1000 + 16 * place]
                self.assertEqual(label, name_of(held))
                self.assertEqual(label.is_text, not label.startswith("\\x"))
        missing = labels[0x170]
        self.assertEqual((missing, missing.printed, missing.is_text), ("\\?77", "\\?77", False))

    def test_names_lead_back(self):
        """A name that a report told finds its class."""
        for place, held in enumerate(HOSTILE.NAMES.values()):
            this = 0x1000 + 16 * place
            label = self.heap.object(this).class_dump.label
            if held in (b"", b"byte[]") or b" " in held or len(label.printed) > 4000:
                continue
            with self.subTest(label=label[:40]):
                self.assertIn(0x2000 + 16 * place, [one.id for one in self.heap.objects(label)])

    def test_names_of_fields(self):
        for place, held in enumerate(HOSTILE.NAMES.values()):
            of_class = self.heap.object(0x1000 + 16 * place).class_dump
            self.assertEqual([field.name for field in of_class.own], [name_of(held), "value"])
            self.assertEqual([field.name for field in of_class.statics], [name_of(held)] * 2)
            self.assertEqual([field.value for field in of_class.statics], [0x1000 + 16 * place, "<"])
            self.assertEqual([constant.value for constant in of_class.constants], [2, 0x9999])

    def test_each_report_on_each_identifier(self):
        for word in ("object", "show", "who", "why", "keeps", "refs", "path", "text"):
            found = self.heap.ask_all([(word, id) for id in self.ids])
            self.assertEqual([one for one in found if isinstance(one, hprof.Error)], [], word)
        for kind in {row.id or row.label.printed for row in self.heap.histogram()}:
            self.assertEqual({one.id for one in self.heap.biggest(kind)} - {one.id for one in self.heap.objects(kind)}, set())
        self.assertEqual(len(self.heap.threads()), 150)
        self.assertTrue(self.heap.suspects().suspects)
        self.assertTrue(self.heap.retained())

    def answers(self, lines):
        """The text of each answer."""
        return self.heap._session.ask([Reading(line, lambda found: "".join(one + "\n" for one in found)) for line in lines])

    def test_a_value_has_all_of_its_answer(self):
        for word in ("object", "show", "who", "why", "keeps", "refs", "path", "text"):
            questions = [asked((word, id)) for id in self.ids]
            for question, answer in zip(questions, self.answers([one.line for one in questions])):
                printed = printing.report(word, question.line.split(" ")[1], question.read(answer))
                self.assertEqual(printing.with_numbers(printed), printing.with_numbers(answer))
        for word in ("check", "histo", "classes", "threads", "suspects", "retained"):
            (answer,) = self.answers([word])
            self.assertEqual(printing.report(word, None, asked(word).read(answer)), answer)

    def test_show_has_the_values_of_object(self):
        raw, shown = (self.heap.ask_all([(word, id) for id in self.ids]) for word in ("object", "show"))
        compared = 0
        for contents, show in zip(raw, shown):
            self.assertEqual((contents.class_dump is None, contents.dump is None), (show.class_dump is None, show.dump is None))
            if contents.dump is not None and hasattr(contents.dump, "fields"):
                values = [entry.value for entry in show.dump.entries]
                self.assertEqual([plain(value) for value in values], [field.value for field in contents.dump.fields])
                compared += len(values)
        self.assertGreater(compared, 200)

    def test_references_of_who_are_those_of_refs(self):
        for id in self.ids:
            told = [(holder.id, holder.reference.kind, holder.reference.position) for holder in self.heap.who(id).holders]
            self.assertEqual(told, list(self.heap.refs(id)), f"{id:x}")

    def test_numbers_of_arrays(self):
        for kind, width in HOSTILE.NUMBERS.items():
            array = self.heap.object(0x5000 + 16 * kind).dump
            edges = [0, 1, 2, 1 << (8 * width - 1), (1 << 8 * width) - 1, (1 << (8 * width - 1)) - 1, 0x41, 0x3C]
            self.assertEqual(array.held, b"".join(edge.to_bytes(width, "big") for edge in edges))
            self.assertEqual(array.length, 8)
            if array.type in ("byte", "short", "int", "long"):
                signed = [edge - (1 << 8 * width) if edge >> (8 * width - 1) else edge for edge in edges]
                self.assertEqual(list(array.values()), signed)
                self.assertEqual(list(self.heap.show(0x5000 + 16 * kind).dump.numbers), signed)
        self.assertEqual(self.heap.object(0x5000 + 16 * HOSTILE.BOOLEAN).dump.values()[:4], (False, True, 2, 128))
        self.assertEqual(self.heap.object(0x5000 + 16 * HOSTILE.CHAR).dump.values()[6:], ("A", "<"))
        shown = self.heap.show(0x5600).dump.numbers
        self.assertNotEqual(shown[0], shown[0])
        self.assertEqual(shown[1:], (float("inf"), -float("inf"), 2.0**-149))

    def test_texts(self):
        self.assertEqual(self.heap.text(0x3000), "<script>\u202e\0\n\u20ac</pre>")
        self.assertEqual(self.heap.text(0x5620), "<b>\u202e\ud800\U0001f600\0\n" * 30)
        self.assertEqual(self.heap.text(0x5610), "<script>alert(1)</script>\0\n\xff" * 4000)
        self.assertIsNone(self.heap.text(0x3040))


def plain(value):
    """A value of `show` as `object` has it."""
    if isinstance(value, Referred):
        return value.id
    return 0 if value is None else value

"""Values, names and identifiers as a person reads and writes them."""

import re
import unittest

from view import subjects
from view.class_names import written
from view.names import Wanted
from view.pages.overview import moment
from view.paging import Part, page, pager
from view.printed import cut, shown, titled
from view.tables import width
from view.values import counted, number, text_of, thousands


class Numbers(unittest.TestCase):
    def test_signs(self):
        cases = {
            ("byte", "7f"): "127", ("byte", "80"): "-128", ("byte", "ff"): "-1",
            ("short", "8000"): "-32768", ("int", "00001f90"): "8080", ("int", "ffffffff"): "-1",
            ("long", "8000000000000000"): "-9223372036854775808", ("long", "7fffffffffffffff"): "9223372036854775807",
        }
        self.assertEqual({case: number(*case) for case in cases}, cases)

    def test_reals(self):
        cases = {
            ("float", "3dcccccd"): "0.1", ("float", "3f800000"): "1.0", ("float", "80000000"): "-0.0", ("float", "00000001"): "1e-45",
            ("float", "7f7fffff"): "3.4028235e+38", ("float", "7fc00000"): "NaN", ("float", "ffc00001"): "NaN",
            ("float", "7f800000"): "Infinity", ("double", "3fb999999999999a"): "0.1", ("double", "400921fb54442d18"): "3.141592653589793",
            ("double", "fff0000000000000"): "-Infinity", ("double", "0000000000000001"): "5e-324",
            ("double", "7fefffffffffffff"): "1.7976931348623157e+308",
            ("double", "0000000000000000"): "0.0", ("double", "4197d78400000000"): "1e+08",
        }
        self.assertEqual({case: number(*case) for case in cases}, cases)

    def test_truth_and_chars(self):
        self.assertEqual([number("boolean", bits) for bits in ("00", "01", "02")], ["false", "true", "2, neither true nor false"])
        self.assertEqual(number("char", "003c"), "&#x27;&lt;&#x27; <small>60</small>")
        self.assertEqual(number("char", "d800"), "&#x27;<i>\\ud800</i>&#x27; <small>55296</small>")

    def test_text_of_numbers(self):
        self.assertEqual(text_of("byte", "41e9"), "A\u00e9")
        self.assertEqual(text_of("char", "004120ac"), "A\u20ac")
        self.assertEqual(text_of("char", "d83dde00"), "\U0001f600")
        self.assertIsNone(text_of("int", "00000041"))

    def test_counts(self):
        self.assertEqual(thousands(1234567), "1,234,567")
        found = [counted(1, "object"), counted(2000, "object"), counted(0, "class", "classes")]
        self.assertEqual(found, ["1 object", "2,000 objects", "0 classes"])

    def test_bars(self):
        self.assertEqual([width(0, 5), width(1, 1000), width(1, 2), width(7, 7), width(0, 0)], ["w0", "w1", "w50", "w100", "w0"])

    def test_times(self):
        self.assertEqual(moment(1795766400000), "2026-11-27 08:00:00 UTC")
        self.assertEqual(moment((1 << 64) - 1), "18446744073709551615 ms")


class Pages(unittest.TestCase):
    """The links from one page of a list to the others."""

    def links(self, number, total):
        return dict((text, int(at)) for at, text in re.findall(r'href="\?page=(\d+)">(\w+)<', pager(Part([], total, page(number)))))

    def test_links(self):
        self.assertEqual(self.links(3, 1000), {"First": 1, "Previous": 2, "Next": 4, "Last": 10})
        self.assertEqual(self.links(1, 101), {"Next": 2, "Last": 2})
        self.assertEqual(self.links(2, 101), {"First": 1, "Previous": 1})
        self.assertEqual(self.links(1, 100), {})


class Names(unittest.TestCase):
    def test_escapes_become_characters(self):
        self.assertEqual(shown(r"caf\u00e9 \u4f60 \ud83d\ude00 \u005c"), "caf\u00e9 \u4f60 \U0001f600 \\")

    def test_what_cannot_be_seen_stays_escaped(self):
        self.assertEqual(shown(r"a\u0000b\u202e\ud800\u000a"), "a<i>\\u0000</i>b<i>\\u202e</i><i>\\ud800</i><i>\\n</i>")
        self.assertEqual(titled(r"a\u0000b\u202e"), "a\\u0000b\\u202e")

    def test_markup_is_escaped(self):
        self.assertEqual(shown("<b>\"'&amp;"), "&lt;b&gt;&quot;&#x27;&amp;amp;")
        self.assertEqual(shown(r"\u003cscript\u003e"), "&lt;script&gt;")

    def test_lines_of_a_text(self):
        self.assertEqual(shown(r"a\u000ab\u000d", lines=True), "a\nb<i>\\r</i>")

    def test_names_that_are_no_text(self):
        self.assertEqual([shown(r"\?7400"), shown(r"\xc0af")], ["\\?7400", "\\xc0af"])

    def test_no_escape_is_cut(self):
        printed = r"abc\u00e9"
        self.assertEqual([cut(printed, limit)[0] for limit in range(3, 10)], ["abc"] * 6 + [printed])
        self.assertTrue(shown("x" * 500).endswith("x<i>\u2026</i>"))


class Identifiers(unittest.TestCase):
    def test_addresses(self):
        self.assertEqual([subjects.identifier(text) for text in ("0", "7f", "ffffffffffffffff")], [0, 0x7F, (1 << 64) - 1])
        for text in ("", "07", "7F", "0x7", "@7", "7 ", "7\n", "g", "1" * 17, "-1", "\u0661", "7/8"):
            self.assertIsNone(subjects.identifier(text), text)

    def test_what_a_person_writes(self):
        for text in ("7f", "7F", "0x7f", "0X7F", "@7f", "@ 0x7f", " 7f ", "007f", "@0x007F"):
            self.assertEqual(subjects.number_of(text), 0x7F, text)
        for text in ("", "0x", "@", "x7f", "7f 7f", "0x0x7f", "1" * 17, "\uff17f"):
            self.assertIsNone(subjects.number_of(text), text)

    def test_questions(self):
        self.assertEqual(subjects.about("refs", 0x7F).line, "refs 7f")
        self.assertEqual([subjects.objects_of(kind).line for kind in (255, "byte")], ["objects ff", "objects byte[]"])
        self.assertEqual([subjects.biggest_of(kind).line for kind in (255, "byte")], ["biggest ff", "biggest byte[]"])

    def test_no_other_questions(self):
        for report, number in (("check", 1), ("object\nhelp", 1), ("object", "7f"), ("object", -1), ("object", 1 << 64), ("object", True)):
            with self.assertRaises(ValueError):
                subjects.about(report, number)
        for kind in ("byte[]", "byte\nhelp", "7f", None, -1, 1.0):
            with self.assertRaises((ValueError, TypeError)):
                subjects.objects_of(kind)
            with self.assertRaises((ValueError, TypeError)):
                subjects.biggest_of(kind)

    def test_words_of_a_search(self):
        for word, label in (
            ("java.util.Array", "java/util/ArrayList"), ("ARRAY", "java/util/ArrayList"), ("$1[]", "[LX$1;"), ("*.x$*[]", "[La/X$1;"),
            ("[LX$1;", "[LX$1;"), ("byte[][]", "[[B"), ("te[]", "byte[]"), ("a*b*c", "abc"), ("*", "anything"), ("", ""),
        ):
            self.assertTrue(Wanted(word).in_name(label), word)
            self.assertTrue(Wanted(word).in_line.search(b"1 2 3 " + label.encode()), word)
        for word, label in (("a.c", "abc"), ("a*b", "ba"), ("x[]", "X"), ("int[]", "[J")):
            self.assertFalse(Wanted(word).in_name(label), word)

    def test_names_of_classes(self):
        for label, name in (
            ("[Ljava/util/HashMap$Node;", "java.util.HashMap$Node[]"), ("[[I", "int[][]"), ("a/b-c", "a.b-c"), ("byte[]", "byte[]"),
            ("[Lx", "[Lx"), ("[V", "[V"), ("a//b", "a//b"), ("</b>", "</b>"), ("\\u00e9/x", "\\u00e9.x"), ("", ""),
        ):
            self.assertEqual(written(label), name)

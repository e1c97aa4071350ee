"""A dump that is hard to show: every page of it stays well formed, and shows the names as text."""

import re
import tempfile
import unittest
from pathlib import Path

from .hostile import NAMES, hostile
from .running import Viewer
from .test_pages import crawled


# All but the first three of the subclasses, and of the objects of one of them, that are alike.
MOST_SUBCLASSES = re.compile(r"/8([1-6]\w|0[3-9a-f])0\b|/a([1-9]\w|0[3-9a-f])0\b")


def place_of(name):
    return list(NAMES).index(name)


class Hostile(unittest.TestCase):
    @classmethod
    def setUpClass(cls):
        folder = tempfile.TemporaryDirectory()
        cls.addClassCleanup(folder.cleanup)
        cls.dump = Path(folder.name) / "<b>'\"&\u202e hostile.hprof"
        cls.dump.write_bytes(hostile())
        cls.viewer = Viewer(cls.dump).__enter__()
        cls.addClassCleanup(cls.viewer.end)

    def of_class(self, name):
        return self.viewer.page(f"class/{0x1000 + 16 * place_of(name):x}")

    def test_every_link(self):
        found = crawled(self.viewer, without=MOST_SUBCLASSES)
        self.assertGreater(len(found), 300)
        for path, response in found.items():
            with self.subTest(path=path):
                self.assertIn(response.status, (200, 303, 404))
                self.assertEqual(response.page.faults if response.status != 303 else [], [])
                self.assertLess(len(response.body), 1 << 20)
        missing = {path.split("?")[0].split("/")[-1] for path, response in found.items() if response.status == 404}
        self.assertLessEqual(missing, {"9999", "140", "150", "160"})

    def test_names_as_text(self):
        self.assertEqual(self.of_class("script").heading, "<script>alert(1)</script>")
        self.assertEqual(self.of_class("image").heading, "\"><img src=x onerror=alert(1)>")
        self.assertEqual(self.of_class("quote").heading, "it's \"quoted\" & &lt;escaped&gt; \\u003cb\\u003e \\")
        self.assertEqual(self.of_class("end").heading, "</title></style></table></script><h1>")
        self.assertEqual(self.of_class("address").heading, "javascript:alert(1)//../..?q=%0d%0aX: y#")
        self.assertEqual(self.of_class("smile").heading, "\U0001f600 \u4f60\u597d")
        self.assertTrue(self.of_class("smile").title.startswith("\U0001f600 \u4f60\u597d \u00b7 "))

    def test_what_cannot_be_seen(self):
        self.assertEqual(self.of_class("zero").heading, "a\\u0000b")
        self.assertEqual(self.of_class("raw zero").heading, "\\x610062")
        self.assertEqual(self.of_class("lines").heading, "one\\ntwo\\r\\nthree\\n\\nobject 1\\tend")
        self.assertEqual(self.of_class("turned").heading, "\\u202etxet denrut\\u202c \\u200b\\ufeff")
        self.assertEqual(self.of_class("alone").heading, "\\ud800")
        self.assertEqual(self.of_class("empty").heading, "(a name without bytes)")
        self.assertIn("<b>'\"&\\u202e hostile.hprof", self.viewer.page("").title)

    def test_long_names(self):
        page = self.of_class("long")
        self.assertEqual(page.heading, NAMES["long"].decode().replace("/", "."))
        self.assertIn("very." + "long" * 73 + "lon\u2026", page.text)
        self.assertEqual(len(self.of_class("long escapes").heading), 33_000 * 6)
        self.assertLess(len(self.viewer.get("").body), 200_000)

    def test_names_that_look_like_reports(self):
        page = self.of_class("spaces")
        self.assertEqual(page.heading, " 7 super 7 bytes 1 objects 1 ")
        self.assertIn("1 object by size", page.text)
        self.assertIn("0 objects by size", self.viewer.page("class/ffffffffffffffff").text)
        rows = [row for row in self.viewer.page("find?q=byte[]").rows if row[0] == "byte[]"]
        self.assertEqual(rows, [["byte[]", "112,294", "5", ""], ["byte[]", "12", "1", f"{0x1000 + 16 * place_of('type'):x}"]])
        self.assertEqual(self.viewer.get("find?label=%5C%3F").headers["Location"], self.viewer.base + "class/160")

    def test_names_of_fields(self):
        page = self.viewer.page("object/2000")
        self.assertEqual(page.rows[1][:3], ["<script>alert(1)</script>", "int", "-2"])
        self.assertEqual(page.rows[2][2], "3000 java.lang.String <script>\\u202e\\u0000\\n\u20ac</pre>")
        page = self.of_class("script")
        self.assertIn(["<script>alert(1)</script>", "char", "'<' 60"], page.rows)
        self.assertIn(["0", "boolean", "2, neither true nor false"], page.rows)
        self.assertIn(["3", "object", "9999 not in the dump"], page.rows)

    def test_circles_and_missing_classes(self):
        chains = {
            "100": "circle.Other the superclasses run in a circle",
            "120": "none" "the superclasses run in a circle",
            "130": "140 this class is missing",
        }
        for id, chain in chains.items():
            self.assertIn(f"Superclasses{chain}Loader", self.viewer.page(f"class/{id}").text)
        self.assertIn("no layout: the superclasses run in a circle", self.viewer.page("object/2800").text)
        self.assertIn("no layout: class 140 is missing", self.viewer.page("object/2830").text)
        self.assertIn("no fields: the layout has 12 bytes", self.viewer.page("object/2900").text)

    def test_a_class_without_a_dump(self):
        page = self.viewer.page("class/150")
        self.assertEqual(page.heading, "lost/Class<i>")
        self.assertIn("no class dump", page.text)
        self.assertIn(["2840", "8"], page.rows)
        self.assertIn("1 object by size", page.text)
        self.assertEqual(self.viewer.page("class/160").heading, "\\?")
        self.assertEqual(self.viewer.page("class/170").heading, "\\?77")

    def test_one_identifier_for_a_class_and_an_object(self):
        self.assertIn("an object has this identifier too", self.viewer.page("class/1000").text)
        page = self.viewer.page("object/1000")
        self.assertEqual(page.heading, "java.lang.String")
        self.assertIn("a class has this identifier too", page.text)
        self.assertIn("<script>", page.text)

    def test_pages_of_entries(self):
        page = self.viewer.page("class/400?statics=3&subclasses=2&constants=2&fields=3")
        for name in ("static200", "static249", "field249", "many.Sub100", "many.Sub109"):
            self.assertIn(name, page.text)
        for name in ("static199", "field199", "many.Sub99"):
            self.assertNotIn(name, page.text)
        self.assertIn("250 static fields", page.text)
        self.assertIn("page 2 of 2", page.text)
        self.assertEqual(self.viewer.page("class/400?statics=4", 404).heading, "No such page")
        rows = self.viewer.page("object/410?page=3").rows
        self.assertEqual((len(rows), rows[-1][:3]), (51, ["field249", "int", "-249"]))

    def test_pages_of_objects(self):
        """Each page by itself, also when it is looked at again."""
        for _ in range(2):
            first, second = self.viewer.page("class/8000"), self.viewer.page("class/8000?page=2")
            self.assertIn("150 objects by size", first.text)
            self.assertEqual((len(first.rows), first.rows[1], first.rows[-1]), (101, ["a000", "200"], ["a630", "101"]))
            self.assertEqual((len(second.rows), second.rows[1], second.rows[-1]), (51, ["a640", "100"], ["a950", "51"]))
        self.assertEqual(self.viewer.page("class/8000?page=3", 404).heading, "No such page")

    def test_pages_of_elements(self):
        rows = self.viewer.page("object/430?page=3").rows
        self.assertEqual(rows[1:6], [["200", "2000 <script>alert(1)</script>"], ["201", "null"], ["202", "9999 not in the dump"],
                                     ["203", "430 java.lang.Object[] 300 elements"], ["204", "10 class java.lang.Object"]])
        self.assertEqual(len(rows), 101)
        self.assertIn("It has no elements.", self.viewer.page("object/440").text)
        self.assertEqual([row[0] for row in self.viewer.page("object/5610?page=2").rows], ["Index", *map(str, range(100, 200, 10))])
        self.assertIn("page 1,120 of 1,120", self.viewer.page("object/5610?page=1120").text)

    def test_numbers_of_each_type(self):
        edges = {
            4: ["false", "true", "2, neither true nor false", "128, neither true nor false"],
            5: ["0", "1", "2", "32768", "65535"],
            8: ["0", "1", "2", "-128", "-1", "127"],
            9: ["0", "1", "2", "-32768", "-1", "32767"],
            10: ["0", "1", "2", "-2147483648", "-1", "2147483647"],
            11: ["0", "1", "2", "-9223372036854775808", "-1", "9223372036854775807"],
        }
        for kind, values in edges.items():
            self.assertEqual(self.viewer.page(f"object/{0x5000 + 16 * kind:x}").rows[1][1 : len(values) + 1], values)
            self.assertIn("page 3 of 3", self.viewer.page(f"object/{0x5200 + 16 * kind:x}?page=3").text)
            self.assertIn("It has no elements.", self.viewer.page(f"object/{0x5400 + 16 * kind:x}").text)
        self.assertEqual(self.viewer.page("object/5600").rows[1][1:5], ["NaN", "Infinity", "-Infinity", "1e-45"])

    def test_text_of_numbers(self):
        page = self.viewer.page("object/5610?page=2")
        self.assertIn("<script>alert(1)</script>\\u0000\n\u00ff", page.text)
        self.assertIn("<b>\\u202e\\ud800\U0001f600\\u0000\n", self.viewer.page("object/5620").text)

    def test_texts(self):
        self.assertIn("Text, 18 units<script>\\u202e\\u0000\n\u20ac</pre>", self.viewer.page("object/3000").text)
        page = self.viewer.page("object/3020")
        self.assertIn("Text, 112,000 units", page.text)
        self.assertIn("\u2026Field", page.text)
        self.assertLess(len(self.viewer.get("object/3020").body), 300_000)
        start = ("<script>alert(1)</script>\\u0000\\n\u00ff" * 4)[: 100 + 3 * 6]
        rows = {row[0]: row[-1] for row in self.viewer.page("class/600").rows if len(row) == 3}
        self.assertEqual((rows["3020"], rows["3000"]), (start + "\u2026", "<script>\\u202e\\u0000\\n\u20ac</pre>"))
        for id in ("3040", "3050", "3060"):
            self.assertNotIn("Text, ", self.viewer.page(f"object/{id}").text)

    def test_many_references(self):
        page = self.viewer.page("refs/2000?page=3")
        self.assertIn("310 references", page.text)
        self.assertEqual(len(page.rows), 101)
        rows = self.viewer.page("refs/2000").rows
        self.assertEqual(rows[1], ["60", "java.lang.Object[]", "element"])
        self.assertEqual(rows[rows.index(["From", "Class", "By"]) + 1], ["400", "class many.Entries", "static field static0"])
        self.assertIn(["430", "java.lang.Object[]", "element 245"], self.viewer.page("refs/2000?page=3").rows)
        script = "<script>alert(1)</script>"
        self.assertIn(["1000", f"class {script}", f"static field {script}"], self.viewer.page("refs/1000").rows)

    def test_loader_signers_and_domain(self):
        page = self.viewer.page("class/ffffffffffffffff")
        label = "java.lang.Object[]"
        self.assertIn(f"Loader9999 not in the dumpSigners430 {label} 300 elementsDomain440 {label} 0 elements", page.text)
        for id, way in (("430", "has it as signers"), ("440", "has it as protection domain")):
            self.assertIn(["ffffffffffffffff", "class edge.Last", way], self.viewer.page(f"refs/{id}").rows)

    def test_a_class_whose_objects_have_no_bytes(self):
        rows = [row for row in self.viewer.page("find?q=java.lang.Object").rows if row[0] == "java.lang.Object"]
        self.assertEqual(rows, [["java.lang.Object", "0", "1", "10"]])

    def test_identifiers_at_the_edges(self):
        self.assertEqual(self.viewer.page("class/ffffffffffffffff").heading, "edge.Last")
        self.assertEqual(self.viewer.page("object/0").heading, "java.lang.Object")
        self.assertEqual(self.viewer.get("find?q=ffffffffffffffff").headers["Location"], self.viewer.base + "object/ffffffffffffffff")


class ShortIdentifiers(unittest.TestCase):
    def test_four_bytes(self):
        with tempfile.TemporaryDirectory() as folder:
            dump = Path(folder) / "hostile.hprof"
            dump.write_bytes(hostile(4))
            with Viewer(dump) as viewer:
                self.assertEqual(viewer.page("class/ffffffff").heading, "edge.Last")
                self.assertEqual(viewer.page("object/2000").rows[2][2], "3000 java.lang.String <script>\\u202e\\u0000\\n\u20ac</pre>")
                self.assertIn(["204", "10 class java.lang.Object"], viewer.page("object/430?page=3").rows)

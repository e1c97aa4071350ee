"""Every page of the sample dump: what it shows, and that every link leads to a page."""

import re
import unittest

from hprof.answers import Answer, Stream
from hprof.lines import Lines
from view.pages.of_class import superclass

from .running import FRIDAY, MONDAY, Viewer, time_of


LATER = re.compile(r"=([3-9]|\d\d+)$")


def crawled(viewer, start="", most=2000, without=LATER):
    """Every page that links lead to, by its address; of long lists the first two pages."""
    found, due = {}, [start]
    while due and len(found) < most:
        path = due.pop()
        if path in found or LATER.search(path) or without.search(path):
            continue
        found[path] = response = viewer.get(path)
        links = [response.headers["Location"]] if response.status == 303 else response.page.links
        due += [follow(viewer, path, link) for link in links]
    return found


def follow(viewer, path, link):
    """The path behind the token that a link leads to from a page."""
    return path.partition("?")[0] + link if link.startswith("?") else link[len(viewer.base) :]


class Sample(unittest.TestCase):
    @classmethod
    def setUpClass(cls):
        cls.viewer = Viewer(FRIDAY).__enter__()
        cls.addClassCleanup(cls.viewer.end)

    def test_overview(self):
        page = self.viewer.page("")
        self.assertEqual((page.title, page.heading), (f"Overview \u00b7 friday.hprof, {time_of(FRIDAY)}", "Overview"))
        self.assertIn("1,949 bytes in 116 objects of 9 classes and types.", page.text)
        self.assertEqual(page.rows[:3], [
            ["Class or type", "Bytes", "Share", "Objects", "Retained bytes", "Identifier"],
            ["byte[]", "605", "31.0 %", "40", "509", ""],
            ["java.lang.String", "406", "20.8 %", "29", "482", "740000070"],
        ])
        self.assertEqual(len([row for row in page.rows if row[0] in ("java.lang.Thread", "shop.Session")]), 2)
        self.assertEqual(page.rows[-1], ["0", "friday.hprof", "1.0.2", "2026-11-27 08:00:00 UTC", "8", "72", "209", "yes"])
        self.assertIn("objects116bad names0", page.text)

    def test_filter(self):
        page = self.viewer.page("?filter=shop.s*ion")
        self.assertEqual([row[0] for row in page.rows[1:2]], ["shop.Session"])
        self.assertIn("1 of 9", page.text)
        self.assertIn("No class or type has such a name.", self.viewer.page("?filter=nope").text)

    def test_class(self):
        page = self.viewer.page("class/7400001c0")
        self.assertEqual(page.title, f"java.util.ArrayList \u00b7 friday.hprof, {time_of(FRIDAY)}")
        self.assertIn("java.util.AbstractList \u2192 java.lang.Object", page.text)
        above = [link[len(self.viewer.base) :] for link in page.links if "/class/" in link]
        self.assertEqual(above[:2], ["class/740000150", "class/740000000"])
        self.assertIn("2 own fields", page.text)
        self.assertEqual(page.rows[1:3], [["elementData", "object"], ["size", "int"]])
        self.assertIn("13 objects by size", page.text)
        self.assertIn(["7400004d8", "16"], page.rows)

    def test_statics_and_loader(self):
        page = self.viewer.page("class/740000410")
        self.assertIn("2 static fields", page.text)
        self.assertEqual(page.rows[1:3], [["SESSIONS", "object", "740000e58 java.util.ArrayList"], ["port", "int", "8080"]])
        self.assertIn(self.viewer.base + "object/740000e58", page.links)
        self.assertIn("740000380 jdk.internal.loader.ClassLoaders$AppClassLoader", page.text)
        self.assertIn("0 objects by size", page.text)

    def test_subclasses(self):
        page = self.viewer.page("class/740000000")
        self.assertIn("10 subclasses", page.text)
        self.assertIn(["java.lang.String", "406", "29"], page.rows)
        self.assertNotIn("java.util.ArrayList", page.text)
        self.assertIn("none (the bootstrap loader)", page.text)

    def test_strings_of_a_class(self):
        page = self.viewer.page("class/740000070")
        self.assertIn(["7400007f0", "14", "cyd"], page.rows)
        self.assertEqual(sum(len(row) == 3 and row[1] == "14" for row in page.rows), 29)

    def test_instance(self):
        page = self.viewer.page("object/740000850")
        self.assertEqual(page.heading, "shop.Session")
        self.assertEqual(page.rows, [
            ["Field", "Type", "Value", "Declared by"],
            ["user", "object", "7400007f0 java.lang.String cyd", "shop.Session"],
            ["cart", "object", "7400007b8 java.util.ArrayList", "shop.Session"],
            ["page", "object", "740000810 byte[] 45 elements <h1>Hello cyd</h1><p>1 items in your cart</p>", "shop.Session"],
            ["opened", "long", "1795766220000", "shop.Session"],
        ])
        self.assertIn(self.viewer.base + "refs/740000850", page.links)
        self.assertIn(self.viewer.base + "why/740000850", page.links)

    def test_string(self):
        page = self.viewer.page("object/7400007f0")
        self.assertIn("Text, 3 units" + "cyd", page.text)
        self.assertIn(["hashIsZero", "boolean", "false", "java.lang.String"], page.rows)

    def test_array_of_objects(self):
        page = self.viewer.page("object/740000df8")
        self.assertEqual(page.rows[0], ["Index", "Element"])
        self.assertEqual(page.rows[3], ["2", "740000850 shop.Session"])
        self.assertEqual(page.rows[-1], ["9", "null"])

    def test_array_of_numbers(self):
        page = self.viewer.page("object/740000810")
        self.assertEqual(page.rows[1], ["0", "60", "104", "49", "62", "72", "101", "108", "108", "111", "32", "<h1>Hello "])
        self.assertEqual(page.rows[5], ["40", "116", "60", "47", "112", "62", "", "", "", "", "", "t</p>"])
        self.assertIn("<h1>Hello cyd</h1><p>1 items in your cart</p>", page.text)

    def test_type(self):
        page = self.viewer.page("type/byte")
        self.assertEqual(page.heading, "byte[]")
        self.assertIn("40 arrays by size", page.text)
        self.assertEqual(page.rows[1], ["7400005a0", "45"])
        self.assertIn("0 arrays by sizeNone.", self.viewer.page("type/double").text)

    def test_by_what_they_keep(self):
        """The overview leads to the objects of a class by what they keep, and each to what it keeps."""
        self.assertIn(self.viewer.base + "class/740000070?by=retained", self.viewer.page("").links)
        page = self.viewer.page("class/7400001c0?by=retained")
        self.assertIn("by what they keep", page.text)
        self.assertEqual(page.rows[3:6], [
            ["Object", "Retained bytes", "Retained objects", "Keeps"],
            ["7400004d8", "1,098", "63", "what it keeps"],
            ["740000e58", "1,066", "60", "what it keeps"],
        ])
        self.assertIn(self.viewer.base + "keeps/7400004d8", page.links)
        self.assertEqual(self.viewer.page("type/byte?by=retained").rows[1][1:3], ["45", "1"])
        self.assertEqual(self.viewer.page("class/7400001c0?by=name", 404).heading, "No such page")

    def test_references(self):
        page = self.viewer.page("refs/740000e58")
        self.assertIn("740000e58 java.util.ArrayList", page.text)
        self.assertEqual(page.rows[1:], [["740000410", "class shop.Server", "static field SESSIONS"]])
        self.assertIn(self.viewer.base + "class/740000410", page.links)
        self.assertEqual(self.viewer.page("refs/740000850").rows[1:], [["740000df8", "java.lang.Object[]", "element 2"]])
        self.assertIn(["7400007f0", "java.lang.String", "field value"], self.viewer.page("refs/7400007d8").rows)
        weak = ["7400014d8", "java.lang.ref.WeakReference", "weak field referent"]
        self.assertEqual(self.viewer.page("refs/7400013c8").rows[1:], [weak])
        self.assertIn("0 referencesNothing refers to it.", self.viewer.page("refs/1").text)

    def test_references_to_a_class(self):
        self.assertEqual(self.viewer.page("refs/740000070").rows[1], ["29", "java.lang.String", "is of this class"])
        rows = self.viewer.page("refs/740000150").rows
        self.assertEqual(rows[1:], [["7400001c0", "class java.util.ArrayList", "has it as superclass"]])
        self.assertIn(["740000850", "shop.Session", "is of this class"], self.viewer.page("refs/7400003a0").rows)
        self.assertIn(["740000410", "class shop.Server", "has it as class loader"], self.viewer.page("refs/740000380").rows)

    def test_nothing_there(self):
        for path in ("object/1", "class/1"):
            self.assertEqual(self.viewer.page(path, 404).heading, "Nothing at 1")
        self.assertEqual(self.viewer.page("class/740000850", 404).heading, "No class")
        response = self.viewer.get("object/740000410")
        self.assertEqual((response.status, response.headers["Location"]), (303, self.viewer.base + "class/740000410"))

    def test_every_link(self):
        found = crawled(self.viewer)
        self.assertGreater(len(found), 270)
        for path, response in found.items():
            with self.subTest(path=path):
                self.assertIn(response.status, (200, 303))
                self.assertEqual(response.page.faults if response.status == 200 else [], [])


class Search(unittest.TestCase):
    @classmethod
    def setUpClass(cls):
        cls.viewer = Viewer(FRIDAY).__enter__()
        cls.addClassCleanup(cls.viewer.end)

    def leads_to(self, word, path):
        response = self.viewer.get("find?q=" + word)
        self.assertEqual((response.status, response.headers.get("Location")), (303, self.viewer.base + path), word)

    def test_identifiers(self):
        for word in ("740000850", "0x740000850", "@740000850", "%40+0x740000850", "0X740000850", "00740000850", "+740000850+"):
            self.leads_to(word, "object/740000850")
        self.leads_to("0xABC", "object/abc")
        self.leads_to("@face", "object/face")
        self.leads_to("", "")
        self.leads_to("++", "")
        self.leads_to("&label=", "")

    def test_names(self):
        rows = [
            ["shop.Session", "352", "11", "7400003a0"],
            ["shop.Mail", "144", "6", "740000fa8"],
            ["shop.Server", "0", "0", "740000410"],
            ["shop.Mailer", "0", "0", "740001018"],
        ]
        self.assertEqual(self.viewer.page("find?q=SHOP").rows[1:], rows)
        self.assertEqual(self.viewer.page("find?q=java.util.abstract").rows[1:], [["java.util.AbstractList", "0", "0", "740000150"]])
        self.assertEqual(self.viewer.page("find?q=byte").rows[1:], [["byte[]", "605", "40", ""]])
        for word in ("object[]", "java.lang.O*t[]", "[Ljava/lang/Object;", "*ect[]"):
            self.assertEqual([row[0] for row in self.viewer.page("find?q=" + word).rows[1:]], ["java.lang.Object[]"], word)
        self.assertEqual([row[0] for row in self.viewer.page("find?q=java.*.string").rows[1:]], ["java.lang.String"])
        self.assertIn("0 classes and types with face in the name.", self.viewer.page("find?q=face").text)
        self.assertIn("12 classes and types with a in the name.", self.viewer.page("find?q=a").text)

    def test_words_without_letters(self):
        """What stands in every line is looked for in the names alone, and within the answer."""
        self.assertIn("15 classes and types with * in the name.", self.viewer.page("find?q=*").text)
        self.assertEqual([row[0] for row in self.viewer.page("find?q=%5B%5D").rows[1:]], ["byte[]", "java.lang.Object[]"])

    def test_a_word_that_is_a_part_of_every_line(self):
        self.assertEqual(len(self.viewer.page("find?q=super").rows), 0)
        self.assertEqual(len(self.viewer.page("find?q=740000000+bytes").rows), 0)

    def test_exact_labels(self):
        for label, path in (("shop/Session", "class/7400003a0"), ("byte[]", "type/byte"), ("java/util/AbstractList", "class/740000150")):
            response = self.viewer.get("find?label=" + label)
            self.assertEqual((response.status, response.headers.get("Location")), (303, self.viewer.base + path))
        self.assertIn("0 classes and types", self.viewer.page("find?label=shop").text)


class Superclass(unittest.TestCase):
    def test_an_own_field_named_value(self):
        head = b"class 10 super 8 loader 0 signers 0 domain 0 size 4 a value\nstatic 0 int 00000000 value\n"
        for field, has_value in ((b"value", True), (b"values", False), (b"a", False)):
            data = head + b"own 0 int b\nown 1 object " + field + b"\n\n"
            for size in (1, 20, len(data)):
                pieces = [data[place : place + size] for place in range(0, len(data), size)]
                one, found = superclass(Lines(Answer(Stream(lambda _: pieces.pop(0)))))
                self.assertEqual((one.id, one.superclass, found), (0x10, 8, has_value))


class TwoParts(unittest.TestCase):
    def test_parts_of_one_heap(self):
        with Viewer(FRIDAY, FRIDAY) as viewer:
            page = viewer.page("")
            self.assertEqual([row[:2] for row in page.rows[-2:]], [["0", "friday.hprof"], ["1", "friday.hprof"]])
            self.assertIn("116 objects", page.text)


class Growth(unittest.TestCase):
    @classmethod
    def setUpClass(cls):
        cls.viewer = Viewer("--diff", MONDAY, FRIDAY).__enter__()
        cls.addClassCleanup(cls.viewer.end)

    def test_what_grew(self):
        self.assertTrue(self.viewer.line.endswith("/grew\n"))
        page = self.viewer.page("grew")
        self.assertEqual(page.title, f"What grew \u00b7 monday.hprof, {time_of(MONDAY)} \u2192 friday.hprof, {time_of(FRIDAY)}")
        self.assertEqual(page.rows, [
            ["Class or type", "Bytes", "Less \u00b7 more", "Objects"],
            ["byte[]", "+330", "", "+22"],
            ["java.lang.String", "+224", "", "+16"],
            ["shop.Session", "+192", "", "+6"],
            ["java.util.ArrayList", "+96", "", "+6"],
            ["shop.Mail", "+96", "", "+4"],
            ["java.lang.Object[]", "+48", "", "+6"],
        ])
        self.assertIn("+986 bytes and +60 objects", page.text)
        self.assertIn('<span class="half less"><span class="bar w0"', page.source)
        self.assertIn('<span class="half more"><span class="bar w68"', page.source)

    def test_names_lead_to_the_newer_dump(self):
        page = self.viewer.page("grew")
        leads = [self.viewer.get(link[len(self.viewer.base) :]) for link in page.links if "find?label" in link]
        self.assertEqual([one.headers["Location"][len(self.viewer.base) :] for one in leads[:2]], ["type/byte", "class/740000070"])
        self.assertIn(self.viewer.base + "grew", self.viewer.page("").links)
        self.assertEqual(self.viewer.page("").rows[-1][:2], ["0", "friday.hprof"])

    def test_the_other_way_round(self):
        with Viewer("--diff", FRIDAY, MONDAY) as viewer:
            page = viewer.page("grew")
            self.assertEqual(page.rows[-1], ["byte[]", "-330", "", "-22"])
            self.assertIn('<span class="half less"><span class="bar w100"', page.source)

    def test_nothing_grew(self):
        with Viewer("--diff", FRIDAY, FRIDAY) as viewer:
            self.assertIn("Nothing grew", viewer.page("grew").text)
            self.assertEqual(viewer.page("grew").rows, [])

    def test_every_link(self):
        for path, response in crawled(self.viewer, "grew", 30).items():
            with self.subTest(path=path):
                self.assertIn(response.status, (200, 303))
                self.assertEqual(response.page.faults if response.status == 200 else [], [])

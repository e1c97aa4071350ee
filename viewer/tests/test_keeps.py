"""What an object keeps: the lines of `keeps ID`, told by a script, and the sample."""

import json
import tempfile
import unittest
from pathlib import Path

from view.treemap import Box, boxes

from .running import FAKE, FRIDAY, Viewer

HELP = "help\ncheck\nhisto\nclasses\nthreads\nobjects KIND\nwhy ID\nkeeps ID\ntext ID\nobject ID\nrefs ID\npath ID\n"
CHAIN = "".join(f"{9000 - place} {500 - place} {0x1000 + place:x} Node\n" for place in range(30))
MANY = "".join(f"  {4000 - place} 1 {0x2000 + place:x} byte[]\n" for place in range(250))
ANSWERS = {
    "help": HELP,
    "keeps 0": "100 9 roots\n7 2 only by weak references\n  60 5 10 shop/Session\n  40 3 11 class shop/<b>\n  0 1 12 byte[]\n",
    "keeps 10": "100 9 roots\n60 5 10 shop/Session\n  50 3 13 java/lang/Thread \"<i>\"\n  6 1 14 \\u003cb\\u003e\n",
    "keeps 11": "100 9 roots\n40 3 11 class shop/<b>\n",
    "keeps 13": "100 9 roots\n60 5 10 shop/Session\n50 3 13 java/lang/Thread \"<i>\"\n",
    "keeps 14": "100 9 roots\n60 5 10 shop/Session\n6 1 14 \\u003cb\\u003e\n",
    "keeps 101d": f"9000 500 roots\n{CHAIN}{MANY}",
    **{f"keeps {0x2000 + place:x}": f"9000 500 roots\n{CHAIN}{4000 - place} 1 {0x2000 + place:x} byte[]\n" for place in range(12)},
    "keeps a": "only by weak references\n",
    "keeps b": "not reached\n",
    "keeps c": "nothing at c\n",
    "keeps d": "5 2 roots\n5 2 d only by weak references\n",
}


class Keeps(unittest.TestCase):
    @classmethod
    def setUpClass(cls):
        folder = tempfile.TemporaryDirectory()
        cls.addClassCleanup(folder.cleanup)
        script = Path(folder.name) / "script"
        script.write_text(json.dumps({"answers": ANSWERS}))
        cls.viewer = Viewer(script, program=FAKE).__enter__()
        cls.addClassCleanup(cls.viewer.end)

    def test_the_roots(self):
        page = self.viewer.page("keeps/0")
        self.assertEqual(page.heading, "What holds the memory")
        self.assertIn("Bytes that strong references reach100Objects and classes9Only by weak references7 bytes in 2 objects", page.text)
        self.assertIn(["shop.Session 10", "60", "", "5", "look inside"], page.rows)
        self.assertIn(["class shop/<b> 11", "40", "", "3", "look inside"], page.rows)
        self.assertIn("<title>shop.Session 10: 60 bytes, 5 objects</title>", page.source)
        self.assertIn("<title>java.lang.Thread 13: 50 bytes, 3 objects</title>", page.source)
        for path in ("keeps/10", "keeps/11", "keeps/13", "class/11", "object/12"):
            self.assertIn(self.viewer.base + path, page.links)
        self.assertEqual(page.faults, [])

    def test_a_node(self):
        page = self.viewer.page("keeps/10")
        self.assertEqual(page.heading, "What shop.Session keeps")
        self.assertIn("Retained bytes60 of 100Retained objects5 of 9", page.text)
        self.assertIn("The roots keep it", page.text)
        self.assertIn(["<b> 14", "6", "", "1", "look inside"], page.rows)
        self.assertEqual(page.faults, [])

    def test_what_keeps_nothing(self):
        page = self.viewer.page("keeps/13")
        self.assertIn("Without any one of these it would be free:shop.Session 10 60 bytes, 5 objects", page.text)
        self.assertIn("It keeps nothing else alive.", page.text)
        self.assertNotIn("<svg", page.source)

    def test_long_lists(self):
        page = self.viewer.page("keeps/101d")
        self.assertIn("and 10 more", page.text)
        self.assertIn("page 1 of 3", page.text)
        self.assertEqual(self.viewer.page("keeps/101d?page=3").rows[-1], ["byte[] 20f9", "3,751", "", "1", "look inside"])
        self.assertEqual(self.viewer.page("keeps/101d?page=4", 404).heading, "No such page")

    def test_what_nothing_keeps(self):
        self.assertIn("Only weak references lead to it", self.viewer.page("keeps/a").text)
        self.assertIn("No GC root leads to it", self.viewer.page("keeps/b").text)
        self.assertIn("neither a class nor an object", self.viewer.page("keeps/c", 404).text)

    def test_a_class_with_the_name_of_a_line(self):
        self.assertEqual(self.viewer.page("keeps/d").heading, "What only by weak references keeps")


class OfTheSample(unittest.TestCase):
    def test_the_program(self):
        """From what holds the memory down to a session."""
        with Viewer(FRIDAY) as viewer:
            page = viewer.page("keeps/0")
            self.assertIn(viewer.base + "keeps/740000380", page.links)
            page = viewer.page("keeps/740000850")
            self.assertIn("Retained bytes135 of 1,729", page.text)
            self.assertIn("java.util.ArrayList 740000e58 1,066 bytes, 60 objects", page.text)
            self.assertIn(["java.util.ArrayList 7400007b8", "41", "", "4", "look inside"], page.rows)


class Boxes(unittest.TestCase):
    def test_areas(self):
        weights = [6, 6, 4, 3, 2, 2, 1]
        found = boxes(weights, Box(0, 0, 6, 4))
        for weight, box in zip(weights, found):
            self.assertAlmostEqual(box.width * box.height, weight)
        self.assertEqual([(box.x, box.y) for box in found[:2]], [(0, 0), (0, 2)])
        self.assertTrue(all(0.25 < box.width / box.height < 4 for box in found))

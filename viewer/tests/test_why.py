"""Why an object is alive: the lines of `why ID`, told by a script."""

import json
import tempfile
import unittest
from pathlib import Path

from .running import FAKE, FRIDAY, Viewer

HELP = "help\ncheck\nhisto\nclasses\nthreads\nobjects KIND\nwhy ID\ntext ID\nobject ID\nrefs ID\npath ID\n"
BASKET = "distance 2\nroot sticky class\nff5bfc40 class Basket\n  static 0 last\nff5dbc58 Basket\n  field 2 next\nff5dbc08 Basket\n"
ROOTS = [
    "JNI global 7f0070000008", "JNI local thread 1 no frame", "JNI local thread 1 frame 3", "Java frame thread 2 frame 0",
    "native stack thread 3", "sticky class", "thread block thread 4", "monitor used",
    "thread object thread 4294967295 trace 4294967295", "unknown",
]
LONG = "distance 249\nroot unknown\n" + "  field 0 next\n".join(f"{0x1000 + place:x} Node\n" for place in range(250))
MAILED = """\
distance 6
root Java frame thread 2 frame 1
  1f java/lang/Thread "mailer" at shop.Mailer.run(Mailer.java:31)
root JNI local thread 0 no frame
2a shop/Mail
  field 0 next
.. 4 more
2f shop/Mail
  field 1 session
c1 shop/Session
"""
WEAKLY = """\
only by weak references
distance 1
root Java frame thread 1 frame 1
  at shop.Server.main(Server.java:17)
3a java/lang/ref/WeakReference
  weak field 0 referent
c2 shop/Session
"""
FRAMES = "".join(f"root Java frame thread 1 frame {place}\n" for place in range(150))
ANSWERS = {
    "help": HELP,
    "object ff5dbc08": "instance ff5dbc08 class ff5bfc40 bytes 4 Basket\nfield 0 ff5bfc40 int 00000000 size\n",
    "why ff5dbc08": BASKET,
    "object a": "values a byte elements 1\nbytes 41\n",
    "why a": "distance 0\n" + "".join(f"root {root}\n" for root in ROOTS) + "a byte[]\n",
    "object b": "objects b class c elements 1 [Ljava/lang/Object;\nelement 0 0\n",
    "why b": f"distance 1\n{FRAMES}c class <b>\n  super 0\nb class \n",
    "object 10f9": "instance 10f9 class 1 bytes 0 Node\n",
    "why 10f9": LONG,
    "object c1": "instance c1 class 1 bytes 0 shop/Session\n",
    "why c1": MAILED,
    "object c2": "instance c2 class 1 bytes 0 shop/Session\n",
    "why c2": WEAKLY,
    **{f"object {0x2a + place:x}": f"instance {0x2a + place:x} class 7 bytes 8 shop/Mail\nfield 0 7 object {0x2b + place:08x} next\n"
       for place in range(5)},
    "object 2f": "instance 2f class 7 bytes 8 shop/Mail\nfield 0 7 object 00000000 next\n",
    "object d": "instance d class 1 bytes 0 Node\n",
    "why d": "not reached\n",
    "object e": "nothing at e\n",
    "why e": "nothing at e\n",
    "object f": "instance f class 1 bytes 0 Node\n",
    "why f": "distance 1\nroot unknown\n1 a field 0 b\n  field 0  spaces  in it \nf \\u003cb\\u003e\n",
}


class Why(unittest.TestCase):
    @classmethod
    def setUpClass(cls):
        folder = tempfile.TemporaryDirectory()
        cls.addClassCleanup(folder.cleanup)
        script = Path(folder.name) / "script"
        script.write_text(json.dumps({"answers": ANSWERS}))
        cls.viewer = Viewer(script, program=FAKE).__enter__()
        cls.addClassCleanup(cls.viewer.end)

    def test_a_path(self):
        page = self.viewer.page("why/ff5dbc08")
        self.assertIn("2 references lead to it from a GC root.root: sticky class", page.text)
        self.assertIn("class Basket ff5bfc40static field last \u2192 Basket ff5dbc58field next \u2192 Basket ff5dbc08", page.text)
        for path in ("class/ff5bfc40", "object/ff5dbc58", "object/ff5dbc08"):
            self.assertIn(self.viewer.base + path, page.links)
        self.assertEqual(page.faults, [])

    def test_roots_of_each_kind(self):
        text = self.viewer.page("why/a").text
        self.assertIn("0 references lead to it from a GC root." + "".join("root: " + root for root in ROOTS) + "byte[] a", text)

    def test_many_roots(self):
        page = self.viewer.page("why/b")
        self.assertEqual(page.text.count("root: "), 100)
        self.assertIn("1 reference leads to it", page.text)
        self.assertIn("frame 99and 50 other roots of the same", page.text)
        self.assertIn("class <b> csuper 0 \u2192 class (a name without bytes) b", page.text)

    def test_a_long_path(self):
        page = self.viewer.page("why/10f9?page=3")
        self.assertIn("page 3 of 3", page.text)
        self.assertNotIn("root: ", page.text)
        nodes = [f"{self.viewer.base}object/{0x1000 + place:x}" for place in range(200, 250)]
        self.assertEqual([link for link in page.links if "/object/" in link][1:], nodes)
        self.assertIn("field next \u2192 Node 10c8", page.text)
        self.assertIn('start="200"', page.source)
        self.assertEqual(self.viewer.page("why/10f9?page=4", 404).heading, "No such page")

    def test_a_thread_and_a_folded_stretch(self):
        page = self.viewer.page("why/c1")
        thread = ": 1f java/lang/Thread \"mailer\" at shop.Mailer.run(Mailer.java:31)"
        self.assertIn(f"root: Java frame thread 2 frame 1{thread}root: JNI local thread 0 no frameshop.Mail 2a", page.text)
        self.assertIn("field next \u2192 4 more \u2192 shop.Mail 2ffield session \u2192 shop.Session c1", page.text)
        self.assertIn(self.viewer.base + "threads?serial=2", page.links)
        along = self.viewer.base + "along/2a?field=0&count=4"
        self.assertIn(along, page.links)
        opened = self.viewer.page(along[len(self.viewer.base) :])
        self.assertIn("the field next leads to:2b shop.Mail2c shop.Mail2d shop.Mail2e shop.Mail4 objects from here", opened.text)
        self.assertEqual(page.faults + opened.faults, [])

    def test_along_what_is_no_list(self):
        self.assertEqual(self.viewer.page("along/a?field=0&count=4", 404).heading, "No such page")
        self.assertEqual(self.viewer.page("along/2a?field=x&count=4", 404).heading, "No such page")

    def test_weak_references_alone(self):
        page = self.viewer.page("why/c2")
        self.assertIn("Only weak references lead to it: they do not keep it alive.1 reference leads to it", page.text)
        self.assertIn("root: Java frame thread 1 frame 1: at shop.Server.main(Server.java:17)", page.text)
        self.assertIn("weak field referent \u2192 shop.Session c2", page.text)

    def test_no_path(self):
        self.assertIn("No GC root leads to it", self.viewer.page("why/d").text)
        self.assertIn("neither a class nor an object", self.viewer.page("why/e", 404).text)

    def test_names_with_spaces_and_markup(self):
        page = self.viewer.page("why/f")
        self.assertIn("a field 0 b 1field  spaces  in it  \u2192 <b> f", page.text)
        self.assertEqual(page.faults, [])


class OfTheSample(unittest.TestCase):
    def test_the_program(self):
        """The path of a session that is open, of one that is closed and waits in a queue, and of one to which a weak reference leads."""
        with Viewer(FRIDAY) as viewer:
            page = viewer.page("why/740000850")
            self.assertIn("root: JNI global 7f0070000008", page.text)
            self.assertIn("class shop.Server 740000410static field SESSIONS \u2192 java.util.ArrayList 740000e58", page.text)
            self.assertIn("element 2 \u2192 shop.Session 740000850", page.text)
            page = viewer.page("why/740000f20")
            self.assertIn("at shop.Mailer.run(Mailer.java:31)", page.text)
            self.assertIn("4 more \u2192 shop.Mail", page.text)
            self.assertIn("field session \u2192 shop.Session 740000f20", page.text)

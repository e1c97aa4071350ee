"""The suspects on the overview: the lines of `suspects`, told by a script."""

import json
import tempfile
import unittest
from pathlib import Path

from .running import FAKE, Viewer

HELP = "help\ncheck\nhisto\nclasses\nthreads\nsuspects\nretained\nobjects KIND\nwhy ID\nkeeps ID\ntext ID\nobject ID\nrefs ID\n"
CHAIN = "".join(f"{9000 - place} {500 - place} {0x1000 + place:x} Node\n" for place in range(20))
FOUND = f"""\
10000 600 roots
5 1 only by weak references
suspect 60% 6000
{CHAIN[: CHAIN.index("8990 ")]}.. 30 more
{CHAIN[CHAIN.index("8990 ") :]}  5000 7 shop/Session
  900 3 byte[]
suspect 30% 3000
3000 5 2a class <b>
suspect 10% 1000
  1000 90 \\u003cb\\u003e
"""
ANSWERS = {
    "help": HELP,
    "check": "part 0: version 1.0.2 ids 4 time 1 records 1 facts 1 end yes\nnames 0\n",
    "histo": "10 1 1 Node\n20 7 33 shop/Session\n900 3 - byte[]\n",
    "suspects": FOUND,
}


class Suspects(unittest.TestCase):
    def viewer(self, answers):
        folder = tempfile.TemporaryDirectory()
        self.addCleanup(folder.cleanup)
        script = Path(folder.name) / "script"
        script.write_text(json.dumps({"answers": answers}))
        viewer = Viewer(script, program=FAKE).__enter__()
        self.addCleanup(viewer.end)
        return viewer

    def test_the_overview(self):
        viewer = self.viewer(ANSWERS)
        page = viewer.page("")
        pieces = "5,000 bytes in 7 shop.Session; 900 bytes in 3 byte[]"
        self.assertIn(f"Where the memory is held60 %Node 1013holds 6,000 bytes: {pieces}", page.text)
        self.assertIn("kept by 19 objects aboveNode 1000", page.text)
        self.assertIn("Node 1009and 30 moreNode 100a", page.text)
        self.assertIn("30 %class <b> 2aholds 3,000 bytes", page.text)
        self.assertIn("10 %The roots togetherholds 1,000 bytes: 1,000 bytes in 90 <b>", page.text)
        for path in ("keeps/1013", "keeps/1000", "keeps/2a", "keeps/0", "class/33?by=retained", "type/byte?by=retained"):
            self.assertIn(viewer.base + path, page.links)
        self.assertEqual(page.faults, [])
        self.assertNotIn("Where the memory is held", viewer.page("?filter=nope").text)

    def test_none(self):
        self.assertNotIn("Where the memory is held", self.viewer({**ANSWERS, "suspects": "0 0 roots\n"}).page("").text)
        self.assertNotIn("Where the memory is held", self.viewer({**ANSWERS, "help": HELP.replace("suspects\n", "")}).page("").text)

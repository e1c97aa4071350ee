"""The page of threads: the lines of `threads`, told by a script."""

import json
import tempfile
import unittest
from pathlib import Path

from .running import FAKE, FRIDAY, Viewer

THREADS = """\
thread 1 20 java/lang/Thread "<main>"
  at java.lang.Thread.park(Native Method)
  at shop.Node.run(Node.java:41)
    10 shop/Node
    11 class shop/Node
  frame 9
    11 class shop/Node
  no frame
    23 not in the dump
  native stack
    10 shop/Node
thread 2
  thread block
    11 class shop/Node
"""
MANY = "".join(f"thread {serial}\n" for serial in range(3, 123))
ANSWERS = {"help": "help\ncheck\nhisto\nclasses\nthreads\n", "threads": THREADS + MANY}


class Threads(unittest.TestCase):
    @classmethod
    def setUpClass(cls):
        folder = tempfile.TemporaryDirectory()
        cls.addClassCleanup(folder.cleanup)
        script = Path(folder.name) / "script"
        script.write_text(json.dumps({"answers": ANSWERS}))
        cls.viewer = Viewer(script, program=FAKE).__enter__()
        cls.addClassCleanup(cls.viewer.end)

    def test_stacks_and_what_frames_hold(self):
        page = self.viewer.page("threads")
        self.assertIn("122 threads. Below a frame stand the objects that it holds.", page.text)
        self.assertIn("Thread 1: java.lang.Thread 20 \"<main>\"at java.lang.Thread.park(Native Method)", page.text)
        self.assertIn("at shop.Node.run(Node.java:41)shop.Node 10class shop.Node 11frame 9class shop.Node 11", page.text)
        self.assertIn("no frame23 not in the dumpnative stackshop.Node 10Thread 2thread blockclass shop.Node 11", page.text)
        self.assertIn(self.viewer.base + "class/11", page.links)
        self.assertEqual(page.faults, [])

    def test_pages(self):
        page = self.viewer.page("threads?page=3")
        self.assertIn("page 3 of 3", page.text)
        self.assertIn("Thread 122", page.text)
        self.assertEqual(self.viewer.page("threads?page=4", 404).heading, "No such page")

    def test_one_thread(self):
        page = self.viewer.page("threads?serial=2")
        self.assertEqual(page.heading, "Thread 2")
        self.assertIn("thread blockclass shop.Node 11", page.text)
        self.assertNotIn("Thread 1", page.text)
        self.assertIn(self.viewer.base + "threads", page.links)
        self.assertEqual(self.viewer.page("threads?serial=999", 404).heading, "No such page")


class OfTheSample(unittest.TestCase):
    def test_the_program(self):
        with Viewer(FRIDAY) as viewer:
            text = viewer.page("threads").text
            self.assertIn('java.lang.Thread 740000f88 "main"at shop.Server.accept(Server.java:42)', text)
            self.assertIn("at java.lang.Thread.sleep(Native Method)at shop.Mailer.run(Mailer.java:31)shop.Mail", text)

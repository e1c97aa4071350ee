"""How much of its files a process has read, as the system tells it."""

import subprocess
import sys
import tempfile
import unittest
from pathlib import Path

from view.places import Places

READER = """
import os, sys
files = [os.open(path, os.O_RDONLY) for path in sys.argv[1:]]
for line in sys.stdin:
    place, size = map(int, line.split())
    if size:
        os.read(files[place], size)
    else:
        os.close(files[place])
    print("done", flush=True)
"""


@unittest.skipUnless(Path("/proc/self/fdinfo").exists(), "the system does not tell")
class ReadSoFar(unittest.TestCase):
    def setUp(self):
        self.folder = tempfile.TemporaryDirectory()
        self.addCleanup(self.folder.cleanup)
        self.paths = [str(Path(self.folder.name) / name) for name in ("one", "two")]
        for path, size in zip(self.paths, (1000, 500)):
            Path(path).write_bytes(bytes(size))

    def reader(self, parts):
        process = subprocess.Popen([sys.executable, "-c", READER, *parts], stdin=subprocess.PIPE, stdout=subprocess.PIPE, text=True)
        self.addCleanup(lambda: process.communicate())
        places = Places(process.pid, parts)

        def after(place, size):
            process.stdin.write(f"{place} {size}\n")
            process.stdin.flush()
            process.stdout.readline()
            return places.read()

        return places, after

    def test_parts_one_after_the_other(self):
        places, after = self.reader(self.paths)
        self.assertEqual(places.total(), 1500)
        self.assertEqual([after(0, 300), after(0, 700), after(1, 100)], [300, 1000, 1100])

    def test_a_part_that_was_closed_was_read(self):
        _, after = self.reader(self.paths)
        self.assertEqual([after(0, 1000), after(0, 0), after(1, 500), after(1, 0)], [1000, 1000, 1500, 1500])

    def test_one_file_named_twice(self):
        places, after = self.reader([self.paths[0], self.paths[0]])
        self.assertEqual(places.total(), 2000)
        self.assertEqual([after(0, 400), after(1, 50)], [400, 450])

    def test_no_process_and_no_file(self):
        self.assertEqual(Places(0, [self.paths[0], "nowhere"]).read(), 0)
        self.assertEqual(Places(0, [self.paths[0], "nowhere"]).total(), 1000)

"""The command `python3 -m hprof`."""

import json
import subprocess
import sys
import unittest

from hprof.document import document
from hprof.reports import REPORTS

from .support import FRIDAY, MONDAY, SAMPLES, hostile_module, script

KIM = 0x740000F20


def run(*words, **options):
    command = [sys.executable, "-m", "hprof", *map(str, words)]
    return subprocess.run(command, stdout=subprocess.PIPE, stderr=subprocess.PIPE, text=True, cwd=SAMPLES, timeout=60, **options)


class Command(unittest.TestCase):
    def found(self, *words, **options):
        """The document of a report."""
        done = run(*words, "--json", **options)
        self.assertEqual((done.returncode, done.stderr), (0, ""))
        return json.loads(done.stdout)

    def test_histo(self):
        rows = self.found("histo", "friday.hprof")
        self.assertEqual(rows[0], {"bytes": 605, "count": 40, "id": None, "label": "byte[]"})
        self.assertEqual(rows[2], {"bytes": 352, "count": 11, "id": "0x7400003a0", "label": "shop/Session"})

    def test_diff(self):
        self.assertEqual(self.found("diff", MONDAY, FRIDAY)[2], {"bytes": 192, "count": 6, "label": "shop/Session"})

    def test_check_and_classes(self):
        self.assertEqual(self.found("check", FRIDAY)["parts"][0]["version"], "1.0.2")
        self.assertIn("0x7400003a0", [row["id"] for row in self.found("classes", FRIDAY)])

    def test_why(self):
        for word in (f"{KIM:x}", f"0x{KIM:x}", f"0X{KIM:X}"):
            found = self.found("why", word, FRIDAY)
            self.assertEqual((found["reached"], found["distance"]), ("strongly", 6))
            self.assertEqual(found["steps"][1]["node"]["id"], "0x7400010c0")
            self.assertEqual(found["steps"][1]["reference"], {"kind": "field", "position": 1, "name": "session", "weak": False})

    def test_retained_and_suspects(self):
        self.assertEqual(self.found("retained", FRIDAY)[0], {"retained": 1215, "bytes": 288, "count": 9, "label": "shop/Session"})
        self.assertEqual([one["percent"] for one in self.found("suspects", FRIDAY)["suspects"]][0], 60)

    def test_each_report(self):
        words = {"": [], "kind": ["shop.Session"], "node": ["shop.Server"], "id": [f"{KIM:x}"]}
        for report in REPORTS:
            with self.subTest(report=report.word):
                self.assertTrue(self.found(report.word, *words[report.takes], FRIDAY) or report.word == "text")

    def test_a_dump_in_a_pipe(self):
        with open(FRIDAY, "rb") as dump:
            self.assertEqual(self.found("histo", "/dev/stdin", stdin=dump)[0]["bytes"], 605)

    def test_each_number_of_a_hostile_dump(self):
        """Numbers that JSON does not have are words."""
        hostile = hostile_module().hostile()
        command = [sys.executable, "-m", "hprof", "show", "5600", "/dev/stdin", "--json"]
        found = json.loads(subprocess.run(command, input=hostile, stdout=subprocess.PIPE).stdout)
        self.assertEqual(found["dump"]["numbers"][:3], ["NaN", "Infinity", "-Infinity"])
        self.assertEqual(json.loads(document((float("nan"), b"\x01\xff", True, None))), ["NaN", "01ff", True, None])

    def test_refusals(self):
        refused = ((("why", "zz"), "no class has this name"), (("text", "1"), "nothing at 1"), (("check", MONDAY), "conflict at load 1"))
        for words, text in refused:
            done = run(*words, FRIDAY, "--json")
            self.assertEqual((done.returncode, done.stdout, done.stderr), (1, "", f"hprof: {text}\n"))
        done = run("histo", FRIDAY, "--json", "--program", "/nowhere/hprof")
        self.assertEqual((done.returncode, done.stdout), (1, ""))
        self.assertIn("no program", done.stderr)

    def test_words_that_are_not_understood(self):
        of_friday = (("nope",), ("why",), ("diff",), ("text", "zz"), ("histo", "--nope"))
        for words in ((), ("histo",), *((*words, FRIDAY) for words in of_friday)):
            done = run(*words, "--json")
            self.assertEqual((done.returncode, done.stdout), (2, ""), words)
            self.assertTrue(done.stderr)
        self.assertEqual(run("histo", FRIDAY).returncode, 2)

    def test_an_answer_that_is_no_report(self):
        with script("for line in sys.stdin:\n    print('nonsense', end='\\n\\n', flush=True)") as path:
            done = run("histo", FRIDAY, "--json", "--program", path)
        self.assertEqual((done.returncode, done.stdout), (1, ""))
        self.assertEqual(done.stderr, "hprof: not a line of the report: 'nonsense'\n")

"""The package has all that the program has: its reports, and their subjects."""

import re
import subprocess
import unittest

from hprof import Heap
from hprof.reports import BY_WORD, REPORTS, asked

from .support import FRIDAY, program

SUBJECTS = {"": ("",), "kind": ("KIND",), "node": ("ID",), "id": ("ID",)}


class Words(unittest.TestCase):
    def test_each_report_that_ask_knows_has_a_method(self):
        said = subprocess.run([program(), "--help"], stdout=subprocess.PIPE, text=True, check=True).stdout
        commands = re.findall(r"(?m)^  (\w+)  +\S", said.split("Commands:")[1].split("Options:")[0])
        answer = subprocess.run([program(), "ask", FRIDAY], input="help\n", stdout=subprocess.PIPE, text=True, check=True).stdout
        questions = {line.partition(" ")[0]: line.partition(" ")[2] for line in answer.splitlines() if line}
        known = (set(commands) & set(questions)) - {"help"}
        self.assertIn("why", known)
        for word in known:
            with self.subTest(word=word):
                self.assertTrue(callable(getattr(Heap, BY_WORD[word].method)))
                self.assertIn(questions[word], SUBJECTS[BY_WORD[word].takes])
        self.assertEqual({report.word for report in REPORTS}, known)

    def test_a_question(self):
        self.assertEqual(asked("histo").line, "histo")
        self.assertEqual(asked(("histogram",)).line, "histo")
        self.assertEqual(asked(("why", 0xABC)).line, "why abc")
        self.assertEqual(asked(("keeps", 0)).line, "keeps 0")
        self.assertEqual(asked(("path", (1 << 64) - 1)).line, "path ffffffffffffffff")
        self.assertEqual(asked(("objects", "byte[]")).line, "objects byte[]")

    def test_no_text_becomes_a_second_line(self):
        self.assertEqual(asked(("objects", "a\nquit")).line, "objects a\\u000aquit")
        self.assertEqual(asked(("show", "\u00c9\\")).line, "show \\u00c9\\u005c")

    def test_what_is_no_question(self):
        for words in ("nope", (), ("why",), ("check", 1), ("why", 1, 2), ("why", -1), ("why", 1 << 64)):
            with self.subTest(words=words), self.assertRaises(ValueError):
                asked(words)
        for words in (("text", "7400007f0"), ("why", True), ("why", 1.0), ("objects", None)):
            with self.subTest(words=words), self.assertRaises(TypeError):
                asked(words)

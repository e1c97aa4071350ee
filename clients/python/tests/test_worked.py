"""Each text of a report in the table of worked cases is understood, and nothing of it is lost."""

import unittest
from collections import Counter

from hprof.counts import growth
from hprof.errors import NothingAt, SeveralClasses
from hprof.lines import Lines
from hprof.reports import BY_WORD, REPORTS, Asked

from . import printing
from .worked import texts


class Worked(unittest.TestCase):
    def test_a_value_has_all_of_its_text(self):
        seen = Counter()
        for report, subject, text in texts():
            with self.subTest(report=report, text=text):
                seen[report] += self.read(report, subject, text)
        self.assertEqual(set(seen), {report.word for report in REPORTS} | {"diff"})
        self.assertTrue(all(number >= 3 for number in seen.values()), seen)

    def read(self, report, subject, text):
        """Whether the text is that of a value, which is compared with the text."""
        if report == "diff":
            self.assertEqual(printing.diff(growth(Lines(text))), text)
            return True
        try:
            value = Asked(BY_WORD[report], report, True).read(text)
        except NothingAt as nothing:
            self.assertEqual(f"nothing at {nothing.id:x}\n", text)
            return False
        except SeveralClasses as several:
            self.assertEqual(several.text + "\n" + "".join(printing.node(one) + "\n" for one in several.nodes), text)
            return False
        self.assertEqual(printing.with_numbers(printing.report(report, subject, value)), printing.with_numbers(text))
        return True

"""The examples of docs/PYTHON.md, run in the folder of the sample dumps."""

import doctest
import os
import re
import unittest

import hprof
from hprof.reports import REPORTS

from .support import ROOT, SAMPLES

PAGE = ROOT / "docs" / "PYTHON.md"


class Page(unittest.TestCase):
    def setUp(self):
        self.addCleanup(os.chdir, os.getcwd())
        os.chdir(SAMPLES)

    def test_examples(self):
        failed, tried = doctest.testfile(str(PAGE), module_relative=False, encoding="utf-8", optionflags=doctest.IGNORE_EXCEPTION_DETAIL)
        self.assertEqual(failed, 0)
        self.assertGreater(tried, 15)

    def test_all_reports_and_errors_are_named(self):
        text = PAGE.read_text(encoding="utf-8")
        self.assertEqual(set(re.findall(r"`heap\.(\w+)\(", text)), {report.method for report in REPORTS})
        values = {name: getattr(hprof, name) for name in hprof.__all__}
        errors = {name for name, value in values.items() if isinstance(value, type) and issubclass(value, hprof.Error)}
        self.assertEqual(set(re.findall(r"`hprof\.([A-Z]\w+)`", text)), errors)

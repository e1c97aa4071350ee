"""The code of the viewer: it runs with Python 3.8 and its standard library, and keeps to what CONTRIBUTING asks for."""

import ast
import sys
import unittest
from pathlib import Path

from .running import ROOT

VIEWER = ROOT / "viewer"
FILES = [*sorted(VIEWER.glob("**/*.py")), VIEWER / "test", VIEWER / "browser_test", VIEWER / "tests" / "fake_hprof"]
OURS = {"view", "tests", "selenium", "hprof"}
NAMES = getattr(sys, "stdlib_module_names", None)


class Code(unittest.TestCase):
    def trees(self):
        self.assertGreater(len(FILES), 30)
        return [(path, ast.parse(path.read_text(encoding="utf-8"), feature_version=(3, 8))) for path in FILES]

    @unittest.skipUnless(NAMES, "this Python does not list its library")
    def test_standard_library_alone(self):
        for path, tree in self.trees():
            for node in ast.walk(tree):
                modules = [one.name for one in node.names] if isinstance(node, ast.Import) else []
                modules += [node.module] if isinstance(node, ast.ImportFrom) and not node.level else []
                for module in modules:
                    self.assertIn(module.split(".")[0], OURS | NAMES, path)
                    self.assertTrue(not module.startswith("selenium") or path.name == "browser_test", path)

    def test_no_later_function_of_the_library(self):
        later = {"removeprefix", "removesuffix", "cache", "bit_count", "pairwise", "enterClassContext", "hardlink_to", "to_thread"}
        for path, tree in self.trees():
            found = {node.attr for node in ast.walk(tree) if isinstance(node, ast.Attribute)} & later
            self.assertEqual(found, set(), path)

    def test_length(self):
        for path, tree in self.trees():
            for node in ast.walk(tree):
                if isinstance(node, ast.FunctionDef):
                    self.assertLessEqual(node.end_lineno - node.lineno + 1, 40, f"{path.name}: {node.name}")
            for number, line in enumerate(path.read_text(encoding="utf-8").splitlines(), 1):
                self.assertLessEqual(len(line), 140, f"{path.name}: {number}")

    def test_each_file_says_what_it_is(self):
        for path, tree in self.trees():
            self.assertTrue(ast.get_docstring(tree), path)

    def test_nothing_of_it_opens_a_dump(self):
        """Files are opened to read places, and to write the private page of `--open`; `os.pread` reads the lines of `diff`."""
        opened = {}
        for path, tree in self.trees():
            if (VIEWER / "view") in path.parents:
                for node in ast.walk(tree):
                    name = getattr(node.func, "id", getattr(node.func, "attr", "")) if isinstance(node, ast.Call) else ""
                    if name in {"open", "fdopen", "pread", "read_bytes", "read_text", "TemporaryFile", "mkstemp"}:
                        opened.setdefault(path.name, set()).add(name)
        self.assertEqual(opened, {
            "places.py": {"open"},
            "opening.py": {"mkstemp", "fdopen", "open"},
            "growth.py": {"TemporaryFile", "pread"},
            "command.py": {"open"},
        })


class Opening(unittest.TestCase):
    def test_a_private_page_leads_on(self):
        from unittest import mock

        from view.opening import Opener

        opener = Opener("http://127.0.0.1:1/secret/")
        path = Path(opener.path)
        with mock.patch("webbrowser.open", return_value=True) as opened:
            self.assertTrue(opener.open())
        self.assertEqual(opened.call_args[0][0], f"file://{path}")
        self.assertEqual(path.stat().st_mode & 0o777, 0o600)
        self.assertIn('content="0;url=http://127.0.0.1:1/secret/"', path.read_text(encoding="utf-8"))
        opener.end()
        self.assertFalse(path.exists())

"""The code of install and of the checks: it runs with Python 3.8 and its standard library, and keeps to what CONTRIBUTING asks for."""

import ast
import sys
import unittest
from pathlib import Path

HERE = Path(__file__).resolve().parents[1]
INSTALL = HERE.parent / "install"
FILES = [INSTALL, HERE / "test", *sorted(HERE.glob("*.py")), *sorted(HERE.glob("tests/*.py"))]
OURS = {"completions"}
NAMES = getattr(sys, "stdlib_module_names", None)


class Code(unittest.TestCase):
    def trees(self):
        self.assertGreater(len(FILES), 6)
        return [(path, ast.parse(path.read_text(encoding="utf-8"), feature_version=(3, 8))) for path in FILES]

    @unittest.skipUnless(NAMES, "this Python does not list its library")
    def test_standard_library_alone(self):
        for path, tree in self.trees():
            for node in ast.walk(tree):
                modules = [one.name for one in node.names] if isinstance(node, ast.Import) else []
                modules += [node.module] if isinstance(node, ast.ImportFrom) and not node.level else []
                for module in modules:
                    self.assertIn(module.split(".")[0], OURS | NAMES, path)

    def test_no_later_function_of_the_library(self):
        later = {"removeprefix", "removesuffix", "cache", "bit_count", "pairwise", "enterContext", "hardlink_to", "is_relative_to"}
        for path, tree in self.trees():
            found = {node.attr for node in ast.walk(tree) if isinstance(node, ast.Attribute)} & later
            self.assertEqual(found, set(), path)

    def test_length(self):
        for path, tree in self.trees():
            for node in ast.walk(tree):
                if isinstance(node, ast.FunctionDef):
                    self.assertLessEqual(node.end_lineno - node.lineno + 1, 40, f"{path.name}: {node.name}")
            for number, line in enumerate(path.read_text(encoding="utf-8").splitlines(), 1):
                self.assertLessEqual(len(line), 140, f"{path.name}: {number}")

    def test_each_file_says_what_it_is(self):
        for path, tree in self.trees():
            self.assertTrue(ast.get_docstring(tree), path)

    def test_each_function_of_install_has_types(self):
        for node in ast.walk(ast.parse(INSTALL.read_text(encoding="utf-8"))):
            if isinstance(node, ast.FunctionDef):
                typed = [node.returns, *(word.annotation for word in node.args.args if word.arg != "self")]
                self.assertNotIn(None, typed, node.name)

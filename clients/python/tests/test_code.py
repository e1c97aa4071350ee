"""The code of the package: it runs with Python 3.8 and its standard library, and keeps to what CONTRIBUTING asks for."""

import ast
import subprocess
import sys
import unittest
from pathlib import Path

HERE = Path(__file__).resolve().parents[1]
FILES = [*sorted(HERE.glob("*.py")), *sorted(HERE.glob("hprof/*.py")), *sorted(HERE.glob("tests/*.py")), HERE / "test"]
NAMES = getattr(sys, "stdlib_module_names", None)


class Code(unittest.TestCase):
    def trees(self):
        self.assertGreater(len(FILES), 30)
        return [(path, ast.parse(path.read_text(encoding="utf-8"), feature_version=(3, 8))) for path in FILES]

    @unittest.skipUnless(NAMES, "this Python does not list its library")
    def test_standard_library_alone(self):
        for path, tree in self.trees():
            for node in ast.walk(tree):
                modules = [one.name for one in node.names] if isinstance(node, ast.Import) else []
                modules += [node.module] if isinstance(node, ast.ImportFrom) and not node.level else []
                for module in modules:
                    self.assertIn(module.split(".")[0], {"hprof"} | NAMES, path)

    def test_no_later_function_of_the_library(self):
        later = {"removeprefix", "removesuffix", "cache", "bit_count", "pairwise", "enterContext", "hardlink_to", "to_thread"}
        for path, tree in self.trees():
            self.assertEqual({node.attr for node in ast.walk(tree) if isinstance(node, ast.Attribute)} & later, set(), path)

    def test_the_tests_need_a_program(self):
        done = subprocess.run([sys.executable, str(HERE / "test"), "--hprof", "/nowhere/hprof"], stderr=subprocess.PIPE, text=True)
        self.assertEqual(done.returncode, 1)
        self.assertIn("no program at /nowhere/hprof", done.stderr)

    def test_length(self):
        for path, tree in self.trees():
            for node in ast.walk(tree):
                if isinstance(node, ast.FunctionDef):
                    self.assertLessEqual(node.end_lineno - node.lineno + 1, 40, f"{path.name}: {node.name}")
            for number, line in enumerate(path.read_text(encoding="utf-8").splitlines(), 1):
                self.assertLessEqual(len(line), 140, f"{path.name}: {number}")

    def test_each_file_says_what_it_is(self):
        for path, tree in self.trees():
            self.assertTrue(ast.get_docstring(tree), path)

    def test_each_function_of_the_package_has_types(self):
        for path, tree in self.trees():
            for node in ast.walk(tree) if path.parent.name == "hprof" else []:
                if isinstance(node, ast.FunctionDef):
                    words = [word for word in node.args.args + node.args.kwonlyargs if word.arg != "self" and word.arg != "cls"]
                    typed = [node.returns, *(word.annotation for word in words)]
                    self.assertNotIn(None, typed, f"{path.name}: {node.name}")

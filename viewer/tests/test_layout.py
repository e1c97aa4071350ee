"""Where the package hprof is: beside the viewer in the tree, or installed; and what is said if it is nowhere."""

import importlib.util
import os
import shutil
import subprocess
import sys
import tempfile
import unittest
from pathlib import Path

import hprof

from .running import FRIDAY, ROOT, Viewer

PACKAGE = ROOT / "clients" / "python"


def without_package(**more):
    """The variables of a program that does not find the package by them."""
    return {**{name: value for name, value in os.environ.items() if name != "PYTHONPATH"}, **more}


class Layout(unittest.TestCase):
    def setUp(self):
        folder = tempfile.TemporaryDirectory()
        self.addCleanup(folder.cleanup)
        self.folder = Path(folder.name)

    def moved(self, *into):
        """The viewer alone, copied into a folder."""
        target = self.folder.joinpath(*into, "viewer")
        shutil.copytree(ROOT / "viewer" / "view", target / "view", ignore=shutil.ignore_patterns("__pycache__"))
        return Path(shutil.copy(ROOT / "viewer" / "hprof_view.py", target))

    def wheel(self):
        """The package as pip gets it."""
        spec = importlib.util.spec_from_file_location("build_backend", PACKAGE / "build_backend.py")
        backend = importlib.util.module_from_spec(spec)
        spec.loader.exec_module(backend)
        return self.folder / backend.build_wheel(self.folder)

    def test_the_tests_take_the_package_of_the_tree(self):
        self.assertEqual(Path(hprof.__file__).resolve().parent, PACKAGE / "hprof")

    def test_the_package_beside_it_comes_first(self):
        other = self.folder / "other" / "hprof"
        other.mkdir(parents=True)
        (other / "__init__.py").write_text("raise ImportError('another package')\n")
        with Viewer(FRIDAY, env=without_package(PYTHONPATH=str(other.parent))) as viewer:
            self.assertIn("116 objects", viewer.page("").text)

    def test_an_installed_package(self):
        script = self.moved("deep", "in")
        with Viewer(FRIDAY, script=script, env=without_package(PYTHONPATH=str(self.wheel()))) as viewer:
            self.assertIn("116 objects", viewer.page("").text)
            self.assertEqual(viewer.page("object/740000850").heading, "shop.Session")
            self.assertEqual(viewer.end(), (0, ""))

    def test_no_package(self):
        """Without the folder of installed packages."""
        command = [sys.executable, "-S", "-s", str(self.moved("deep", "in")), str(FRIDAY)]
        done = subprocess.run(command, env=without_package(), stdout=subprocess.PIPE, stderr=subprocess.PIPE, text=True, timeout=20)
        self.assertEqual((done.returncode, done.stdout), (1, ""))
        self.assertIn("hprof_view: needs the Python package hprof", done.stderr)
        self.assertNotIn("Traceback", done.stderr)

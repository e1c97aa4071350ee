"""The package as pip builds it: the wheel, its list of files, and the archive of the sources."""

import base64
import hashlib
import importlib.util
import re
import subprocess
import sys
import tarfile
import tempfile
import unittest
import zipfile
from pathlib import Path

import hprof

from .support import FRIDAY

HERE = Path(__file__).resolve().parents[1]


def backend():
    spec = importlib.util.spec_from_file_location("build_backend", HERE / "build_backend.py")
    module = importlib.util.module_from_spec(spec)
    spec.loader.exec_module(module)
    return module


class Build(unittest.TestCase):
    def setUp(self):
        folder = tempfile.TemporaryDirectory()
        self.addCleanup(folder.cleanup)
        self.folder = Path(folder.name)

    def test_a_wheel_runs(self):
        wheel = self.folder / backend().build_wheel(self.folder)
        command = [sys.executable, "-m", "hprof", "histo", FRIDAY, "--json"]
        done = subprocess.run(command, env={"PYTHONPATH": str(wheel), **environment()}, cwd=self.folder, stdout=subprocess.PIPE, check=True)
        self.assertIn(b"shop/Session", done.stdout)

    def test_a_wheel_lists_its_files(self):
        with zipfile.ZipFile(self.folder / backend().build_wheel(self.folder)) as wheel:
            names = wheel.namelist()
            listed = dict(line.split(",", 1) for line in wheel.read("hprof-0.1.0.dist-info/RECORD").decode().splitlines())
            self.assertEqual(sorted(listed), sorted(names))
            for name in names[:-1]:
                digest = base64.urlsafe_b64encode(hashlib.sha256(wheel.read(name)).digest()).rstrip(b"=").decode()
                self.assertEqual(listed[name], f"sha256={digest},{len(wheel.read(name))}")
        self.assertIn("hprof/py.typed", names)
        self.assertEqual({path.name for path in (HERE / "hprof").glob("*.py")}, {Path(name).name for name in names if name.endswith(".py")})

    def test_sources(self):
        with tarfile.open(self.folder / backend().build_sdist(self.folder)) as archive:
            names = archive.getnames()
        for name in ("pyproject.toml", "build_backend.py", "hprof/__init__.py", "hprof/py.typed"):
            self.assertIn(f"hprof-0.1.0/{name}", names)

    def test_one_version(self):
        said = re.search(r'(?m)^version = "(.*)"$', (HERE / "pyproject.toml").read_text()).group(1)
        self.assertEqual((said, backend().VERSION, hprof.__version__), ("0.1.0",) * 3)


def environment():
    """The variables of a program that is found, without the path to the sources."""
    import os

    return {name: value for name, value in os.environ.items() if name != "PYTHONPATH"}

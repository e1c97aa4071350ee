"""install: what it puts below a prefix, that this works from there, and that nothing of it is left."""

import json
import os
import site
import subprocess
import sys
import tempfile
import unittest
from pathlib import Path

ROOT = Path(__file__).resolve().parents[2]
INSTALL = ROOT / "install"
SAMPLES = ROOT / "crates" / "hprof" / "data"
LIST = "lib/hprof/installed.json"
PLACES = {
    "bin/hprof",
    "bin/hprof-view",
    "lib/hprof/viewer/hprof_view.py",
    "lib/hprof/python/hprof/__init__.py",
    "lib/hprof/python/hprof/py.typed",
    "share/man/man1/hprof.1",
    "share/bash-completion/completions/hprof",
    "share/zsh/site-functions/_hprof",
    "share/fish/vendor_completions.d/hprof.fish",
}

# Variables that would lead a program elsewhere.
TAKEN = {"HPROF", "DESTDIR", "PYTHONPATH", "PYTHONNOUSERSITE", "PYTHONUSERBASE"}


def files_below(folder):
    """Each file below a folder, with its contents and its mode."""
    paths = [path for path in folder.rglob("*") if not path.is_dir()]
    return {path.relative_to(folder).as_posix(): (path.read_bytes(), path.stat().st_mode & 0o777) for path in paths}


class Installing(unittest.TestCase):
    """The empty home of a user. What is installed there is not on the path."""

    def setUp(self):
        folder = tempfile.TemporaryDirectory()
        self.addCleanup(folder.cleanup)
        self.live_in(folder)

    def live_in(self, folder):
        self.home = Path(folder.name).resolve() / "home of a user"
        self.home.mkdir(exist_ok=True)
        self.prefix = self.home / ".local"
        self.environment = {**{name: value for name, value in os.environ.items() if name not in TAKEN}, "HOME": str(self.home)}

    def run_words(self, *words, status=0, environment=None):
        """What a command prints: its standard output if it is done, its standard error if it fails."""
        done = subprocess.run([str(word) for word in words], env={**self.environment, **(environment or {})}, cwd=SAMPLES,
                              stdout=subprocess.PIPE, stderr=subprocess.PIPE, text=True, timeout=60)
        self.assertEqual(done.returncode, status, f"{words}\n{done.stdout}{done.stderr}")
        return done.stderr if status else done.stdout

    def install(self, *words, status=0, **environment):
        return self.run_words(sys.executable, INSTALL, "--hprof", os.environ["HPROF"], *words, status=status, environment=environment)

    def python(self, code):
        return self.run_words(sys.executable, "-c", code).strip()


class Works(Installing):
    """One installation, which the tests look at."""

    folder = said = None

    def setUp(self):
        if not Works.folder:
            Works.folder = tempfile.TemporaryDirectory()
            self.addClassCleanup(Works.folder.cleanup)
            self.live_in(Works.folder)
            Works.said = self.install()
        self.live_in(Works.folder)

    def test_files(self):
        found = files_below(self.prefix)
        self.assertEqual(PLACES - set(found), set())
        view = {path.name for path in (ROOT / "viewer" / "view").rglob("*") if path.is_file() and "__pycache__" not in path.parts}
        self.assertEqual({Path(place).name for place in found if "/viewer/view/" in place}, view)
        self.assertEqual({place for place, (_, mode) in found.items() if mode == 0o755}, {"bin/hprof", "bin/hprof-view"})
        self.assertEqual({mode for _, mode in found.values()}, {0o755, 0o644})
        self.assertEqual(found["bin/hprof"][0], Path(os.environ["HPROF"]).read_bytes())
        for place in set(found) - {LIST}:
            self.assertIn(f"installed {self.prefix / place}\n", self.said)
        self.assertEqual(set(json.loads(found[LIST][0])["files"]), set(found) - {LIST})
        self.assertIn(f"{self.prefix}/bin is not on PATH", self.said)

    def test_programs(self):
        hprof = self.prefix / "bin" / "hprof"
        self.assertIn("Usage: hprof", self.run_words(hprof, "--help"))
        self.assertIn("352 11 7400003a0 shop/Session\n", self.run_words(hprof, "histo", "friday.hprof"))
        link = self.home / "a link"
        link.symlink_to(self.prefix / "bin" / "hprof-view")
        for view in (self.prefix / "bin" / "hprof-view", link):
            self.assertIn("show what grew from one dump to another", self.run_words(view, "--help"))

    def test_the_viewer_runs_the_program_beside_it(self):
        """The one on the path is a fake that refuses; and the dump is refused by the one beside the viewer."""
        fake = self.home / "hprof"
        fake.write_text("#!/bin/sh\necho 'hprof: a fake' >&2\nexit 1\n")
        fake.chmod(0o755)
        view = [self.prefix / "bin" / "hprof-view", INSTALL]
        program = subprocess.Popen([str(word) for word in view], env={**self.environment, "PATH": f"{self.home}:{os.environ['PATH']}"},
                                   stdout=subprocess.DEVNULL, stderr=subprocess.PIPE, text=True)
        with program:
            line = program.stderr.readline()
            program.terminate()
            program.communicate(timeout=60)
        self.assertEqual(line, "hprof: part 0: malformed at 0: BadMagic\n")

    @unittest.skipUnless(site.ENABLE_USER_SITE, "this Python has no packages of users")
    def test_the_package(self):
        self.assertEqual(self.python("import hprof; print(hprof.__file__)"), str(self.prefix / "lib/hprof/python/hprof/__init__.py"))
        command = [sys.executable, "-m", "hprof", "histo", "friday.hprof", "--json"]
        self.assertIn("shop/Session", self.run_words(*command, environment={"PATH": f"{self.prefix}/bin:{os.environ['PATH']}"}))


class Elsewhere(Installing):
    def test_a_prefix_where_python_does_not_look(self):
        said = self.install("--prefix", self.home / "elsewhere")
        package = self.home / "elsewhere" / "lib" / "hprof" / "python"
        self.assertIn(f"export PYTHONPATH='{package}'\n", said)
        self.assertEqual(list((self.home / "elsewhere").rglob("*.pth")), [])
        command = [sys.executable, "-c", "import hprof; print(hprof.__version__)"]
        self.assertEqual(self.run_words(*command, environment={"PYTHONPATH": str(package)}), "0.1.0\n")

    def test_what_the_path_has(self):
        self.assertNotIn("PATH", self.install(PATH=f"{self.prefix}/bin:{os.environ['PATH']}"))


class Again(Installing):
    def test_twice(self):
        self.install()
        before = files_below(self.prefix)
        said = self.install()
        self.assertEqual(files_below(self.prefix), before)
        self.assertIn(f"unchanged {self.prefix}/bin/hprof\n", said)
        self.assertNotIn("installed ", said)

    def test_another_program(self):
        other = self.home / "other"
        other.write_text("#!/bin/sh\n")
        other.chmod(0o700)
        self.install("--hprof", other)
        self.assertIn(f"replaced {self.prefix}/bin/hprof\n", self.install())

    def test_files_of_an_earlier_one_are_removed(self):
        self.install()
        old = self.prefix / "lib" / "hprof" / "viewer" / "view" / "old.py"
        path = self.prefix / LIST
        listed = json.loads(path.read_text())
        listed["files"]["lib/hprof/viewer/view/old.py"] = listed["files"]["lib/hprof/viewer/hprof_view.py"]
        old.write_bytes((old.parents[1] / "hprof_view.py").read_bytes())
        path.write_text(json.dumps(listed))
        self.assertIn(f"removed {old}\n", self.install())
        self.assertFalse(old.exists())


class Ends(Installing):
    def test_nothing_is_left(self):
        self.install()
        self.run_words(self.prefix / "bin" / "hprof-view", "--help", environment={"PYTHONDONTWRITEBYTECODE": ""})
        self.assertTrue(list(self.prefix.rglob("view/**/*.pyc")))
        said = self.install("--uninstall")
        self.assertIn(f"removed {self.prefix}/bin/hprof\n", said)
        self.assertEqual(list(self.home.iterdir()), [])
        self.assertIn("nothing is installed below", self.install("--uninstall", status=1))

    def test_what_was_there_stays(self):
        mine = self.prefix / "share" / "man" / "man1"
        mine.mkdir(parents=True)
        (mine / "mine.1").write_text("mine")
        (self.prefix / "bin").mkdir()
        self.install()
        changed = self.prefix / "lib" / "hprof" / "python" / "hprof" / "names.py"
        changed.write_text("mine")
        self.assertIn(f"left {changed}, which has changed since it was installed\n", self.install("--uninstall"))
        self.assertEqual(set(files_below(self.home)), {".local/share/man/man1/mine.1", ".local/lib/hprof/python/hprof/names.py"})
        self.assertTrue((self.prefix / "bin").is_dir())
        self.assertEqual([path.name for path in (self.prefix / "share").iterdir()], ["man"])

    def test_below_another_folder(self):
        stage = self.home / "stage"
        self.assertNotIn("PATH", self.install("--prefix", "/usr", DESTDIR=str(stage)))
        self.assertTrue(os.access(stage / "usr" / "bin" / "hprof", os.X_OK))
        self.install("--prefix", "/usr", "--uninstall", DESTDIR=str(stage))
        self.assertEqual(files_below(stage), {})


class Refuses(Installing):
    def test_no_program(self):
        said = self.install("--hprof", "nowhere", status=1)
        self.assertIn("install: no program at nowhere; build it with\n", said)
        self.assertIn("rt run -- check data/friday.hprof", said)
        self.assertFalse(self.prefix.exists())

    def test_dry_run(self):
        self.assertIn(f"would install {self.prefix}/bin/hprof\n", self.install("--dry-run"))
        self.assertFalse(self.prefix.exists())
        self.install()
        before = files_below(self.prefix)
        self.assertIn(f"would remove {self.prefix}/bin/hprof\n", self.install("--uninstall", "--dry-run"))
        self.assertEqual(files_below(self.prefix), before)

    def test_files_of_others(self):
        (self.prefix / "bin").mkdir(parents=True)
        program, view = self.prefix / "bin" / "hprof", self.prefix / "bin" / "hprof-view"
        program.symlink_to(os.environ["HPROF"])
        view.write_text("mine")
        self.assertIn(f"replaced with --force:\n    {program}\n    {view}\n", self.install(status=1))
        self.assertEqual(sorted(self.prefix.rglob("*")), [self.prefix / "bin", program, view])
        self.assertIn(f"replaced {view}, which this script had not installed\n", self.install("--force"))
        self.assertFalse(program.is_symlink())
        self.assertTrue(os.access(os.environ["HPROF"], os.X_OK))

    def test_a_file_that_has_changed(self):
        self.install()
        view = self.prefix / "bin" / "hprof-view"
        view.write_text("mine")
        self.assertIn(f"    {view}\n", self.install(status=1))
        self.assertEqual(view.read_text(), "mine")

    def test_a_folder_in_the_way(self):
        (self.prefix / "bin" / "hprof").mkdir(parents=True)
        for words in ((), ("--force",)):
            self.assertIn(f"    {self.prefix}/bin/hprof\n", self.install(*words, status=1))

    def test_a_failure_in_the_middle(self):
        (self.prefix / "share").mkdir(parents=True)
        (self.prefix / "share" / "man").write_text("mine")
        said = self.install(status=1)
        self.assertIn(f"install: {self.prefix}/share/man: ", said)
        self.assertIn("Not all was done.", said)
        self.install("--uninstall")
        self.assertEqual(set(files_below(self.home)), {".local/share/man"})

    def test_lists_that_are_none(self):
        path = self.prefix / LIST
        path.parent.mkdir(parents=True)
        for text in ("no list", "[]", '{"files": {"../mine": []}, "folders": []}', '{"files": {"/mine": []}, "folders": []}'):
            path.write_text(text)
            self.assertIn(f"install: {path} ", self.install("--uninstall", status=1))
        self.assertIn(f"install: {path} ", self.install(status=1))
        self.assertEqual(set(files_below(self.home)), {f".local/{LIST}"})

"""Every way in which hprof refuses: its line and what helps are shown and printed, and the status is 1."""

import json
import os
import re
import signal
import subprocess
import sys
import tempfile
import time
import unittest
from pathlib import Path
from unittest import mock

from view import command, words
from view.advice import ADVICE, KILLED, UNKNOWN, advice
from view.request import Guard
from view.site import Site

from .running import FAKE, FRIDAY, MONDAY, ROOT, VIEWER, Viewer

HISTO = "605 40 - byte[]\n" * 100


class Table(unittest.TestCase):
    def rows(self):
        """The rows of README's table: text, cause, what to do, as they are without markup."""
        table = (ROOT / "README.md").read_text(encoding="utf-8").split("## When a dump is refused")[1].split("| Exit status")[0]
        for row in re.findall(r"(?m)^\| `.*$", table):
            text, cause, help = (re.sub(r"\[(.*?)\]\(.*?\)|`", r"\1", cell).strip() for cell in re.split(r" \| ", row.strip("| ")))
            yield text.replace("at N", "at 4982"), cause, help

    def test_advice_is_that_of_readme(self):
        never_met = {"cannot create the output", "not an identifier", "not a size", "no class has this name", "dump too long"}
        rows = {text: (cause, help) for text, cause, help in self.rows()}
        self.assertLess(never_met, set(rows))
        self.assertEqual(len(rows) - len(never_met), len(ADVICE))
        for text in set(rows) - never_met:
            with self.subTest(text=text):
                cause, help = advice("hprof: " + text.split(", ")[0].replace("..", "BadType"))
                self.assertEqual((cause, help.replace(" in README", "")), rows[text])

    def test_what_is_no_line_of_the_table(self):
        self.assertEqual(advice("hprof was ended by signal 9"), KILLED)
        self.assertEqual(advice("hprof ended with status 0"), UNKNOWN)
        self.assertEqual(advice("anything"), UNKNOWN)


class Refused(unittest.TestCase):
    def setUp(self):
        folder = tempfile.TemporaryDirectory()
        self.addCleanup(folder.cleanup)
        self.folder = Path(folder.name)

    def file(self, name, content):
        path = self.folder / name
        path.write_bytes(content)
        return path

    def script(self, **script):
        return self.file("script", json.dumps({"answers": {"help": "help\n", "check": "objects 7\n", "histo": HISTO}, **script}).encode())

    def refused(self, line, *named, path="", program=None):
        """The page has the line and what helps; so has standard error; the status is 1."""
        with Viewer(*named, program=program) as viewer:
            page = viewer.page(path)
            self.assertEqual((page.heading, page.faults), ("hprof refused", []))
            self.assertIn(line, page.text)
            cause, help = advice(line)
            self.assertIn(f"Cause{cause}What to do{help}", page.text)
            status, said = viewer.end()
            self.assertEqual(status, 1)
            self.assertEqual(said, f"{line}\nhprof_view: {cause}: {help}\n")

    def test_parts(self):
        whole = FRIDAY.read_bytes()
        cases = {
            "hprof: part 0: malformed at 4974: Truncated": whole[:5000],
            "hprof: part 0: malformed at 0: Truncated": b"",
            "hprof: part 0: malformed at 0: BadMagic": b"\x1f\x8b" + whole,
            "hprof: part 0: malformed at 31: BadLength": whole[:31] + b"\x03\0\0\0\0\0\0\0\x09" + bytes(9),
        }
        for line, content in cases.items():
            with self.subTest(line=line):
                self.refused(line, self.file("part", content))

    def test_files(self):
        self.refused("hprof: cannot open part 0", self.folder / "nowhere")
        self.refused("hprof: cannot open part 1", "--", FRIDAY, "-x")
        self.refused("hprof: the words are no text", self.file("\udcff", FRIDAY.read_bytes()))
        self.refused("hprof: part 0: read failed", self.folder)
        self.refused("hprof: conflict at load 1", MONDAY, FRIDAY)

    def test_growth(self):
        cut = self.file("cut", FRIDAY.read_bytes()[:5000])
        self.refused("hprof: part 1: malformed at 4974: Truncated", "--diff", FRIDAY, cut, path="grew")
        self.refused("hprof: part 0: malformed at 4974: Truncated", "--diff", cut, FRIDAY, path="")

    def test_memory(self):
        self.refused("hprof: part 0: out of memory", self.script(refusal="hprof: part 0: out of memory"), program=FAKE)
        self.refused("hprof: out of memory", self.script(refusal="hprof: out of memory", ends_at="histo"), program=FAKE)

    def test_a_signal_within_an_answer(self):
        self.refused("hprof was ended by signal 9", self.script(ends_at="histo"), program=FAKE)

    def test_a_line_with_markup(self):
        self.refused("hprof: <script>alert(1)</script>", self.script(refusal="hprof: <script>alert(1)</script>"), program=FAKE)

    def test_a_program_that_is_another(self):
        self.refused("hprof ended with status 0", FRIDAY, program="/bin/true")

    def test_every_address_tells_it(self):
        with Viewer(self.folder / "nowhere") as viewer:
            for path in ("", "class/1", "object/1", "refs/1", "why/1", "type/byte", "find?q=a"):
                self.assertIn("cannot open part 0", viewer.page(path).text)
            self.assertEqual(viewer.request("/wrong/").status, 403)

    def test_it_ends_by_itself_once_the_page_was_seen(self):
        with Viewer(self.folder / "nowhere") as viewer:
            viewer.page("")
            start = time.monotonic()
            self.assertEqual(viewer.process.wait(20), 1)
            self.assertLess(time.monotonic() - start, command.SEEN_SECONDS + 5)

    def test_it_ends_on_a_signal(self):
        for sign in (signal.SIGINT, signal.SIGTERM, signal.SIGHUP):
            with Viewer(FRIDAY) as viewer:
                viewer.page("")
                self.assertEqual(viewer.end(sign), (0, ""))
        with Viewer(FRIDAY) as viewer:
            viewer.page("")
            viewer.process.send_signal(signal.SIGINT)
            self.assertEqual(viewer.end(signal.SIGTERM), (0, ""))
        with Viewer(self.script(wait=60), program=FAKE) as viewer:
            self.assertIn("Reading the dump", viewer.request(viewer.base).page.text)
            self.assertEqual(viewer.end(), (0, ""))

    def test_a_refusal_that_nobody_saw(self):
        with Viewer(self.folder / "nowhere") as viewer:
            self.assertEqual(viewer.process.stderr.readline(), "hprof: cannot open part 0\n")
            time.sleep(0.2)
            self.assertEqual(viewer.end()[0], 1)

    def test_hprof_ends_with_the_viewer(self):
        parts = [str(self.script(wait=60))] * 2
        for compares in (False, True):
            site = Site(None, "/secret/", str(FAKE), parts, compares, None)
            job = site.growth or site.heap
            process = job.program.process
            site.end()
            self.assertIsNotNone(process.returncode)
            self.assertTrue(job.settled.wait(20) and job.program.ended.wait(20))
            for pipe in (process.stdout, process.stderr):
                if pipe:
                    pipe.close()

    def test_no_page_is_made_for_a_client_that_is_gone(self):
        site = Site(Guard(80, "secret"), "/secret/", str(FAKE), [str(self.script())], False, None)
        self.assertTrue(site.heap.settled.wait(20))
        head = b"GET /secret/ HTTP/1.1\r\nHost: localhost"
        self.assertIsNone(site.answer(head, lambda: True))
        self.assertEqual(site.answer(head, lambda: False).status, 200)
        site.end()
        for pipe in (site.heap.program.process.stdout, site.heap.program.process.stderr):
            pipe.close()

    def test_an_end_that_was_asked_for_is_no_refusal(self):
        told = []
        site = Site(None, "/secret/", str(FAKE), [str(self.script())], False, told.append)
        self.assertTrue(site.heap.settled.wait(20))
        site.end()
        self.assertFalse(site.refused.wait(0.5))
        self.assertEqual(told, [])
        for pipe in (site.heap.program.process.stdout, site.heap.program.process.stderr):
            pipe.close()

    def test_answers_that_no_report_has(self):
        script = self.script(answers={"help": "help\n", "check": "sections 3 and 4\n", "histo": "x\n"})
        with Viewer(script, program=FAKE) as viewer:
            self.assertEqual(viewer.get("").status, 500)
            self.assertEqual(viewer.get("find?q=zz").status, 200)
            status, said = viewer.end()
            self.assertIn("Traceback", said)
            self.assertEqual(status, 0)


class Waiting(unittest.TestCase):
    def test_it_turns_into_the_page(self):
        """The page that waits tells how far the reader is, asks for itself again, and becomes what was asked for."""
        with tempfile.TemporaryDirectory() as folder:
            script = Path(folder) / "script"
            answers = {"help": "help\n", "check": "objects 7\n", "histo": "1 1 - byte[]\n"}
            script.write_text(json.dumps({"answers": answers, "wait": 4}))
            with Viewer(script, program=FAKE) as viewer:
                first = viewer.request(viewer.base)
                if "MB" not in first.page.text:  # On a busy machine, the file may not be open yet.
                    first = viewer.request(viewer.base)
                self.assertTrue(first.page.refreshes)
                self.assertEqual((first.status, first.page.heading, first.page.faults), (200, "Reading the dump", []))
                self.assertIn("0.0 MB of 0.0 MB", first.page.text)
                self.assertEqual(viewer.request(viewer.base + "zz").status, 404)
                self.assertEqual(viewer.page("").heading, "Overview")


class Words(unittest.TestCase):
    def run_with(self, *named):
        command = [sys.executable, VIEWER, *map(str, named)]
        found = subprocess.run(command, stdout=subprocess.PIPE, stderr=subprocess.PIPE, text=True, timeout=20)
        return found.returncode, found.stdout, found.stderr

    def test_words_that_are_not_understood(self):
        diffs = ("--diff", FRIDAY), ("--diff", FRIDAY, MONDAY, MONDAY)
        for named in ((), *diffs, ("--port", "x", FRIDAY), ("--port", "65536", FRIDAY), ("--nothing",)):
            status, out, said = self.run_with(*named)
            self.assertEqual((status, out), (2, ""), named)
            self.assertIn("usage: hprof_view.py", said)

    def test_help(self):
        status, out, _ = self.run_with("--help")
        self.assertEqual(status, 0)
        for word in ("--diff OLD NEW", "--port", "--open", "--hprof", "ssh -L", "status is 1"):
            self.assertIn(word, out)

    def test_no_program(self):
        self.assertEqual(self.run_with("--hprof", "/nowhere/hprof", FRIDAY)[:2], (1, ""))

    def test_the_program_in_path(self):
        """Without `--hprof` it takes the program in PATH, and else the one that was built beside it."""
        with tempfile.TemporaryDirectory() as folder, mock.patch.dict(os.environ, PATH=folder):
            built = words.program(None)
            self.assertIn(built, (None, str(ROOT / "crates" / "hprof" / "out" / "hprof")))
            path = Path(folder) / "hprof"
            path.symlink_to(FAKE)
            self.assertEqual(words.program(None), str(path))
            self.assertEqual(words.program(str(FAKE)), str(FAKE))
            self.assertIsNone(words.program(str(FRIDAY)))

    def test_a_port_that_is_taken(self):
        with Viewer(FRIDAY) as viewer:
            status, out, said = self.run_with("--hprof", viewer.program, "--port", viewer.port, FRIDAY)
            self.assertEqual((status, out), (1, ""))
            self.assertIn("in use", said)

    def test_a_part_that_the_shell_opened(self):
        """As `<(zcat heap.hprof.gz)`, and as standard input."""
        for opened in (lambda pipe: ([f"/dev/fd/{pipe}"], {"pass_fds": [pipe]}), lambda pipe: (["/dev/stdin"], {"stdin": pipe})):
            with subprocess.Popen(["cat", FRIDAY], stdout=subprocess.PIPE) as cat:
                named, options = opened(cat.stdout.fileno())
                with Viewer(*named, **options) as viewer:
                    self.assertIn("116 objects", viewer.page("").text)
                    self.assertEqual(viewer.page("object/740000850").heading, "shop.Session")

"""Programs that are scripts: they answer nonsense, end early, are slow, say much, or do not end."""

import os
import tempfile
import time
import unittest
from pathlib import Path
from unittest import mock

import hprof
from hprof import program as program_module
from hprof.dialogue import TURN, turns

from .support import script, within

# A program that answers each line with `answer(question)`, and `help` with one line.
TALK = """
def talk(answer):
    for line in sys.stdin:
        question = line.rstrip("\\n")
        if question == "quit":
            return "ended by quit"
        sys.stdout.write("check\\n\\n" if question == "help" else answer(question) + "\\n")
        sys.stdout.flush()
"""
HISTO = "1 1 - byte[]\\n"


class Dialogue(unittest.TestCase):
    def setUp(self):
        self.enterContextOf(within(60))

    def opened(self, body):
        """A heap of a script, which is closed at the end of the test."""
        path = self.enterContextOf(script(TALK + body))
        heap = hprof.open("dump", program=path)
        self.addCleanup(heap.close)
        return heap

    def enterContextOf(self, manager):
        value = manager.__enter__()
        self.addCleanup(manager.__exit__, None, None, None)
        return value

    def test_a_turn_fits_the_smallest_pipe(self):
        lines = [b"object %x\n" % number for number in range(1 << 60, (1 << 60) + 1000)]
        groups = list(turns(lines))
        self.assertEqual([line for group in groups for line in group], lines)
        self.assertTrue(all(sum(map(len, group)) <= TURN for group in groups))
        self.assertGreater(len(groups[0]), 100)
        self.assertEqual(list(turns([b"x" * 5000, b"y"])), [[b"x" * 5000], [b"y"]])

    def test_a_thousand_questions_with_long_answers(self):
        heap = self.opened("talk(lambda question: 'text 90000 ' + question[-1] * 90000 + '\\n')")
        found = heap.ask_all([("text", number) for number in range(1000)])
        self.assertEqual([len(one) for one in found], [90000] * 1000)
        self.assertEqual("".join(one[0] for one in found[:20]), "0123456789abcdef0123")

    def test_answers_that_come_in_pieces(self):
        body = f"""
def answer(question):
    for byte in "{HISTO}" * 3:
        sys.stdout.write(byte)
        sys.stdout.flush()
        time.sleep(0.001)
    return ""
talk(answer)"""
        heap = self.opened(body)
        self.assertEqual(heap.ask_all(["histo", "histo"]), [((1, 1, None, "byte[]"),) * 3] * 2)

    def test_a_slow_program(self):
        heap = self.opened(f"time.sleep(0.3)\ntalk(lambda question: time.sleep(0.3) or '{HISTO}')")
        self.assertEqual(len(heap.histogram()), 1)

    def test_nonsense(self):
        answers = ("nonsense", "1 1 - byte[]\\n1 1", "\\u00e9", "z 1 zz label", " ")
        for answer in answers:
            heap = self.opened(f"talk(lambda question: {answer!r}.replace('\\\\n', chr(10)) + chr(10))")
            for ask in (heap.histogram, heap.check, heap.classes, heap.suspects, lambda: heap.text(1), lambda: heap.object(1),
                        lambda: heap.show(1), lambda: heap.keeps(1), lambda: heap.why(1), lambda: heap.path(1), lambda: heap.refs(1)):
                with self.subTest(answer=answer), self.assertRaises(hprof.UnexpectedAnswer):
                    ask()

    def test_an_answer_without_lines_is_no_report_that_has_some(self):
        heap = self.opened("talk(lambda question: '')")
        self.assertEqual((heap.histogram(), heap.threads(), heap.refs(1)), ((), (), ()))
        for ask in (heap.check, heap.suspects, lambda: heap.text(1), lambda: heap.object(1), lambda: heap.show(1), lambda: heap.keeps(1),
                    lambda: heap.why(1), lambda: heap.path(1)):
            with self.assertRaises(hprof.UnexpectedAnswer):
                ask()

    def test_an_end_within_an_answer(self):
        heap = self.opened("talk(lambda question: sys.stdout.write('1 1 - by') and sys.stdout.flush() or os._exit(7))")
        for _ in range(2):
            with self.assertRaises(hprof.ProgramEnded) as caught:
                heap.histogram()
            self.assertEqual((caught.exception.status, caught.exception.line), (7, ""))

    def test_a_signal(self):
        heap = self.opened("talk(lambda question: os.kill(os.getpid(), 9))")
        with self.assertRaises(hprof.ProgramEnded) as caught:
            heap.ask_all(["histo"] * 2000)
        self.assertEqual((caught.exception.status, "signal 9" in str(caught.exception)), (-9, True))

    def test_a_refusal_within_an_answer(self):
        heap = self.opened("talk(lambda question: sys.exit('hprof: out of memory'))")
        with self.assertRaises(hprof.OutOfMemory) as caught:
            heap.histogram()
        self.assertEqual((caught.exception.text, caught.exception.part), ("out of memory", None))

    def test_refusals_before_the_first_answer(self):
        refused = (
            ("part 1: out of memory", hprof.OutOfMemory, {"part": 1}),
            ("part 0: malformed at 4974: Truncated", hprof.Malformed, {"part": 0, "offset": 4974, "reason": "Truncated"}),
            ("part 1: conflict at object 7f", hprof.Conflict, {"part": 1, "what": "object", "number": 0x7F}),
            ("conflict at trace 12", hprof.Conflict, {"part": None, "what": "trace", "number": 12}),
            ("identifier sizes differ", hprof.IdSizesDiffer, {}),
            ("cannot open part 3", hprof.CannotOpen, {"part": 3}),
            ("read failed", hprof.ReadFailed, {"part": None}),
            ("a text of later days", hprof.Refused, {"text": "a text of later days"}),
        )
        for text, kind, values in refused:
            with self.subTest(text=text), script(f"sys.exit('hprof: {text}')") as path:
                for call in (hprof.open, lambda part, program: hprof.diff(part, part, program=program)):
                    with self.assertRaises(hprof.Refused) as caught:
                        call("dump", program=path)
                    self.assertIs(type(caught.exception), kind)
                    self.assertEqual({name: getattr(caught.exception, name) for name in values}, values)

    def test_another_program(self):
        late = "sys.stderr.write('hprof: out of memory'); sys.exit(9)"
        for body, status in (("sys.exit('usage: no such command')", 1), ("", 0), ("sys.exit(3)", 3), (late, 9)):
            with self.subTest(body=body), script(body) as path:
                with self.assertRaises(hprof.ProgramEnded) as caught:
                    hprof.open("dump", program=path)
                self.assertEqual(caught.exception.status, status)
        with script("print('1 2 3')") as path, self.assertRaises(hprof.UnexpectedAnswer):
            hprof.diff("old", "new", program=path)
        with script("print('+1 +1 whole\\n+1 +1 cut', end='')") as path, self.assertRaises(hprof.UnexpectedAnswer):
            hprof.diff("old", "new", program=path)
        with script("print('Hello! Ask me.', end='\\n\\n')") as path, self.assertRaises(hprof.UnexpectedAnswer):
            hprof.open("dump", program=path)

    def test_the_memory_of_diff(self):
        with script("print('+1 +1', sys.argv[2])") as path:
            (row,) = hprof.diff("old", "new", program=path, memory="512M")
            self.assertEqual(row.label, "--memory=512M")
            self.assertEqual(hprof.diff("old", "new", program=path)[0].label, "old")

    def test_much_on_standard_error(self):
        with script("sys.stderr.write('x' * 10000000)\nsys.exit(5)") as path, self.assertRaises(hprof.ProgramEnded) as caught:
            hprof.open("dump", program=path)
        self.assertEqual(len(caught.exception.line), 4096)

    def test_closing_waits_for_the_end(self):
        with tempfile.TemporaryDirectory() as folder:
            note = Path(folder) / "note"
            heap = self.opened(f"how = talk(lambda question: '{HISTO}')\ntime.sleep(0.3)\nopen({str(note)!r}, 'w').write(str(how))")
            heap.histogram()
            heap.close()
            self.assertEqual(note.read_text(), "ended by quit")
            heap.close()

    def test_a_program_that_does_not_end(self):
        with mock.patch.object(program_module, "PATIENCE", 0.2):
            heap = self.opened("import signal\nsignal.signal(signal.SIGTERM, signal.SIG_IGN)\ntalk(lambda question: '')\ntime.sleep(60)")
            start = time.monotonic()
            heap.close()
            self.assertLess(time.monotonic() - start, 20)

    def test_a_question_that_is_broken_off(self):
        """Answers that were not read to their ends are not taken for those of later questions."""
        heap = self.opened(f"talk(lambda question: '{HISTO}')")
        with mock.patch("hprof.dialogue.Dialogue.answer", side_effect=KeyboardInterrupt), self.assertRaises(KeyboardInterrupt):
            heap.histogram()
        with self.assertRaises(hprof.UnexpectedAnswer):
            heap.histogram()
        heap.close()

    def test_an_answer_that_is_broken_off_is_not_waited_for(self):
        heap = self.opened("talk(lambda question: time.sleep(60))")
        start = time.monotonic()
        with mock.patch("hprof.dialogue.Dialogue.answer", side_effect=KeyboardInterrupt), self.assertRaises(KeyboardInterrupt):
            heap.histogram()
        heap.close()
        self.assertLess(time.monotonic() - start, 8)

    def test_a_part_that_looks_like_an_option(self):
        heap = self.opened("words = sys.argv[1:]\ntalk(lambda question: 'text %d %s' % (len(words[1]), words[1]) + chr(10))")
        self.assertEqual(heap.text(1), "dump")
        with script(TALK + "words = sys.argv[1:]\ntalk(lambda question: 'text %d %s' % (len(words[1]), words[1]) + chr(10))") as path:
            with hprof.open("--help", program=path) as other:
                self.assertEqual(other.text(1), "./--help")

    def test_where_the_program_is(self):
        with script(TALK + "talk(lambda question: 'text 1 v' + chr(10))") as path:
            with mock.patch.dict(os.environ, {"HPROF": str(path)}), hprof.open("dump") as heap:
                self.assertEqual(heap.text(1), "v")
            (path.parent / "hprof").symlink_to(path)
            with mock.patch.dict(os.environ, {"HPROF": "", "PATH": str(path.parent)}), hprof.open("dump") as heap:
                self.assertEqual(heap.text(1), "v")
            with mock.patch.dict(os.environ, {"HPROF": "", "PATH": ""}), self.assertRaises(hprof.ProgramMissing):
                hprof.open("dump")

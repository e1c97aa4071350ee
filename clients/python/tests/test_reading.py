"""Answers that are read as they come: readers that take a part or fail, blocks that are left, long answers, and threads that wait."""

import contextlib
import itertools
import subprocess
import threading
import time
import tracemalloc
import unittest
from unittest import mock

import hprof
from hprof.answers import Ended
from hprof.dialogue import Dialogue, Reading
from hprof.session import Session

from .support import FRIDAY, script, within

# A program that answers each line with what `answers` has for it, or with two lines.
ANSWERING = """
for line in sys.stdin:
    question = line.rstrip("\\n")
    if question == "quit":
        break
    sys.stdout.write("check\\n\\n" if question == "help" else answers.get(question, "1 1\\n1 2\\n") + "\\n")
    sys.stdout.flush()
"""
SHORT = {"histo": "a\nb\nc\n", "check": "d\n", "classes": ""}
MILLION = f"answers = {{'objects byte[]': ''.join('9 %x\\n' % place for place in range(1_000_000))}}\n{ANSWERING}"
# It writes half of the answer to `histo`, and then ends.
HALF = """
for line in sys.stdin:
    sys.stdout.write("check\\n\\n" if line == "help\\n" else "a\\nb\\nc\\n" * 500)
    sys.stdout.flush()
    if line == "histo\\n":
        os.kill(os.getpid(), 9)
"""
# It waits within an answer.
SLOW = """
for line in sys.stdin:
    sys.stdout.write("check\\n\\n" if line == "help\\n" else "1 1\\n1 ")
    sys.stdout.flush()
    time.sleep(60 * (line != "help\\n"))
"""


def all_of(lines):
    return list(lines)


class Tested(unittest.TestCase):
    def setUp(self):
        self.enterContextOf(within(60))

    def enterContextOf(self, manager):
        value = manager.__enter__()
        self.addCleanup(manager.__exit__, None, None, None)
        return value

    def opened(self, body):
        """A heap of a script, which is closed at the end of the test."""
        path = self.enterContextOf(script(body))
        heap = hprof.open("dump", program=path)
        self.addCleanup(heap.close)
        return heap

    def dialogue(self, body):
        """A dialogue with a script."""
        path = self.enterContextOf(script(body))
        process = self.enterContextOf(subprocess.Popen([path], bufsize=0, stdin=subprocess.PIPE, stdout=subprocess.PIPE))
        return Dialogue(process.stdin.fileno(), process.stdout.fileno())


class Readers(Tested):
    def short(self):
        return self.dialogue(f"answers = {SHORT!r}\n{ANSWERING}")

    def test_a_thousand_questions_with_long_answers(self):
        answers = {f"text {number:x}": f"text {number} " + "x" * (number * 97 % 9000) + "\n" for number in range(1000)}
        found = self.dialogue(f"answers = {answers!r}\n{ANSWERING}").ask([Reading(question, all_of) for question in answers])
        self.assertEqual(found, [[answer.rstrip("\n")] for answer in answers.values()])

    def test_a_reader_that_takes_a_part(self):
        dialogue = self.short()
        found = dialogue.ask([Reading("histo", next), Reading("check", all_of), Reading("histo", lambda lines: None)])
        self.assertEqual(found, ["a", ["d"], None])
        self.assertEqual(dialogue.ask([Reading("check", all_of)]), [["d"]])

    def test_a_reader_that_fails(self):
        def fails(lines):
            next(lines, None)
            raise KeyError("reader")

        def fails_at_the_end(lines):
            all_of(lines)
            raise KeyError("reader")

        dialogue = self.short()
        for reader in (fails, fails_at_the_end):
            for place in range(4):
                asked = [Reading(question, all_of) for question in ("histo", "check", "classes", "check")]
                asked[place] = asked[place]._replace(read=reader)
                with self.assertRaises(KeyError):
                    dialogue.ask(asked)
                self.assertEqual(dialogue.ask([Reading("check", all_of), Reading("classes", all_of)]), [["d"], []])

    def test_a_program_that_ends(self):
        dialogue = self.dialogue(HALF)
        for _ in range(3):
            with self.assertRaises(Ended):
                dialogue.ask([Reading("histo", all_of), Reading("check", all_of)])

    def test_a_program_that_ends_within_a_block(self):
        dialogue = self.dialogue(HALF)
        for _ in range(3):
            with self.assertRaises(Ended), dialogue.lines("histo") as lines:
                self.assertEqual(next(lines), "a")
                lines.rest()

    def test_a_reader_that_asks(self):
        dialogue = self.short()
        with self.assertRaises(ValueError):
            dialogue.ask([Reading("histo", lambda lines: dialogue.ask([Reading("check", all_of)])), Reading("check", all_of)])
        self.assertEqual(dialogue.ask([Reading("check", all_of)]), [["d"]])

    def test_the_limit_of_a_line(self):
        dialogue = self.dialogue(f"answers = {{'histo': 'x' * 5_000_000 + '\\n' + 'y' * 20 + '\\nz\\n'}}\n{ANSWERING}")
        found = dialogue.ask([Reading("histo", all_of, 10), Reading("check", all_of)])
        self.assertEqual(found, [["x" * 10, "y" * 10, "z"], ["1 1", "1 2"]])

    def test_lines_are_of_no_use_behind_their_block(self):
        dialogue = self.short()
        kept = dialogue.ask([Reading("histo", lambda lines: lines), Reading("check", all_of)])[0]
        with dialogue.lines("histo") as lines:
            next(lines)
        for left in (kept, lines):
            for use in (lambda left=left: next(left), left.rest, left.are_over):
                with self.assertRaises(ValueError):
                    use()
        self.assertEqual(dialogue.ask([Reading("check", all_of)]), [["d"]])


class Blocks(Tested):
    """The rows of a heap."""

    def test_the_sample(self):
        with hprof.open(FRIDAY) as heap:
            for question in (("objects", "byte[]"), ("histogram",), ("histo",), ("classes",), ("retained",), ("biggest", "shop.Session"),
                             ("refs", 0x7400003A0)):
                with self.subTest(question=question):
                    whole = heap.ask_all([question])[0]
                    with heap.rows(*question) as rows:
                        self.assertEqual(tuple(rows), whole)
                    with heap.rows(*question) as rows:
                        self.assertEqual((rows.skip(1), next(rows), rows.rest()), (1, whole[1], len(whole) - 2))
            with self.assertRaises(hprof.NoSuchClass), heap.rows("objects", "no.Such"):
                self.fail("a block without rows")
            for words in (("why", 1), ("check",), ("nope",)):
                with self.assertRaises(ValueError), heap.rows(*words):
                    self.fail("a block without rows")
            self.assertEqual(len(heap.histogram()), 9)

    def test_an_answer_that_is_left_half_read(self):
        heap = self.opened(MILLION)
        with heap.rows("objects", "byte[]") as rows:
            self.assertEqual([one.id for one in itertools.islice(rows, 3)], [0, 1, 2])
        self.assertEqual([one.id for one in heap.objects("int[]")], [1, 2])
        with self.assertRaises(KeyError), heap.rows("objects", "byte[]") as rows:
            self.assertEqual(next(rows).id, 0)
            raise KeyError("the block")
        self.assertEqual([one.id for one in heap.objects("int[]")], [1, 2])
        with self.assertRaises(ValueError):
            next(rows)

    def test_a_million_rows_in_little_memory(self):
        heap = self.opened(MILLION)
        tracemalloc.start()
        self.addCleanup(tracemalloc.stop)
        with heap.rows("objects", "byte[]") as rows:
            self.assertEqual(rows.skip(400_000), 400_000)
            self.assertEqual(next(rows), (9, 400_000))
            self.assertEqual(sum(1 for _ in itertools.islice(rows, 10_000)), 10_000)
            self.assertEqual(rows.rest(), 589_999)
        self.assertLess(tracemalloc.get_traced_memory()[1], 8_000_000)

    def test_the_program_ends_within_an_answer(self):
        heap = self.opened("answers = {}\n" + HALF.replace("a\\nb\\nc\\n", "1 1 - byte[]\\n"))
        with self.assertRaises(hprof.ProgramEnded) as caught, heap.rows("histo") as rows:
            self.assertEqual(next(rows).bytes, 1)
            rows.rest()
        self.assertEqual(caught.exception.status, -9)
        with self.assertRaises(hprof.ProgramEnded):
            heap.check()

    def test_a_question_while_an_answer_is_open(self):
        heap = self.opened(MILLION)
        with heap.rows("objects", "byte[]") as rows:
            for ask in (heap.histogram, lambda: heap.ask_all(["check", "classes"]), lambda: heap.rows("histo").__enter__()):
                with self.assertRaises(ValueError):
                    ask()
            self.assertEqual((next(rows).id, rows.rest()), (0, 999_999))
        self.assertEqual(len(heap.objects("int[]")), 2)

    def test_another_thread_waits_until_an_answer_is_read(self):
        heap, found = self.opened(MILLION), []
        with heap.rows("objects", "byte[]") as rows:
            other = threading.Thread(target=lambda: found.append(heap.objects("int[]")))
            other.start()
            other.join(0.2)
            self.assertEqual((found, next(rows).id), ([], 0))
        other.join(20)
        self.assertEqual([one.id for one in found[0]], [1, 2])

    def test_a_block_that_is_broken_off(self):
        """Nobody waits for the rest of an answer after Control-C."""
        heap = self.opened(SLOW)
        start = time.monotonic()
        with self.assertRaises(KeyboardInterrupt), heap.rows("objects", "byte[]") as rows:
            self.assertEqual(next(rows), (1, 1))
            raise KeyboardInterrupt
        with self.assertRaises(hprof.UnexpectedAnswer):
            heap.histogram()
        heap.close()
        self.assertLess(time.monotonic() - start, 8)

    def test_a_line_that_is_broken_off(self):
        """If reading fails within a line, nobody knows where the next one begins, whoever catches the exception."""
        for is_caught in (False, True):
            heap = self.opened(MILLION)
            with self.assertRaises(hprof.UnexpectedAnswer if is_caught else TimeoutError), heap.rows("objects", "byte[]"):
                with mock.patch.object(heap._session.dialogue.stream, "read", side_effect=TimeoutError):
                    with self.assertRaises(TimeoutError) if is_caught else contextlib.nullcontext():
                        heap._session.dialogue.stream.more()
            with self.assertRaises(hprof.UnexpectedAnswer):
                heap.histogram()

    def test_a_heap_that_is_closed_within_a_block(self):
        heap = self.opened(MILLION)
        with self.assertRaises(ValueError), heap.rows("objects", "byte[]") as rows:
            heap.close()
            rows.rest()
        with self.assertRaises(ValueError):
            heap.histogram()


class Sessions(Tested):
    def test_it_does_not_wait_for_the_dump(self):
        path = self.enterContextOf(script(f"time.sleep(0.5)\nanswers = {{}}\n{ANSWERING}"))
        start = time.monotonic()
        session = Session(["dump"], path)
        self.addCleanup(session.close)
        self.assertLess(time.monotonic() - start, 0.5)
        self.assertEqual(session.questions(), ("check",))
        self.assertIsNone(session.fault)

    def test_an_end_that_another_thread_makes(self):
        path = self.enterContextOf(script("time.sleep(60)"))
        session = Session(["dump"], path)
        self.addCleanup(session.close)
        threading.Timer(0.2, session.running.end).start()
        with self.assertRaises(hprof.ProgramEnded) as caught:
            session.questions()
        self.assertEqual((caught.exception.status, session.fault), (-15, caught.exception))

"""Answers of a dialogue, in pieces of any size."""

import random
import re
import unittest

from hprof import UnexpectedAnswer
from hprof.answers import SOME, Answer, Ended, Stream
from hprof.lines import Lines, Rows, line

LINES = [b"distance 2", b"a", b"bb " * 40, b"x" * 3000, b"7400003a0 shop/Session", b"0"]


def stream(data, size):
    pieces = [data[place : place + size] for place in range(0, len(data), size)]
    return Stream(lambda _: pieces.pop(0) if pieces else b"")


def answers(*texts):
    return b"".join(b"".join(line + b"\n" for line in text) + b"\n" for text in texts)


def all_of(answer):
    """The lines that are left, as bytes."""
    return list(iter(answer.line, None))


class Answers(unittest.TestCase):
    def each(self):
        """The same three answers in pieces of several sizes."""
        data = answers(LINES, [], [b"last"])
        return [stream(data, size) for size in (1, 2, 3, 7, 100, len(data))]

    def test_lines(self):
        for source in self.each():
            self.assertEqual(all_of(Answer(source)), LINES)
            self.assertEqual(all_of(Answer(source)), [])
            self.assertEqual(all_of(Answer(source)), [b"last"])

    def test_lines_as_text(self):
        for source in self.each():
            self.assertEqual(list(Lines(Answer(source))), [text.decode() for text in LINES])
            self.assertEqual(list(Lines(Answer(source))), [])
            self.assertEqual(list(Lines(Answer(source))), ["last"])
        for source in self.each():
            self.assertEqual(list(Lines(Answer(source), 9)), [text.decode()[:9] for text in LINES])

    def test_rest_counts_and_stays_within_the_answer(self):
        for source in self.each():
            answer = Answer(source)
            self.assertEqual(answer.line(), LINES[0])
            self.assertEqual(answer.rest(), len(LINES) - 1)
            self.assertEqual(answer.rest(), 0)
            self.assertIsNone(answer.line())
            self.assertEqual(Answer(source).rest(), 0)
            self.assertEqual(Answer(source).line(), b"last")

    def test_skip(self):
        for count in range(len(LINES) + 3):
            for source in self.each():
                answer = Answer(source)
                self.assertEqual(answer.skip(count), min(count, len(LINES)))
                self.assertEqual(all_of(answer), LINES[count:])

    def test_window_of_a_line(self):
        line = bytes(range(97, 123)) * 50
        for size in (1, 5, 64, 10_000):
            for start, limit in ((0, 5), (3, 10), (1290, 100), (1300, 4), (2000, 4), (0, 0), (7, 1 << 20)):
                with self.subTest(size=size, start=start):
                    answer = Answer(stream(answers([line, b"next"]), size))
                    self.assertEqual(answer.line(start, limit), line[start : start + limit])
                    self.assertEqual(answer.line(), b"next")

    def test_found(self):
        for source in self.each():
            self.assertEqual(list(Answer(source).found(re.compile(b"x{9}|^0$|is", re.M))), [LINES[0], LINES[3], LINES[5]])
            self.assertEqual(list(Answer(source).found(re.compile(b"last"))), [])
            self.assertEqual(list(Answer(source).found(re.compile(b"LAST", re.I))), [b"last"])

    def test_a_pattern_that_is_found_everywhere(self):
        for source in self.each():
            found = [list(Answer(source).found(re.compile(b""))) for _ in range(3)]
            self.assertEqual(found, [LINES, [], [b"last"]])

    def test_any_way_through_any_answer(self):
        """Skipping and reading in any order sees the lines that a list of them has."""
        dice = random.Random(5)
        for _ in range(300):
            text = [bytes(dice.choices(b"ab \\", k=dice.choice((1, 2, 9, 60)))) for _ in range(dice.randrange(30))]
            answer = Answer(stream(answers(text), dice.randrange(1, 50)))
            place = 0
            while place < len(text):
                count = dice.randrange(4)
                self.assertEqual(answer.skip(count), min(count, len(text) - place))
                place += count
                if place < len(text):
                    self.assertEqual(answer.line(), text[place])
                    place += 1
            self.assertIsNone(answer.line())

    def test_a_long_answer_is_not_kept(self):
        source = stream(answers([b"y" * 999] * 20_000), 1 << 16)
        self.assertEqual(Answer(source).rest(), 20_000)
        self.assertLess(len(source.held), 1 << 17)

    def test_an_end_within_an_answer(self):
        for text in (b"", b"a", b"a\n", b"a\nb"):
            with self.subTest(text=text):
                with self.assertRaises(Ended):
                    Answer(stream(text, 10)).rest()

    def test_the_only_line(self):
        for size in (1, 3, 1000):
            for text, only in (([b"nothing at 1"], b"nothing at 1"), ([b"nothing at 1", b"x"], None), ([], None), ([b"y" * 64], b"y" * 64),
                               ([b"y" * 65], None), ([b"y" * 5000], None)):
                with self.subTest(size=size, text=text):
                    answer = Answer(stream(answers(text, [b"next"]), size))
                    self.assertEqual(answer.only(64), only)
                    self.assertEqual(all_of(answer), text)


def rows_of(text, size, limit=1 << 62, start=""):
    """Rows of two numbers a line, of lines that come in pieces of a size."""
    lines = Lines(Answer(stream(answers(text), size)), limit)
    return lines, Rows(lines, line(rf"{start}(\d+) .*"), lambda match: int(match.group(1)), start)


class RowsOfLines(unittest.TestCase):
    def test_any_way_through_any_rows(self):
        """Reading, passing over, giving back and looking through in any order sees the lines that a list of them has."""
        dice = random.Random(7)
        for _ in range(300):
            text = [b"%d %s" % (place, b"x" * dice.choice((0, 1, 60, 2 * SOME))) for place in range(dice.randrange(40))]
            lines, rows = rows_of(text, dice.choice((1 << 20, 9999, 300)), dice.choice((40, 1 << 62)))
            place = 0
            while place < len(text):
                count = dice.randrange(5)
                self.assertEqual(rows.skip(count), min(count, len(text) - place))
                place += count
                if place < len(text) and dice.randrange(2):
                    self.assertEqual(next(rows), place)
                    place += 1
                elif place < len(text) and dice.randrange(2):
                    self.assertEqual(lines.window(2, 3), text[place][2:5].decode())
                    place += 1
            self.assertEqual((next(rows, None), rows.rest(), lines.are_over()), (None, 0, True))

    def test_a_section_ends_where_lines_begin_otherwise(self):
        text = [b"n 1 a", b"n 2 b", b"n 3 c", b"4 d", b"5 e"]
        for size in (1, 5, 100):
            lines, rows = rows_of(text, size, start="n ")
            self.assertEqual((next(rows), rows.skip(1), list(rows), rows.rest()), (1, 1, [3], 0))
            self.assertEqual(list(lines), ["4 d", "5 e"])
            self.assertEqual(rows_of(text, size, start="n ")[1].skip(9), 3)

    def test_a_line_that_is_no_row(self):
        for start, text in (("", [b"1 a", b"nonsense"]), ("n ", [b"n 1 a", b"n nonsense"]), ("", [b"1 a", b"\xc3\xa9"]), ("", [b"1 \x1b"])):
            with self.subTest(text=text), self.assertRaises(UnexpectedAnswer):
                list(rows_of(text, 3, start=start)[1])

    def test_a_row_that_is_passed_over_is_not_looked_at(self):
        _, rows = rows_of([b"1 a", b"nonsense", b"\xc3\xa9", b"4 b"], 4)
        self.assertEqual((next(rows), rows.skip(2), next(rows)), (1, 2, 4))

    def test_lines_that_are_looked_through(self):
        """Lines that were made text, but not taken, are looked through too; the first may be longer than what is made text at once."""
        for first in (b"0 x", b"0 " + b"x" * 5 * SOME):
            for size in (7, 1000, 1 << 20):
                lines, rows = rows_of([first, b"1 a", b"2 ab", b"3 b"], size, 10)
                self.assertEqual(next(rows), 0)
                self.assertEqual(list(lines.found(re.compile(b"a"))), ["1 a", "2 ab"])

    def test_lines_of_a_text(self):
        self.assertEqual(list(Lines("a\nb\n")), ["a", "b"])
        self.assertEqual(list(Lines("")), [])
        for text in ("a", "a\nb", "\n", "a\n\nb\n"):
            with self.subTest(text=text), self.assertRaises(UnexpectedAnswer):
                Lines(text)

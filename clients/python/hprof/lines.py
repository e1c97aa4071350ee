"""The lines of an answer, taken one after the other, and rows that are made of them as they are asked for."""

import re
from typing import Callable, Iterator, List, Match, Optional, Pattern, Tuple, TypeVar, Union

from .answers import WHOLE, Answer, Stream, text_of
from .errors import UnexpectedAnswer

Value = TypeVar("Value")
Starts = Union[str, Tuple[str, ...]]
ID = "[0-9a-f]{1,16}"


def matched(pattern: Pattern[str], line: str) -> Match[str]:
    """The match of a whole line. Raises UnexpectedAnswer if there is none."""
    match = pattern.fullmatch(line)
    if match is None:
        raise UnexpectedAnswer(line)
    return match


def of_text(text: str) -> Answer:
    """The answer with this text. Each line has its end, and no line is empty."""
    left = text[text.rfind("\n") + 1 :]
    if left or text.startswith("\n") or "\n\n" in text:
        raise UnexpectedAnswer(left)
    pieces = [text.encode("ascii") + b"\n"]
    return Answer(Stream(lambda size: pieces.pop() if pieces else b""))


class Lines:
    """The lines of an answer, each without its end, as they come. Of each line at most the first `limit` bytes are kept.

    It is an iterator over the lines. Lines that are passed over are not kept, and not looked at."""

    def __init__(self, source: Union[str, Answer], limit: int = WHOLE) -> None:
        self.answer = of_text(source) if isinstance(source, str) else source
        self.limit = limit
        self.ready: List[str] = []
        self.place = 0

    def __iter__(self) -> "Lines":
        return self

    def __next__(self) -> str:
        line = self.peek()
        if line is None:
            raise StopIteration
        self.place += 1
        return line

    def peek(self) -> Optional[str]:
        """The next line, which is not taken. None if no line is left."""
        if self.place == len(self.ready):
            self.ready, self.place = self.answer.some(self.limit), 0
        return self.ready[self.place] if self.ready else None

    def next_is(self, pattern: Pattern[str]) -> Optional[Match[str]]:
        """Takes the next line if the pattern matches it, and returns the match."""
        line = self.peek()
        match = None if line is None else pattern.fullmatch(line)
        if match is not None:
            self.place += 1
        return match

    def expect(self, pattern: Pattern[str]) -> Match[str]:
        """Takes the next line, which has to match."""
        return matched(pattern, next(self, ""))

    def while_is(self, pattern: Pattern[str]) -> Iterator[Match[str]]:
        """Takes lines as long as they match."""
        match = self.next_is(pattern)
        while match is not None:
            yield match
            match = self.next_is(pattern)

    def are_over(self) -> bool:
        """Whether all lines are taken. It does not take the next one."""
        return self.place == len(self.ready) and self.answer.is_over()

    def only(self, most: int) -> Optional[str]:
        """The line that is left alone, of at most so many bytes. None of any other. No line is taken."""
        self.give_back()
        line = self.answer.only(most)
        return None if line is None else line.decode("ascii", "backslashreplace")

    def end(self) -> None:
        """Raises UnexpectedAnswer if a line is left."""
        line = None if self.are_over() else self.peek()
        if line is not None:
            raise UnexpectedAnswer(line)

    def skip(self, count: int) -> int:
        """Passes over so many lines, and returns the number that there were."""
        ready = min(count, len(self.ready) - self.place)
        self.place += ready
        return ready + (self.answer.skip(count - ready) if count > ready else 0)

    def rest(self) -> int:
        """Passes over all lines that are left, and returns their number."""
        return self.skip(WHOLE)

    def pass_while(self, start: Starts, count: int = WHOLE) -> int:
        """Passes over lines that begin so, at most `count`, and returns their number."""
        passed, line = 0, self.peek() if count else None
        while line is not None and line.startswith(start):
            self.place += 1
            passed += 1
            line = self.peek() if passed < count else None
        return passed

    def window(self, start: int, limit: int) -> Optional[str]:
        """Takes the next line, and returns the bytes from `start` on, at most `limit`. None if no line is left."""
        self.give_back()
        line = self.answer.line(start, limit)
        return None if line is None else text_of(line)

    def found(self, pattern: Pattern[bytes]) -> Iterator[str]:
        """Each line that is left in which the pattern is found, whatever its length. The others are not looked at."""
        self.give_back()
        return map(text_of, self.answer.found(pattern))

    def give_back(self) -> None:
        """Gives lines back that are made text, but were not taken."""
        self.answer.back(len(self.ready) - self.place)
        self.ready, self.place = [], 0

    def close(self) -> None:
        """Lets nobody read on."""
        self.ready, self.place = [], 0
        self.answer.close()


class Rows(Iterator[Value]):
    """Rows of an answer, one a line, each made of its line as it is asked for.

    An iterator that can also pass over rows: their lines are not looked at. The rows are all lines that are left; with `start` those up to
    the first line that does not begin so."""

    def __init__(self, lines: Lines, pattern: Pattern[str], made: Callable[[Match[str]], Value], start: str = "") -> None:
        self.lines = lines
        self.pattern = pattern
        self.made = made
        self.start = start

    def __next__(self) -> Value:
        match = self.lines.next_is(self.pattern)
        if match is not None:
            return self.made(match)
        line = self.lines.peek()
        if line is not None and line.startswith(self.start):
            raise UnexpectedAnswer(line)
        raise StopIteration

    def skip(self, count: int) -> int:
        """Passes over so many rows, and returns the number that there were."""
        return self.lines.pass_while(self.start, count) if self.start else self.lines.skip(count)

    def rest(self) -> int:
        """Passes over all rows that are left, and returns their number."""
        return self.skip(WHOLE)


def line(text: str) -> Pattern[str]:
    """A pattern of a line, in which `ID` stands for an identifier."""
    return re.compile(text.replace("ID", ID))

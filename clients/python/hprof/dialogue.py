"""Questions to a program as lines, many at a time, and its answers, read as they come."""

import contextlib
import os
import threading
from typing import Any, Callable, Iterable, Iterator, List, NamedTuple, Optional

from .answers import WHOLE, Answer, Ended, Stream
from .lines import Lines

# A pipe holds at least so many bytes, so a turn of questions is written at once, and its answers are read before the next turn: neither
# side waits for the other with a full pipe.
TURN = 4096
# Linux: the request for a larger pipe, and its size.
SET_PIPE_SIZE, PIPE_SIZE = 1031, 1 << 20


class Reading(NamedTuple):
    """A question as a line without its end, and what is to be made of the lines of its answer, of each at most the first `limit` bytes."""

    line: str
    read: Callable[[Lines], Any]
    limit: int = WHOLE


def turns(lines: List[bytes]) -> Iterator[List[bytes]]:
    """The lines in groups that fit into one turn, or have one line."""
    group: List[bytes] = []
    size = 0
    for line in lines:
        if group and size + len(line) > TURN:
            yield group
            group, size = [], 0
        group.append(line)
        size += len(line)
    if group:
        yield group


def widen(pipe: int) -> None:
    """Makes a pipe larger where the system lets us, so that a long answer takes fewer turns."""
    try:
        import fcntl

        fcntl.fcntl(pipe, SET_PIPE_SIZE, PIPE_SIZE)
    except (ImportError, OSError):
        pass


class Dialogue:
    """The pipes of a running program. Threads ask one after the other: while a thread reads an answer, the others wait.

    `due` is the number of answers that were asked for and are not read to their ends. They are passed over before the next question."""

    def __init__(self, questions: int, answers: int) -> None:
        self.questions = questions
        self.stream = Stream(lambda size: os.read(answers, size))
        self.lock = threading.Lock()
        self.owner: Optional[int] = None
        self.due = 0
        widen(answers)

    def ask(self, readings: Iterable[Reading]) -> List[Any]:
        """What is made of each answer. An answer is passed over to its end, also if its reader fails. Raises Ended if the program ends
        before the last answer."""
        found: List[Any] = []
        asked = list(readings)
        with self.turn():
            for group in turns([one.line.encode("ascii") + b"\n" for one in asked]):
                self.send(b"".join(group), len(group))
                found.extend(self.answer(one) for one in asked[len(found) : len(found) + len(group)])
        return found

    @contextlib.contextmanager
    def lines(self, question: str, limit: int = WHOLE) -> Iterator[Lines]:
        """The lines of the answer to a question, to be read within the block. What is left of it then is passed over."""
        with self.turn():
            self.send(question.encode("ascii") + b"\n", 1)
            with self.next_lines(limit) as lines:
                yield lines

    @contextlib.contextmanager
    def turn(self) -> Iterator[None]:
        """The block in which a thread asks. Raises ValueError in a thread that is in such a block, UnexpectedAnswer if an answer was broken
        off and nobody knows where the next one begins, and Ended if the program ended."""
        if self.owner == threading.get_ident():
            raise ValueError("an answer is open: leave its block before another question")
        with self.lock:
            self.owner = threading.get_ident()
            try:
                self.pass_over_due()
                yield
            except Exception:
                raise
            except BaseException:
                # Whoever presses Control-C does not wait for the rest.
                self.stream.settled = False
                raise
            finally:
                self.owner = None

    def pass_over_due(self) -> None:
        """Passes over answers that were left because a reader failed."""
        self.stream.check()
        while self.due:
            self.finish(Lines(Answer(self.stream)))

    def answer(self, reading: Reading) -> Any:
        """What is made of the next answer."""
        with self.next_lines(reading.limit) as lines:
            return reading.read(lines)

    @contextlib.contextmanager
    def next_lines(self, limit: int) -> Iterator[Lines]:
        """The lines of the next answer, within the block. What is left of it is passed over, also if the block fails."""
        lines = Lines(Answer(self.stream), limit)
        try:
            yield lines
        except Exception:
            if self.stream.settled and not self.stream.ended:
                self.finish(lines)
            raise
        self.finish(lines)

    def finish(self, lines: Lines) -> None:
        """Passes over what is left of an answer, and lets nobody read on in it."""
        lines.rest()
        lines.close()
        self.due -= 1

    def send(self, data: bytes, count: int) -> None:
        """Sends lines that ask for so many answers."""
        self.due += count
        try:
            while data:
                data = data[os.write(self.questions, data) :]
        except BrokenPipeError:
            self.stream.ended = True
            raise Ended from None

    def is_idle(self) -> bool:
        """Whether all answers were read to their ends."""
        return self.stream.settled and self.due == 0

    def close(self) -> None:
        """Lets nobody read on. The pipes are not closed."""
        self.stream.read = closed


def closed(size: int) -> bytes:
    """In place of a pipe that was closed, whose number another file may have."""
    raise ValueError("the heap is closed")

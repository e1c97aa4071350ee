"""A running `hprof ask`, the questions to it, and why it ended."""

import contextlib
import subprocess
from typing import Any, Iterable, Iterator, List, Optional, Sequence, Tuple

from .answers import WHOLE, Ended
from .dialogue import Dialogue, Reading
from .errors import Error
from .lines import Lines, Rows, line
from .program import FileName, Running

# A line of the answer to `help`.
QUESTION = line(r"[a-z0-9]+( [A-Z]+)?")


def questions(lines: Lines) -> Tuple[str, ...]:
    """The questions that the program knows."""
    return tuple(Rows(lines, QUESTION, lambda match: match.group()))


class Session:
    """A running `hprof ask` on some parts, and a dialogue with it. It is there at once: the first answer comes once the parts are read.

    `fault` is why the program ended, or None as long as it answers."""

    def __init__(self, parts: Sequence[FileName], program: Optional[FileName] = None) -> None:
        self.running = Running(program, ["ask"], parts, stdin=subprocess.PIPE, stdout=subprocess.PIPE)
        process = self.running.process
        assert process.stdin is not None and process.stdout is not None
        self.pipes = process.stdin, process.stdout
        self.dialogue = Dialogue(process.stdin.fileno(), process.stdout.fileno())
        self.closed = False
        self.fault: Optional[Error] = None

    def questions(self) -> Tuple[str, ...]:
        """The questions that can be asked, as `why ID`."""
        (found,) = self.ask([Reading("help", questions)])
        return tuple(found)

    def ask(self, readings: Iterable[Reading]) -> List[Any]:
        """What is made of each answer. Raises why the program ended, if it did."""
        with self.faults():
            return self.dialogue.ask(readings)

    @contextlib.contextmanager
    def lines(self, question: str, limit: int = WHOLE) -> Iterator[Lines]:
        """The lines of the answer to a question, to be read within the block. What is left of it then is passed over."""
        with self.faults(), self.dialogue.lines(question, limit) as lines:
            yield lines

    @contextlib.contextmanager
    def faults(self) -> Iterator[None]:
        """The block of a question. Where the program ended, it raises why."""
        if self.closed:
            raise ValueError("the heap is closed")
        if self.fault is not None:
            raise self.fault
        try:
            yield
        except Ended:
            if self.fault is None:
                self.close_pipes()
                self.fault = self.running.fault()
            raise self.fault from None

    def close(self) -> None:
        """Ends the dialogue, and waits for the end of the program."""
        if self.closed:
            return
        self.closed = True
        if self.dialogue.is_idle():
            try:
                self.dialogue.send(b"quit\n", 0)
            except (Ended, OSError):
                pass
        else:
            # An answer was broken off, and nobody reads on.
            self.running.process.terminate()
        self.close_pipes()
        self.running.wait()

    def close_pipes(self) -> None:
        self.dialogue.close()
        for pipe in self.pipes:
            try:
                pipe.close()
            except OSError:
                pass

"""The heap of a dump, asked through a running `hprof ask`."""

import contextlib
import subprocess
from types import TracebackType
from typing import Any, Iterable, Iterator, List, Optional, Tuple, Type, cast

from .answers import text_of
from .contents import Contents
from .counts import Check, ClassRow, Growth, HistogramRow, RetainedRow, SizedObject, growth
from .errors import Refused
from .holding import Keeps, Kept, Suspects
from .lines import Lines, Rows
from .paths import Path, Why
from .program import FileName, Running
from .referrers import Referrer, Who
from .reports import Question, Subject, asked
from .session import Session
from .shown import Show
from .threads import Thread


class Heap:
    """The heap of one or more parts. Its methods are the reports, and raise Refused if hprof refuses.

    A subject is an identifier, which is an int, or the name of a class, which is a str, as `shop.Session`. A kind can also be a type, as
    `byte[]`. A str of hexadecimal digits is an identifier."""

    def __init__(self, *parts: FileName, program: Optional[FileName] = None) -> None:
        self._session = Session(parts, program)
        try:
            # The first answer comes once the dump was read.
            self._session.questions()
        except BaseException:
            self._session.running.process.kill()
            self._session.close()
            raise

    def _ask(self, *question: Any) -> Any:
        found = self.ask_all([question])[0]
        if isinstance(found, Refused):
            raise found
        return found

    def ask_all(self, questions: Iterable[Question]) -> List[Any]:
        """What each question would answer. A question is the word of a report, or a pair of the word and its subject, as `("why", 0x10)`.

        The refusal of a question stands in its place in the list, and the others are answered."""
        all_asked = [asked(question) for question in questions]
        return self._session.ask([one.reading(one.report.read) for one in all_asked])

    @contextlib.contextmanager
    def rows(self, *question: Any) -> Iterator[Rows[Any]]:
        """The rows of a report as they come, in a `with` block: `with heap.rows("objects", "byte[]") as rows`. None of them is kept.

        The report is one whose method returns a tuple of rows. The rows can be read within the block alone. What is left of them at its end
        is passed over, and then other questions can be asked. Other threads wait until then."""
        one = asked(question)
        if not one.report.has_rows:
            raise ValueError(f"{one.report.word} is one value, and no rows")
        with self._session.lines(one.line) as lines:
            one.accept(lines)
            yield one.report.read(lines)

    def check(self) -> Check:
        """The parts, and numbers of facts."""
        return cast(Check, self._ask("check"))

    def histogram(self) -> Tuple[HistogramRow, ...]:
        """The class histogram, the most bytes first."""
        return cast(Tuple[HistogramRow, ...], self._ask("histo"))

    def classes(self) -> Tuple[ClassRow, ...]:
        """Each class, by identifier."""
        return cast(Tuple[ClassRow, ...], self._ask("classes"))

    def threads(self) -> Tuple[Thread, ...]:
        """Each thread, its stack, and what it holds."""
        return cast(Tuple[Thread, ...], self._ask("threads"))

    def suspects(self) -> Suspects:
        """Where most of the memory is held."""
        return cast(Suspects, self._ask("suspects"))

    def retained(self) -> Tuple[RetainedRow, ...]:
        """The class histogram by retained bytes."""
        return cast(Tuple[RetainedRow, ...], self._ask("retained"))

    def biggest(self, kind: Subject) -> Tuple[Kept, ...]:
        """The objects of a class or a type, by retained bytes."""
        return cast(Tuple[Kept, ...], self._ask("biggest", kind))

    def objects(self, kind: Subject) -> Tuple[SizedObject, ...]:
        """The objects of a class or a type, the largest first."""
        return cast(Tuple[SizedObject, ...], self._ask("objects", kind))

    def show(self, subject: Subject) -> Show:
        """The contents of a class or an object, decoded."""
        return cast(Show, self._ask("show", subject))

    def why(self, subject: Subject) -> Why:
        """The shortest path of strong references from a GC root."""
        return cast(Why, self._ask("why", subject))

    def who(self, subject: Subject) -> Who:
        """The GC roots of a class or an object, and each reference to it."""
        return cast(Who, self._ask("who", subject))

    def keeps(self, subject: Subject) -> Keeps:
        """What keeps a class or an object alive, and what it keeps alive itself; of 0, what the GC roots keep alive."""
        return cast(Keeps, self._ask("keeps", subject))

    def text(self, id: int) -> Optional[str]:
        """The text of a string, or of an array of chars or bytes; None for another object."""
        return cast(Optional[str], self._ask("text", id))

    def object(self, id: int) -> Contents:
        """The contents of a class or an object as raw bits and as values."""
        return cast(Contents, self._ask("object", id))

    def refs(self, id: int) -> Tuple[Referrer, ...]:
        """Each reference to a class or an object, as identifiers."""
        return cast(Tuple[Referrer, ...], self._ask("refs", id))

    def path(self, id: int) -> Path:
        """The shortest path from a GC root, as identifiers."""
        return cast(Path, self._ask("path", id))

    def close(self) -> None:
        """Ends the dialogue, and waits for the end of the program."""
        self._session.close()

    def __enter__(self) -> "Heap":
        return self

    def __exit__(self, kind: Optional[Type[BaseException]], fault: Optional[BaseException], trace: Optional[TracebackType]) -> None:
        self.close()


def open(*parts: FileName, program: Optional[FileName] = None) -> Heap:
    """Reads the parts of one heap, and returns the heap, to be used in a `with` block.

    `program` is the program; without it, that of the variable HPROF, or `hprof` of PATH."""
    return Heap(*parts, program=program)


def diff(
    old: FileName, new: FileName, program: Optional[FileName] = None, memory: Optional[str] = None
) -> Tuple[Growth, ...]:
    """What grew from one dump to another, the most bytes first, and then what shrank. In a refusal `old` is part 0, and `new` is part 1.

    `memory` is the memory that objects may take, as "512M"; without it the program takes a quarter of what is available.
    """
    words = ["diff"] if memory is None else ["diff", f"--memory={memory}"]
    running = Running(program, words, [old, new], stdin=subprocess.DEVNULL, stdout=subprocess.PIPE)
    pipe = running.process.stdout
    assert pipe is not None
    try:
        with pipe:
            data = pipe.readall()  # type: ignore[attr-defined]
    except BaseException:
        running.process.kill()
        running.wait()
        raise
    if running.wait() != 0:
        raise running.fault()
    return tuple(growth(Lines(text_of(data))))

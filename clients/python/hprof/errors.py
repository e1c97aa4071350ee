"""The errors: what hprof refuses, and what keeps it from answering. docs/FORMAT.md has the texts."""

import re
from typing import Any, Optional, Tuple, Type


class Error(Exception):
    """The class of all errors of this package."""


class ProgramMissing(Error):
    """There is no program to run."""


class ProgramEnded(Error):
    """The program ended before it had answered, and did not refuse. `status` is its exit status, below 0 for a signal."""

    def __init__(self, status: int, line: str) -> None:
        how = f"was ended by signal {-status}" if status < 0 else f"ended with status {status}"
        super().__init__(f"the program {how}: {line}" if line else f"the program {how}")
        self.status = status
        self.line = line


class UnexpectedAnswer(Error):
    """The program answered something that is no report. `line` is the line that is not understood."""

    def __init__(self, line: str) -> None:
        super().__init__(f"not a line of the report: {line[:200]!r}")
        self.line = line


class Refused(Error):
    """hprof refused. `text` is the refusal, without `hprof: `."""

    def __init__(self, text: str) -> None:
        super().__init__(text)
        self.text = text


class OfPart(Refused):
    """A refusal that can name a part. `part` is its number, counted from 0, or None."""

    part: Optional[int] = None


class Malformed(OfPart):
    """A part is damaged at `offset`, for a `reason` of docs/FORMAT.md."""

    offset: int
    reason: str


class Conflict(OfPart):
    """Parts contradict each other about a fact: `what` is its kind and `number` its key."""

    what: str
    number: int


class IdSizesDiffer(Refused):
    """Parts have identifiers of different sizes."""


class CannotOpen(OfPart):
    """A part cannot be opened."""


class ReadFailed(OfPart):
    """A part, or the questions, could not be read on."""


class OutOfMemory(OfPart):
    """The system gave hprof no more memory."""


class NotUnderstood(Refused):
    """The program does not know the question, or a word of it is no identifier."""


class NoSuchClass(Refused, LookupError):
    """No class has the name."""


class NothingAt(Refused, LookupError):
    """The dump has neither a class nor an object with the identifier `id`."""

    id: int


class SeveralClasses(Refused, LookupError):
    """More than one class has the name. `nodes` are the classes: ask again with the identifier of one."""

    nodes: Tuple[Any, ...] = ()


TEXTS: Tuple[Tuple[str, Type[Refused]], ...] = (
    (r"part (?P<part>\d+): malformed at (?P<offset>\d+): (?P<reason>.*)", Malformed),
    (r"(?:part (?P<part>\d+): )?conflict at (?P<what>load|trace|thread) (?P<number>\d+)", Conflict),
    (r"(?:part (?P<part>\d+): )?conflict at (?P<what>name|frame|class|object) (?P<id>[0-9a-f]+)", Conflict),
    (r"identifier sizes differ", IdSizesDiffer),
    (r"cannot open part (?P<part>\d+)", CannotOpen),
    (r"(?:part (?P<part>\d+): )?read failed", ReadFailed),
    (r"(?:part (?P<part>\d+): )?out of memory", OutOfMemory),
    (r"not understood|not an identifier", NotUnderstood),
    (r"no class has this name", NoSuchClass),
    (r"nothing at (?P<id>[0-9a-f]+)", NothingAt),
)


def refusal(text: str) -> Refused:
    """The error for the text of a refusal."""
    for pattern, kind in TEXTS:
        match = re.fullmatch(pattern, text)
        if match:
            found = kind(text)
            for name, value in match.groupdict().items():
                if value is not None:
                    set_value(found, name, value)
            return found
    return Refused(text)


def set_value(found: Refused, name: str, value: str) -> None:
    """Sets an attribute of a refusal from the words of its text."""
    if name == "id":
        setattr(found, "number" if isinstance(found, Conflict) else "id", int(value, 16))
    else:
        setattr(found, name, value if name in ("reason", "what") else int(value))

"""The report `text`."""

from typing import NamedTuple, Optional

from .errors import UnexpectedAnswer
from .lines import Lines, line
from .names import unescaped

TEXT, NONE = line(r"text (\d+) (.*)"), line("no text at ID")


class TextStart(NamedTuple):
    """The number of UTF-16 units of a text, and the text as it is printed, as much of it as a line has."""

    units: int
    printed: str


def start(lines: Lines) -> Optional[TextStart]:
    """The text, or the beginning of it where lines are cut. None for an object that has none."""
    match = None if lines.next_is(NONE) else lines.expect(TEXT)
    lines.end()
    return None if match is None else TextStart(int(match.group(1)), match.group(2))


def text(lines: Lines) -> Optional[str]:
    """The text, or None for an object that has none."""
    whole = start(lines)
    if whole is None:
        return None
    found = unescaped(whole.printed)
    if len(found.encode("utf-16-le", "surrogatepass")) != 2 * whole.units:
        raise UnexpectedAnswer(f"text {whole.units} {whole.printed}")
    return found

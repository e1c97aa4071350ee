"""Identifiers, and names with the escapes of the reports undone."""

import re
from typing import Any, Tuple, Union

RUN = re.compile(r"(?:\\u[0-9a-f]{4})+")
LIMIT = 1 << 64


class Id(int):
    """The identifier of a class or an object: an int that is printed in hexadecimal."""

    __slots__ = ()

    def __repr__(self) -> str:
        return f"0x{int(self):x}"

    __str__ = __repr__


def units_of(run: str) -> str:
    """The text of some escapes, which are UTF-16 units."""
    return bytes.fromhex(run.replace("\\u", "")).decode("utf-16-be", "surrogatepass")


def unescaped(printed: str) -> str:
    """The text that was printed: each `\\u` and its four digits are a UTF-16 unit again."""
    return RUN.sub(lambda run: units_of(run.group()), printed) if "\\" in printed else printed


def escaped(text: str) -> str:
    """A text as hprof prints it: printable ASCII but the backslash as it is, each other UTF-16 unit as `\\u` and four digits."""
    pieces = []
    for character in text:
        if " " <= character <= "~" and character != "\\":
            pieces.append(character)
        else:
            held = character.encode("utf-16-be", "surrogatepass").hex()
            pieces.extend("\\u" + held[place : place + 4] for place in range(0, len(held), 4))
    return "".join(pieces)


class Name(str):
    """A name of a class, a field or a type. `printed` is the form that the report has, of which each name has exactly one.

    A name that is not modified UTF-8 stays `\\x` and its bytes, and one that no record has `\\?` and its identifier, or `\\?` alone.
    """

    printed: str

    def __new__(cls, printed: str) -> "Name":
        made = super().__new__(cls, unescaped(printed))
        made.printed = printed
        return made

    def __getnewargs__(self) -> Tuple[Any, ...]:
        return (self.printed,)

    @property
    def is_text(self) -> bool:
        """Whether the dump has the name, and it is modified UTF-8."""
        return not self.printed.startswith(("\\x", "\\?"))


def identifier(digits: str) -> Id:
    """The identifier that a report prints."""
    return Id(digits, 16)


def word_of(subject: Union[int, str]) -> str:
    """The word of a question for an identifier or a name. Raises ValueError for a number that is no identifier."""
    if isinstance(subject, Name):
        return subject.printed
    if isinstance(subject, str):
        return escaped(subject)
    if not isinstance(subject, int) or isinstance(subject, bool):
        raise TypeError(f"an identifier is an int, and a name a str: {subject!r}")
    if not 0 <= subject < LIMIT:
        raise ValueError(f"an identifier is at least 0 and below 2 to the power of 64: {int(subject)}")
    return f"{int(subject):x}"

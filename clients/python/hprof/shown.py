"""The report `show`: the contents of a class or an object, decoded."""

from typing import Match, NamedTuple, Optional, Tuple, Union

from .contents import KIND, NO_FIELDS
from .errors import UnexpectedAnswer
from .lines import Lines, line
from .names import Id, Name, unescaped
from .nodes import Node, node_of

HEAD = line("ID .*")
ABOVE = line("  (super|loader|signers|domain) = (.*)")
NUMBERED, NAMED = line(r"  (constant|element) (\d+) = (.*)"), line(r"  (static|field) (\d+) (.*?) = (.*)")
OWN, FROM, TEXT = line(rf"  own (\d+) ({KIND}) (.*)"), line("  from (.*)"), line(r'  text "(.*)"(?: \.\. (\d+) more)?')
ROW, MORE, NULLS = line(r"  (\d+) = (.*)"), line(r"  \.\. (\d+) more"), line(r"  (\d+) null")
NOT_KNOWN = line(f"  ({NO_FIELDS.pattern})")
WHOLE, REAL, UNIT = line(r"-?\d+"), line(r"-?0x[0-9a-f.]+p-?\d+|NaN|-?Infinity"), line("'(.|\\\\u[0-9a-f]{4})'")
LENGTH = line(r"((ID) (?:\[.*|\\\?|[a-z]+\[\])) of (\d+)")


class Referred(NamedTuple):
    """What a reference leads to, and the number of elements of an array."""

    node: Node
    length: Optional[int]

    @property
    def id(self) -> Id:
        return self.node.id

    @property
    def label(self) -> Name:
        return self.node.label


Shown = Union[None, bool, int, float, str, Referred]


class Entry(NamedTuple):
    """A line of the contents. `kind` is `super`, `loader`, `signers`, `domain`, `constant`, `static`, `own`, `field` or `element`. A field
    has an `owner`, the name of the class that declares it, if this is not the class of the instance. `type` is told for `own` alone, which
    has no value. `value` is None for null."""

    kind: str
    position: Optional[int]
    name: Optional[Name]
    owner: Optional[Name]
    type: Optional[str]
    value: Shown


class Section(NamedTuple):
    """A class or an object and its contents.

    `text` is that of an array of chars or bytes: its first 100 units, and `text_left_out` is the number of units behind them. `numbers` are
    the first 256 of an array. `left_out` is the number of elements that are not null, or of numbers, behind those that are told; `nulls` is
    the number of null elements. `no_fields` says why the fields are not known."""

    node: Node
    length: Optional[int]
    entries: Tuple[Entry, ...]
    text: Optional[str]
    text_left_out: int
    numbers: Tuple[Union[bool, int, float], ...]
    left_out: int
    nulls: int
    no_fields: Optional[str]


class Show(NamedTuple):
    """The class with an identifier, and the object with it. A dump mostly has one of them; the other is None."""

    class_dump: Optional[Section]
    dump: Optional[Section]


def referred(text: str) -> Referred:
    """What a reference leads to, or the first line of an object."""
    match = LENGTH.fullmatch(text)
    if match is not None:
        return Referred(node_of(match.group(1)), int(match.group(3)))
    return Referred(node_of(text), None)


def number_of(text: str) -> Union[bool, int, float]:
    if text in ("false", "true"):
        return text == "true"
    if WHOLE.fullmatch(text):
        return int(text)
    if REAL.fullmatch(text):
        return float.fromhex(text)
    raise UnexpectedAnswer(text)


def shown_value(text: str) -> Shown:
    """A value as `show` prints it."""
    if text == "null":
        return None
    unit = UNIT.fullmatch(text)
    if unit is not None:
        return unescaped(unit.group(1))
    return referred(text) if HEAD.fullmatch(text) else number_of(text)


def entry(match: Match[str], owner: Optional[Name]) -> Entry:
    """The entry of a line with a value."""
    if match.re is ABOVE:
        return Entry(match.group(1), None, None, None, None, shown_value(match.group(2)))
    if match.re is NUMBERED:
        return Entry(match.group(1), int(match.group(2)), None, None, None, shown_value(match.group(3)))
    if match.re is OWN:
        return Entry("own", int(match.group(1)), Name(match.group(3)), None, match.group(2), None)
    kind, position, name, value = match.groups()
    return Entry(kind, int(position), Name(name), owner if kind == "field" else None, None, shown_value(value))


def entries(lines: Lines) -> Tuple[Entry, ...]:
    """The entries that come next. A line `from` says the owner of the fields below it."""
    found, owner = [], None
    while True:
        of_owner = lines.next_is(FROM)
        if of_owner is not None:
            owner = Name(of_owner.group(1))
        match = lines.next_is(ABOVE) or lines.next_is(NUMBERED) or lines.next_is(OWN) or lines.next_is(NAMED)
        if match is None:
            return tuple(found)
        found.append(entry(match, owner))


def section(lines: Lines) -> Section:
    """The next class or object."""
    head = referred(lines.expect(HEAD).group())
    unknown = lines.next_is(NOT_KNOWN)
    found = entries(lines)
    text = lines.next_is(TEXT)
    numbers = [number_of(word) for row in lines.while_is(ROW) for word in row.group(2).split(" ")]
    more, nulls = lines.next_is(MORE), lines.next_is(NULLS)
    return Section(
        head.node, head.length, found,
        unescaped(text.group(1)) if text else None, int(text.group(2) or 0) if text else 0,
        tuple(numbers), int(more.group(1)) if more else 0, int(nulls.group(1)) if nulls else 0,
        unknown.group(1) if unknown else None,
    )


def show(lines: Lines) -> Show:
    first = section(lines)
    if first.node.kind == "class":
        second = None if lines.are_over() else section(lines)
        lines.end()
        return Show(first, second)
    lines.end()
    return Show(None, first)

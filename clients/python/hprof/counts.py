"""The reports that count: `check`, `histo`, `classes`, `objects`, `retained` and `diff`."""

from typing import Iterator, List, Match, NamedTuple, Optional, Pattern, Tuple, Union

from .errors import UnexpectedAnswer
from .lines import Lines, Rows, line, matched
from .names import Id, Name, identifier

KINDS = ("names", "loads", "unloads", "frames", "traces", "starts", "ends", "roots", "classes", "objects", "bad names")
PART = r"part (\d+): version (1\.0\.[12]) ids ([48]) time (\d+) records (\d+) facts (\d+) end (yes|no)"
PART_OR_COUNT = line(rf"{PART}|(?P<kind>{'|'.join(KINDS)}) (?P<number>\d+)")
ROW = line(r"(\d+) (\d+) (ID|-) (.*)")
CLASS = line(r"(ID) super (ID) bytes (\d+) objects (\d+) (.*)")
SIZED = line(r"(\d+) (ID)")
RETAINED = line(r"(\d+) (\d+) (\d+) (.*)")
GROWN = line(r"([+-]\d+|0) ([+-]\d+|0) (.*)")


class Part(NamedTuple):
    """A part: its version, the bytes of an identifier, its time in milliseconds since 1970, the numbers of its records and its facts, and
    whether it has a HEAP_DUMP_END record."""

    number: int
    version: str
    id_size: int
    time: int
    records: int
    facts: int
    has_end: bool


class Count(NamedTuple):
    """The number of facts of a kind, as `roots` or `bad names`."""

    kind: str
    number: int


class Check(NamedTuple):
    """The parts, and the number of facts of each kind in all of them together."""

    parts: Tuple[Part, ...]
    names: int
    loads: int
    unloads: int
    frames: int
    traces: int
    starts: int
    ends: int
    roots: int
    classes: int
    objects: int
    bad_names: int


class HistogramRow(NamedTuple):
    """The bytes and the number of the objects of a class or a type. `id` is the class, or None for a type."""

    bytes: int
    count: int  # type: ignore[assignment]
    id: Optional[Id]
    label: Name


class ClassRow(NamedTuple):
    """A class, its superclass (0 for none), and the bytes and the number of its objects without those of subclasses."""

    id: Id
    superclass: Id
    bytes: int
    count: int  # type: ignore[assignment]
    label: Name


class SizedObject(NamedTuple):
    """An object and its bytes."""

    bytes: int
    id: Id


class RetainedRow(NamedTuple):
    """The bytes that would be free without the objects of a class or a type, their own bytes, and their number."""

    retained: int
    bytes: int
    count: int  # type: ignore[assignment]
    label: Name


class Growth(NamedTuple):
    """The bytes and the number of objects of a class or a type that the newer dump has more; below 0 if it has fewer."""

    bytes: int
    count: int  # type: ignore[assignment]
    label: Name


def part_or_count(match: Match[str]) -> Union[Part, Count]:
    if match.group("kind"):
        return Count(match.group("kind"), int(match.group("number")))
    index, version, size, time, records, facts, end = match.groups()[:7]
    return Part(int(index), version, int(size), int(time), int(records), int(facts), end == "yes")


def check_rows(lines: Lines) -> Rows[Union[Part, Count]]:
    """The parts, and behind them the counts."""
    return Rows(lines, PART_OR_COUNT, part_or_count)


def check(lines: Lines) -> Check:
    parts: List[Part] = []
    counts: List[Count] = []
    for row in check_rows(lines):
        if isinstance(row, Count):
            counts.append(row)
        elif counts:
            raise UnexpectedAnswer(counts[-1].kind)
        else:
            parts.append(row)
    if tuple(one.kind for one in counts) != KINDS:
        raise UnexpectedAnswer(counts[-1].kind if counts else "")
    return Check(tuple(parts), *(one.number for one in counts))


def histogram_row(match: Match[str]) -> HistogramRow:
    size, count, kind, label = match.groups()
    return HistogramRow(int(size), int(count), None if kind == "-" else identifier(kind), Name(label))


def histogram(lines: Lines) -> Rows[HistogramRow]:
    return Rows(lines, ROW, histogram_row)


def histogram_found(lines: Lines, pattern: Pattern[bytes]) -> Iterator[HistogramRow]:
    """The rows in whose lines the pattern is found. The other lines are not looked at."""
    return (histogram_row(matched(ROW, one)) for one in lines.found(pattern))


def class_row(match: Match[str]) -> ClassRow:
    this, parent, size, count, label = match.groups()
    return ClassRow(identifier(this), identifier(parent), int(size), int(count), Name(label))


def classes(lines: Lines) -> Rows[ClassRow]:
    return Rows(lines, CLASS, class_row)


def classes_found(lines: Lines, pattern: Pattern[bytes]) -> Iterator[ClassRow]:
    """The rows in whose lines the pattern is found. The other lines are not looked at."""
    return (class_row(matched(CLASS, one)) for one in lines.found(pattern))


def objects(lines: Lines) -> Rows[SizedObject]:
    return Rows(lines, SIZED, lambda match: SizedObject(int(match.group(1)), identifier(match.group(2))))


def retained(lines: Lines) -> Rows[RetainedRow]:
    def made(match: Match[str]) -> RetainedRow:
        held, size, count, label = match.groups()
        return RetainedRow(int(held), int(size), int(count), Name(label))

    return Rows(lines, RETAINED, made)


def growth(lines: Lines) -> Rows[Growth]:
    return Rows(lines, GROWN, lambda match: Growth(int(match.group(1)), int(match.group(2)), Name(match.group(3))))

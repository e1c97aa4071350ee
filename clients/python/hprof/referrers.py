"""The reports `refs` and `who`: what refers to a class or an object."""

from typing import List, Match, NamedTuple, Optional, Tuple

from .lines import Lines, Rows, line, matched
from .names import Id, Name, identifier
from .nodes import STEP, UNNAMED, Node, Reference, Root, node_of, reference_in, roots_of

REFERRER = line(rf"(ID) ({UNNAMED}|static|field) (\d+)")
# A label may have spaces: that of a line ends where the last reference begins, and that of a sum where the first one does.
EDGE = line(rf"(?P<node>ID .*)(?<! weak) {STEP}")
SUM = line(rf"(\d+) times (class )?(.*?) (weak )?(?:({UNNAMED})|(static|field) (.*))")
COUNTED = line(r"(\d+) times (class )?(.*)")
NOTHING = line("nothing refers to ID")
# References up to this number are not summed.
FEW = 20


class Referrer(NamedTuple):
    """A class or an object that refers to another: the kind of reference, and its position there."""

    id: Id
    kind: str
    position: int


class Holder(NamedTuple):
    """A class or an object that refers to another, and how."""

    node: Node
    reference: Reference

    @property
    def id(self) -> Id:
        return self.node.id

    @property
    def label(self) -> Name:
        return self.node.label


class Sum(NamedTuple):
    """How many references of one kind and name come from the objects of one label, or from the class of this label if `of_class`."""

    count: int  # type: ignore[assignment]
    of_class: bool
    label: Name
    kind: str
    name: Optional[Name]
    weak: bool


class Who(NamedTuple):
    """The GC roots of a class or an object, sums of the references to it if there are more than 20, and each of these references."""

    roots: Tuple[Root, ...]
    sums: Tuple[Sum, ...]
    holders: Tuple[Holder, ...]


def refs(lines: Lines) -> Rows[Referrer]:
    def made(match: Match[str]) -> Referrer:
        return Referrer(identifier(match.group(1)), match.group(2), int(match.group(3)))

    return Rows(lines, REFERRER, made)


def sum_of(match: Match[str]) -> Sum:
    count, of_class, label, weak, kind, named, name = match.groups()
    return Sum(int(count), of_class is not None, Name(label), kind or named, None if name is None else Name(name), weak is not None)


def counted_sum(text: str) -> Sum:
    """The sum of a line. Of one that is cut before its reference, `kind` is empty, and `label` is what is left of the line."""
    match = SUM.fullmatch(text)
    if match is not None:
        return sum_of(match)
    count, of_class, label = matched(COUNTED, text).groups()
    return Sum(int(count), of_class is not None, Name(label), "", None, False)


def sums(lines: Lines, references: int, most: int) -> Tuple[Sum, ...]:
    """The first sums of so many references in `who`, behind its roots, at most `most`. The others are passed over: the number of references
    tells where they end, whatever names are in them."""
    found: List[Sum] = []
    left = references if references > FEW else 0
    while left > 0:
        text = next(lines, "")
        left -= int(matched(COUNTED, text).group(1))
        if len(found) < most:
            found.append(counted_sum(text))
    return tuple(found)


def pass_roots(lines: Lines) -> None:
    """Passes over the roots that come first in `who`."""
    lines.pass_while(("root ", "  "))


def is_weak(line: str, one: Referrer, label: Name, of_class: bool) -> bool:
    """Whether the line of a reference in `who` says that it is weak, whatever names are in it. `label` is that of what refers."""
    words = "class " if of_class else ""
    return line.startswith(f"{one.id:x} {words}{label.printed} weak field {one.position} ")


def who(lines: Lines) -> Who:
    roots = roots_of(lines)
    if lines.next_is(NOTHING):
        lines.end()
        return Who(roots, (), ())
    summed = tuple(map(sum_of, lines.while_is(SUM)))
    return Who(roots, summed, tuple(Rows(lines, EDGE, lambda match: Holder(node_of(match.group("node")), reference_in(match)))))

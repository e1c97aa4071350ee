"""The reports `keeps`, `biggest` and `suspects`: what would be free without an object."""

from collections import deque
from typing import Deque, List, Match, NamedTuple, Optional, Tuple

from .lines import Lines, Rows, line
from .names import Id, Name
from .nodes import Node, node_of

TOTAL, WEAK = line(r"(\d+) (\d+) roots"), line(r"(\d+) (\d+) only by weak references")
KEPT, BELOW = line(r"(\d+) (\d+) (ID .*)"), line(r"  (\d+) (\d+) (ID .*)")
NOT_KEPT = line("only by weak references|not reached")
SUSPECT, MORE, PIECE = line(r"suspect (\d+)% (\d+)"), line(r"\.\. (\d+) more"), line(r"  (\d+) (\d+) (.*)")


class Size(NamedTuple):
    """The bytes and the number of some classes and objects."""

    bytes: int
    objects: int


class Kept(NamedTuple):
    """A class or an object, and the bytes and the number of the classes and objects that would go without it."""

    bytes: int
    objects: int
    node: Node

    @property
    def id(self) -> Id:
        return self.node.id

    @property
    def label(self) -> Name:
        return self.node.label


class Keeps(NamedTuple):
    """What keeps a class or an object alive, and what it keeps alive itself.

    `reached` is `strongly`, `weakly` or `not`; unless `strongly`, `total` is None and the rest is empty. `total` is all that strong
    references reach from a GC root. `weak` is what only weak references reach; it is told for the identifier 0 alone. `keepers` go from the
    outermost down to the class or object itself. `kept` is what it keeps alive right below, the largest first."""

    reached: str
    total: Optional[Size]
    weak: Optional[Size]
    keepers: Tuple[Kept, ...]
    kept: Tuple[Kept, ...]


class Reached(NamedTuple):
    """How a class or an object is reached: the first values of `Keeps`."""

    reached: str
    total: Optional[Size]
    weak: Optional[Size]


class Chain(NamedTuple):
    """Some keepers from the outermost on, the last ones, and the number of those between them."""

    outer: Tuple[Kept, ...]
    left_out: int
    inner: Tuple[Kept, ...]


class Piece(NamedTuple):
    """The retained bytes and the number of objects of one label right below a suspect."""

    bytes: int
    count: int  # type: ignore[assignment]
    label: Name


class Suspect(NamedTuple):
    """Where memory falls apart into pieces: their share of the total in hundredths, rounded down, and their bytes.

    `keepers` are the objects that keep it alive, from the outermost down to itself; there are none if it stands for the roots. `left_out`
    is the number of keepers between the first ten and the last ten that are not told."""

    percent: int
    bytes: int
    keepers: Tuple[Kept, ...]
    left_out: int
    pieces: Tuple[Piece, ...]


class Suspects(NamedTuple):
    """What strong references reach from a GC root, what only weak ones reach, and the suspects."""

    total: Size
    weak: Optional[Size]
    suspects: Tuple[Suspect, ...]


def size_of(match: Match[str]) -> Size:
    return Size(int(match.group(1)), int(match.group(2)))


def kept_of(match: Match[str]) -> Kept:
    return Kept(int(match.group(1)), int(match.group(2)), node_of(match.group(3)))


def reached(lines: Lines) -> Reached:
    """The first lines of `keeps`. Unless it is reached strongly, there are no others."""
    other = lines.next_is(NOT_KEPT)
    if other is not None:
        lines.end()
        return Reached("not" if other.group() == "not reached" else "weakly", None, None)
    total, weak = size_of(lines.expect(TOTAL)), lines.next_is(WEAK)
    return Reached("strongly", total, size_of(weak) if weak else None)


def chain(lines: Lines, most: int) -> Chain:
    """The keepers that come next in `keeps`: of a long chain `most` at either end."""
    outer: List[Kept] = []
    inner: Deque[Match[str]] = deque(maxlen=most)
    passed = 0
    for match in lines.while_is(KEPT):
        if len(outer) < most:
            outer.append(kept_of(match))
        else:
            inner.append(match)
        passed += 1
    return Chain(tuple(outer), passed - len(outer) - len(inner), tuple(map(kept_of, inner)))


def below(lines: Lines) -> Rows[Kept]:
    """What is kept alive right below, which comes last in `keeps`."""
    return Rows(lines, BELOW, kept_of)


def keeps(lines: Lines) -> Keeps:
    head = reached(lines)
    keepers = tuple(map(kept_of, lines.while_is(KEPT)))
    return Keeps(head.reached, head.total, head.weak, keepers, tuple(below(lines)))


def biggest(lines: Lines) -> Rows[Kept]:
    return Rows(lines, KEPT, kept_of)


def suspect(head: Match[str], lines: Lines) -> Suspect:
    """The suspect below its first line."""
    keepers = list(map(kept_of, lines.while_is(KEPT)))
    more = lines.next_is(MORE)
    keepers.extend(map(kept_of, lines.while_is(KEPT)))
    pieces = tuple(Piece(int(piece.group(1)), int(piece.group(2)), Name(piece.group(3))) for piece in lines.while_is(PIECE))
    return Suspect(int(head.group(1)), int(head.group(2)), tuple(keepers), int(more.group(1)) if more else 0, pieces)


def suspects(lines: Lines) -> Suspects:
    total, weak = size_of(lines.expect(TOTAL)), lines.next_is(WEAK)
    found = tuple(suspect(head, lines) for head in lines.while_is(SUSPECT))
    lines.end()
    return Suspects(total, size_of(weak) if weak else None, found)

"""The reports `path` and `why`: how a GC root leads to a class or an object."""

from typing import NamedTuple, Optional, Tuple

from .lines import Lines, Rows, line
from .names import Id, Name, identifier
from .nodes import STEP, Node, Reference, Root, node_of, reference_in, roots_of

DISTANCE, NOT_REACHED, WEAKLY = line(r"distance (\d+)"), line("not reached"), line("only by weak references")
NODE, REFERENCE, MORE, IDENTIFIER = line("ID .*"), line("  " + STEP), line(r"\.\. (\d+) more"), line("ID")
# How the lines below a node of a path begin.
BELOW_NODE = ("  ", ".. ")


class Path(NamedTuple):
    """The number of references on the shortest path from a GC root, and its classes and objects. `distance` is None if there is no path."""

    distance: Optional[int]
    ids: Tuple[Id, ...]


class Step(NamedTuple):
    """A class or an object on a path, and the reference to the next one; the last has none. `left_out` is the number of classes and objects
    behind it that are folded, since they have the same label and the same reference."""

    node: Node
    reference: Optional[Reference]
    left_out: int

    @property
    def id(self) -> Id:
        return self.node.id

    @property
    def label(self) -> Name:
        return self.node.label


class Why(NamedTuple):
    """The shortest path of strong references from a GC root. `reached` is `strongly`; `weakly` if only weak references lead there, and the
    path then has some; or `not`, and then `distance` is None and the rest is empty. `roots` are the GC roots of the first step."""

    reached: str
    distance: Optional[int]
    roots: Tuple[Root, ...]
    steps: Tuple[Step, ...]


class Reached(NamedTuple):
    """How a class or an object is reached: the first values of `Why`."""

    reached: str
    distance: Optional[int]


def path(lines: Lines) -> Path:
    if lines.next_is(NOT_REACHED):
        lines.end()
        return Path(None, ())
    distance = int(lines.expect(DISTANCE).group(1))
    return Path(distance, tuple(Rows(lines, IDENTIFIER, lambda match: identifier(match.group()))))


class Steps(Rows[Step]):
    """The steps of a path, which come last in `why`. The last one has no reference."""

    def __init__(self, lines: Lines) -> None:
        super().__init__(lines, NODE, lambda match: self.step(node_of(match.group())))
        self.is_whole = False

    def __next__(self) -> Step:
        if self.is_whole:
            raise StopIteration
        return self.made(self.lines.expect(self.pattern))

    def step(self, node: Node) -> Step:
        """The step of a node, and below it the reference and what is folded."""
        below = self.lines.next_is(REFERENCE)
        if below is None:
            self.is_whole = True
            self.lines.end()
            return Step(node, None, 0)
        more = self.lines.next_is(MORE)
        return Step(node, reference_in(below), int(more.group(1)) if more else 0)

    def skip(self, count: int) -> int:
        passed = 0
        while passed < count and next(self.lines, None) is not None:
            self.lines.pass_while(BELOW_NODE)
            passed += 1
        self.is_whole = self.is_whole or (passed > 0 and self.lines.are_over())
        return passed


def reached(lines: Lines) -> Reached:
    """The first lines of `why`. If it is not reached, there are no others; else its roots come next, and then its steps."""
    if lines.next_is(NOT_REACHED):
        lines.end()
        return Reached("not", None)
    how = "weakly" if lines.next_is(WEAKLY) else "strongly"
    return Reached(how, int(lines.expect(DISTANCE).group(1)))


def why(lines: Lines) -> Why:
    head = reached(lines)
    if head.distance is None:
        return Why(*head, (), ())
    return Why(*head, roots_of(lines), tuple(Steps(lines)))

"""The report `threads`: each thread, its stack, and what its frames hold."""

from typing import Iterator, List, Match, NamedTuple, Optional, Tuple

from .errors import UnexpectedAnswer
from .lines import Lines, Rows, line
from .nodes import Frame, Node, frame_of, node_of

THREAD, HELD = line(r"thread (\d+)(?: (ID .*))?"), line("    (ID .*)")
PLACE = line(r"  (?:at (?P<at>.*)|(?P<frame>frame) (?P<number>\d+)|(?P<other>no frame|native stack|thread block))")
# How the lines below a thread and below a place begin.
BELOW_THREAD, BELOW_PLACE = "  ", "    "


class StackFrame(NamedTuple):
    """A frame of a stack, and the objects that it holds."""

    frame: Frame
    objects: Tuple[Node, ...]


class HeldAt(NamedTuple):
    """What a thread holds elsewhere. `place` is `frame`, with a `number` that the stack does not have, `no frame`, `native stack` or
    `thread block`."""

    place: str
    number: Optional[int]
    objects: Tuple[Node, ...]


class Thread(NamedTuple):
    """A thread: its serial number, its object or None, its stack with the innermost frame first, and what it holds elsewhere."""

    number: int
    node: Optional[Node]
    stack: Tuple[StackFrame, ...]
    elsewhere: Tuple[HeldAt, ...]

    @property
    def name(self) -> Optional[str]:
        """The name of the thread, of which the report has the first 100 units."""
        return self.node.text if self.node else None


class Head(NamedTuple):
    """The first line of a thread: its serial number, and its object or None."""

    number: int
    node: Optional[Node]


class Place(NamedTuple):
    """A place of a thread as it is printed: its words; those of a frame behind `at`, or None; the word of another place, and its number."""

    words: str
    at: Optional[str]
    place: Optional[str]
    number: Optional[int]


def head_of(match: Match[str]) -> Head:
    number, node = match.groups()
    return Head(int(number), None if node is None else node_of(node))


class Threads(Rows[Head]):
    """The first lines of threads. What is below the last one can be read before the next: its places, and below the last place `held`."""

    def __init__(self, lines: Lines) -> None:
        super().__init__(lines, THREAD, head_of)

    def __next__(self) -> Head:
        self.lines.pass_while(BELOW_THREAD)
        return super().__next__()

    def places(self) -> Iterator[Place]:
        """The places of the last thread. What is below a place and not read is passed over."""
        match = self.lines.next_is(PLACE)
        while match is not None:
            at, frame, position, other = match.groups()
            yield Place(match.group()[2:], at, frame or other, None if position is None else int(position))
            self.lines.pass_while(BELOW_PLACE)
            match = self.lines.next_is(PLACE)

    def held(self) -> Rows[Node]:
        """What is held at the last place."""
        return Rows(self.lines, HELD, lambda match: node_of(match.group(1)), BELOW_PLACE)

    def skip(self, count: int) -> int:
        self.lines.pass_while(BELOW_THREAD)
        passed = 0
        while passed < count and next(self.lines, None) is not None:
            self.lines.pass_while(BELOW_THREAD)
            passed += 1
        return passed


def thread(head: Head, found: Threads) -> Thread:
    """The thread with this first line."""
    stack: List[StackFrame] = []
    elsewhere: List[HeldAt] = []
    for one in found.places():
        objects = tuple(found.held())
        if one.place is not None:
            elsewhere.append(HeldAt(one.place, one.number, objects))
        elif one.at is None or elsewhere:
            raise UnexpectedAnswer("  " + one.words)
        else:
            stack.append(StackFrame(frame_of(one.at), objects))
    line = found.lines.peek()
    if line is not None and line.startswith(BELOW_THREAD):
        raise UnexpectedAnswer(line)
    return Thread(head.number, head.node, tuple(stack), tuple(elsewhere))


def threads(lines: Lines) -> Tuple[Thread, ...]:
    found = Threads(lines)
    return tuple(thread(head, found) for head in found)

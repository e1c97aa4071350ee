"""Classes and objects in a line, references between them, stack frames and GC roots."""

import re
from typing import Iterator, Match, NamedTuple, Optional, Tuple

from .errors import UnexpectedAnswer
from .lines import Lines, line, matched
from .names import Id, Name, identifier, unescaped

TYPES = ("boolean", "char", "float", "double", "byte", "short", "int", "long")
ARRAYS = tuple(f"{kind}[]" for kind in TYPES)
UNNAMED = "class|super|loader|signers|domain|constant|element"
STEP = rf"(?P<weak>weak )?(?:(?P<kind>{UNNAMED}) (?P<position>\d+)|(?P<named>static|field) (?P<at>\d+) (?P<name>.*))"
NODE, REFERENCE = line("(ID) (.*)"), line(STEP)
QUOTED = line(r'(.*?) "(.*)"(?: \.\. (\d+) more)?')
CALL = r".*\.[^.]*\([^()]*\)|\\\?ID"
FRAME = line(r"(?:(.*)\.([^.]*)\(([^()]*)\)|\\\?(ID))")
SOURCE = re.compile(r"(?P<native>Native Method)|(?:Unknown Source|(?P<source>.*?))(?::(?P<line>\d+)|(?P<compiled>, compiled))?")
WITH_TEXT = line(rf'(?P<node>ID .*? ".*"(?: \.\. \d+ more)?)(?: at (?P<frame>{CALL}))?')
WITHOUT_TEXT = line(rf"(?P<node>ID .*?)(?: at (?P<frame>{CALL}))?")
NO_FRAME = 4294967295
ROOT = line(
    r"root (?:(?P<a>JNI global) (?P<reference>ID)|(?P<b>JNI local|Java frame) thread (?P<thread_b>\d+) (?:frame (?P<frame>\d+)|no frame)"
    r"|(?P<c>native stack|thread block) thread (?P<thread_c>\d+)|(?P<d>sticky class|monitor used|unknown)"
    r"|(?P<e>thread object) thread (?P<thread_e>\d+) trace (?P<trace>\d+))"
)
BELOW_ROOT = line(r"  (?:at|ID) .*")


class Node(NamedTuple):
    """A class or an object.

    `kind` is `class`, `object` (an instance or an array of objects), `values` (an array of numbers), or `missing` if the dump does not have
    it. `label` is the name of its class, of the class itself, or of its type, as `byte[]`. `text` is the name of a thread or, in `show`,
    the text of a string: its first 100 units; `left_out` is the number of units behind them."""

    id: Id
    kind: str
    label: Name
    text: Optional[str] = None
    left_out: int = 0


class Reference(NamedTuple):
    """How one class or object refers to another: `kind` and `position` as `refs` prints them, the name of a field or a static field, and
    whether the reference is weak, soft or phantom."""

    kind: str
    position: int
    name: Optional[Name]
    weak: bool


class Frame(NamedTuple):
    """A stack frame. `text` is as the report prints it. `source` and `line` are None if the dump does not say them; all but `text` are None
    if it has no record of the frame."""

    text: Name
    class_name: Optional[Name]
    method: Optional[Name]
    source: Optional[Name]
    line: Optional[int]
    native: bool


class Root(NamedTuple):
    """A GC root, as `Java frame`. `reference` is that of a JNI global. `frame` is None if there is none. `holder` is the object of the
    thread, and `at` the frame of its stack."""

    kind: str
    reference: Optional[Id]
    thread: Optional[int]
    frame: Optional[int]
    trace: Optional[int]
    holder: Optional[Node]
    at: Optional[Frame]


class RootLine(NamedTuple):
    """A GC root as it is printed: its words, the serial number of its thread or None, and the words of the line of its thread or None."""

    words: str
    thread: Optional[int]
    below: Optional[str]


def node_of(text: str) -> Node:
    """The node of a line."""
    digits, rest = matched(NODE, text).groups()
    if rest == "not in the dump":
        return Node(identifier(digits), "missing", Name(""))
    quoted = QUOTED.fullmatch(rest)
    label = quoted.group(1) if quoted else rest
    text = unescaped(quoted.group(2)) if quoted else None
    left_out = int(quoted.group(3) or 0) if quoted else 0
    if label.startswith("class "):
        return Node(identifier(digits), "class", Name(label[6:]), text, left_out)
    return Node(identifier(digits), "values" if label in ARRAYS else "object", Name(label), text, left_out)


def reference_in(match: Match[str]) -> Reference:
    """The reference of a match of STEP."""
    kind, named = match.group("kind"), match.group("named")
    if named is None:
        return Reference(kind, int(match.group("position")), None, match.group("weak") is not None)
    return Reference(named, int(match.group("at")), Name(match.group("name")), match.group("weak") is not None)


def frame_of(text: str) -> Frame:
    """The frame of a line."""
    owner, method, where, unknown = matched(FRAME, text).groups()
    if unknown is not None:
        return Frame(Name(text), None, None, None, None, False)
    place = matched(SOURCE, where)
    source, number = place.group("source"), place.group("line")
    return Frame(
        Name(text), Name(owner), Name(method), None if source is None else Name(source), None if number is None else int(number),
        place.group("native") is not None,
    )


def holder_of(text: str) -> Tuple[Node, Optional[Frame]]:
    """The object of a thread, and the frame behind it."""
    match = WITH_TEXT.fullmatch(text) or WITHOUT_TEXT.fullmatch(text)
    if match is None:
        raise UnexpectedAnswer(text)
    frame = match.group("frame")
    return node_of(match.group("node")), None if frame is None else frame_of(frame)


def number(digits: Optional[str]) -> Optional[int]:
    return None if digits is None else int(digits)


def root_lines(lines: Lines) -> Iterator[RootLine]:
    """The roots that come next, as they are printed, each with the line of its thread."""
    for match in lines.while_is(ROOT):
        thread = number(match.group("thread_b") or match.group("thread_c") or match.group("thread_e"))
        below = lines.next_is(BELOW_ROOT) if thread is not None else None
        yield RootLine(match.group()[len("root ") :], thread, below.group()[2:] if below else None)


def root_of(line: RootLine) -> Root:
    """The root of its lines."""
    found = matched(ROOT, f"root {line.words}").groupdict()
    kind = next(found[name] for name in "abcde" if found[name] is not None)
    reference = None if found["reference"] is None else identifier(found["reference"])
    holder: Optional[Node] = None
    at: Optional[Frame] = None
    if line.below is not None and line.below.startswith("at "):
        at = frame_of(line.below[len("at ") :])
    elif line.below is not None:
        holder, at = holder_of(line.below)
    return Root(kind, reference, line.thread, number(found["frame"]), number(found["trace"]), holder, at)


def roots_of(lines: Lines) -> Tuple[Root, ...]:
    """The roots that come next, each with the line of its thread."""
    return tuple(map(root_of, root_lines(lines)))

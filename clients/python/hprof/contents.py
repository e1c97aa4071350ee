"""The report `object`: the contents of a class or an object as raw bits, and the values that they are."""

import re
from typing import Match, NamedTuple, Optional, Tuple, Union

from .errors import UnexpectedAnswer
from .lines import Lines, Rows, line
from .names import Id, Name, escaped, identifier
from .nodes import TYPES
from .values import Value, value_of, values_of

PRIMITIVE = "|".join(TYPES)
KIND = f"array|object|{PRIMITIVE}"
CLASS = line(r"class (ID) super (ID) loader (ID) signers (ID) domain (ID) size (\d+) (.*)")
CONSTANT, STATIC = line(rf"constant (\d+) (\d+) ({KIND}) ([0-9a-f]+)"), line(rf"static (\d+) ({KIND}) ([0-9a-f]+) (.*)")
OWN, FIELD = line(rf"own (\d+) ({KIND}) (.*)"), line(rf"field (\d+) (ID) ({KIND}) ([0-9a-f]+) (.*)")
INSTANCE, OBJECTS = line(r"instance (ID) class (ID) bytes (\d+) (.*)"), line(r"objects (ID) class (ID) elements (\d+) (.*)")
VALUES, BYTES, ELEMENT = line(rf"values (ID) ({PRIMITIVE}) elements (\d+)"), line("bytes ((?:[0-9a-f]{2})+)"), line(r"element \d+ (ID)")
DIGITS = line("[0-9a-f]*")
NO_FIELDS = line(r"no layout: class ID is missing|no layout: the superclasses run in a circle|no fields: the layout has \d+ bytes")
WIDTHS = {"boolean": 1, "char": 2, "float": 4, "double": 8, "byte": 1, "short": 2, "int": 4, "long": 8}


class Constant(NamedTuple):
    """An entry of the constant pool of a class. `bits` are hexadecimal, and `value` is what they are."""

    position: int
    pool_index: int
    type: str
    bits: str
    value: Value


class Static(NamedTuple):
    """A static field of a class."""

    position: int
    type: str
    bits: str
    value: Value
    name: Name


class Own(NamedTuple):
    """An instance field that a class declares."""

    position: int
    type: str
    name: Name


class ClassHead(NamedTuple):
    """The first line of a class: the first values of `ClassDump`."""

    id: Id
    superclass: Id
    loader: Id
    signers: Id
    domain: Id
    size: int
    label: Name


class ClassDump(NamedTuple):
    """A class. `superclass`, `loader`, `signers` and `domain` are 0 for none; `size` is the instance size of its dump."""

    id: Id
    superclass: Id
    loader: Id
    signers: Id
    domain: Id
    size: int
    label: Name
    constants: Tuple[Constant, ...]
    statics: Tuple[Static, ...]
    own: Tuple[Own, ...]


class Field(NamedTuple):
    """A field of an instance. `owner` is the class that declares it."""

    position: int
    owner: Id
    type: str
    bits: str
    value: Value
    name: Name


class InstanceHead(NamedTuple):
    """The first line of an instance."""

    id: Id
    class_id: Id
    bytes: int
    label: Name


class ObjectArrayHead(NamedTuple):
    """The first line of an array of objects."""

    id: Id
    class_id: Id
    length: int
    label: Name


class PrimitiveArrayHead(NamedTuple):
    """The first line of an array of numbers."""

    id: Id
    type: str
    length: int

    @property
    def label(self) -> Name:
        return Name(f"{self.type}[]")


Head = Union[InstanceHead, ObjectArrayHead, PrimitiveArrayHead]


class Instance(NamedTuple):
    """An instance. `no_fields` says why its fields are not known, or is None."""

    id: Id
    class_id: Id
    bytes: int
    label: Name
    fields: Tuple[Field, ...]
    no_fields: Optional[str]

    def value(self, name: str) -> Value:
        """The value of the first field with a name. Raises KeyError if there is none."""
        for field in self.fields:
            if field.name == name:
                return field.value
        raise KeyError(name)


class ObjectArray(NamedTuple):
    """An array of objects. An element is 0 for null."""

    id: Id
    class_id: Id
    label: Name
    elements: Tuple[Id, ...]


class PrimitiveArray(NamedTuple):
    """An array of numbers. `held` are the bytes of its elements, big-endian."""

    id: Id
    type: str
    length: int
    held: bytes

    @property
    def label(self) -> str:
        return f"{self.type}[]"

    def values(self) -> Tuple[Value, ...]:
        """The elements."""
        return values_of(self.type, self.held)


Dump = Union[Instance, ObjectArray, PrimitiveArray]


class Contents(NamedTuple):
    """The class with an identifier, and the object with it. A dump mostly has one of them; the other is None."""

    class_dump: Optional[ClassDump]
    dump: Optional[Dump]


def valued(match: Match[str], kind: int) -> Tuple[str, str, Value]:
    """The type, the bits and the value, of the groups from `kind` on."""
    return match.group(kind), match.group(kind + 1), value_of(match.group(kind), match.group(kind + 1))


def class_head(lines: Lines) -> Optional[ClassHead]:
    """The first line of the class, which comes before the object with its identifier. None if there is no class."""
    head = lines.next_is(CLASS)
    if head is None:
        return None
    this, parent, loader, signers, domain = (identifier(head.group(place)) for place in range(1, 6))
    return ClassHead(this, parent, loader, signers, domain, int(head.group(6)), Name(head.group(7)))


def constants(lines: Lines) -> Rows[Constant]:
    """The constants of a class, behind its first line."""
    return Rows(lines, CONSTANT, lambda one: Constant(int(one.group(1)), int(one.group(2)), *valued(one, 3)), "constant ")


def statics(lines: Lines) -> Rows[Static]:
    """The static fields of a class, behind its constants."""
    return Rows(lines, STATIC, lambda one: Static(int(one.group(1)), *valued(one, 2), Name(one.group(4))), "static ")


def own_fields(lines: Lines) -> Rows[Own]:
    """The instance fields that a class declares, behind its static fields."""
    return Rows(lines, OWN, lambda one: Own(int(one.group(1)), one.group(2), Name(one.group(3))), "own ")


def declares(lines: Lines, name: str) -> bool:
    """Whether a class declares an instance field with a name, behind its first line. It takes the lines up to that."""
    pattern = re.compile(rb"^own \d+ \w+ %s$" % re.escape(escaped(name).encode("ascii")), re.MULTILINE)
    return any(lines.found(pattern))


def pass_class(lines: Lines) -> None:
    """Passes over what a class has behind its first line."""
    lines.pass_while(("constant ", "static ", "own "))


def class_dump(lines: Lines) -> Optional[ClassDump]:
    head = class_head(lines)
    if head is None:
        return None
    return ClassDump(*head, tuple(constants(lines)), tuple(statics(lines)), tuple(own_fields(lines)))


def object_head(lines: Lines) -> Optional[Head]:
    """The first line of the object, behind the class. None if no line is left."""
    if lines.are_over():
        return None
    head = lines.next_is(INSTANCE)
    if head is not None:
        return InstanceHead(identifier(head.group(1)), identifier(head.group(2)), int(head.group(3)), Name(head.group(4)))
    head = lines.next_is(OBJECTS)
    if head is not None:
        return ObjectArrayHead(identifier(head.group(1)), identifier(head.group(2)), int(head.group(3)), Name(head.group(4)))
    head = lines.expect(VALUES)
    return PrimitiveArrayHead(identifier(head.group(1)), head.group(2), int(head.group(3)))


def head_of_object(lines: Lines) -> Optional[Head]:
    """The first line of the object, where a class comes before it behind that. None if there is no object."""
    if class_head(lines) is not None:
        pass_class(lines)
    return object_head(lines)


def no_fields(lines: Lines) -> Optional[str]:
    """Why the fields of an instance are not known, or None if they come next."""
    missing = lines.next_is(NO_FIELDS)
    return missing.group() if missing else None


def fields(lines: Lines) -> Rows[Field]:
    """The fields of an instance, behind its first line."""
    return Rows(lines, FIELD, lambda one: Field(int(one.group(1)), identifier(one.group(2)), *valued(one, 3), Name(one.group(5))))


def elements(lines: Lines) -> Rows[Id]:
    """The elements of an array of objects, behind its first line."""
    return Rows(lines, ELEMENT, lambda match: identifier(match.group(1)))


def held(lines: Lines, head: PrimitiveArrayHead, first: int, count: int) -> bytes:
    """The bytes of some elements of an array of numbers, right behind its first line. Of the others nothing is kept."""
    width, number = WIDTHS[head.type], max(min(count, head.length - first), 0)
    text = lines.window(len("bytes ") + 2 * width * first, 2 * width * number) if head.length else ""
    if text is None or len(text) != 2 * width * number or not DIGITS.fullmatch(text):
        raise UnexpectedAnswer(f"values {head.id:x} {head.type} elements {head.length}")
    return bytes.fromhex(text)


def dump(lines: Lines) -> Optional[Dump]:
    """The object, which comes behind the class."""
    head = object_head(lines)
    if isinstance(head, InstanceHead):
        missing = no_fields(lines)
        return Instance(*head, () if missing else tuple(fields(lines)), missing)
    if isinstance(head, ObjectArrayHead):
        found = tuple(elements(lines))
        if len(found) != head.length:
            raise UnexpectedAnswer(f"objects {head.id:x} class {head.class_id:x} elements {head.length} {head.label.printed}")
        return ObjectArray(head.id, head.class_id, head.label, found)
    return None if head is None else PrimitiveArray(*head, all_held(lines, head))


def all_held(lines: Lines, head: PrimitiveArrayHead) -> bytes:
    """The bytes of all elements of an array of numbers."""
    match = lines.next_is(BYTES)
    found = bytes.fromhex(match.group(1)) if match else b""
    if len(found) != head.length * WIDTHS[head.type]:
        raise UnexpectedAnswer(f"values {head.id:x} {head.type} elements {head.length}")
    return found


def contents(lines: Lines) -> Contents:
    of_class, found = class_dump(lines), dump(lines)
    lines.end()
    if of_class is None and found is None:
        raise UnexpectedAnswer("")
    return Contents(of_class, found)

"""Values of the types that a field has, of their bits."""

import struct
from typing import Tuple, Union

from .names import identifier

Value = Union[bool, int, float, str]
# The types of references.
REFERENCES = ("array", "object")
# The letter of each type in a struct.
LETTERS = {"char": "H", "float": "f", "double": "d", "byte": "b", "short": "h", "int": "i", "long": "q"}


def value_of(kind: str, bits: str) -> Value:
    """The value of hexadecimal bits: an Id for a reference, a unit of text for a char, a number for a boolean that is neither 0 nor 1."""
    if kind in REFERENCES:
        return identifier(bits)
    if kind == "boolean":
        return {"00": False, "01": True}.get(bits, int(bits, 16))
    number = struct.unpack(">" + LETTERS[kind], bytes.fromhex(bits))[0]
    return chr(number) if kind == "char" else number


def values_of(kind: str, held: bytes) -> Tuple[Value, ...]:
    """The elements of an array of a type."""
    if kind == "boolean":
        return tuple({0: False, 1: True}.get(byte, byte) for byte in held)
    letter = LETTERS[kind]
    numbers = struct.unpack(f">{len(held) // struct.calcsize('>' + letter)}{letter}", held)
    return tuple(map(chr, numbers)) if kind == "char" else numbers

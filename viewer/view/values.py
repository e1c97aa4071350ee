"""Values as a person reads them, of the raw bits that hprof prints."""

import struct

from hprof.contents import WIDTHS

from .markup import element, joined
from .printed import readable

REALS = {"float": (">f", range(1, 10)), "double": (">d", range(1, 18))}


def whole(bits, width):
    """A number with its sign."""
    number = int(bits, 16)
    return str(number - (1 << 8 * width) if number >> (8 * width - 1) else number)


def real(bits, form, digits):
    """A float or a double with the fewest digits that lead back to it, in the words of Java."""
    held = bytes.fromhex(bits)
    (number,) = struct.unpack(form, held)
    if number != number:
        return "NaN"
    if number in (float("inf"), float("-inf")):
        return "Infinity" if number > 0 else "-Infinity"
    for count in digits:
        text = f"{number:.{count}g}"
        if leads_back(text, form, held):
            break
    return text if any(sign in text for sign in ".e") else text + ".0"


def leads_back(text, form, held):
    try:
        return struct.pack(form, float(text)) == held
    except OverflowError:
        return False


def truth(bits):
    return {"00": "false", "01": "true"}.get(bits, f"{int(bits, 16)}, neither true nor false")


def character(bits):
    """A char, in quotes as Java has it, and its number."""
    number = int(bits, 16)
    return joined(["'", readable(chr(number)), "' ", element("small", str(number))])


def number(kind, bits):
    """The value of a type that is no reference."""
    if kind == "boolean":
        return truth(bits)
    if kind == "char":
        return character(bits)
    if kind in REALS:
        return real(bits, *REALS[kind])
    return whole(bits, WIDTHS[kind])


def text_of(kind, bits):
    """Numbers as text: bytes as Latin-1, chars as UTF-16. None for a type that holds no text."""
    if kind == "byte":
        return bytes.fromhex(bits).decode("latin-1")
    if kind == "char":
        return bytes.fromhex(bits).decode("utf-16-be", "surrogatepass")
    return None


def thousands(number):
    return f"{number:,}"


def counted(number, one, more=None):
    """A number of things, as `1 object` or `2 objects`."""
    return f"{number:,} {one if number == 1 else more or one + 's'}"

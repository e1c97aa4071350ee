"""Identifiers and kinds as addresses have them, and the questions of pages.

A page asks about a number or one of eight types alone, and the package makes the question of it. No text of an address or of a dump becomes
part of one.
"""

import re

from hprof.nodes import TYPES
from hprof.reports import asked

CANONICAL = re.compile(r"0|[1-9a-f][0-9a-f]{0,15}")
WRITTEN = re.compile(r"(?:@\s*)?(?:0[xX])?([0-9a-fA-F]{1,16})")


def identifier(text):
    """The number that an address spells: lower-case hexadecimal without leading zeros. None for any other text."""
    return int(text, 16) if CANONICAL.fullmatch(text) else None


def number_of(text):
    """The number that a person wrote, with `0x`, `@`, capitals or zeros in front of it. None for any other text."""
    match = WRITTEN.fullmatch(text.strip())
    return int(match.group(1), 16) if match else None


def is_marked(text):
    """Whether the text can be nothing but an identifier, since it begins as one."""
    return text.strip()[:2].lower() == "0x" or text.strip()[:1] == "@"


def checked(number):
    if not isinstance(number, int) or isinstance(number, bool):
        raise ValueError("no identifier")
    return number


def about(report, number):
    """The question for a report on an identifier."""
    return asked((report, checked(number)))


def subject_of(kind):
    """What stands for a class, which is a number, or for the arrays of a type, which is a word of TYPES."""
    return f"{kind}[]" if kind in TYPES else checked(kind)


def objects_of(kind):
    """The question for the objects of a class or a type by size."""
    return asked(("objects", subject_of(kind)))


def biggest_of(kind):
    """The question for the objects of a class or a type by what they retain."""
    return asked(("biggest", subject_of(kind)))

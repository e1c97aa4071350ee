"""Class names as people write them: `java.util.HashMap$Node[]` for `[Ljava/util/HashMap$Node;`."""

import re

from hprof.names import unescaped
from hprof.nodes import TYPES

from .markup import Markup, element
from .printed import NAME, cut, readable, titled

LETTERS = dict(zip("ZCFDBSIJ", TYPES))
NAMELESS = "(a name without bytes)"
# A name of a class: words with a slash between them, also where characters are escaped.
WORDS = r"[\w$\\-]+(?:/[\w$\\-]+)*"
CLASS = re.compile(WORDS, re.ASCII)
ARRAY = re.compile(rf"(\[+)(?:L({WORDS});|([ZCFDBSIJ]))", re.ASCII)
# A name that is too long for its line is broken here.
BREAKS = re.compile(r"(?<=[.$])")


def written(label):
    """A printed label as people write it. One that is no name of a class stays as it is."""
    array = ARRAY.fullmatch(label)
    if array:
        name = array.group(2) or LETTERS[array.group(3)]
        return name.replace("/", ".") + "[]" * len(array.group(1))
    return label.replace("/", ".") if CLASS.fullmatch(label) else label


def name_of(label, is_whole=False):
    """The markup of a printed class name, cut if it is long and need not be whole; it may be broken behind a dot and a dollar sign."""
    if not label:
        return element("i", NAMELESS)
    name = written(label)
    kept, less = cut(name, len(name) if is_whole else NAME)
    parts = BREAKS.split(unescaped(kept))
    return Markup(element("wbr").join(map(readable, parts)) + (element("i", "\u2026") if less else ""))


def title_of(label):
    """The start of a printed class name as text without markup, for the title of a page."""
    return titled(written(label)) or NAMELESS

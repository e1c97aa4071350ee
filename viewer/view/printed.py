"""Names and texts as hprof prints them, made readable.

hprof prints ASCII alone: `\\u` and four digits stand for any other UTF-16 unit. Here such units become characters again where they can be
seen; others stay escaped, in a colour of their own, so that no name can hide or turn the text around it.
"""

import re

from hprof.names import unescaped

from .markup import Markup, element, escaped

# The characters of a printed name that a table shows, and those of a line that has one, which are kept. Behind the name of a node may stand
# that of a thread, of which the report has 100 units.
NAME = 300
SHORT = NAME + 200
NODE = SHORT + 700
CUT = re.compile(r"\\u?[0-9a-f]{0,3}\Z")
BRIEF = {"\n": "\\n", "\r": "\\r", "\t": "\\t"}


def cut(printed, limit=NAME):
    """The first characters of a printed text, at most `limit`, without a part of an escape at their end; whether there are more."""
    if len(printed) <= limit:
        return printed, False
    return CUT.sub("", printed[:limit]), True


def escape(character):
    code = ord(character)
    return BRIEF.get(character) or (f"\\u{code:04x}" if code < 0x10000 else f"\\U{code:08x}")


def seen(character, lines):
    """A character in a page: itself if it can be seen, else its escape. With `lines`, a line feed begins a new line."""
    if character.isprintable() or (lines and character == "\n"):
        return escaped(character)
    return element("i", escape(character))


def readable(text, lines=False):
    """The markup of a text, whatever is in it."""
    if text.isprintable():
        return escaped(text)
    return Markup("".join(seen(character, lines) for character in text))


def shown(printed, limit=NAME, lines=False):
    """The markup of a printed name or text, cut to `limit` characters."""
    kept, less = cut(printed, limit)
    more = element("i", "\u2026") if less else Markup()
    return Markup(readable(unescaped(kept), lines) + more)


def visible(text):
    """A text with escapes for what cannot be seen, without markup."""
    return text if text.isprintable() else "".join(one if one.isprintable() else escape(one) for one in text)


def titled(printed):
    """The start of a printed name as text without markup, for the title of a page."""
    return visible(unescaped(cut(printed)[0]))

"""Markup, in which all text is escaped but what was made here."""

import html


class Markup(str):
    """Text that is markup. All other text is escaped before it becomes a part of a page."""

    __slots__ = ()


EMPTY = ("input", "link", "meta", "br", "wbr")


def escaped(child):
    return child if type(child) is Markup else Markup(html.escape(str(child)))


def joined(children):
    return Markup("".join(map(escaped, children)))


def element(name, /, *children, **attributes):
    """An element. An attribute that is None or False is left out; one that is a word of Python, as `class_`, ends with a line below."""
    head = [name]
    for key, value in attributes.items():
        if value is None or value is False:
            continue
        key = key.rstrip("_").replace("_", "-")
        head.append(key if value is True else f'{key}="{html.escape(str(value))}"')
    if name in EMPTY:
        return Markup(f"<{' '.join(head)}>")
    return Markup(f"<{' '.join(head)}>{joined(children)}</{name}>")


def link(address, *children, **attributes):
    return element("a", *children, href=address, **attributes)

"""Tables: a head, and rows that fit a narrow window."""

from .markup import element


def head(name, class_=None, sorted_=None):
    """The head of a column, with the class of its cells and the way in which the rows are sorted by it."""
    return element("th", name, scope="col", class_=class_, aria_sort=sorted_)


def table(heads, rows, class_=None):
    """A table of rows. A head is a text, or what `head` takes."""
    named = [head(one) if isinstance(one, str) else head(*one) for one in heads]
    parts = element("thead", element("tr", *named)), element("tbody", *rows)
    return element("div", element("table", *parts, class_=class_), class_="wide")


def row(*cells):
    return element("tr", *cells)


def cell(child, class_=None):
    return element("td", child, class_=class_)


def number(child):
    return element("td", child, class_="n")


def facts(pairs):
    """A list of names with their values, without those whose value is None."""
    return element("dl", *[part for name, value in pairs if value is not None for part in (element("dt", name), element("dd", value))])


def width(part, whole):
    """The class of a bar: how much of the whole it is, in percent. What is there is seen."""
    if not part or not whole:
        return "w0"
    return f"w{max(1, min(100, round(100 * part / whole)))}"


def bar(part, whole):
    return element("span", class_=f"bar {width(part, whole)}", aria_hidden="true")

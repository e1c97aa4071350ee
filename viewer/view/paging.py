"""Pages of a long list: which lines a page has, and the links to the others."""

from collections import namedtuple
from itertools import islice
from urllib.parse import urlencode

from .markup import Markup, element, joined, link
from .values import thousands

PAGE = 100
Page = namedtuple("Page", "number size first")
Part = namedtuple("Part", "entries total page")


def page(number, size=PAGE):
    """The page of a number that is counted from 1."""
    return Page(number, size, (number - 1) * size)


class Kept:
    """The entries of one page, of all that are added one after the other."""

    def __init__(self, page):
        self.page = page
        self.entries = []
        self.total = 0

    def add(self, entry):
        """Counts an entry, and keeps it if the page has it."""
        if self.page.first <= self.total < self.page.first + self.page.size:
            self.entries.append(entry)
        self.total += 1

    def part(self):
        return Part(self.entries, self.total, self.page)


def taken(rows, page, made=lambda row: row):
    """One page of rows, and the number of all. The rows of other pages are passed over."""
    passed = rows.skip(page.first)
    entries = [made(row) for row in islice(rows, page.size)]
    return Part(entries, passed + len(entries) + rows.rest(), page)


def last_page(total, size):
    return max(1, -(-total // size))


def is_there(part):
    """Whether the list has such a page; its first is there even if it's empty."""
    return part.page.number <= last_page(part.total, part.page.size)


def address(name, number, others):
    return "?" + urlencode({**others, name: number})


def step(text, number, name, others, reachable):
    """A link to another page, or its text alone if there is none."""
    return link(address(name, number, others), text) if reachable else element("span", text, class_="off")


def pager(part, name="page", **others):
    """Links to the first, the previous, the next and the last page, and a field for any other. Nothing if there is one page alone."""
    number, last = part.page.number, last_page(part.total, part.page.size)
    if last == 1:
        return Markup()
    steps = [
        step("First", 1, name, others, number > 1),
        step("Previous", number - 1, name, others, number > 1),
        element("span", f"page {thousands(number)} of {thousands(last)}"),
        step("Next", number + 1, name, others, number < last),
        step("Last", last, name, others, number < last),
    ]
    return element("nav", *[joined([one, " "]) for one in steps], go_to(last, name, others), class_="pager", aria_label="Pages")


def go_to(last, name, others):
    """A field for the number of a page."""
    hidden = [element("input", type="hidden", name=key, value=value) for key, value in others.items()]
    field = element("input", type="number", name=name, min=1, max=last, required=True, aria_label="Go to page")
    return element("form", *hidden, field, element("button", "Go"), method="get")

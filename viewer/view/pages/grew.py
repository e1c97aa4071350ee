"""What grew from one dump to another, as bars to both sides."""

from urllib.parse import urlencode

from hprof import counts

from ..class_names import name_of
from ..markup import element, joined, link
from ..names import LONGEST, Wanted
from ..paging import Kept, is_there, page, pager
from ..tables import bar, cell, number, row, table
from ..visit import Missing
from .overview import ROWS, filter_field, filter_word, filter_words


class Growth:
    """The rows of one page of `diff` whose name is wanted, and over all rows their number, their sums, and the most bytes to a side."""

    def __init__(self, wanted, page):
        self.wanted = wanted
        self.kept = Kept(page)
        self.bytes = self.objects = self.most = self.total = 0

    def read(self, lines):
        for one in counts.growth(lines):
            self.total += 1
            if self.wanted.in_name(one.label.printed):
                self.kept.add(one)
            self.bytes += one.bytes
            self.objects += one.count
            self.most = max(self.most, abs(one.bytes))
        return self


def signed(number):
    return f"{number:+,}" if number else "0"


def both_sides(one, most):
    """A bar to the left of the middle for less, to the right for more."""
    less = element("span", bar(max(-one.bytes, 0), most), class_="half less")
    more = element("span", bar(max(one.bytes, 0), most), class_="half more")
    return joined([less, more])


def name(frame, label):
    """The name of a printed label, which leads to the class in the newer dump; one that is too long for an address leads nowhere."""
    text = name_of(label)
    return link(frame.at("find") + "?" + urlencode({"label": label}), text) if 0 < len(label) <= LONGEST else text


def grown_row(frame, growth, one):
    sides = both_sides(one, growth.most)
    return row(cell(name(frame, one.label.printed), "name"), number(signed(one.bytes)), cell(sides, "both"), number(signed(one.count)))


def show(visit):
    word = filter_word(visit)
    growth = visit.growth.read(Growth(Wanted(word), page(visit.number(), ROWS)).read)
    part = growth.kept.part()
    if not is_there(part):
        raise Missing
    heads = ["Class or type", ("Bytes", "n", "descending"), ("Less \u00b7 more", "plain both"), ("Objects", "n")]
    rows = [grown_row(visit.frame, growth, one) for one in part.entries]
    old, new = visit.frame.dated
    said = f"{signed(growth.bytes)} bytes and {signed(growth.objects)} objects from {old} to {new}. Names lead to {visit.frame.parts[1]}."
    return visit.frame.page(
        "What grew",
        element("p", said if growth.total else "Nothing grew: no class or type has another number of bytes or objects."),
        filter_field(visit.frame.at("grew"), word, part, growth.total) if growth.total else "",
        table(heads, rows, "sortable") if rows else "",
        pager(part, **filter_words(word)),
    )

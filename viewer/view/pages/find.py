"""A search: an identifier leads to its page, a part of a name to the classes and types that have it."""

import re
from collections import namedtuple

from hprof import counts

from ..frame import Reply
from ..markup import element
from ..names import LONGEST, Wanted
from ..paging import PAGE, Kept, is_there, page, pager
from ..printed import SHORT, readable
from ..subjects import about, is_marked, number_of
from ..tables import cell, number, row, table
from ..values import counted, thousands
from ..visit import Missing
from ..weights import kind_link, kind_of

# A class or a type, with the beginning of its printed label.
Found = namedtuple("Found", "bytes count kind label")


class Search:
    """A page of the rows whose label is wanted: those with objects by size, then classes without objects."""

    def __init__(self, pattern, is_wanted, wanted):
        self.pattern = pattern
        self.is_wanted = is_wanted
        self.kept = Kept(wanted)

    def add(self, one, kind):
        if self.is_wanted(one.label.printed):
            self.kept.add(Found(one.bytes, one.count, kind, one.label.printed[:SHORT]))

    def in_histogram(self, lines):
        for one in counts.histogram_found(lines, self.pattern):
            self.add(one, kind_of(one))

    def in_classes(self, lines):
        for one in counts.classes_found(lines, self.pattern):
            if one.count == 0:
                self.add(one, one.id)

    def made(self, visit):
        visit.ask(("histo", self.in_histogram), ("classes", self.in_classes))
        return self.kept.part()


def result(frame, one):
    id = f"{one.kind:x}" if isinstance(one.kind, int) else ""
    link = cell(kind_link(frame, one.kind, one.label), "name")
    return row(link, number(thousands(one.bytes)), number(thousands(one.count)), cell(id, "bits"))


def results(visit, part, word, **words):
    frame = visit.frame
    rows = [result(frame, one) for one in part.entries]
    heads = ["Class or type", ("Bytes", "n"), ("Objects", "n"), "Identifier"]
    found = counted(part.total, "class or type", "classes and types")
    said = element("p", f"{found} with ", element("b", readable(word)), " in the name.")
    return frame.page("Search", said, table(heads, rows) if rows else "", pager(part, **words), word=word)


def named_so(visit, label):
    """The class or the type with exactly this printed label, or a list of those; the page of growth leads here."""
    exact = printed_exactly(label)
    part = Search(re.compile(re.escape(exact).encode("ascii")), lambda one: one == exact, page(visit.number(), PAGE)).made(visit)
    if part.total == 1 and part.entries:
        kind = part.entries[0].kind
        return Reply(303, location=visit.frame.at("type", kind) if isinstance(kind, str) else visit.frame.at("class", kind))
    if not is_there(part):
        raise Missing
    return results(visit, part, label, label=label)


def printed_exactly(label):
    """A label that an address has in its printed form. Any other text is the label of nothing."""
    return label.encode("ascii", "replace").decode("ascii")


def show(visit):
    if visit.words.get("label"):
        return named_so(visit, visit.words["label"][:LONGEST])
    word = visit.words.get("q", "")[:LONGEST].strip()
    if not word:
        return Reply(303, location=visit.frame.at(""))
    id = number_of(word)
    if id is not None:
        (is_there_one,) = visit.ask((about("object", id), lambda lines: True))
        if is_there_one or is_marked(word):
            return Reply(303, location=visit.frame.at("object", id))
    wanted = Wanted(word)
    part = Search(wanted.in_line, wanted.in_name, page(visit.number(), PAGE)).made(visit)
    if not is_there(part):
        raise Missing
    return results(visit, part, word, q=word)

"""Who refers to an object or a class: sums where there are many, and each reference, with the class of what holds it and its field."""

from collections import namedtuple
from itertools import islice

from hprof import contents
from hprof.referrers import is_weak, pass_roots, refs, sums

from ..briefs import NOTHING, brief, named, target, words_for
from ..class_names import name_of
from ..markup import Markup, element, joined, link
from ..paging import is_there, page, pager, taken
from ..printed import NODE, shown
from ..subjects import about
from ..tables import cell, number, row, table
from ..values import counted, thousands
from ..visit import Missing
from .of_class import ways

QUESTION = "who ID"
# More sums are left out: the greatest come first.
SUMS = 20
BY_OBJECT = ("class", "field", "element")
VIA = {
    "class": "is of this class",
    "super": "has it as superclass",
    "loader": "has it as class loader",
    "signers": "has it as signers",
    "domain": "has it as protection domain",
}
Holder = namedtuple("Holder", "of_class head names")
Told = namedtuple("Told", "sums lines")
UNTOLD = Told((), [])


def names_at(rows, kind, wanted):
    """The names of static fields or fields at those places of this kind that are wanted, by the kind and the place."""
    found, passed = {}, 0
    for position in sorted(position for one, position in wanted if one == kind):
        passed += rows.skip(position - passed)
        for row_there in islice(rows, 1):
            passed += 1
            found[kind, position] = row_there.name.printed
    return found


def holder(wanted):
    """A reader of what refers: its class, and the names at the places that are wanted, which are pairs of a kind and a number."""

    def read(lines):
        of_class = contents.class_head(lines)
        contents.constants(lines).rest()
        names = names_at(contents.statics(lines), "static", wanted)
        contents.pass_class(lines)
        head = contents.object_head(lines)
        if isinstance(head, contents.InstanceHead) and not contents.no_fields(lines):
            names.update(names_at(contents.fields(lines), "field", wanted))
        return Holder(of_class, head, names)

    return read


def holders(visit, referrers):
    """Everything that refers, by its identifier: one turn for a page."""
    wanted = {}
    for one in referrers:
        wanted.setdefault(one.id, set()).add((one.kind, one.position))
    found = visit.ask(*[(about("object", id), holder(places)) for id, places in wanted.items()])
    return dict(zip(wanted, found))


def people(part):
    """A reader of the same references with names: the greatest sums, and the lines of the page, which stand behind roots and sums."""

    def read(lines):
        pass_roots(lines)
        summed = sums(lines, part.total, SUMS)
        lines.skip(part.page.first)
        return Told(summed, list(islice(lines, part.page.size)))

    return read


def by_way_of(one, names, weak):
    """How one refers, in words."""
    if one.kind in VIA:
        return VIA[one.kind]
    if one.kind in ("field", "static"):
        kind = "static field " if one.kind == "static" else "field "
        return joined([weak_word(weak), kind, element("b", shown(names.get((one.kind, one.position), "")))])
    return f"{one.kind} {one.position}"


def weak_word(weak):
    return joined([element("b", "weak"), " "]) if weak else Markup()


def reference(frame, one, holder, line):
    by_object = one.kind in BY_OBJECT
    head = holder.head if by_object else holder.of_class
    address = frame.at("object" if by_object else "class", one.id)
    of_class = holder.of_class is not None
    weak = one.kind == "field" and line is not None and is_weak(line, one, (holder.of_class or holder.head).label, of_class)
    return row(
        cell(link(address, f"{one.id:x}")),
        cell(named(not by_object, head.label), "name"),
        cell(by_way_of(one, holder.names, weak), "name"),
    )


def sum_shown(one):
    """A sum: how many, the class of those that refer, and how they do, unless its line was cut before that."""
    if not one.kind:
        return row(number(thousands(one.count)), cell(shown(("class " if one.of_class else "") + one.label.printed), "name"), cell(""))
    if one.name is None:
        way = VIA.get(one.kind, one.kind)
    else:
        way = joined([weak_word(one.weak), "static field " if one.kind == "static" else "field ", element("b", shown(one.name.printed))])
    what = joined(["class " if one.of_class else "", name_of(one.label.printed)])
    return row(number(thousands(one.count)), cell(what, "name"), cell(way, "name"))


def sums_shown(summed):
    return table([("References", "n"), "From", "By"], map(sum_shown, summed)) if summed else Markup()


def show(visit, id):
    wanted = page(visit.number())
    subject, part = visit.ask((about("object", id), brief), (about("refs", id), lambda lines: taken(refs(lines), wanted)))
    subject = subject or NOTHING
    if not is_there(part):
        raise Missing
    found = holders(visit, part.entries)
    can_tell = QUESTION in visit.heap.questions and part.total
    told = visit.ask((about("who", id), people(part), NODE))[0] if can_tell else UNTOLD
    lines_of = told.lines or [None] * len(part.entries)
    rows = [reference(visit.frame, one, found[one.id], line) for one, line in zip(part.entries, lines_of)]
    heading = element("h2", counted(part.total, "reference"))
    return visit.frame.page(
        f"Who refers to {words_for(id, subject)}",
        element("p", target(visit.frame, id, {id: subject}) if id else "0 is null."),
        ways(visit.frame, id),
        heading,
        sums_shown(told.sums) if not part.page.first else Markup(),
        joined([table(["From", "Class", "By"], rows), pager(part)]) if rows else element("p", "Nothing refers to it."),
    )

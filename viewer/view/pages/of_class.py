"""The page of a class: what it stands below and above, its fields, and its objects by size, or by what they keep."""

import re
from collections import namedtuple

from hprof import contents, counts
from hprof.answers import LONGEST
from hprof.names import Name
from hprof.values import REFERENCES

from ..briefs import briefs, target, texts
from ..class_names import name_of, title_of
from ..markup import Markup, element, joined, link
from ..paging import Kept, Part, is_there, page, pager, taken
from ..printed import SHORT, shown
from ..subjects import about
from ..tables import cell, facts, number, row, table
from ..values import counted, thousands
from ..values import number as value_of
from ..visit import Missing
from ..weights import kind_link
from . import sizes

# More superclasses are left out.
CHAIN = 100
SECTIONS = ("statics", "fields", "constants")
Contents = namedtuple("Contents", "head parts has_object has_value")


def own_fields(lines, wanted):
    """A page of the fields that a class declares, and whether one of all is named `value`."""
    kept, has_value = Kept(wanted), False
    for one in contents.own_fields(lines):
        kept.add(one)
        has_value = has_value or one.name == "value"
    return kept.part(), has_value


def class_contents(pages):
    """A reader of a class dump: its head, whose name is whole, and a page of each kind of its entries."""

    def read(lines):
        head = contents.class_head(lines)
        lines.limit = SHORT
        constants = taken(contents.constants(lines), pages["constants"])
        statics = taken(contents.statics(lines), pages["statics"])
        fields, has_value = own_fields(lines, pages["fields"])
        return Contents(head, {"constants": constants, "statics": statics, "fields": fields}, not lines.are_over(), has_value)

    return read


def no_contents(pages):
    """What is told where there is neither a class nor an object."""
    return Contents(None, {name: Part([], 0, one) for name, one in pages.items()}, False, False)


def short(one):
    """A row of a class with the beginning of its name."""
    return one._replace(label=Name(one.label.printed[:SHORT]))


def beside(id, wanted):
    """A reader of the row of a class, and of a page of the classes whose superclass it is."""
    pattern = re.compile(rb"^%x super | super %x bytes " % (id, id), re.MULTILINE)

    def read(lines):
        own, kept = None, Kept(wanted)
        for one in map(short, counts.classes_found(lines, pattern)):
            own = one if one.id == id else own
            if one.superclass == id:
                kept.add(one)
        return own, kept.part()

    return read


def objects(visit, id, own):
    """A page of the objects. Where a class has none it is not asked for them: hprof looks at all objects to answer that."""
    wanted = page(visit.number())
    if own and own.count == 0:
        return sizes.none(wanted)
    return sizes.asked(visit, id, wanted)


def label_in_histogram(visit, id):
    """The label of a class without a class dump, where it has objects."""
    pattern = re.compile(rb" %x " % id)

    def read(lines):
        return next((one.label for one in counts.histogram_found(lines, pattern) if one.id == id), None)

    return visit.ask(("histo", read))[0]


def superclass(lines):
    """The head of a class, and whether it has an own field named `value`."""
    head = contents.class_head(lines)
    return head, head is not None and contents.declares(lines, "value")


def chain(visit, head):
    """The superclasses from the next one up, each with its label if it has a class dump; why it ends; and whether one has `value`."""
    found, seen, parent, has_value = [], {head.id}, head.superclass, False
    while parent and len(found) < CHAIN:
        if parent in seen:
            return found, "the superclasses run in a circle", has_value
        seen.add(parent)
        one, value = visit.ask((about("object", parent), superclass))[0] or (None, False)
        found.append((parent, one and one.label.printed))
        if one is None:
            return found, "this class is missing", has_value
        parent, has_value = one.superclass, has_value or value
    return found, "and so on" if parent else "", has_value


def shown_chain(frame, above, end):
    """The superclasses as links."""
    steps = [joined([link(frame.at("class", id), name_of(label) if label else f"{id:x}"), " "]) for id, label in above]
    parts = [joined(["\u2192 ", step]) if index else step for index, step in enumerate(steps)]
    return joined([*parts, element("small", end)]) if parts else joined(["none", element("small", end)])


def value(frame, static, found):
    """The value of a static field or a constant."""
    if static.type in REFERENCES:
        return target(frame, static.value, found)
    return element("code", value_of(static.type, static.bits))


def section(title, heads, part, name, cells):
    """A page of the entries of a class, under a heading."""
    if not part.total:
        return Markup()
    rows = [row(*cells(one)) for one in part.entries]
    return joined([element("h2", counted(part.total, *title)), table(heads, rows), pager(part, name)])


def sections(frame, parts, found):
    def field(one):
        return cell(shown(one.name.printed), "name"), cell(one.type)

    def static(one):
        return (*field(one), cell(value(frame, one, found), "text"))

    def constant(one):
        return number(str(one.pool_index)), cell(one.type), cell(value(frame, one, found), "text")

    statics = section(("static field",), ["Name", "Type", "Value"], parts["statics"], "statics", static)
    fields = section(("own field",), ["Name", "Type"], parts["fields"], "fields", field)
    constants = section(("constant",), [("Index", "n"), "Type", "Value"], parts["constants"], "constants", constant)
    return joined([statics, fields, constants])


def below(frame, part):
    def subclass(one):
        return cell(kind_link(frame, one.id, one.label.printed), "name"), number(thousands(one.bytes)), number(thousands(one.count))

    heads = ["Class", ("Bytes", "n"), ("Objects", "n")]
    return section(("subclass", "subclasses"), heads, part, "subclasses", subclass)


def referred(head, parts):
    """All identifiers that the page shows as references."""
    entries = parts["statics"].entries + parts["constants"].entries
    return [head.loader, head.signers, head.domain, *(one.value for one in entries if one.type in REFERENCES)]


def head_facts(visit, content, count, above, end, found):
    head, frame = content.head, visit.frame
    other = link(frame.at("object", head.id), "an object has this identifier too") if content.has_object else None
    return facts([
        ("Identifier", element("code", f"{head.id:x}")),
        ("Superclasses", shown_chain(frame, above, end)),
        ("Loader", target(frame, head.loader, found) if head.loader else "none (the bootstrap loader)"),
        ("Signers", target(frame, head.signers, found) if head.signers else None),
        ("Domain", target(frame, head.domain, found) if head.domain else None),
        ("Bytes of fields", thousands(head.size)),
        ("Objects", thousands(count)),
        ("Beside it", other),
    ])


def ways(frame, id):
    """The questions that lead on from a class or an object."""
    questions = (("refs", "Who refers to it"), ("why", "Why it is alive"), ("keeps", "What it keeps"))
    links = [link(frame.at(page, id), words) for page, words in questions]
    return element("p", *[part for one in links for part in (" \u00b7 ", one)][1:])


def without_dump(visit, id, content, objects):
    """The page of a class without a class dump: it may have objects all the same."""
    label = label_in_histogram(visit, id)
    if label is None and not objects.part.total:
        if content.has_object:
            return visit.frame.missing("No class", joined(["At ", link(visit.frame.at("object", id), f"{id:x}"), " is an object."]))
        return visit.frame.missing(f"Nothing at {id:x}", "The dump has neither a class nor an object with this identifier.")
    title = title_of(label.printed) if label else f"Class {id:x}"
    note = element("p", "The dump has no class dump of this class: its fields and its superclass are not known.")
    return visit.frame.page(title, note, ways(visit.frame, id), sizes.shown_objects(visit.frame, objects, "object", {}))


def show(visit, id):
    pages = {name: page(visit.number(name)) for name in SECTIONS}
    wanted = beside(id, page(visit.number("subclasses")))
    content, (own, subclasses) = visit.ask((about("object", id), class_contents(pages), LONGEST), ("classes", wanted))
    content = content or no_contents(pages)
    found_objects = objects(visit, id, own)
    part = found_objects.part
    if not all(map(is_there, (subclasses, part, *content.parts.values()))):
        raise Missing
    if content.head is None:
        return without_dump(visit, id, content, found_objects)
    above, end, has_value = chain(visit, content.head)
    found = briefs(visit.heap, referred(content.head, content.parts))
    strings = texts(visit.heap, [one.id for one in part.entries]) if has_value or content.has_value else {}
    strings = {id: text for id, text in strings.items() if text}
    label = content.head.label.printed
    return visit.frame.page(
        title_of(label),
        head_facts(visit, content, own.count if own else part.total, above, end, found),
        ways(visit.frame, id),
        sections(visit.frame, content.parts, found),
        below(visit.frame, subclasses),
        sizes.shown_objects(visit.frame, found_objects, "object", strings),
        heading=name_of(label, is_whole=True),
    )

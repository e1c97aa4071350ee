"""The page of an object: the fields of an instance, or the elements of an array."""

from collections import namedtuple

from hprof import contents, texts
from hprof.contents import WIDTHS
from hprof.values import REFERENCES

from ..briefs import briefs, named, target
from ..class_names import name_of, title_of
from ..frame import Reply
from ..markup import Markup, element, joined, link
from ..paging import PAGE, Part, is_there, page, pager, taken
from ..printed import readable, shown
from ..subjects import about
from ..tables import cell, facts, number, row, table
from ..values import counted, text_of, thousands
from ..values import number as value_of
from ..visit import Missing
from . import entries as map_or_list
from .of_class import ways

# The characters of a string's own page that its text may have as printed.
TEXT = 60_000
ROW = 10
Contents = namedtuple("Contents", "of_class head part bits note")


def is_instance(head):
    return isinstance(head, contents.InstanceHead)


def is_numbers(head):
    return isinstance(head, contents.PrimitiveArrayHead)


def entries(head, lines, wanted):
    """The page of an instance's fields or of an array's elements: as entries, as bits, or a note why there are no fields."""
    if is_numbers(head):
        return Part([], head.length, wanted), contents.held(lines, head, wanted.first, wanted.size).hex(), None
    if not is_instance(head):
        return taken(contents.elements(lines), wanted), "", None
    note = contents.no_fields(lines)
    return (Part([], 0, wanted) if note else taken(contents.fields(lines), wanted)), "", note


def object_contents(wanted):
    """A reader of an object. A class of the same identifier is told, and passed over."""

    def read(lines):
        of_class = contents.class_head(lines) is not None
        contents.pass_class(lines)
        head = contents.object_head(lines)
        if head is None:
            return Contents(of_class, None, None, "", None)
        return Contents(of_class, head, *entries(head, lines, wanted))

    return read


def whole_text(lines):
    """The number of the units of a string's text, and the text, its first part where it is long. None if it has none."""
    found = texts.start(lines)
    return None if found is None else (found.units, shown(found.printed, TEXT, lines=True))


def value(frame, field, found):
    if field.type in REFERENCES:
        return target(frame, field.value, found)
    return element("code", value_of(field.type, field.bits))


def field_rows(frame, part, found):
    for field in part.entries:
        owner = found.get(field.owner)
        label = name_of(owner.of_class.label.printed) if owner and owner.of_class else f"{field.owner:x}"
        yield row(
            cell(shown(field.name.printed), "name"),
            cell(field.type),
            cell(value(frame, field, found), "text"),
            cell(link(frame.at("class", field.owner), label), "name"),
        )


def instance(frame, content, found):
    if content.note:
        return element("p", "Its fields are not known: ", element("code", content.note))
    if not content.part.total:
        return element("p", "It has no fields.")
    heads = ["Field", "Type", "Value", "Declared by"]
    return joined([table(heads, field_rows(frame, content.part, found)), pager(content.part)])


def elements(frame, content, found):
    first = content.part.page.first
    rows = [
        row(number(str(first + index)), cell(target(frame, one, found), "text")) for index, one in enumerate(content.part.entries)
    ]
    return joined([table([("Index", "n"), "Element"], rows), pager(content.part)]) if rows else element("p", "It has no elements.")


def numbers(content):
    """The elements of an array of numbers, ten in a row, and beside them the same as text."""
    kind, first, width = content.head.type, content.part.page.first, 2 * WIDTHS[content.head.type]
    as_text = kind in ("byte", "char")
    rows = []
    for place in range(0, len(content.bits), ROW * width):
        bits = content.bits[place : place + ROW * width]
        values = [plain(kind, bits[at : at + width]) for at in range(0, len(bits), width)]
        values += [""] * (ROW - len(values))
        beside = [cell(readable(text_of(kind, bits)), "bits")] if as_text else []
        rows.append(row(number(str(first + place // width)), *map(number, values), *beside))
    heads = [("Index", "n"), *[(f"+{column}", "n") for column in range(ROW)], *(["Text"] if as_text else [])]
    if not rows:
        return element("p", "It has no elements.")
    whole = text_of(kind, content.bits) if as_text else None
    shown_whole = joined([element("h2", "As text"), element("pre", readable(whole, True))]) if as_text else Markup()
    return joined([table(heads, rows), pager(content.part), shown_whole])


def plain(kind, bits):
    """An element as a number: a char too, whose character stands beside it."""
    return str(int(bits, 16)) if kind == "char" else value_of(kind, bits)


def head_facts(frame, content):
    head, of_values = content.head, is_numbers(content.head)
    kind = link(frame.at("type", head.type) if of_values else frame.at("class", head.class_id), name_of(head.label.printed))
    size = ("Bytes of fields", thousands(head.bytes)) if is_instance(head) else ("Elements", thousands(head.length))
    other = link(frame.at("class", head.id), "a class has this identifier too") if content.of_class else None
    return facts([
        ("Identifier", element("code", f"{head.id:x}")),
        ("Type" if of_values else "Class", kind),
        size,
        ("Beside it", other),
    ])


def is_string(content):
    """Whether a text may be asked for: the first field named `value` refers to something. It is looked for on the first page."""
    named_so = [field for field in content.part.entries if field.name == "value"][:1]
    return any(field.type in REFERENCES and field.value for field in named_so)


def text_of_string(visit, content):
    if not is_instance(content.head) or not is_string(content):
        return Markup()
    (text,) = visit.ask((about("text", content.head.id), whole_text, TEXT + 30))
    return joined([element("h2", f"Text, {counted(text[0], 'unit')}"), element("pre", text[1])]) if text else Markup()


def referred(content):
    if not is_instance(content.head):
        return content.part.entries
    fields = content.part.entries
    return [field.owner for field in fields] + [field.value for field in fields if field.type in REFERENCES]


def entries_of(visit, content):
    """The entries of a map or a list."""
    head = content.head
    return map_or_list.shown(visit, head.id, head.label.printed) if is_instance(head) else Markup()


def body(frame, content, found):
    if is_numbers(content.head):
        return numbers(content)
    return (instance if is_instance(content.head) else elements)(frame, content, found)


def show(visit, id):
    (content,) = visit.ask((about("object", id), object_contents(page(visit.number(), PAGE))))
    frame = visit.frame
    if content is None or content.head is None:
        if content and content.of_class:
            return Reply(303, location=frame.at("class", id))
        return frame.missing(f"Nothing at {id:x}", "The dump has neither a class nor an object with this identifier.")
    if not is_there(content.part):
        raise Missing
    found = briefs(visit.heap, referred(content))
    return frame.page(
        title_of(content.head.label.printed),
        head_facts(frame, content),
        ways(frame, id),
        text_of_string(visit, content),
        entries_of(visit, content),
        body(frame, content, found),
        heading=named(False, content.head.label),
    )

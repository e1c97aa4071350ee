"""The overview: what `check` says, and the classes and types with the most bytes."""

from datetime import datetime, timezone

from hprof import counts

from ..markup import element, joined, link
from ..names import LABELLED, LONGEST, Wanted
from ..paging import is_there, page, pager
from ..tables import bar, cell, facts, number, row, table
from ..values import counted, thousands
from ..visit import Missing
from ..weights import Weights, classes_link, kind_address
from . import sizes, suspects

# The rows of a page, and the parts that are told.
ROWS, PARTS = 100, 2000
RETAINED = "retained"


def moment(milliseconds):
    """A time in words; one that no calendar has stays a number."""
    try:
        return datetime.fromtimestamp(milliseconds / 1000, timezone.utc).strftime("%Y-%m-%d %H:%M:%S UTC")
    except (OverflowError, ValueError, OSError):
        return f"{milliseconds} ms"


def checked(lines):
    """The parts, and the counts with their names. More parts than a page has rows are left out."""
    parts, numbers = [], []
    for one in counts.check_rows(lines):
        if isinstance(one, counts.Count):
            numbers.append(one)
        elif len(parts) < PARTS:
            parts.append(one)
    return parts, numbers


def retained_by_label(lines):
    """The retained bytes of each label, but for names that are too long to be told apart."""
    return {one.label.printed: one.retained for one in counts.retained(lines) if len(one.label.printed) <= LONGEST}


def part_row(name, part):
    """The row of the part with this name."""
    cells = [number(thousands(value)) for value in (part.id_size, part.records, part.facts)]
    end = cell("yes" if part.has_end else "no")
    return row(number(str(part.number)), cell(name, "name"), cell(part.version), cell(moment(part.time)), *cells, end)


def checks(names, parts, numbers):
    heads = [("Part", "n"), "File", "Version", "Time", ("Bytes of an identifier", "n"), ("Records", "n"), ("Facts", "n"), "End record"]
    told = facts([(one.kind, thousands(one.number)) for one in numbers])
    return joined([element("h2", "The dump"), table(heads, map(part_row, names, parts)), told])


def retained_cell(frame, retained, one):
    """What the objects of a class or a type retain, with a link to them in this order."""
    if len(one.label) > LONGEST:
        return number("")
    size = thousands(retained.get(one.label, 0))
    return number(link(kind_address(frame, one.kind) + "?by=retained", size) if one.classes == 1 else size)


def weight_row(frame, weights, retained, one):
    """The row of a class or a type. `retained` is None where hprof cannot tell it."""
    largest = weights.largest()
    share = f"{100 * one.bytes / weights.bytes:.1f} %" if weights.bytes else ""
    track = element("span", bar(one.bytes, largest), class_="track")
    id = f"{one.kind:x}" if isinstance(one.kind, int) and one.classes == 1 else ""
    return row(
        cell(classes_link(frame, one), "name"),
        number(thousands(one.bytes)),
        cell(joined([track, share]), "share"),
        number(thousands(one.objects)),
        *([] if retained is None else [retained_cell(frame, retained, one)]),
        cell(element("span", id, class_="bits"), "extra"),
    )


def filter_field(address, word, part, total):
    """A field that filters all rows by name."""
    field = element("input", type="search", name="filter", value=word, placeholder="filter by name", aria_label="Filter by name")
    count = element("output", f"{thousands(part.total)} of {thousands(total)}" if word else "")
    return element("form", field, " ", element("button", "Filter"), " ", count, class_="filter", action=address, method="get")


def filter_word(visit):
    return visit.words.get("filter", "")[:LONGEST].strip()


def filter_words(word):
    """The words of an address that keep a filter."""
    return {"filter": word} if word else {}


def summary(weights):
    """The totals, and how bytes are counted."""
    kinds = counted(len(weights.named), "class or type", "classes and types")
    totals = f"{counted(weights.bytes, 'byte')} in {counted(weights.objects, 'object')} of {kinds}. "
    return element("p", totals, "Bytes are the field and element data in the dump, without object headers and padding.")


def show(visit):
    word = filter_word(visit)
    parts, numbers = visit.heap.ask_once("check", checked)
    weights = visit.heap.ask_once("histo", Weights().read, LABELLED)
    part = weights.page_of(Wanted(word), page(visit.number(), ROWS))
    if not is_there(part):
        raise Missing
    can_tell = {RETAINED, sizes.BIGGEST} <= visit.heap.questions
    retained = visit.heap.ask_once("retained", retained_by_label, LABELLED) if can_tell else None
    heads = ["Class or type", ("Bytes", "n", "descending"), ("Share", "n share"), ("Objects", "n")]
    heads += [("Retained bytes", "n")] * can_tell + [("Identifier", "plain extra")]
    rows = [weight_row(visit.frame, weights, retained, one) for one in part.entries]
    none = "No class or type has such a name." if weights.named else "The dump has no objects."
    return visit.frame.page(
        "Overview",
        summary(weights),
        suspects.shown(visit, weights) if visit.number() == 1 and not word else "",
        filter_field(visit.frame.at(""), word, part, len(weights.named)),
        table(heads, rows, "sortable") if rows else element("p", none),
        pager(part, **filter_words(word)),
        checks(visit.frame.parts[-1:] if visit.frame.compares else visit.frame.parts, parts, numbers),
    )

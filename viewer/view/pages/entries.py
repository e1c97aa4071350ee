"""The entries of a map or a list, on the page of its object."""

from ..briefs import briefs, target
from ..collections_of import MOST, entries_of
from ..markup import Markup, element, joined
from ..paging import PAGE, Part, is_there, page, pager
from ..tables import cell, number, row, table
from ..values import counted, thousands
from ..visit import Missing


def entry_row(frame, found, place, entry):
    key = [cell(target(frame, entry.key, found), "text")] if entry.key is not None else []
    return row(number(thousands(place)), *key, cell(target(frame, entry.value, found), "text"))


def shown(visit, id, label):
    """A page of the entries, each with its place; nothing if the object is no collection of a known layout."""
    wanted = page(visit.number("entries"), PAGE)
    held = entries_of(visit.heap, id, label, wanted)
    if held is None:
        return Markup()
    part = Part(held.entries, min(held.total, MOST), wanted)
    if not is_there(part):
        raise Missing
    found = briefs(visit.heap, [one for entry in held.entries for one in (entry.key, entry.value) if one is not None])
    rows = [entry_row(visit.frame, found, wanted.first + place, entry) for place, entry in enumerate(held.entries)]
    heads = [("Place", "n"), *(["Key"] if any(entry.key is not None for entry in held.entries) else []), "Value"]
    return joined([element("h2", title(held)), table(heads, rows) if rows else "", pager(part, "entries")])


def title(held):
    told = counted(held.total, "entry", "entries") if held.is_known else "Entries"
    return f"{told}, of which the first {thousands(MOST)} are shown" if held.total > MOST else told

"""The objects of a class or a type, by size or by what they keep: a page of them, read of an answer, and shown."""

from collections import namedtuple

from hprof import counts, holding

from ..markup import element, joined, link
from ..paging import Part, address, pager, taken
from ..subjects import biggest_of, objects_of
from ..tables import cell, number, row, table
from ..values import counted, thousands
from ..visit import Missing

BIGGEST = "biggest KIND"
# Of a line so many characters are kept: all but the class.
NUMBERS = 100
ORDERS = {"size": "by size", "retained": "by what they keep"}
Objects = namedtuple("Objects", "part order orders")


def asked(visit, kind, page):
    """A page of the objects of a kind, in the order that the address names. hprof looks at all objects to answer, so the page is kept."""
    order = visit.words.get("by", "size")
    orders = [one for one in ORDERS if one == "size" or BIGGEST in visit.heap.questions]
    if order not in orders:
        raise Missing
    question, rows = (biggest_of(kind), holding.biggest) if order == "retained" else (objects_of(kind), counts.objects)
    return Objects(visit.heap.ask_once(question, lambda lines: taken(rows(lines), page), NUMBERS, page.number), order, orders)


def none(page):
    """No objects, where it is known that there are none."""
    return Objects(Part([], 0, page), "size", ["size"])


def heading(objects, singular):
    """How many objects there are, and links to the other orders. Only what strong references reach keeps anything."""
    orders = objects.orders if objects.part.total or objects.order != "size" else []
    others = [link(address("by", one, {}), ORDERS[one]) for one in orders if one != objects.order]
    words = f"{counted(objects.part.total, singular)} {ORDERS[objects.order]}"
    reached = [" ", element("small", "those that strong references reach")] if objects.order == "retained" else []
    return joined([element("h2", words, *reached), element("p", *others) if others else ""])


def shown_row(frame, one, by_retained, texts):
    """The row of an object, with its text if there are texts."""
    cells = [cell(link(frame.at("object", one.id), f"{one.id:x}")), number(thousands(one.bytes))]
    if by_retained:
        cells += [number(thousands(one.objects)), cell(link(frame.at("keeps", one.id), "what it keeps"))]
    return row(*cells, *([cell(texts.get(one.id) or "", "text")] if texts else []))


def shown_objects(frame, objects, singular, texts):
    """The objects of a page under a heading, with the text of each that has one."""
    part, by_retained = objects.part, objects.order == "retained"
    if not part.total:
        return joined([heading(objects, singular), element("p", "None.")])
    kept = ["Object", ("Retained bytes", "n"), ("Retained objects", "n"), "Keeps"]
    heads = [*(kept if by_retained else ["Object", ("Bytes", "n")]), *(["Text"] if texts else [])]
    rows = [shown_row(frame, one, by_retained, texts) for one in part.entries]
    others = {} if objects.order == "size" else {"by": objects.order}
    return joined([heading(objects, singular), table(heads, rows), pager(part, **others)])

"""What an object keeps alive: what keeps it, what it keeps itself, and a treemap of that."""

from collections import namedtuple
from itertools import islice

from hprof import holding

from ..markup import Markup, element, joined, link
from ..nodes import named, shown_node, words_of
from ..paging import PAGE, Part, is_there, page, pager
from ..printed import NODE
from ..subjects import about
from ..tables import bar, cell, facts, number, row, table
from ..treemap import Leaf, treemap
from ..values import counted, thousands
from ..visit import Missing
from .of_class import ways

QUESTION = "keeps ID"
# Of a longer chain the first and the last are shown; the picture has so many boxes, and so many of them have boxes of their own.
CHAIN, BOXES, OPENED = 10, 40, 12
Answer = namedtuple("Answer", "reached chain below largest")


def largest_and_page(rows, most, wanted):
    """The largest of the rows, which come first, at most so many; and a page of all."""
    first = list(islice(rows, most if wanted.first else max(most, wanted.size)))
    if not wanted.first:
        return first[:most], Part(first[: wanted.size], len(first) + rows.rest(), wanted)
    passed = len(first) + rows.skip(wanted.first - len(first))
    entries = list(islice(rows, wanted.size))
    return first, Part(entries, passed + len(entries) + rows.rest(), wanted)


def reading(wanted, most=BOXES):
    """A reader of the answer to `keeps ID`: of the nodes below those of one page, and the largest for the picture."""

    def read(lines):
        reached, chain = holding.reached(lines), holding.chain(lines, CHAIN)
        largest, below = largest_and_page(holding.below(lines), most, wanted)
        return Answer(reached, chain, below, largest)

    return read


def leaf(frame, one, inner):
    name = words_of(one.node)
    title = f"{name} {one.node.id:x}: {counted(one.bytes, 'byte')}, {counted(one.objects, 'object')}"
    return Leaf(one.bytes, name, title, frame.at("keeps", one.node.id), inner)


def opened(visit, rows):
    """The largest of what the first of the rows keep themselves."""
    wanted = [(about("keeps", one.node.id), reading(page(1), OPENED), NODE) for one in rows[:OPENED]]
    return [answer.largest if answer else [] for answer in visit.ask(*wanted)] if wanted else []


def picture(visit, found):
    """The treemap of the nodes below, two levels deep, and its numbers as a table."""
    rows = [one for one in found.largest if one.bytes]
    inner = opened(visit, rows)
    inner += [[]] * (len(rows) - len(inner))
    leaves = [leaf(visit.frame, one, [leaf(visit.frame, two, []) for two in within if two.bytes]) for one, within in zip(rows, inner)]
    if not leaves:
        return Markup()
    shown = treemap(leaves, "What it keeps, by retained bytes")
    return joined([shown, element("details", element("summary", "The numbers of the picture"), numbers(visit.frame, rows, inner))])


def numbers(frame, rows, inner):
    lines = []
    for one, within in zip(rows, inner):
        lines.append(row(cell(named(frame, one.node), "name"), cell(""), number(thousands(one.bytes))))
        lines += [row(cell(""), cell(named(frame, two.node), "name"), number(thousands(two.bytes))) for two in within if two.bytes]
    return table(["It keeps", "and that keeps", ("Bytes", "n")], lines)


def below(frame, found):
    if not found.below.total:
        return element("p", "It keeps nothing else alive.")
    whole = max((one.bytes for one in found.largest), default=0)
    rows = [
        row(
            cell(named(frame, one.node), "name"),
            number(thousands(one.bytes)),
            cell(element("span", bar(one.bytes, whole), class_="track"), "share"),
            number(thousands(one.objects)),
            cell(link(frame.at("class" if one.node.kind == "class" else "object", one.node.id), "look inside")),
        )
        for one in found.below.entries
    ]
    heads = ["It keeps", ("Retained bytes", "n"), ("", "share"), ("Objects", "n"), ""]
    return joined([table(heads, rows), pager(found.below)])


def step(frame, one):
    size = element("small", f" {counted(one.bytes, 'byte')}, {counted(one.objects, 'object')}")
    return element("li", named(frame, one.node), size)


def chain(frame, found, id):
    """What keeps it, from the outermost down to itself."""
    above = [step(frame, one) for one in found.chain.outer + found.chain.inner if one.node.id != id]
    if not above:
        return element("p", "The roots keep it: there is no one object without which it would be free.")
    if found.chain.left_out:
        above.insert(CHAIN, element("li", f"and {thousands(found.chain.left_out)} more"))
    return joined([element("p", "Without any one of these it would be free:"), element("ol", *above, class_="path")])


def own(found, id):
    """The row of the node itself."""
    return next((one for one in [*found.chain.inner, *found.chain.outer] if one.node.id == id), None)


def of_node(visit, id, found):
    frame, itself = visit.frame, own(found, id)
    head = facts([
        ("Retained bytes", f"{thousands(itself.bytes)} of {thousands(found.reached.total.bytes)}"),
        ("Retained objects", f"{thousands(itself.objects)} of {thousands(found.reached.total.objects)}"),
    ])
    return frame.page(
        f"What {words_of(itself.node)} keeps",
        element("p", shown_node(frame, itself.node)),
        head,
        ways(frame, id),
        element("h2", "What keeps it"),
        chain(frame, found, id),
        element("h2", "What it keeps"),
        picture(visit, found),
        below(frame, found),
    )


def of_roots(visit, found):
    weak = found.reached.weak
    weakly = weak and f"{counted(weak.bytes, 'byte')} in {counted(weak.objects, 'object')}"
    head = facts([
        ("Bytes that strong references reach", thousands(found.reached.total.bytes)),
        ("Objects and classes", thousands(found.reached.total.objects)),
        ("Only by weak references", weakly),
    ])
    return visit.frame.page("What holds the memory", head, picture(visit, found), below(visit.frame, found))


NOTES = {
    "weakly": "Only weak references lead to it: nothing keeps it alive.",
    "not": "No GC root leads to it: it is garbage, or the dump has no roots, as one that was cut short.",
}


def show(visit, id):
    title = "What it keeps"
    if QUESTION not in visit.heap.questions:
        return visit.frame.page(title, element("p", "This hprof cannot tell it: it has no question ", element("code", "keeps ID"), "."))
    number = visit.number()
    found = visit.heap.ask_once(about("keeps", id), reading(page(number, PAGE)), NODE, number)
    if found is None:
        return visit.frame.missing(f"Nothing at {id:x}", "The dump has neither a class nor an object with this identifier.")
    if found.reached.reached in NOTES:
        return visit.frame.page(title, element("p", NOTES[found.reached.reached]), ways(visit.frame, id))
    if not is_there(found.below):
        raise Missing
    return of_node(visit, id, found) if id else of_roots(visit, found)

"""Where most of the memory is held: the suspects, each as a bar, with what keeps it and what it falls apart into."""

from hprof import holding

from ..class_names import name_of
from ..markup import Markup, element, joined, link
from ..nodes import named
from ..printed import NODE
from ..tables import bar
from ..values import counted
from ..weights import classes_link

QUESTION = "suspects"
# More labels of one suspect are left out. Keepers are left out behind so many.
LABELS, FOLDED = 10, 10


def piece_shown(frame, weights, one):
    """The nodes with one label, with a link to the objects of that class or type by what they keep."""
    weight = weights.of_label(one.label.printed)
    what = classes_link(frame, weight, "?by=retained") if weight else name_of(one.label.printed)
    return joined([counted(one.bytes, "byte"), f" in {one.count:,} ", what])


def chain_shown(frame, one):
    """What keeps a suspect alive, from the outermost down, folded."""
    above = [element("li", named(frame, step.node)) for step in one.keepers[:-1]]
    if one.left_out:
        above.insert(FOLDED, element("li", f"and {one.left_out:,} more"))
    if not above:
        return Markup()
    return element("details", element("summary", f"kept by {counted(len(one.keepers) - 1, 'object')} above"), element("ol", *above))


def shown_suspect(frame, weights, whole, one):
    what = named(frame, one.keepers[-1].node) if one.keepers else link(frame.at("keeps", 0), "The roots together")
    track = element("span", bar(one.bytes, whole), class_="track")
    pieces = joined([part for piece in one.pieces[:LABELS] for part in ("; ", piece_shown(frame, weights, piece))][1:])
    return element(
        "li",
        element("div", track, f"{one.percent} %", class_="share"),
        element("b", what),
        element("div", f"holds {counted(one.bytes, 'byte')}", ": " if pieces else "", pieces),
        chain_shown(frame, one),
    )


def shown(visit, weights):
    """The suspects of a heap with these weights. Nothing if hprof cannot tell them, or if there are none."""
    if QUESTION not in visit.heap.questions:
        return Markup()
    answer = visit.heap.ask_once("suspects", holding.suspects, NODE)
    if not answer.suspects:
        return Markup()
    rows = [shown_suspect(visit.frame, weights, answer.total.bytes, one) for one in answer.suspects]
    return joined([element("h2", "Where the memory is held"), element("ul", *rows, class_="suspects")])

"""Why an object is alive: the path of strong references from a GC root, with the root and its thread at its head."""

from collections import namedtuple
from itertools import islice

from hprof import paths
from hprof.nodes import root_lines

from ..briefs import NOTHING, brief, target, words_for
from ..markup import element, joined, link
from ..nodes import shown_node
from ..paging import PAGE, Part, is_there, page, pager
from ..printed import NODE, shown
from ..subjects import about
from ..values import counted, thousands
from ..visit import Missing
from .of_class import ways
from .threads import address_of

QUESTION = "why ID"
TITLE = "Why it is alive"
# More roots of one object are counted alone.
ROOTS = 100
# A node, and the step that leads to it; the first of all has none.
Led = namedtuple("Led", "node step")
Path = namedtuple("Path", "reached distance roots other_roots part")


def led_to(steps, wanted):
    """A page of the nodes of a path."""
    passed = steps.skip(wanted.first - 1) if wanted.first else 0
    before = list(islice(steps, 1)) if wanted.first else [None]
    found = list(islice(steps, wanted.size))
    entries = [Led(one.node, step) for step, one in zip([*before, *found], found)]
    total = passed + len(before if wanted.first else []) + len(found) + steps.rest()
    return Part(entries, total, wanted)


def reading(wanted):
    """A reader of a path: the roots, and the nodes of one page."""

    def read(lines):
        reached, distance = paths.reached(lines)
        if distance is None:
            return nowhere(reached, wanted)
        found = root_lines(lines)
        roots = list(islice(found, ROOTS))
        return Path(reached, distance, roots, sum(1 for _ in found), led_to(paths.Steps(lines), wanted))

    return read


def nowhere(reached, wanted):
    """No path."""
    return Path(reached, None, [], 0, Part([], 0, wanted))


def by_way_of(one):
    """A reference in words: of a static field or a field with its name."""
    weak = joined([element("b", "weak"), " "]) if one.weak else ""
    if one.name is not None:
        kind = "static field " if one.kind == "static" else "field "
        return joined([weak, kind, element("b", shown(one.name.printed))])
    return joined([weak, f"{one.kind} {one.position}"])


def folded(frame, before, step):
    """The nodes that were left out; a list opens, since the same field leads from each to the next."""
    words = f"{thousands(step.left_out)} more"
    if step.reference.kind != "field" or before is None:
        return words
    return link(frame.at("along", before.id) + f"?field={step.reference.position}&count={step.left_out}", words)


def led_shown(frame, before, led):
    """A node, behind the reference that leads to it from the node before, if the page has that."""
    if led.step is None:
        return element("li", shown_node(frame, led.node))
    between = joined([folded(frame, before, led.step), " \u2192 "]) if led.step.left_out else ""
    return element("li", joined([by_way_of(led.step.reference), " \u2192 ", between, shown_node(frame, led.node)]))


def root_shown(frame, root):
    """A root, with a link to its thread."""
    words = shown(root.words)
    if root.thread is not None:
        words = link(address_of(frame, root.thread), words)
    thread = joined([": ", shown(root.below)]) if root.below else ""
    return element("li", "root: ", words, thread)


def shown_path(frame, path):
    first = path.part.page.first
    roots = [root_shown(frame, root) for root in path.roots] if not first else []
    if roots and path.other_roots:
        roots.append(element("li", f"and {thousands(path.other_roots)} other roots of the same"))
    nodes = [led.node for led in path.part.entries]
    steps = [led_shown(frame, before, led) for before, led in zip([None, *nodes], path.part.entries)]
    return joined([element("ul", *roots) if roots else "", element("ol", *steps, class_="path", start=first), pager(path.part)])


def told(frame, path):
    if path.distance is not None:
        lead = counted(path.distance, "reference leads", "references lead")
        weak = element("p", "Only weak references lead to it: they do not keep it alive.") if path.reached == "weakly" else ""
        return joined([weak, element("p", f"{lead} to it from a GC root."), shown_path(frame, path)])
    if path.reached == "not":
        return element("p", "No GC root leads to it: it is garbage, or the dump has no roots, as one that was cut short.")
    return element("p", "The dump has neither a class nor an object with this identifier.")


def show(visit, id):
    if QUESTION not in visit.heap.questions:
        return visit.frame.page(TITLE, element("p", "This hprof cannot tell it: it has no question ", element("code", "why ID"), "."))
    wanted = page(visit.number(), PAGE)
    subject, path = visit.ask((about("object", id), brief), (about("why", id), reading(wanted), NODE))
    subject, path = subject or NOTHING, path or nowhere(None, wanted)
    if not is_there(path.part):
        raise Missing
    return visit.frame.page(
        f"Why {words_for(id, subject)} is alive",
        element("p", target(visit.frame, id, {id: subject}) if id else "0 is null."),
        ways(visit.frame, id),
        told(visit.frame, path),
        status=200 if path.reached else 404,
    )

"""The objects along one field: those that a path leaves out where the same field leads from each to the next."""

from hprof import contents
from hprof.values import REFERENCES

from ..briefs import briefs, target
from ..markup import Markup, element, link
from ..printed import shown
from ..subjects import about
from ..values import counted, thousands
from ..visit import Missing

TITLE = "Along a field"
# The objects of a page.
ROWS = 100


def field_of(place):
    """A reader of an instance: its class, and the field at that place."""

    def read(lines):
        head = contents.head_of_object(lines)
        if not isinstance(head, contents.InstanceHead):
            return None, None
        if contents.no_fields(lines):
            return head.class_id, None
        rows = contents.fields(lines)
        rows.skip(place)
        return head.class_id, next(rows, None)

    return read


def next_of(heap, id, place):
    """The class of an instance, and the field at the place with what it refers to, or None if there is no such reference."""
    kind, field = heap.ask([(about("object", id), field_of(place))])[0] or (None, None)
    if field is None or field.type not in REFERENCES or field.value == 0:
        return kind, None, None
    return kind, field, field.value


def gone_along(heap, id, place, count):
    """The objects behind an instance, at most so many, as long as they are instances of its class; and the name of the field."""
    kind, field, to = next_of(heap, id, place)
    name, found = field.name.printed if field else None, []
    while to is not None and len(found) < count:
        of, field, behind = next_of(heap, to, place)
        if of != kind:
            break
        found.append(to)
        to = behind
    return name, found


def show(visit, id):
    place, count = visit.number("field", least=0), visit.number("count")
    name, found = gone_along(visit.heap, id, place, min(count, ROWS))
    if name is None:
        raise Missing
    told = briefs(visit.heap, [id, *found])
    left = count - len(found)
    rows = [element("li", target(visit.frame, one, told)) for one in found]
    behind = Markup()
    if len(found) == ROWS and left:
        behind = element("p", link(visit.frame.at("along", found[-1]) + f"?field={place}&count={left}", f"{thousands(left)} more"))
    return visit.frame.page(
        TITLE,
        element("p", "From ", target(visit.frame, id, told), " the field ", element("b", shown(name)), " leads to:"),
        element("ol", *rows, class_="path") if rows else element("p", "no object of its class"),
        behind,
        element("p", f"{counted(count, 'object')} from here on that the path leaves out, if the field leads so far.", class_="soft"),
    )

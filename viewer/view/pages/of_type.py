"""The page of a type: its arrays by size, or by what they keep."""

from ..paging import is_there, page
from ..visit import Missing
from . import sizes


def show(visit, kind):
    objects = sizes.asked(visit, kind, page(visit.number()))
    if not is_there(objects.part):
        raise Missing
    return visit.frame.page(f"{kind}[]", sizes.shown_objects(visit.frame, objects, "array", {}))

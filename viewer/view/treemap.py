"""Treemaps: boxes whose areas are weights, as near to squares as they get (Bruls, Huizing, van Wijk, "Squarified Treemaps", 2000)."""

from collections import namedtuple

from .markup import Markup, element, joined, link

Box = namedtuple("Box", "x y width height")
# What a box is of: its weight, its name, what is told where the pointer rests, an address or None, and the leaves in it.
Leaf = namedtuple("Leaf", "weight name title address inner")
WIDTH, HEIGHT = 1000, 480
# The width of a character, the height of a line of text, and the least box that is opened, all in the units of the picture.
LETTER, LINE, LEAST = 7.5, 20, 60


def ratio(weight, total, side, scale):
    """How far the box of a weight is from a square, in a strip of this total along a side."""
    thick = total * scale / side
    length = weight * scale / thick
    return max(thick / length, length / thick)


def strip(weights, side, scale):
    """How many of the weights, which descend, make the next strip: its boxes get no farther from squares by one more."""
    total = before = 0
    for count, weight in enumerate(weights):
        total += weight
        worst = max(ratio(weights[0], total, side, scale), ratio(weight, total, side, scale))
        if count and worst > before:
            return count
        before = worst
    return len(weights)


def along(weights, box, thick, is_upright):
    """The boxes of a strip of this thickness at the left of a box, one below the other, or at its top, one beside the other."""
    place, unit = (box.y, box.height / sum(weights)) if is_upright else (box.x, box.width / sum(weights))
    for weight in weights:
        length = weight * unit
        yield Box(box.x, place, thick, length) if is_upright else Box(place, box.y, length, thick)
        place += length


def without(box, thick, is_upright):
    """What is left of a box behind a strip."""
    x, y, width, height = box
    return Box(x + thick, y, width - thick, height) if is_upright else Box(x, y + thick, width, height - thick)


def boxes(weights, box):
    """A box for each of the weights, which descend and are above 0; together they fill the box."""
    found, left = [], list(weights)
    while left:
        is_upright = box.width >= box.height
        side = box.height if is_upright else box.width
        scale = box.width * box.height / sum(left)
        count = strip(left, side, scale)
        thick = sum(left[:count]) * scale / side
        found += along(left[:count], box, thick, is_upright)
        left = left[count:]
        box = without(box, thick, is_upright)
    return found


def label(box, name):
    """The name of a box, as much of it as there is room for."""
    room = int((box.width - 8) / LETTER)
    if room < 4 or box.height < LINE:
        return Markup()
    text = name if len(name) <= room else name[: room - 1] + "\u2026"
    return element("text", text, x=f"{box.x + 4:.1f}", y=f"{box.y + 15:.1f}")


def drawn(leaf, box, class_):
    """A leaf as a rectangle with its name, and what is in it."""
    sides = {"x": f"{box.x:.1f}", "y": f"{box.y:.1f}", "width": f"{box.width:.1f}", "height": f"{box.height:.1f}"}
    parts = [element("title", leaf.title), element("rect", class_=class_, **sides), label(box, leaf.name)]
    own = link(leaf.address, *parts) if leaf.address else element("g", *parts)
    return joined([own, *inside(leaf, box)])


def inside(leaf, box):
    """The leaves of a leaf, below its name. What it has beside them stays empty."""
    room = Box(box.x + 3, box.y + LINE, box.width - 6, box.height - LINE - 3)
    if not leaf.inner or min(room.width, room.height) < LEAST:
        return []
    beside = leaf.weight - sum(one.weight for one in leaf.inner)
    order = sorted([*leaf.inner, Leaf(beside, "", "", None, [])], key=lambda one: -one.weight)
    shown = [one for one in order if one.weight > 0]
    placed = zip(shown, boxes([one.weight for one in shown], room))
    return [drawn(one, at, "inner") for one, at in placed if one.title]


def treemap(leaves, name):
    """A picture of leaves, the heaviest first, whose weights are above 0. Nothing if there are none."""
    if not leaves:
        return Markup()
    placed = zip(leaves, boxes([leaf.weight for leaf in leaves], Box(0, 0, WIDTH, HEIGHT)))
    shapes = [drawn(leaf, box, "outer") for leaf, box in placed]
    return element("svg", *shapes, viewBox=f"0 0 {WIDTH} {HEIGHT}", role="img", aria_label=name, class_="map")

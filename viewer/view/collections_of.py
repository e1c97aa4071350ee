"""Maps and lists as people see them: their entries, found from the fields of java.util's classes, as JDK 17 and 25 have them.

Where a field is missing, or is of another type, or leads to another class, nothing is told of the collection: its layout is another one.
"""

from collections import namedtuple
from itertools import islice

from hprof import contents
from hprof.values import REFERENCES

from .subjects import about

# The entries that are looked for in chains; those behind them are left out.
MOST = 10_000
# The buckets that are gone along at once.
AT_ONCE = 200
FIELDS = 200
# An entry of a list has no key.
Entry = namedtuple("Entry", "key value")
Instance = namedtuple("Instance", "label fields")
# The entries of a page, and how many there are; `is_known` is False if there are at least so many.
Entries = namedtuple("Entries", "entries total is_known")
CONCURRENT = tuple("java/util/concurrent/ConcurrentHashMap$" + name for name in ("Node", "TreeNode", "TreeBin"))
TREE_BIN = CONCURRENT[2]
NODES = ("java/util/HashMap$Node", "java/util/HashMap$TreeNode", "java/util/LinkedHashMap$Entry")


class Other(Exception):
    """The layout is another one."""


def instance(lines):
    """A reader of an instance: the printed label of its class, and its fields by name, of which the first of a name counts."""
    head = contents.head_of_object(lines)
    if not isinstance(head, contents.InstanceHead):
        return None
    fields = {}
    if not contents.no_fields(lines):
        for field in islice(contents.fields(lines), FIELDS):
            fields.setdefault(field.name, field)
    return Instance(head.label.printed, fields)


def elements(first, count):
    """A reader of some elements of an array of objects, and of their number."""

    def read(lines):
        head = contents.head_of_object(lines)
        if not isinstance(head, contents.ObjectArrayHead):
            return None
        rows = contents.elements(lines)
        rows.skip(first)
        return head.length, list(islice(rows, count))

    return read


def reference(one, name):
    """The identifier that a field has."""
    field = one.fields.get(name)
    if field is None or field.type not in REFERENCES:
        raise Other
    return field.value


def number(one, name):
    """The number that a field of type int has."""
    field = one.fields.get(name)
    if field is None or field.type != "int":
        raise Other
    return field.value


def instances(heap, ids):
    """The instances with these identifiers, in turns."""
    found = heap.ask([(about("object", id), instance) for id in ids])
    if any(one is None for one in found):
        raise Other
    return found


def array(heap, id, first=0, count=1 << 40):
    """The number of an array's elements, and some of them."""
    (found,) = heap.ask([(about("object", id), elements(first, count))])
    if found is None:
        raise Other
    return found


def page_of(found, page, total, is_known=True):
    """A page of what was found in a chain or a table, which are gone along to the end of the page alone."""
    end = min(page.first + page.size, total)
    if total < 0 or (is_known and len(found) < min(end, MOST)):
        raise Other
    return Entries(found[page.first : page.first + page.size], total, is_known)


# ---- arrays


def array_list(heap, one, page):
    size = number(one, "size")
    total, found = array(heap, reference(one, "elementData"), page.first, max(0, min(page.size, size - page.first)))
    if not 0 <= size <= total:
        raise Other
    return Entries([Entry(None, one) for one in found], size, True)


def array_deque(heap, one, page):
    """The elements from the head on, round the end of the array, to the tail."""
    head, tail = number(one, "head"), number(one, "tail")
    total, found = array(heap, reference(one, "elements"))
    if not (0 <= head < total and 0 <= tail < total):
        raise Other
    held = [Entry(None, one) for one in (found[head:] + found[:head])[: (tail - head) % total]]
    return page_of(held, page, len(held))


# ---- chains


def chain(heap, first, following, classes, most):
    """The nodes from the first one on, each of one of these classes; not more than `most`, and none twice."""
    found, seen, id = [], set(), first
    while id and len(found) < most:
        (node,) = instances(heap, [id])
        if id in seen or node.label not in classes:
            raise Other
        seen.add(id)
        found.append(node)
        id = reference(node, following)
    return found


def needed(page):
    """How many entries are looked for to show a page."""
    return min(page.first + page.size, MOST)


def linked_list(heap, one, page):
    nodes = chain(heap, reference(one, "first"), "next", ("java/util/LinkedList$Node",), needed(page))
    return page_of([Entry(None, reference(node, "item")) for node in nodes], page, number(one, "size"))


def entry(node, value="value"):
    return Entry(reference(node, "key"), reference(node, value))


def linked_hash_map(heap, one, page):
    """The entries in the order of the map."""
    nodes = chain(heap, reference(one, "head"), "after", NODES, needed(page))
    return page_of([entry(node) for node in nodes], page, number(one, "size"))


# ---- tables


def plain(node):
    """What follows a node in its bucket, and whether the node is an entry."""
    return reference(node, "next"), True


def concurrent(node):
    """The same. Before a bucket that is a tree stands a bin, which leads to the first node."""
    return (reference(node, "first"), False) if node.label == TREE_BIN else plain(node)


def in_buckets(heap, heads, classes, step, seen):
    """The entries of some buckets, in order. All buckets are gone along at once, so each turn has many questions."""
    held, due = {head: [] for head in heads}, [(head, head) for head in heads]
    while due:
        following = []
        for (head, id), node in zip(due, instances(heap, [id for _, id in due])):
            if id in seen or len(seen) > 2 * MOST or node.label not in classes:
                raise Other
            seen.add(id)
            next_id, is_entry = step(node)
            held[head] += [node] if is_entry else []
            following += [(head, next_id)] if next_id else []
        due = following
    return [node for head in heads for node in held[head]]


def of_table(heap, table, classes, step, count):
    """The first entries of a table, at least `count` if there are so many, and whether these are all. A table of no use yet is null."""
    heads = [head for head in array(heap, table)[1] if head] if table else []
    found, place, seen = [], 0, set()
    while place < len(heads) and len(found) < count:
        found += in_buckets(heap, heads[place : place + AT_ONCE], classes, step, seen)
        place += AT_ONCE
    return found, place >= len(heads)


def hash_map(heap, one, page):
    nodes, _ = of_table(heap, reference(one, "table"), NODES, plain, needed(page))
    return page_of([entry(node) for node in nodes], page, number(one, "size"))


def concurrent_hash_map(heap, one, page):
    """The entries of the table; its map does not know their number. While a table is moved to a larger one, its layout is another one."""
    nodes, are_all = of_table(heap, reference(one, "table"), CONCURRENT, concurrent, needed(page) + 1)
    return page_of([entry(node, "val") for node in nodes], page, len(nodes), are_all)


def hash_set(heap, one, page):
    """The keys of the map that a set is made of."""
    (map_of,) = instances(heap, [reference(one, "map")])
    readers = {"java/util/HashMap": hash_map, "java/util/LinkedHashMap": linked_hash_map}
    if map_of.label not in readers:
        raise Other
    found = readers[map_of.label](heap, map_of, page)
    return found._replace(entries=[Entry(None, one.key) for one in found.entries])


READERS = {
    "java/util/ArrayList": array_list,
    "java/util/ArrayDeque": array_deque,
    "java/util/LinkedList": linked_list,
    "java/util/HashMap": hash_map,
    "java/util/LinkedHashMap": linked_hash_map,
    "java/util/concurrent/ConcurrentHashMap": concurrent_hash_map,
    "java/util/HashSet": hash_set,
    "java/util/LinkedHashSet": hash_set,
}


def entries_of(heap, id, label, page):
    """A page of the entries of a collection. None if it is none, or its layout is another one."""
    if label not in READERS:
        return None
    try:
        (one,) = instances(heap, [id])
        return READERS[label](heap, one, page)
    except Other:
        return None

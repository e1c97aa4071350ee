#!/usr/bin/env python3
"""Times the program on hostile dumps: long chains and circles of classes, classes of many fields, instances of many slots, long
chains of objects, great arrays, many roots, many that refer to one; questions by the million; namesakes, objects and
texts by the million; graphs that slow searches for dominators; and salvages a dump that is cut short at random places.

Each dump is written by this script, and what the program answers is compared with what the dump was made to have, or, of one
that is cut short, with what the plain program of bench/real writes. It prints a row for each: how many bytes the dump has, and
how long the program took.

    bench/hostile/run.py [--less N] [--memory SIZE] [WORD..]        (of those whose title has one of the words; all)

With --less the greater dumps have an Nth of what their titles say. With --memory objects may take so many bytes of memory, and
are read again if the dump has more. It needs the built program (`rt run` in crates/hprof leaves
it as crates/hprof/out/hprof), and rustc for the plain one. It is no part of the gate.
"""

import argparse
import random
import struct
import subprocess
import sys
import tempfile
import time
from functools import partial
from pathlib import Path

HERE = Path(__file__).resolve().parent
PROGRAM = HERE.parent.parent / "crates" / "hprof" / "out" / "hprof"
HEADER = b"JAVA PROFILE 1.0.2\0" + struct.pack(">IQ", 4, 1)
BYTE, OBJECT = 8, 2


def class_dump(number, parent, fields=b"", count=0):
    """A class dump with that superclass and these own fields, so many."""
    return struct.pack(">BIIIIIIIIIHHH", 0x20, number, 1, parent, 0, 0, 0, 0, 0, 0, 0, 0, count) + fields


def field(name, code):
    return struct.pack(">IB", name, code)


def instance(number, owner, data):
    return struct.pack(">BIIII", 0x21, number, 1, owner, len(data)) + data


def array(number, owner, elements):
    return struct.pack(">BIIII", 0x22, number, 1, len(elements), owner) + struct.pack(f">{len(elements)}I", *elements)


def sticky(number):
    return struct.pack(">BI", 5, number)


def part(subs):
    """A part with these sub-records, in segments of some megabytes."""
    pieces, held, size = [HEADER], [], 0
    for sub in subs:
        held.append(sub)
        size += len(sub)
        if size > 4_000_000:
            pieces += [struct.pack(">BII", 0x1C, 0, size), *held]
            held, size = [], 0
    return b"".join([*pieces, struct.pack(">BII", 0x1C, 0, size), *held])


def stepped(last, size):
    """1,000 classes, each below the next, with an own field each, and an instance of the first, which comes first."""
    classes = [class_dump(i, last if i == 1000 else i + 1, field(1, BYTE), 1) for i in range(1, 1001)]
    return part([instance(5000, 1, bytes(size)), *classes])


def bare_chain(count, last):
    """So many classes without fields, each below the next, and as many instances of the first."""
    classes = (class_dump(i, last if i == count else i + 1) for i in range(1, count + 1))
    instances = (instance(1_000_000 + i, 1, b"") for i in range(count))
    return part([*classes, *instances])


def heavy_circle(count):
    """A class of 65,535 own fields that is its own superclass, and many others; an instance of it."""
    heavy = class_dump(1, 1, field(1, BYTE) * 65_535, 65_535)
    return part([heavy, *(class_dump(i, 0) for i in range(2, count + 2)), instance(5_000_000, 1, b"x")])


def wide_chain(count):
    """So many classes of 65,535 own fields each, each below the next, and an instance of the first with all these bytes."""
    fields = field(1, BYTE) * 65_535
    classes = [class_dump(i, 0 if i == count else i + 1, fields, 65_535) for i in range(1, count + 1)]
    return part([*classes, instance(5000, 1, bytes(65_535 * count))])


def crowd(count):
    """A class of 65,535 own fields, and many instances that do not fill them."""
    heavy = class_dump(1, 0, field(1, OBJECT) * 65_535, 65_535)
    return part([heavy, *(instance(10 + i, 1, b"") for i in range(count))])


def chain(count):
    """So many arrays of one element, each of which is the next, from one root."""
    return part([sticky(1), *(array(i, 0, [i + 1]) for i in range(1, count + 1))])


def bare_path(count):
    """So many classes without own fields, each below the next, above them one with a field, and an instance of each of them that refers to
    the next instance, from one root."""
    classes = (class_dump(i, i + 1) for i in range(1, count + 1))
    instances = (instance(1_000_000 + i, i, struct.pack(">I", 1_000_001 + i)) for i in range(1, count + 1))
    return part([*classes, class_dump(count + 1, 0, field(1, OBJECT), 1), *instances, sticky(1_000_001)])


def great_array(count, nodes):
    """An array of so many elements, in descending order, from one root, and as many others as are nodes, which are the least."""
    elements = struct.pack(f">{count}I", *range(count + 1, 1, -1))
    head = struct.pack(">BIIII", 0x22, 1, 1, count, 0)
    return part([sticky(1), head + elements, *(array(i, 0, []) for i in range(2, nodes + 2))])


def many_roots(count):
    """So many roots, each of an array that leads to the same object, and as many of what has no dump."""
    target = 3 * count
    arrays = (array(i, 0, [target]) for i in range(count, 0, -1))
    return part([*arrays, array(target, 0, []), *(sticky(i) for i in range(2 * count, 0, -1))])


def all_to_one(count):
    """So many arrays, each of which refers to the last of them, from as many roots."""
    return part([*(array(i, 0, [count]) for i in range(1, count + 1)), *(sticky(i) for i in range(1, count))])


def far_apart(count):
    """So many arrays of one element with the least identifiers of eight bytes, and as many beyond the middle of them all. Each leads to one
    on the other side, from one root: up and down again."""
    far = 1 << 63

    def lone(number, target):
        return struct.pack(">BQIIQQ", 0x22, number, 1, 1, 0, target)

    subs = [*(lone(i, far + i) for i in range(1, count + 1)), *(lone(far + i, i + 1) for i in range(1, count + 1)), struct.pack(">BQ", 5, 1)]
    body = b"".join(subs)
    return b"JAVA PROFILE 1.0.2\0" + struct.pack(">IQ", 8, 1) + struct.pack(">BII", 0x1C, 0, len(body)) + body


def many_referrers(count):
    """So many arrays, in descending order, each of which refers to one object, which has no dump."""
    return part(array(i, 0, [5_000_001]) for i in range(count, 0, -1))


def one_referrer(count):
    """An array that refers to one other so many times."""
    head = struct.pack(">BIIII", 0x22, 1, 1, count, 0)
    return part([head + struct.pack(">I", 2) * count, array(2, 0, [])])


def referrers_of_node(count):
    """So many arrays, in descending order, each of which refers to one other."""
    return part([*(array(i, 0, [5_000_001]) for i in range(count, 0, -1)), array(5_000_001, 0, [])])


TARGET = 0x7FFF_FFFF


def laid_chain(count, order):
    """So many classes of a field each, each below the next, in that order, and an instance of the first, which comes first."""
    classes = (class_dump(i, 0 if i == count else i + 1, field(1, OBJECT), 1) for i in order)
    return part([instance(5_000_000, 1, struct.pack(">I", TARGET) * count), *classes])


def waiting(count):
    """So many instances of a class that comes last."""
    instances = (instance(i, 1, struct.pack(">I", TARGET)) for i in range(count + 1, 1, -1))
    return part([*instances, class_dump(1, 0, field(1, OBJECT), 1)])


def closed_last(count):
    """A circle of classes, the last of which closes it, and as many instances of the first, which come before them."""
    instances = (instance(1_000_000 + i, 1, struct.pack(">I", TARGET)) for i in range(count))
    return part([*instances, *(class_dump(i, 1 if i == count else i + 1, field(1, OBJECT), 1) for i in range(1, count + 1))])


def ends(first, last, count):
    """A test of a report: its first line, its last, and how many it has."""

    def test(lines):
        return lines[0] == first and lines[-1] == last and len(lines) == count

    return test


CIRCLE = "no layout: the superclasses run in a circle"


def head(number, owner, size):
    return f"instance {number:x} class {owner:x} bytes {size} \\?"


CASES = [
    ("1,000 classes, known", lambda: stepped(0, 1000), ["object", "1388"],
     ends(head(5000, 1, 1000), "field 999 3e8 byte 00 \\?1", 1001)),
    ("1,000 classes, a circle", lambda: stepped(1, 1000), ["object", "1388"], ends(head(5000, 1, 1000), CIRCLE, 2)),
    ("1,000 classes, one missing", lambda: stepped(1001, 1000), ["object", "1388"],
     ends(head(5000, 1, 1000), "no layout: class 3e9 is missing", 2)),
    ("1,000 classes, other width", lambda: stepped(0, 999), ["object", "1388"],
     ends(head(5000, 1, 999), "no fields: the layout has 1000 bytes", 2)),
    ("100,000 classes without fields", lambda: bare_chain(100_000, 0), ["object", f"{1_000_000:x}"],
     ends(head(1_000_000, 1, 0), head(1_000_000, 1, 0), 1)),
    ("100,000 classes without fields, all", lambda: bare_chain(100_000, 0), ["histo"],
     ends("0 100000 1 \\?", "0 100000 1 \\?", 1)),
    ("a circle of 100,000 classes", lambda: bare_chain(100_000, 1), ["object", f"{1_000_000:x}"],
     ends(head(1_000_000, 1, 0), CIRCLE, 2)),
    ("a circle of one wide class, beside 1,000,000", lambda: heavy_circle(1_000_000), ["object", f"{5_000_000:x}"],
     ends(head(5_000_000, 1, 1), CIRCLE, 2)),
    ("65,535 own fields", lambda: wide_chain(1), ["object", "1"],
     ends("class 1 super 0 loader 0 signers 0 domain 0 size 0 \\?", "own 65534 byte \\?1", 65_536)),
    ("65,535 own fields, an instance", lambda: wide_chain(1), ["object", "1388"],
     ends(head(5000, 1, 65_535), "field 65534 1 byte 00 \\?1", 65_536)),
    ("an instance of 10,000,000 slots", lambda: wide_chain(153), ["object", "1388"],
     ends(head(5000, 1, 153 * 65_535), f"field {153 * 65_535 - 1} 99 byte 00 \\?1", 153 * 65_535 + 1)),
    ("1,000,000 instances of a wide class", lambda: crowd(1_000_000), ["histo"],
     ends("0 1000000 1 \\?", "0 1000000 1 \\?", 1)),
]


def path_cases(less):
    """How the last object is reached."""
    million = 1_000_000 // less
    elements, nodes = 10 * million, million // 10
    return [
        ("a chain of 1,000,000 objects", lambda: chain(million), ["path", f"{million:x}"],
         ends(f"distance {million - 1}", f"{million:x}", million + 1)),
        ("a chain of 1,000,000 objects, its end", lambda: chain(million), ["path", f"{million + 1:x}"],
         ends("not reached", "not reached", 1)),
        ("an array of 10,000,000 elements", lambda: great_array(elements, nodes), ["path", f"{nodes + 1:x}"],
         ends("distance 1", f"{nodes + 1:x}", 3)),
        ("1,000,000 roots", lambda: many_roots(million), ["path", f"{3 * million:x}"],
         lambda lines: lines == ["distance 1", "1", f"{3 * million:x}"]),
        ("10,000,000 roots", lambda: many_roots(elements), ["path", f"{3 * elements:x}"],
         lambda lines: lines == ["distance 1", "1", f"{3 * elements:x}"]),
        ("5,000,000 arrays that lead to one", lambda: all_to_one(5 * million), ["path", f"{5 * million:x}"],
         lambda lines: lines == ["distance 1", "1", f"{5 * million:x}"]),
        ("5,000,000 arrays that lead to one", lambda: all_to_one(5 * million), ["keeps", f"{5 * million:x}"],
         lambda lines: lines[0].split()[1] == "1" and len(lines) == 2),
        ("an array of 100,000,000 elements", lambda: great_array(10 * elements, nodes), ["path", f"{nodes + 1:x}"],
         ends("distance 1", f"{nodes + 1:x}", 3)),
        ("identifiers 2^63 apart", lambda: far_apart(million), ["path", f"{(1 << 63) + million:x}"],
         ends(f"distance {2 * million - 1}", f"{(1 << 63) + million:x}", 2 * million + 1)),
    ]


def slots(count):
    """A test of what refers to the target in a chain of so many classes: each field of the instance."""
    return ends("4c4b40 field 0", f"4c4b40 field {count - 1}", count)


# For each order the least count, and for a count the title, the dump, what is asked for, and the test.
ORDERS = [
    (100_000, "{:,} classes, ascending", lambda count: laid_chain(count, range(1, count + 1)), TARGET, slots),
    (100_000, "{:,} classes, descending", lambda count: laid_chain(count, range(count, 0, -1)), TARGET, slots),
    (100_000, "a circle of {:,} classes, closed last", closed_last, 1,
     lambda count: ends(f"{count:x} super 0", f"{999_999 + count:x} class 0", count + 1)),
    (100_000, "a circle of {:,} classes, its fields", closed_last, TARGET, lambda count: lambda lines: lines == []),
    (250_000, "{:,} instances, their class last", waiting, TARGET,
     lambda count: ends("2 field 0", f"{count + 1:x} field 0", count)),
    (1_250_000, "{:,} referrers in descending order", many_referrers, 5_000_001,
     lambda count: ends("1 element 0", f"{count:x} element 0", count)),
]


def refs_cases(less):
    """What refers to an object or a class: of each order three sizes, each of which is twice the one before."""
    return [
        (title.format(count), partial(make, count // less), ["refs", f"{number:x}"], test(count // less))
        for least, title, make, number, test in ORDERS
        for count in (least, 2 * least, 4 * least)
    ]


def twice(line, last, count):
    """A test of a report of so many lines that is asked for twice: its first line and its last."""

    def test(lines):
        first, second = lines[:count], lines[count + 1 : -1]
        return first == second and first[0] == line and first[-1] == last and len(first) == count and lines[count] == lines[-1] == ""

    return test


def not_understood(count):
    return lambda lines: lines == ["not understood", ""] * count


def asked_cases(less):
    """Questions on standard input: the bytes of one, and how often they come. Of each kind that grows three sizes."""
    million = 1_000_000 // less
    many = 5 * million
    sizes = (million // 4, million // 2, million)
    return [
        *((f"{count:,} questions of one byte", lambda: chain(2), ["ask"], not_understood(count), (b"?\n", count)) for count in sizes),
        *((f"{count:,} questions of 4,096 bytes", lambda: chain(2), ["ask"], not_understood(count), (b"?" * 4096 + b"\n", count))
          for count in sizes),
        *((f"a line of {count:,} bytes without an end", lambda: chain(2), ["ask"], not_understood(1), (b"?" * 100, count // 100))
          for count in (25 * million, 50 * million, 100 * million)),
        ("an object with 5,000,000 referrers, asked for twice", lambda: referrers_of_node(many), ["ask"],
         twice("1 element 0", f"{many:x} element 0", many), (b"refs 4c4b41\n", 2)),
        ("an array that refers to an object 5,000,000 times, asked for twice", lambda: one_referrer(many), ["ask"],
         twice("1 element 0", f"1 element {many - 1}", many), (b"refs 2\n", 2)),
    ]


def namesakes(count):
    """So many classes of one name, each with an instance of one byte."""
    records = [HEADER, struct.pack(">BIII", 1, 0, 5, 1), b"A"]
    records += [struct.pack(">BIIIIII", 2, 0, 16, serial, serial, 0, 1) for serial in range(1, count + 1)]
    return b"".join(records) + part(instance(number, number, b"\0") for number in range(1, count + 1))[len(HEADER):]


def rooted_namesakes(count):
    """The same, each a root."""
    return namesakes(count) + part(sticky(number) for number in range(1, count + 1))[len(HEADER):]


def descending(count):
    """So many instances of one class, the last identifier first, each of one byte."""
    return part(instance(number, 1, b"\0") for number in range(count, 0, -1))


def great_text(count):
    """An array of so many bytes, none of which prints as itself."""
    return part([struct.pack(">BIIIB", 0x23, 1, 1, count, 8) + b"\xff" * count])


def leak_cases(folder, less):
    """The reports that find a leak."""
    million = 1_000_000 // less
    nothing = folder / "nothing.hprof"
    nothing.write_bytes(HEADER)
    text = 100 * million
    bare = million // 5
    return [
        ("1,000,000 classes of one name, beside nothing", lambda: namesakes(million), ["diff", str(nothing)],
         ends(f"+{million} +{million} A", f"+{million} +{million} A", 1)),
        *((f"{count:,} objects of one class, in descending order", lambda count=count: descending(count), ["objects", "1"],
           ends("1 1", f"1 {count:x}", count)) for count in (5 * million, 10 * million)),
        ("a text of 100,000,000 units, all escaped", lambda: great_text(text), ["text", "1"],
         lambda lines: lines == [f"text {text} " + "\\u00ff" * text]),
        ("a path of 1,000,000 arrays", lambda: chain(million), ["why", f"{million:x}"],
         ends(f"distance {million - 1}", f"{million:x} \\?", 6)),
        ("a path of 200,000 objects, each of another class without fields", lambda: bare_path(bare), ["why", f"{1_000_000 + bare:x}"],
         ends(f"distance {bare - 1}", f"{1_000_000 + bare:x} \\?", 6)),
    ]


def graph(nodes, targets, roots=(0,)):
    """So many arrays, each with the targets that are told of its number, and roots. Identifiers are one more than numbers."""
    arrays = (array(number + 1, 0, [to + 1 for to in targets(number)]) for number in range(nodes))
    return part([*arrays, *(sticky(root + 1) for root in roots)])


def linked(count):
    """A list whose owner knows both ends, and whose cells know both neighbours."""

    def targets(number):
        if number == 0:
            return [1, count - 1]
        return [to for to in (number + 1, number - 1) if 0 < to < count]

    return graph(count, targets)


def long_way_and_short(half):
    """A chain whose end leads to as many nodes, to each of which the start leads as well: what slows a search for nearest dominators that
    goes up link by link."""

    def targets(number):
        if number == 0:
            return [1, *range(half + 1, 2 * half + 1)]
        if number == half:
            return range(half + 1, 2 * half + 1)
        return [number + 1] if number < half else []

    return graph(2 * half + 1, targets)


def ladder(quarter):
    """Two chains into a third, and a ladder of edges back that is entered at both ends: what slows a search that repeats itself until
    nothing changes."""
    first, second, third, fourth = (1 + quarter * place for place in range(4))

    def targets(number):
        if number == 0:
            return [first, second, fourth + quarter - 1]
        chain, step = divmod(number - 1, quarter)
        ends = [[third], [third], [fourth]][chain] if chain < 3 and step == quarter - 1 else []
        on = [number + 1] if step < quarter - 1 else []
        across = [fourth + step] if chain == 2 else []
        back = [number - 1] if chain == 3 and step > 0 else []
        return on + ends + across + back

    return graph(4 * quarter + 1, targets)


def diamonds(count):
    """So many diamonds, one behind the other."""

    def targets(number):
        top, place = divmod(number, 3)
        if number == 3 * count:
            return []
        return [3 * top + 1, 3 * top + 2] if place == 0 else [3 * top + 3]

    return graph(3 * count + 1, targets)


def nested(count):
    """So many diamonds, each on the left side of the one around it."""

    def targets(number):
        level, place = divmod(number, 4)
        if place == 0:
            return [number + 1, number + 2]
        if place == 1:
            return [number + 3] if level + 1 < count else [number + 2]
        if place == 2:
            return [number + 1]
        return [number - 4] if level > 0 else []

    return graph(4 * count, targets)


def forests(count):
    """A chain above a binomial tree, and to each node of the chain, from the last up, an edge from the deepest leaf of what is linked so
    far: what slows path compression."""
    ranks = (count // 2).bit_length() - 1
    size = 1 << ranks
    above = count - size
    edges = [[number + 1] for number in range(above)] + [[] for _ in range(size)]
    head, after = [None] * count, [None] * count
    for place in range(size):
        last = None
        for bit in reversed(range(ranks if place == 0 else (place & -place).bit_length() - 1)):
            below = above + (place | 1 << bit)
            edges[above + place].append(below)
            if last is None:
                head[above + place] = below
            else:
                after[last] = below
            last = below
    root = above
    for number in reversed(range(above)):
        leaf = root
        head[number] = leaf
        while head[leaf] is not None:
            below = head[leaf]
            head[leaf] = after[below]
            after[leaf] = None if head[below] is None else below
            leaf = below
        edges[leaf].append(number)
        root = number
    return graph(count, lambda number: edges[number])


def pairs(count):
    """So many roots, each of which leads to the same nodes, of which there are as many."""
    return graph(2 * count, lambda number: range(count, 2 * count) if number < count else [], range(count))


def kept(total, nodes, below):
    """A test of `keeps` on the first array, which keeps all: the sums, and the number of lines below it."""
    sums = f"{total} {nodes}"
    return lambda lines: lines[:2] == [f"{sums} roots", f"{sums} 1 \\?"] and len(lines) == 2 + below


def keeps_cases(less):
    """What arrays keep alive, in graphs that slow searches for dominators."""
    million = 1_000_000 // less
    many, half, quarter, third, wide = 10 * million, 4 * million, 2 * million, 3 * million, 5_000 // less
    return [
        ("a chain of 10,000,000 arrays", lambda: graph(many, lambda i: [i + 1] if i + 1 < many else []), ["keeps", "1"],
         kept(4 * (many - 1), many, 1)),
        ("an array of 10,000,000 others", lambda: graph(many, lambda i: range(1, many) if i == 0 else []), ["keeps", "1"],
         kept(4 * (many - 1), many, many - 1)),
        ("5,000,000 arrays that are roots", lambda: graph(5 * million, lambda i: [], range(5 * million)), ["keeps", "0"],
         lambda lines: lines[0] == f"0 {5 * million} roots" and len(lines) == 1 + 5 * million),
        ("5,000 roots that lead to 5,000 arrays each", lambda: pairs(wide), ["keeps", "0"],
         lambda lines: lines[0] == f"{4 * wide * wide} {2 * wide} roots" and len(lines) == 1 + 2 * wide),
        ("a list of 8,000,000 cells with both ends known", lambda: linked(2 * half), ["keeps", "1"],
         kept(4 * (2 + 2 * (2 * half - 1) - 2), 2 * half, 2 * half - 1)),
        ("a long way and a short one to 4,000,000 arrays", lambda: long_way_and_short(half), ["keeps", "1"],
         kept(4 * 3 * half, 2 * half + 1, half + 1)),
        ("a ladder of 8,000,000 arrays", lambda: ladder(quarter), ["keeps", "1"],
         kept(4 * (3 + 4 * (quarter - 1) + 3 + quarter + quarter - 1), 4 * quarter + 1, quarter + 3)),
        ("3,000,000 diamonds in a row", lambda: diamonds(third), ["keeps", "1"], kept(4 * 4 * third, 3 * third + 1, 3)),
        ("2,000,000 diamonds in one another", lambda: nested(quarter), ["keeps", "1"],
         kept(4 * (3 * quarter + 2 * quarter - 1), 4 * quarter, 3)),
        ("1,000,000 classes of one name, with an object each that is a root", lambda: rooted_namesakes(million), ["retained"],
         lambda lines: lines == [f"{million} {million} {million} A"]),
        ("a chain of arrays above a binomial tree, 8,000,000 in all", lambda: forests(8 * million), ["keeps", "1"],
         lambda lines: len(lines) == 3 and lines[1].endswith(f" {8 * million} 1 \\?")),
    ]


def write_questions(path, asked):
    """Writes the questions to a file, in pieces of some megabytes."""
    question, count = asked
    at_once = max(1, min(count, 4_000_000 // max(1, len(question))))
    with open(path, "wb") as file:
        for _ in range(count // at_once):
            file.write(question * at_once)
        file.write(question * (count % at_once))


def run_case(folder, memory, title, make, words, test, asked=(b"", 0)):
    """Runs the program on a dump, with these questions, and says whether it answers as it should."""
    dump, out, questions = folder / "dump.hprof", folder / "out", folder / "questions"
    dump.write_bytes(make())
    write_questions(questions, asked)
    start = time.perf_counter()
    with open(out, "wb") as file, open(questions, "rb") as lines:
        status = subprocess.run([PROGRAM, words[0], *memory, *words[1:], dump], stdin=lines, stdout=file).returncode
    seconds = time.perf_counter() - start
    size = dump.stat().st_size
    print(f"| {title} | {size / 1e6:.1f} MB | {' '.join(words)} | {seconds:.2f} |", flush=True)
    if status != 0 or not test(out.read_text().splitlines()):
        print(f"{title}: another answer, status {status}")
        return False
    return True


def mixed(count):
    """So many objects of each kind, and classes."""
    subs = []
    for i in range(1, count + 1):
        subs.append(array(4 * i, 7, [4 * i + 1, 4 * i + 4]))
        subs.append(instance(4 * i + 1, 4 * i + 2, struct.pack(">I", 4 * i)))
        subs.append(class_dump(4 * i + 2, 4 * i - 2, field(1, OBJECT), 1))
        subs.append(sticky(4 * i + 2))
    return part(subs)


def salvaged(program, dump, out):
    """What a program leaves of a dump, and what it prints of it, with its status and the seconds that it takes."""
    out.unlink(missing_ok=True)
    start = time.perf_counter()
    done = subprocess.run([program, "salvage", out, dump], capture_output=True)
    seconds = time.perf_counter() - start
    return (done.returncode, done.stdout, out.read_bytes() if out.exists() else b""), seconds


def salvage(folder, count):
    """Cuts a dump short at 20 random places, and compares what is left of it with what the plain program leaves."""
    plain, dump = folder / "plain", folder / "dump.hprof"
    source = HERE.parent / "real" / "plain.rs"
    subprocess.run(["rustc", "-O", "--edition", "2024", "-o", plain, source], check=True)
    whole = mixed(count)
    right, most = True, 0
    for place in random.Random(1).sample(range(31, len(whole)), 20):
        dump.write_bytes(whole[:place])
        ours, seconds = salvaged(PROGRAM, dump, folder / "ours.hprof")
        theirs, _ = salvaged(plain, dump, folder / "theirs.hprof")
        most = max(most, seconds)
        if ours != theirs or ours[0] != 0:
            right = False
            print(f"cut to {place} bytes: another answer, status {ours[0]}")
    print(f"| cut short at 20 places | {len(whole) / 1e6:.1f} MB | salvage | {most:.2f} at most |", flush=True)
    return right


def main():
    words = argparse.ArgumentParser()
    words.add_argument("--less", type=int, default=1)
    words.add_argument("--memory")
    words.add_argument("wanted", nargs="*")
    words = words.parse_args()

    def is_wanted(title, command):
        return not words.wanted or any(word in title or word in command for word in words.wanted)

    memory = ["--memory", words.memory] if words.memory else []
    wrong = 0
    print("| dump | its bytes | words | seconds |")
    print("|---|---|---|---|")
    with tempfile.TemporaryDirectory() as folder:
        folder = Path(folder)
        made = [path_cases, refs_cases, asked_cases, partial(leak_cases, folder), keeps_cases]
        for case in [*CASES, *(case for cases in made for case in cases(words.less))]:
            if is_wanted(case[0], case[2]):
                wrong += not run_case(folder, memory, *case)
        if is_wanted("cut short at 20 places", ["salvage"]):
            wrong += not salvage(folder, 1_000_000 // words.less)
    sys.exit(wrong != 0)


main()

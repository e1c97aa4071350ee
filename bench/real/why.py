#!/usr/bin/env python3
"""Checks what `why` of identifiers at random tells by what `path`, `refs` and `object` tell of the same nodes, through one `hprof ask`:
each node, each step that is printed, the distance, and that what is left out is counted.

    bench/real/why.py [--collector NAME] [--count N] [--dump FILE] [MEGABYTES]    (Serial; 100 of each kind; 100 megabytes)

The lines of roots and threads are in no other report: it checks that there are roots. It needs the built program, java, javac and rustc. It
is no part of the gate.
"""

import argparse
import re
import sys
import tempfile
from pathlib import Path

from ask import Dialogue
from measure import build, drawn, dump_of


def asked(dialogue, question):
    return dialogue.ask(question)[0].decode().splitlines()


def node_line(node, first):
    """The line of a node, from the first line of `object`."""
    words = first.split(" ")
    if words[0] == "class":
        return f"{node} class {first.split(' ', 12)[12]}"
    if words[0] == "values":
        return f"{node} {words[2]}[]"
    return f"{node} {first.split(' ', 6)[6]}"


def name_at(contents, via, place):
    """The name of the static field or field at a place, or None, from the lines of `object`."""
    before = {"static": 4, "field": 5}.get(via)
    if before is None:
        return None
    line = next(line for line in contents if line.startswith(f"{via} {place} "))
    return line.split(" ", before)[before]


def plain(line):
    """The line of a node without the name of a thread."""
    return re.sub(r' ".*$', "", line)


class Told:
    """The lines of `why`, taken apart: whether only weak references lead there, the distance, the roots, and the nodes with their steps."""

    def __init__(self, lines):
        self.only_weak = lines[0] == "only by weak references"
        lines = lines[1:] if self.only_weak else lines
        self.distance = int(lines[0].split(" ")[1])
        self.roots = [line for line in lines if line.startswith("root ")]
        self.nodes, self.steps, left_out, step = [], [], 0, None
        for line in lines[1:]:
            if line.startswith("root ") or (line.startswith("  ") and not self.nodes):
                continue
            if line.startswith(".. "):
                left_out = int(line.split(" ")[1])
            elif line.startswith("  "):
                step = line[2:]
            else:
                if self.nodes:
                    self.steps.append((step, left_out))
                self.nodes.append(line)
                left_out = 0


def step_faults(dialogue, before, after, step, only_weak):
    """What is wrong with a step that was told from one node to the next: it is the first reference, or the first strong one."""
    contents = asked(dialogue, f"object {before}")
    for line in asked(dialogue, f"refs {after}"):
        holder, via, place = line.split(" ")
        if holder != before:
            continue
        name = name_at(contents, via, place)
        words = f"{via} {place}" + (f" {name}" if name is not None else "")
        if step == words or (only_weak and step == f"weak {words}"):
            return []
        if name != "referent" or only_weak:
            break
    return [f"{before} to {after}: {step}"]


def faults(dialogue, identifier):
    """What `why` tells that `path`, `refs` and `object` do not bear out."""
    found, path = asked(dialogue, f"why {identifier}"), asked(dialogue, f"path {identifier}")
    if path == ["not reached"]:
        nothing = asked(dialogue, f"object {identifier}")[0]
        return [] if found in ([nothing], path) else found
    told = Told(found)
    least = int(path[0].split(" ")[1])
    wrong = [] if told.roots else ["no root"]
    if told.distance < least or (told.only_weak and told.distance != least):
        wrong.append(f"distance {told.distance}, and path has {least}")
    if sum(1 + left_out for _, left_out in told.steps) != told.distance:
        wrong.append("steps and nodes that were left out are not the distance")
    ids = [line.split(" ")[0] for line in told.nodes]
    for id, line in zip(ids, told.nodes):
        if plain(line) != node_line(id, asked(dialogue, f"object {id}")[0]):
            wrong.append(f"node {line}")
    for before, after, (step, left_out) in zip(ids, ids[1:], told.steps):
        if not left_out:
            wrong += step_faults(dialogue, before, after, step, told.only_weak)
    return wrong


def differs(dialogue, identifier):
    """Whether `why` tells something that other reports do not bear out."""
    wrong = faults(dialogue, identifier)
    if wrong:
        print(f"why {identifier}:", *wrong, sep="\n")
    return bool(wrong)


def main():
    words = argparse.ArgumentParser(description=__doc__, formatter_class=argparse.RawDescriptionHelpFormatter)
    words.add_argument("--collector", default="Serial")
    words.add_argument("--count", type=int, default=100)
    words.add_argument("--dump", type=Path)
    words.add_argument("megabytes", type=int, nargs="?", default=100)
    words = words.parse_args()
    with tempfile.TemporaryDirectory() as name:
        folder = Path(name)
        build(folder, ["plain"])
        dump = words.dump or dump_of(folder, words.collector, words.megabytes)
        identifiers = [identifier for kind in drawn(folder, dump, words.count, 1) for identifier in kind]
        dialogue = Dialogue(dump)
        wrong = sum(differs(dialogue, identifier) for identifier in identifiers)
        dialogue.end()
    print(f"{len(identifiers)} identifiers, {wrong} differ")
    sys.exit(wrong != 0)


if __name__ == "__main__":
    main()

"""Writes values as the reports do, so that a test sees whether a value has all that its text had. docs/FORMAT.md says how."""

import re

from hprof import Referred
from hprof.names import escaped

REAL = re.compile(r"-?0x[0-9a-f.]+p[+-]?\d+|NaN|nan|-?Infinity|-?inf")
REACHED = {"not": "not reached\n", "weakly": "only by weak references\n"}


def number(value):
    return f"{value:+d}" if value else "0"


def quoted(text, left_out):
    return f' "{escaped(text)}"' + (f" .. {left_out} more" if left_out else "")


def node(found):
    if found.kind == "missing":
        return f"{found.id:x} not in the dump"
    named = ("class " if found.kind == "class" else "") + found.label.printed
    return f"{found.id:x} {named}" + ("" if found.text is None else quoted(found.text, found.left_out))


def reference(found):
    name = "" if found.name is None else " " + found.name.printed
    return f"{'weak ' if found.weak else ''}{found.kind} {found.position}{name}"


def frame(found):
    if found.class_name is None:
        return found.text.printed
    where = "Native Method" if found.native else "Unknown Source" if found.source is None else found.source.printed
    compiled = ", compiled" if found.text.printed.endswith(", compiled)") else ""
    line = "" if found.line is None else f":{found.line}"
    return f"{found.class_name.printed}.{found.method.printed}({where}{line}{compiled})"


def root(found):
    words = ["root", found.kind]
    words += [f"{found.reference:x}"] if found.reference is not None else []
    words += [f"thread {found.thread}"] if found.thread is not None else []
    if found.kind in ("JNI local", "Java frame"):
        words.append("no frame" if found.frame is None else f"frame {found.frame}")
    words += [f"trace {found.trace}"] if found.trace is not None else []
    below = ([node(found.holder)] if found.holder else []) + (["at " + frame(found.at)] if found.at else [])
    return " ".join(words) + "\n" + ("  " + " ".join(below) + "\n" if below else "")


def kept(found):
    return f"{found.bytes} {found.objects} {node(found.node)}\n"


def check(found):
    parts = (
        f"part {one.number}: version {one.version} ids {one.id_size} time {one.time} records {one.records} facts {one.facts} "
        f"end {'yes' if one.has_end else 'no'}\n"
        for one in found.parts
    )
    return "".join(parts) + "".join(f"{name.replace('_', ' ')} {getattr(found, name)}\n" for name in found._fields[1:])


def histo(found):
    return "".join(f"{row.bytes} {row.count} {'-' if row.id is None else format(row.id, 'x')} {row.label.printed}\n" for row in found)


def classes(found):
    line = "{0.id:x} super {0.superclass:x} bytes {0.bytes} objects {0.count} {0.label.printed}\n"
    return "".join(map(line.format, found))


def objects(found):
    return "".join(map("{0.bytes} {0.id:x}\n".format, found))


def retained(found):
    return "".join(map("{0.retained} {0.bytes} {0.count} {0.label.printed}\n".format, found))


def diff(found):
    return "".join(f"{number(row.bytes)} {number(row.count)} {row.label.printed}\n" for row in found)


def refs(found):
    return "".join(map("{0.id:x} {0.kind} {0.position}\n".format, found))


def path(found):
    return "not reached\n" if found.distance is None else f"distance {found.distance}\n" + "".join(map("{:x}\n".format, found.ids))


def text(found, word):
    if found is None:
        return f"no text at {word}\n"
    return f"text {len(found.encode('utf-16-le', 'surrogatepass')) // 2} {escaped(found)}\n"


def biggest(found):
    return "".join(map(kept, found))


def totals(found):
    weak = "" if found.weak is None else f"{found.weak.bytes} {found.weak.objects} only by weak references\n"
    return f"{found.total.bytes} {found.total.objects} roots\n{weak}"


def keeps(found):
    if found.reached != "strongly":
        return REACHED[found.reached]
    return totals(found) + "".join(map(kept, found.keepers)) + "".join("  " + kept(one) for one in found.kept)


def suspect(found):
    lines = [kept(one) for one in found.keepers]
    lines[10:10] = [f".. {found.left_out} more\n"] if found.left_out else []
    lines += [f"  {piece.bytes} {piece.count} {piece.label.printed}\n" for piece in found.pieces]
    return f"suspect {found.percent}% {found.bytes}\n" + "".join(lines)


def suspects(found):
    return totals(found) + "".join(map(suspect, found.suspects))


def step(found):
    below = "" if found.reference is None else f"  {reference(found.reference)}\n"
    return node(found.node) + "\n" + below + (f".. {found.left_out} more\n" if found.left_out else "")


def why(found):
    if found.reached == "not":
        return REACHED["not"]
    head = REACHED.get(found.reached, "") + f"distance {found.distance}\n"
    return head + "".join(map(root, found.roots)) + "".join(map(step, found.steps))


def sum_of(found):
    named = ("class " if found.of_class else "") + found.label.printed
    name = "" if found.name is None else " " + found.name.printed
    return f"{found.count} times {named} {'weak ' if found.weak else ''}{found.kind}{name}\n"


def who(found, word):
    if not (found.roots or found.holders):
        return f"nothing refers to {word}\n"
    holders = "".join(f"{node(one.node)} {reference(one.reference)}\n" for one in found.holders)
    return "".join(map(root, found.roots)) + "".join(map(sum_of, found.sums)) + holders


def thread(found):
    lines = [f"thread {found.number}" + ("" if found.node is None else " " + node(found.node))]
    for one in found.stack:
        lines += ["  at " + frame(one.frame), *("    " + node(held) for held in one.objects)]
    for one in found.elsewhere:
        lines += [f"  {one.place}" + ("" if one.number is None else f" {one.number}"), *("    " + node(held) for held in one.objects)]
    return "".join(line + "\n" for line in lines)


def threads(found):
    return "".join(map(thread, found))


def class_dump(found):
    head = "class {0.id:x} super {0.superclass:x} loader {0.loader:x} signers {0.signers:x} domain {0.domain:x} size {0.size}"
    lines = [f"{head.format(found)} {found.label.printed}\n"]
    lines += map("constant {0.position} {0.pool_index} {0.type} {0.bits}\n".format, found.constants)
    lines += map("static {0.position} {0.type} {0.bits} {0.name.printed}\n".format, found.statics)
    lines += map("own {0.position} {0.type} {0.name.printed}\n".format, found.own)
    return "".join(lines)


def dump(found):
    if hasattr(found, "held"):
        held = f"bytes {found.held.hex()}\n" if found.held else ""
        return f"values {found.id:x} {found.type} elements {found.length}\n{held}"
    if hasattr(found, "elements"):
        elements = "".join(f"element {place} {one:x}\n" for place, one in enumerate(found.elements))
        return f"objects {found.id:x} class {found.class_id:x} elements {len(found.elements)} {found.label.printed}\n{elements}"
    fields = "".join(map("field {0.position} {0.owner:x} {0.type} {0.bits} {0.name.printed}\n".format, found.fields))
    head = f"instance {found.id:x} class {found.class_id:x} bytes {found.bytes} {found.label.printed}\n"
    return head + (found.no_fields + "\n" if found.no_fields else fields)


def contents(found):
    return (class_dump(found.class_dump) if found.class_dump else "") + (dump(found.dump) if found.dump else "")


def value(found):
    if found is None:
        return "null"
    if isinstance(found, Referred):
        return node(found.node) + ("" if found.length is None else f" of {found.length}")
    if isinstance(found, bool):
        return "true" if found else "false"
    if isinstance(found, str):
        return f"'{escaped(found)}'"
    return found.hex() if isinstance(found, float) else str(found)


def entry(found, owner):
    """A line of `show`, behind the line of its owner if this is another one than that of the entry before."""
    above = "" if found.owner == owner else f"  from {found.owner.printed}\n"
    words = [found.kind, *([] if found.position is None else [str(found.position)]), *([] if found.type is None else [found.type])]
    words += [] if found.name is None else [found.name.printed]
    return above + "  " + " ".join(words) + ("" if found.kind == "own" else " = " + value(found.value)) + "\n"


def section(found):
    lines = [value(Referred(found.node, found.length)) + "\n"]
    lines += [f"  {found.no_fields}\n"] if found.no_fields else []
    owner = None
    for one in found.entries:
        lines.append(entry(one, owner))
        owner = one.owner
    lines += [f"  text{quoted(found.text, found.text_left_out)}\n"] if found.text is not None else []
    for place in range(0, len(found.numbers), 16):
        lines.append(f"  {place} = {' '.join(map(value, found.numbers[place : place + 16]))}\n")
    lines += [f"  .. {found.left_out} more\n"] if found.left_out else []
    lines += [f"  {found.nulls} null\n"] if found.nulls else []
    return "".join(lines)


def show(found):
    return "".join(section(one) for one in found if one is not None)


def with_numbers(text):
    """A text of `show` in which each number with a point has one form."""
    return REAL.sub(lambda real: float.fromhex(real.group()).hex(), text)


WRITERS = {
    "check": check, "histo": histo, "classes": classes, "threads": threads, "suspects": suspects, "retained": retained, "biggest": biggest,
    "objects": objects, "show": show, "why": why, "keeps": keeps, "object": contents, "refs": refs, "path": path,
}


def report(word, subject, found):
    """The text of a report."""
    if word in ("who", "text"):
        return {"who": who, "text": text}[word](found, subject)
    return WRITERS[word](found)

"""What a reference leads to, in a few words: its class, the number of its elements, and the text of a string."""

from collections import namedtuple
from itertools import islice

from hprof import contents
from hprof import texts as texts_of
from hprof.names import unescaped
from hprof.values import REFERENCES

from .class_names import name_of, title_of
from .markup import Markup, element, joined, link
from .printed import cut, readable
from .subjects import about
from .values import text_of, thousands

# The units of a text beside a reference, and the characters of them as they are printed.
PREVIEW = 100
PRINTED = 6 * PREVIEW
FIELDS = 200
Brief = namedtuple("Brief", "id of_class head preview")
NOTHING = Brief(0, None, None, None)


def has_text(lines):
    """Whether the fields of an instance are those of a string: the first that is named `value` refers to something."""
    if contents.no_fields(lines):
        return False
    named_so = (field for field in islice(contents.fields(lines), FIELDS) if field.name == "value")
    field = next(named_so, None)
    return field is not None and field.type in REFERENCES and field.value != 0


def quoted(text, units):
    """The start of a text in quotes, and a sign that there is more if it has more units than are shown."""
    return element("q", readable(text), "\u2026" if units > PREVIEW else "")


def start_of(head, lines):
    """The first elements of an array of bytes or chars as text."""
    text = text_of(head.type, contents.held(lines, head, 0, PREVIEW).hex())
    return None if text is None else quoted(text, head.length)


def brief(lines):
    """A brief of the answer to `object ID`. Its preview is True if the text of a string is still to be asked for."""
    of_class = contents.class_head(lines)
    contents.pass_class(lines)
    head = contents.object_head(lines)
    if head is None:
        return Brief(of_class.id if of_class else 0, of_class, None, None)
    if isinstance(head, contents.InstanceHead):
        return Brief(head.id, of_class, head, has_text(lines))
    return Brief(head.id, of_class, head, start_of(head, lines) if isinstance(head, contents.PrimitiveArrayHead) else None)


def text(lines):
    """The beginning of a text, in quotes. None where there is none."""
    found = texts_of.start(lines)
    return None if found is None else quoted(unescaped(cut(found.printed, PRINTED)[0])[:PREVIEW], found.units)


def texts(heap, numbers):
    """The text of each string, by its identifier."""
    return dict(zip(numbers, heap.ask([(about("text", number), text, PRINTED + 30) for number in numbers])))


def briefs(heap, numbers):
    """What each identifier leads to: a turn for all of them, and one for the texts of strings. 0 is null and is not asked for."""
    asked = sorted(set(numbers) - {0})
    found = {number: one or NOTHING for number, one in zip(asked, heap.ask([(about("object", number), brief) for number in asked]))}
    strings = [number for number, one in found.items() if one.preview is True]
    for number, preview in texts(heap, strings).items():
        found[number] = found[number]._replace(preview=preview)
    return found


def named(of_class, label):
    """The name of a class, by its label; one without any still has a place to click at."""
    return joined(["class " if of_class else "", name_of(label.printed)])


def words_for(id, one):
    """A class or an object in words without markup, for a heading and a title: its name and its identifier."""
    if one.head is None and one.of_class is None:
        return f"{id:x}"
    label = one.of_class.label if one.of_class else one.head.label
    return f"{'class ' if one.of_class else ''}{title_of(label.printed)} {id:x}"


def target(frame, number, found):
    """A reference: a link with its class beside it, or `null`."""
    if number == 0:
        return element("code", "null")
    one = found.get(number, NOTHING)
    if one.head is None and one.of_class is None:
        return joined([link(frame.at("object", number), f"{number:x}"), element("small", " not in the dump")])
    if one.head is None:
        return joined([link(frame.at("class", number), f"{number:x}"), " ", named(True, one.of_class.label)])
    count = "" if isinstance(one.head, contents.InstanceHead) else element("small", f" {thousands(one.head.length)} elements")
    preview = joined([" ", one.preview]) if one.preview else Markup()
    return joined([link(frame.at("object", number), f"{number:x}"), " ", named(False, one.head.label), count, preview])

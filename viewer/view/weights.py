"""The classes and types of a dump with their bytes, as `histo` tells them, and links to their pages."""

from urllib.parse import urlencode

from hprof import counts

from .class_names import name_of
from .markup import element, joined, link
from .names import LONGEST
from .paging import Part
from .values import thousands


def kind_of(row):
    """The class of a row, which is a number, or the name of its type."""
    return row.label.printed[: -len("[]")] if row.id is None else row.id


class Weight:
    """The classes of one name, or a type: their bytes and objects, how many there are, and one of them."""

    def __init__(self, one):
        self.label, self.kind = one.label.printed, kind_of(one)
        self.bytes = self.objects = self.classes = 0

    def add(self, one):
        self.bytes += one.bytes
        self.objects += one.count
        self.classes += 1


class Weights:
    """The rows of `histo` by name, and the sums of all."""

    def __init__(self):
        self.named = {}
        self.bytes = self.objects = 0

    def read(self, lines):
        for one in counts.histogram(lines):
            label = one.label.printed
            name = (label, one.id is None) if len(label) <= LONGEST else one.id
            self.named.setdefault(name, Weight(one)).add(one)
            self.bytes += one.bytes
            self.objects += one.count
        return self

    def page_of(self, wanted, page):
        """A page of those whose name is wanted, by size."""
        found = [one for one in self.named.values() if wanted.in_name(one.label)]
        found.sort(key=lambda one: -one.bytes)
        return Part(found[page.first : page.first + page.size], len(found), page)

    def of_label(self, label):
        """The weight of a label. None if it has none, or if a class has the name of a type."""
        found = [self.named[label, is_type] for is_type in (False, True) if (label, is_type) in self.named]
        return found[0] if len(found) == 1 else None

    def largest(self):
        return max((one.bytes for one in self.named.values()), default=0)


def kind_address(frame, kind):
    """The address of the page of a class or a type."""
    return frame.at("type", kind) if isinstance(kind, str) else frame.at("class", kind)


def kind_link(frame, kind, label, words=""):
    """A link to it, with the words of a query behind the address."""
    return link(kind_address(frame, kind) + words, name_of(label))


def classes_link(frame, one, words=""):
    """A link to the class or the type, or to a list of the classes of one name."""
    if one.classes == 1:
        return kind_link(frame, one.kind, one.label, words)
    address = frame.at("find") + "?" + urlencode({"label": one.label})
    return joined([link(address, name_of(one.label)), " ", element("small", f"{thousands(one.classes)} classes")])

"""Classes and objects in a line: a link with the name, the identifier, and the name of a thread."""

from hprof.names import escaped

from .class_names import name_of, title_of
from .markup import element, joined, link
from .printed import shown


def quoted(one):
    """The name of a thread as it is printed, or nothing."""
    if one.text is None:
        return ""
    return f'"{escaped(one.text)}"' + (f" .. {one.left_out} more" if one.left_out else "")


def label_and_name(one):
    """The printed label of a node, and the name of a thread. A class is no thread: all behind its identifier is its label."""
    if one.kind == "class" and one.text is not None:
        return f"{one.label.printed} {quoted(one)}", ""
    return one.label.printed, quoted(one)


def shown_node(frame, one):
    """A node with a link: its class, its identifier, and the name of a thread."""
    address = frame.at("class" if one.kind == "class" else "object", one.id)
    id = element("small", f"{one.id:x}")
    if one.kind == "missing":
        return joined([link(address, f"{one.id:x}"), element("small", " not in the dump")])
    label, name = label_and_name(one)
    text = joined(["class " if one.kind == "class" else "", name_of(label)])
    return joined([link(address, text), " ", id, joined([" ", shown(name)]) if name else ""])


def words_of(one):
    """What a node is, in a word."""
    if one.kind == "missing":
        return f"{one.id:x}"
    title = title_of(label_and_name(one)[0])
    return f"class {title}" if one.kind == "class" else title


def named(frame, one):
    """A node, with a link to what it keeps."""
    return joined([link(frame.at("keeps", one.id), words_of(one)), " ", element("small", f"{one.id:x}")])

"""The threads: for each its name, its stack, and the objects that its frames hold."""

from collections import namedtuple
from itertools import islice

from hprof.threads import Threads

from ..markup import element, joined, link
from ..nodes import shown_node
from ..paging import Part, is_there, page, pager, taken
from ..printed import NODE, shown
from ..values import counted, thousands
from ..visit import Missing

QUESTION = "threads"
TITLE = "Threads"
THREADS = 50
# More objects of one frame are counted alone, and more frames of one thread.
HELD = 100
FRAMES = 500
# A place of a thread, which is a frame or none: its words, what it holds, and the number of the others that it holds.
Place = namedtuple("Place", "words held others")
Thread = namedtuple("Thread", "serial object places other_places")


def place_of(threads, place):
    held = threads.held()
    return Place(place.words, list(islice(held, HELD)), held.rest())


def thread_of(threads, head):
    """The thread with this first line, which was read last."""
    found = threads.places()
    places = [place_of(threads, place) for place in islice(found, FRAMES)]
    return Thread(head.number, head.node, places, sum(1 for _ in found))


def reading(wanted, serial=None):
    """A reader of the threads of one page, or of the one with a serial number."""

    def read(lines):
        threads = Threads(lines)
        if serial is None:
            return taken(threads, wanted, lambda head: thread_of(threads, head))
        found = [thread_of(threads, head) for head in threads if head.number == serial]
        return Part(found[wanted.first : wanted.first + wanted.size], len(found), wanted)

    return read


def address_of(frame, serial):
    """The address of the page that shows one thread."""
    return frame.at("threads") + f"?serial={serial}"


def place_shown(frame, place):
    words = element("code", shown(place.words))
    held = [element("li", shown_node(frame, node)) for node in place.held]
    if place.others:
        held.append(element("li", f"and {counted(place.others, 'other object')}"))
    return element("li", words, element("ul", *held) if held else "")


def thread_shown(frame, thread):
    name = joined([": ", shown_node(frame, thread.object)]) if thread.object else ""
    heading = element("h2", f"Thread {thread.serial}", name)
    places = [place_shown(frame, place) for place in thread.places]
    if thread.other_places:
        places.append(element("li", f"and {counted(thread.other_places, 'other frame')}"))
    stack = element("ul", *places, class_="stack") if places else element("p", "The dump has no stack of it.")
    return joined([heading, stack])


def show(visit):
    if QUESTION not in visit.heap.questions:
        return visit.frame.page(TITLE, element("p", "This hprof cannot tell them: it has no question ", element("code", "threads"), "."))
    serial = visit.number("serial", least=0) if "serial" in visit.words else None
    (part,) = visit.ask(("threads", reading(page(visit.number(), THREADS), serial), NODE))
    if not is_there(part) or (serial is not None and not part.total):
        raise Missing
    count = "" if serial is not None else element("p", counted(part.total, "thread") + ". Below a frame stand the objects that it holds.")
    none = element("p", "The dump has no threads.") if not part.total else ""
    every = element("p", link(visit.frame.at("threads"), "All threads")) if serial is not None else ""
    threads = [thread_shown(visit.frame, thread) for thread in part.entries]
    title = f"Thread {thousands(serial)}" if serial is not None else TITLE
    return visit.frame.page(title, every, count, *threads, none, pager(part))

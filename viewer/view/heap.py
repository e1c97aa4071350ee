"""The heap of a dump, asked through `hprof ask`."""

import threading
from collections import OrderedDict

from hprof import Error, Refused
from hprof.reports import Asked, asked
from hprof.session import Session

from .printed import SHORT
from .program import Program

# A page has a hundred entries at most.
KEPT = 500


def reading(question, reader, limit=SHORT):
    """A question, which is a word or was made of one and a subject; the reader of the lines of its answer; how much of a line is kept."""
    one = question if isinstance(question, Asked) else asked(question)
    return one.reading(reader, limit)


class Heap:
    """`settled` is set once the dump was read, or was refused."""

    def __init__(self, hprof, parts):
        self.session = Session(parts, hprof)
        self.program = Program(self.session.running, parts)
        self.places = self.program.places
        self.settled = threading.Event()
        self.questions = frozenset()
        self.kept = OrderedDict()
        threading.Thread(target=self.wait, daemon=True).start()

    def wait(self):
        """Waits for the first answer, which comes once the dump was read: the questions that can be asked."""
        try:
            self.questions = frozenset(self.session.questions())
        except Error:
            pass
        self.settled.set()

    def ask(self, wanted):
        """What each reader made of the answer to its question; None where hprof refuses the question, as for an identifier that nothing
        has. `wanted` has what `reading` takes."""
        found = self.session.ask([reading(*one) for one in wanted])
        return [None if isinstance(one, Refused) else one for one in found]

    def ask_once(self, question, reader, limit=SHORT, page=1):
        """The same, of a page of an answer that hprof takes long for. The last of such pages are kept, since a dump does not change."""
        if (question, page) not in self.kept:
            self.kept[question, page] = self.ask([(question, reader, limit)])[0]
        self.kept.move_to_end((question, page))
        if len(self.kept) > KEPT:
            self.kept.popitem(last=False)
        return self.kept[question, page]

    def end(self):
        self.program.end()

"""The site: which page an address has, and what is shown before there is one and after hprof ended."""

import sys
import threading
import traceback

from hprof import ProgramEnded, Refused

from .frame import Frame, plain
from .growth import Growth
from .heap import Heap
from .pages import along, find, grew, keeps, of_class, of_object, of_type, overview, refused, referrers, threads, waiting, why
from .subjects import TYPES, identifier
from .visit import Missing, Visit

# A request waits so long for a dump to be read before it is shown how far that is.
HOLD = 0.5
PAGES = {"": overview.show, "find": find.show, "threads": threads.show}
OF_IDENTIFIERS = {
    "class": of_class.show,
    "object": of_object.show,
    "refs": referrers.show,
    "why": why.show,
    "keeps": keeps.show,
    "along": along.show,
}
FAULT = plain(500, "A fault of the viewer", "The page could not be made; the terminal of hprof_view.py shows why.")


class Site:
    """The pages about one dump, or about two and the newer of them. A heap that is one of two is read once it is looked at.

    Pages are made one after the other: hprof answers in this way too, and threads would wait for each other longer than they work.
    """

    def __init__(self, guard, base, hprof, parts, compares, tell):
        self.guard = guard
        self.frame = Frame(base, parts, compares)
        self.hprof, self.parts = hprof, parts
        self.lock = threading.Lock()
        self.making = threading.Lock()
        self.growth = Growth(hprof, *parts) if compares else None
        self.heap = None if compares else Heap(hprof, parts)
        self.tell = tell
        self.refusal = None
        self.refused = threading.Event()
        self.is_ended = False
        self.watch(self.growth or self.heap)

    def watch(self, job):
        """Notes the refusal of a job as soon as there is one."""

        def wait():
            job.program.ended.wait()
            job.settled.wait()
            if job.program.process.returncode or job is self.heap:
                self.note(job.program.refusal())

        threading.Thread(target=wait, daemon=True).start()

    def note(self, refusal):
        """Tells a refusal, the first alone, before any page shows it. An end that the viewer asked for is none."""
        with self.lock:
            if self.refusal is None and not self.is_ended:
                self.refusal = refusal
                self.tell(refusal)
                self.refused.set()

    def jobs(self, path):
        """What has to be read before the page of a path can be shown, one after the other."""
        if self.growth:
            yield self.growth
            if self.growth.is_refused():
                raise self.growth.fault()
        if path != "grew":
            with self.lock:
                if self.heap is None:
                    self.heap = Heap(self.hprof, self.parts[-1:])
                    self.watch(self.heap)
            yield self.heap

    def answer(self, head, is_gone):
        """The reply to the head of a request. None if its client is gone when its turn comes."""
        path, words = self.guard.judge(head)
        try:
            return self.reply(path, words, is_gone)
        except Missing:
            return self.frame.missing("No such page", "Nothing has this address.")
        except (Refused, ProgramEnded):
            self.refused.wait()
            return refused.show(self.frame, self.refusal)
        except Exception:
            traceback.print_exc(file=sys.stderr)
            return FAULT

    def reply(self, path, words, is_gone):
        show = self.page_of(path)
        for job in self.jobs(path):
            settled = job.settled.wait(HOLD)
            if self.refused.is_set():
                return refused.show(self.frame, self.refusal)
            if not settled:
                return waiting.show(self.frame, job.places)
        with self.making:
            return None if is_gone() else show(Visit(self.frame, words, self.heap, self.growth))

    def page_of(self, path):
        """What shows the page of a path."""
        if path in PAGES:
            return PAGES[path]
        if path == "grew" and self.growth:
            return grew.show
        name, _, subject = path.partition("/")
        id = identifier(subject)
        if name in OF_IDENTIFIERS and id is not None:
            return lambda visit: OF_IDENTIFIERS[name](visit, id)
        if name == "type" and subject in TYPES:
            return lambda visit: of_type.show(visit, subject)
        raise Missing

    def end(self):
        with self.lock:
            self.is_ended = True
        for job in (self.growth, self.heap):
            if job:
                job.end()

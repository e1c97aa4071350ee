"""What stands around every page: its title, the way to the others, and the field for a search."""

import os
import stat
from datetime import datetime, timezone

from .look import SCRIPT, STYLE
from .markup import Markup, element, joined, link
from .printed import visible


class Reply:
    """What is sent for a request: a status, and a page or the address to go on to."""

    def __init__(self, status, body=Markup(), location=None, **headers):
        self.status = status
        self.body = body
        self.location = location
        self.headers = headers
        self.tells_refusal = False


def document(title, body, *heads):
    """A whole page. Its style and its script stand in it, so it asks for nothing more."""
    head = element(
        "head",
        element("meta", charset="utf-8"),
        element("meta", name="viewport", content="width=device-width, initial-scale=1"),
        element("link", rel="icon", href="data:,"),
        element("title", title),
        *heads,
        element("style", Markup(STYLE)),
    )
    page = element("html", head, element("body", body, element("script", Markup(SCRIPT))), lang="en")
    return Markup("<!DOCTYPE html>" + page)


def plain(status, title, sentence, **headers):
    """A page for those who may not look, or whose request is not understood: it tells nothing of the dump and leads nowhere."""
    main = element("main", element("h1", title), element("p", sentence))
    return Reply(status, document(title, main), **headers)


def written_at(path):
    """When a file was written last, in words. None of what is no file, as a pipe."""
    try:
        found = os.stat(path)
    except OSError:
        return None
    if not stat.S_ISREG(found.st_mode):
        return None
    return datetime.fromtimestamp(found.st_mtime, timezone.utc).strftime("%Y-%m-%d %H:%M UTC")


def joined_words(name, time):
    return f"{name}, {time}" if time else name


class Frame:
    """The frame of the pages below one address."""

    def __init__(self, base, parts, compares):
        self.base = base
        self.parts = [visible(os.path.basename(part)) for part in parts]
        self.dated = [joined_words(name, written_at(part)) for name, part in zip(self.parts, parts)]
        self.compares = compares
        self.named = " \u2192 ".join(self.dated) if compares else self.dated[0]

    def at(self, *words):
        """The address of a page: words and numbers, which are identifiers."""
        return self.base + "/".join(f"{word:x}" if isinstance(word, int) else word for word in words)

    def search(self, word):
        field = element("input", type="search", name="q", value=word, placeholder="class name or identifier", aria_label="Search")
        return element("form", field, " ", element("button", "Search"), action=self.at("find"), method="get", role="search")

    def header(self, word=""):
        grew = [link(self.at("grew"), "What grew")] if self.compares else []
        ways = link(self.at(""), "Overview"), link(self.at("keeps", 0), "What holds the memory"), link(self.at("threads"), "Threads")
        return element("header", *grew, *ways, self.files(), self.search(word))

    def files(self):
        """The names and the times of the files; of many parts the first, and how many more there are."""
        more = f" and {len(self.parts) - 1:,} more" if len(self.parts) > 1 and not self.compares else ""
        return element("span", self.named + more, class_="files")

    def page(self, title, *children, heading=None, status=200, word="", heads=()):
        """A page with the frame around it. The heading is the title if nothing else is said."""
        main = element("main", element("h1", heading or title), *children)
        return Reply(status, document(f"{title} \u00b7 {self.named}", joined([self.header(word), main]), *heads))

    def missing(self, title, sentence):
        return self.page(title, element("p", sentence), status=404)

"""A page as a reader of markup sees it, and what must hold of every page."""

import re
from html.parser import HTMLParser

from view.look import SCRIPT, STYLE

EMPTY = {"input", "link", "meta", "br", "wbr"}
KNOWN = EMPTY | set(
    "html head title style body header main h1 h2 p a b i q small code pre dl dt dd ol ul li table thead tbody tr th td div span nav"
    " form button output progress script noscript details summary svg g rect text".split()
)
ATTRIBUTES = set(
    "lang charset name content rel href http-equiv class hidden type value min max required aria-label aria-hidden aria-sort scope"
    " action method role placeholder start viewbox x y width height".split()
)


class Page(HTMLParser):
    """The title, the text, the links and the rows of a page. `faults` has what no page may have."""

    def __init__(self, source):
        super().__init__(convert_charrefs=True)
        self.source = source
        self.open, self.faults, self.links, self.rows, self.texts = [], [], [], [], []
        self.inside = {"title": "", "h1": "", "script": "", "style": ""}
        self.refreshes = False
        self.feed(source)
        self.close()
        if self.open:
            self.faults.append(f"not closed: {self.open}")
        if self.inside["script"] != SCRIPT or self.inside["style"] != STYLE:
            self.faults.append("another script or style")

    def handle_starttag(self, tag, attributes):
        named = dict(attributes)
        if tag not in KNOWN or not set(named) <= ATTRIBUTES or len(named) != len(attributes):
            self.faults.append(f"an element {tag} {named}")
        for key in ("href", "action", "src"):
            self.address(tag, named.get(key))
        self.refreshes = self.refreshes or named.get("http-equiv") == "refresh"
        if tag == "tr":
            self.rows.append([])
        if tag in ("td", "th") and self.rows:
            self.rows[-1].append("")
        if tag not in EMPTY:
            self.open.append(tag)

    def address(self, tag, address):
        """Notes a link. Any address stays on this server."""
        if address is None or (tag, address) == ("link", "data:,"):
            return
        if not re.fullmatch(r"/[\w-]+/[\w/.%?=&+-]*|\?[\w.%=&+-]+", address):
            self.faults.append(f"an address {address}")
        if tag == "a":
            self.links.append(address)

    def handle_endtag(self, tag):
        if not self.open or self.open.pop() != tag:
            self.faults.append(f"closed: {tag}")

    def handle_data(self, data):
        for tag in self.inside:
            if tag in self.open and "svg" not in self.open:
                self.inside[tag] += data
        if self.open and self.open[-1] not in ("script", "style", "title"):
            self.texts.append(data)
            if ("td" in self.open or "th" in self.open) and self.rows:
                self.rows[-1][-1] += data

    def handle_comment(self, data):
        self.faults.append("a comment")

    def handle_decl(self, declaration):
        if declaration != "DOCTYPE html":
            self.faults.append(f"a declaration {declaration}")

    def unknown_decl(self, data):
        self.faults.append("an unknown declaration")

    def handle_pi(self, data):
        self.faults.append("an instruction")

    @property
    def title(self):
        return self.inside["title"]

    @property
    def heading(self):
        return self.inside["h1"]

    @property
    def text(self):
        return "".join(self.texts)

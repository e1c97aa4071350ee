"""Opens an address in a browser, without the secret word among the words of a command, which every user of the machine can list."""

import os
import tempfile
import webbrowser

from .markup import element


class Opener:
    """A private file that leads a browser on to the address. `end` removes it."""

    def __init__(self, address):
        handle, self.path = tempfile.mkstemp(suffix=".html", prefix="hprof-view-")
        leads_on = element("meta", http_equiv="refresh", content=f"0;url={address}")
        with os.fdopen(handle, "w", encoding="utf-8") as page:
            page.write("<!DOCTYPE html>" + element("meta", charset="utf-8") + leads_on)

    def open(self):
        return webbrowser.open("file://" + self.path)

    def end(self):
        os.unlink(self.path)

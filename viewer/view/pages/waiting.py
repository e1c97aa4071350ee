"""The page that is shown while a dump is read. It asks for the page of its own address again, which comes once the dump was read.

Its script waits until the page was painted; a browser may not paint one that leads on at once. Without scripts it waits a second.
"""

from ..frame import Frame
from ..markup import Markup, element


def megabytes(size):
    return f"{size / 1e6:,.1f} MB"


def show(frame: Frame, places):
    """How much was read of how much, where the system tells."""
    total = places.total()
    read = places.read() if total else 0
    told = element("p", f"{megabytes(read)} of {megabytes(total)}") if read else Markup()
    measure = element("progress", value=read if read else None, max=total or 1, aria_label="read so far")
    again = element("noscript", element("meta", http_equiv="refresh", content="1"))
    return frame.page("Reading the dump", measure, told, heads=[again])

"""The command: starts hprof and the server, and waits for the end."""

import math
import secrets
import signal
import sys
import threading
import time
from queue import Empty, SimpleQueue

from hprof import ProgramMissing

from . import words
from .opening import Opener
from .request import Guard
from .server import Server
from .site import Site

# After hprof ended, the page that says so is served until somebody has seen it, and a little longer; or so long without that.
SEEN_SECONDS, UNSEEN_SECONDS = 3.0, 60.0
# A signal may come to another thread, which does not wake the one that waits: this one looks up so often.
GLANCE_SECONDS = 0.1
# What the viewer waits for, beside the end of hprof.
SIGNAL, SEEN = "signal", "seen"


def handle_endings(handler):
    """Sets what the signals to end do: Control-C, a signal to end, a terminal that is closed. A SIGHUP that is ignored, as under nohup,
    stays so."""
    for sign in (signal.SIGINT, signal.SIGTERM, signal.SIGHUP):
        if signal.getsignal(sign) != signal.SIG_IGN:
            signal.signal(sign, handler)


def wait_for_end(events):
    """Waits for a signal to end, or until hprof ended and somebody has seen that."""
    end = math.inf
    while time.monotonic() < end:
        try:
            event = events.get(timeout=GLANCE_SECONDS)
        except Empty:
            continue
        if event == SIGNAL:
            return
        end = min(end, time.monotonic() + (SEEN_SECONDS if event == SEEN else UNSEEN_SECONDS))


def serve(found, hprof):
    """Serves until a signal to end or until hprof ended, and returns the status."""
    token, events = secrets.token_urlsafe(24), SimpleQueue()
    handle_endings(lambda number, frame: events.put(SIGNAL))
    server = Server(found.port, was_sent=lambda reply: events.put(SEEN) if reply.tells_refusal else None)
    port = server.server_address[1]
    base = f"/{token}/"
    site = Site(Guard(port, token), base, hprof, found.diff or found.parts, bool(found.diff), tell)
    server.answer = site.answer
    threading.Thread(target=server.serve_forever, daemon=True).start()
    threading.Thread(target=lambda: events.put(site.refused.wait()), daemon=True).start()
    address = f"http://127.0.0.1:{port}{base}{'grew' if found.diff else ''}"
    opener = None
    try:
        print(address, flush=True)
        opener = open_in_browser(address) if found.open else None
        wait_for_end(events)
    finally:
        handle_endings(signal.SIG_IGN)
        status = 1 if site.refused.is_set() else 0
        site.end()
        if opener:
            opener.end()
    return status


def open_in_browser(address):
    opener = Opener(address)
    if not opener.open():
        print("hprof_view: no browser was found; open the address yourself", file=sys.stderr, flush=True)
    return opener


def tell(refusal):
    print(refusal.line, f"hprof_view: {refusal.cause}: {refusal.help}", sep="\n", file=sys.stderr, flush=True)


def main():
    found = words.understood()
    hprof = words.program(found.hprof)
    if not hprof:
        sys.exit("hprof_view: no hprof was found; build it, or name it with --hprof")
    try:
        sys.exit(serve(found, hprof))
    except OSError as fault:
        sys.exit(f"hprof_view: {fault}")
    except ProgramMissing as missing:
        sys.exit(f"hprof_view: {missing.__cause__ or missing}")

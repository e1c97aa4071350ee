"""hprof as a running process: how far it has read, and why it ended."""

import threading

from hprof import ProgramEnded, Refused

from .advice import advice
from .places import Places
from .printed import visible


def line_of(fault):
    """The line that hprof wrote on standard error as it ended, or how it ended without one."""
    if isinstance(fault, Refused):
        return f"hprof: {fault.text}"
    if isinstance(fault, ProgramEnded):
        return fault.line or silence(fault.status)
    return str(fault)


def silence(status):
    return f"hprof was ended by signal {-status}" if status < 0 else f"hprof ended with status {status}"


class Refusal:
    """Why hprof ended, which the package tells: its line, the cause, and what helps."""

    def __init__(self, fault):
        line = line_of(fault)
        self.line = visible(line)
        self.cause, self.help = advice(line)


class Program:
    """A running hprof that reads some parts. `ended` is set once it ended."""

    def __init__(self, running, parts):
        self.running = running
        self.process = running.process
        self.places = Places(self.process.pid, parts)
        self.ended = threading.Event()
        threading.Thread(target=self.wait, daemon=True).start()

    def wait(self):
        self.process.wait()
        self.ended.set()

    def refusal(self):
        """Why hprof ended. Waits for its end."""
        self.ended.wait()
        return Refusal(self.running.fault())

    def end(self):
        """Ends hprof, and waits for it."""
        self.running.end()

"""The sample dumps, the dump that is hard to read, and programs that are scripts."""

import contextlib
import importlib.util
import os
import signal
import sys
import tempfile
from pathlib import Path

ROOT = Path(__file__).resolve().parents[3]
SAMPLES = ROOT / "crates" / "hprof" / "data"
FRIDAY, MONDAY = SAMPLES / "friday.hprof", SAMPLES / "monday.hprof"
WORKED = ROOT / "crates" / "hprof_worked" / "stdin"


def program():
    """The built program, which `clients/python/test` finds."""
    return os.environ["HPROF"]


def hostile_module():
    """The module of the viewer's tests that writes a dump with hostile names."""
    spec = importlib.util.spec_from_file_location("hostile", ROOT / "viewer" / "tests" / "hostile.py")
    module = importlib.util.module_from_spec(spec)
    spec.loader.exec_module(module)
    return module


@contextlib.contextmanager
def within(seconds):
    """Fails if the block takes longer, as one that waits for ever would."""

    def fail(number, frame):
        raise AssertionError(f"not done within {seconds} seconds")

    before = signal.signal(signal.SIGALRM, fail)
    signal.alarm(seconds)
    try:
        yield
    finally:
        signal.alarm(0)
        signal.signal(signal.SIGALRM, before)


@contextlib.contextmanager
def script(body):
    """A program that is a Python script."""
    with tempfile.TemporaryDirectory() as folder:
        path = Path(folder) / "program"
        path.write_text(f"#!{sys.executable}\nimport os, sys, time\n{body}")
        path.chmod(0o700)
        yield path

"""The words of the command line."""

import argparse
import shutil
from pathlib import Path

ABOUT = """\
Shows a Java heap dump as pages in a browser, on this machine alone.

It runs `hprof ask` on the dump, prints an address, and serves the pages until
Control-C. The address has a secret word: who has it can look.
"""
MORE = """\
PARTs are pieces of one heap; mostly there is one. Two dumps of one process are
compared with --diff.

On another machine, take a port and let ssh lead there:
    %(prog)s --port 8123 heap.hprof
    ssh -L 8123:127.0.0.1:8123 THAT-MACHINE
and open the printed address at home.

If hprof refuses a dump, its line is printed and shown with its cause, and the
status is 1. The status is 0 after Control-C, and 2 if the words are not
understood.
"""


def port(word):
    number = int(word)
    if not 0 <= number < 65536:
        raise ValueError
    return number


def understood(words=None):
    """The words of the command line, understood."""
    parser = argparse.ArgumentParser(description=ABOUT, epilog=MORE, formatter_class=argparse.RawDescriptionHelpFormatter)
    parser.add_argument("parts", metavar="PART", nargs="*", help="a heap dump, or a piece of one")
    parser.add_argument("--diff", nargs=2, metavar=("OLD", "NEW"), help="show what grew from one dump to another")
    parser.add_argument("--port", type=port, default=0, help="the port to serve at (default: one that is free)")
    parser.add_argument("--open", action="store_true", help="open the address in a browser")
    parser.add_argument("--hprof", metavar="PROGRAM", help="the hprof to run (default: the one in PATH, or the one that was built)")
    found = parser.parse_args(words)
    if bool(found.parts) == bool(found.diff):
        parser.error("name a PART, or two dumps behind --diff")
    return found


def program(named):
    """The hprof to run: the one that was named, or is in PATH, or was built beside the viewer. None if there is none."""
    built = Path(__file__).resolve().parents[2] / "crates" / "hprof" / "out" / "hprof"
    return shutil.which(named) if named else shutil.which("hprof") or shutil.which(str(built))

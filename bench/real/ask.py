#!/usr/bin/env python3
"""Asks `hprof ask` a thousand questions of each kind through pipes, about a real dump, and times them beside the commands.

    bench/real/ask.py [--collector NAME] [--questions N] [MEGABYTES]    (Serial; 1,000; 100 megabytes)

Of three identifiers of each kind the answers are compared with what the commands print. It prints how long it takes until the first
answer, the first of each kind, and the median and the longest of the others, and the memory at each step in times the dump. It needs
the built program, java, javac and rustc, as measure.py does. It is no part of the gate.
"""

import argparse
import os
import statistics
import subprocess
import sys
import tempfile
import time
from pathlib import Path

from measure import PROGRAM, build, drawn, dump_of, report, run

# An identifier with more referrers is counted apart.
FEW_REFERRERS = 100


class Dialogue:
    """A running `hprof ask`, which is asked one question at a time."""

    def __init__(self, dump):
        self.start = time.perf_counter()
        self.process = subprocess.Popen([PROGRAM, "ask", dump], stdin=subprocess.PIPE, stdout=subprocess.PIPE, bufsize=0)

    def ask(self, question):
        """The answer, without the empty line behind it, and the seconds that it took."""
        start = time.perf_counter()
        self.process.stdin.write(question.encode() + b"\n")
        self.process.stdin.flush()
        pieces, end = [], b""
        while not (end.endswith(b"\n\n") or (end == b"\n" and len(pieces) == 1)):
            piece = os.read(self.process.stdout.fileno(), 1 << 20)
            if not piece:
                sys.exit(f"no answer to {question}")
            pieces.append(piece)
            end = (end + piece)[-2:]
        return b"".join(pieces)[:-1], time.perf_counter() - start

    def memory(self):
        """The greatest memory so far, in bytes."""
        for line in Path(f"/proc/{self.process.pid}/status").read_text().splitlines():
            if line.startswith("VmHWM:"):
                return int(line.split()[1]) * 1024
        sys.exit("no VmHWM")

    def end(self):
        self.process.stdin.close()
        if self.process.stdout.read() or self.process.wait():
            sys.exit("the dialogue did not end well")


def fastest(dump, *words):
    """The fastest seconds of three runs of a command."""
    return min(run([PROGRAM, *words, dump], subprocess.DEVNULL)[0] for _ in range(3))


def check_same(folder, dialogue, dump, question):
    """Checks that the answer is what the command prints."""
    out = folder / "out"
    report(PROGRAM, out, [dump], *question.split())
    if out.read_bytes() != dialogue.ask(question)[0]:
        sys.exit(f"{question}: other bytes than the command")


def row(what, seconds, beside=""):
    print(f"| {what} | {seconds * 1000:.2f} ms | {beside} |", flush=True)


def asked(dialogue, name, questions):
    """Asks all questions, and prints the median and the longest time."""
    few, many = [], []
    for question in questions:
        answer, seconds = dialogue.ask(question)
        (few if name != "refs" or answer.count(b"\n") <= FEW_REFERRERS else many).append(seconds)
    row(f"{name}, {len(few)} questions: median", statistics.median(few), f"longest {max(few) * 1000:.2f} ms")
    if many:
        what = f"{name} of more than {FEW_REFERRERS} referrers, {len(many)} questions: median"
        row(what, statistics.median(many), f"longest {max(many) * 1000:.2f} ms")


def main():
    words = argparse.ArgumentParser(description=__doc__, formatter_class=argparse.RawDescriptionHelpFormatter)
    words.add_argument("--collector", default="Serial")
    words.add_argument("--questions", type=int, default=1000)
    words.add_argument("megabytes", type=int, nargs="?", default=100)
    words = words.parse_args()
    with tempfile.TemporaryDirectory() as name:
        folder = Path(name)
        build(folder, ["plain"])
        dump = dump_of(folder, words.collector, words.megabytes)
        size = dump.stat().st_size
        print(f"{words.collector}, {size / 1e6:.1f} MB\n\n| Question | Time | Beside |\n|---|---|---|")
        kinds = drawn(folder, dump, words.questions // 4, 1)
        ids = [id for kind in kinds for id in kind]
        last = kinds[2][0]
        dialogue = Dialogue(dump)
        dialogue.ask("help")
        row("until the first answer", time.perf_counter() - dialogue.start, f"check {fastest(dump, 'check') * 1000:.0f} ms")
        steps = [("before path and refs", dialogue.memory())]
        for question in ("histo", f"object {last}"):
            row("the first " + question.split()[0], dialogue.ask(question)[1], f"command {fastest(dump, *question.split()) * 1000:.0f} ms")
        for question, step in ((f"path {last}", "with the search"), (f"refs {last}", "with the search and the index")):
            row("the first " + question.split()[0], dialogue.ask(question)[1], f"command {fastest(dump, *question.split()) * 1000:.0f} ms")
            steps.append((step, dialogue.memory()))
        asked(dialogue, "histo", ["histo"] * 100)
        for name in ("object", "path", "refs"):
            asked(dialogue, name, [f"{name} {id}" for id in ids])
        for question in ("check", "histo", *(f"{name} {kind[0]}" for name in ("object", "path", "refs") for kind in kinds)):
            check_same(folder, dialogue, dump, question)
        dialogue.end()
        print("\n| Memory | Times the dump |\n|---|---|")
        for step, bytes in steps:
            print(f"| {step} | {bytes / size:.2f} |")


if __name__ == "__main__":
    main()

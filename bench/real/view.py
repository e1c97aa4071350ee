#!/usr/bin/env python3
"""Times the pages of the viewer on a dump, through its server, a thousand of each kind.

    bench/real/view.py [--pages N] DUMP    (1,000)

It prints how long the overview takes once the dump is read, the median and the longest of each other kind of page, and the memory of
the viewer itself, without that of hprof. Each page has to be there. It needs the built program, and is no part of the gate.
"""

import argparse
import http.client
import random
import statistics
import subprocess
import sys
import time
from pathlib import Path

ROOT = Path(__file__).resolve().parents[2]
PROGRAM = ROOT / "crates" / "hprof" / "out" / "hprof"
KINDS = 60


class Viewer:
    """The running viewer, asked for one page at a time."""

    def __init__(self, program, dump):
        command = [sys.executable, ROOT / "viewer" / "hprof_view.py", "--hprof", program, dump]
        self.process = subprocess.Popen(command, stdout=subprocess.PIPE, text=True)
        _, _, host, token, _ = self.process.stdout.readline().split("/")
        self.host, self.base = host, f"/{token}/"

    def get(self, path):
        """The status of a page, its text, and the seconds that it took."""
        start = time.perf_counter()
        connection = http.client.HTTPConnection(self.host)
        connection.request("GET", self.base + path)
        reply = connection.getresponse()
        text = reply.read().decode()
        return reply.status, text, time.perf_counter() - start

    def wait(self):
        """Waits until the dump is read, and returns the seconds."""
        start = time.perf_counter()
        while 'http-equiv="refresh"' in self.get("type/boolean")[1]:
            pass
        return time.perf_counter() - start

    def memory(self):
        """The greatest memory so far of the viewer alone, in bytes."""
        status = Path(f"/proc/{self.process.pid}/status").read_text()
        return next(int(line.split()[1]) * 1024 for line in status.splitlines() if line.startswith("VmHWM:"))

    def end(self):
        self.process.terminate()
        if self.process.wait():
            sys.exit("the viewer did not end well")


def asked(program, dump, questions):
    """The lines of the answers to some questions."""
    text = subprocess.run([program, "ask", dump], input="\n".join(questions) + "\n", stdout=subprocess.PIPE, text=True, check=True).stdout
    return [answer.splitlines() for answer in text.split("\n\n")]


def drawn(program, dump, count):
    """Identifiers of classes, of classes with objects, and of objects of some classes, those with more objects more often."""
    dice = random.Random(1)
    classes = [line.split(" ", 7) for line in asked(program, dump, ["classes"])[0]]
    weights = [int(one[6]) for one in classes]
    kinds = [one[0] for one in dice.choices(classes, weights, k=KINDS)] + ["byte[]", "char[]", "int[]"]
    lists = asked(program, dump, [f"objects {kind}" for kind in kinds])
    objects = [dice.choice(lines).split(" ")[1] for lines in lists if lines for _ in range(-(-count // KINDS))]
    dice.shuffle(objects)
    held = [one[0] for one in classes if int(one[6])]
    return [one[0] for one in dice.choices(classes, k=count)], dice.choices(held, k=count), objects[:count]


def row(what, value, beside=""):
    print(f"| {what} | {value} | {beside} |", flush=True)


def timed(viewer, name, paths):
    """Asks for all pages, and prints the median and the longest time."""
    seconds = []
    for path in paths:
        status, text, taken = viewer.get(path)
        if status not in (200, 303) or "A fault of the viewer" in text:
            sys.exit(f"{path}: status {status}")
        seconds.append(taken)
    row(f"{name}, {len(seconds)} pages: median", f"{statistics.median(seconds) * 1000:.1f} ms", f"longest {max(seconds) * 1000:.0f} ms")


def main():
    words = argparse.ArgumentParser(description=__doc__, formatter_class=argparse.RawDescriptionHelpFormatter)
    words.add_argument("--pages", type=int, default=1000)
    words.add_argument("--hprof", default=PROGRAM, help=argparse.SUPPRESS)
    words.add_argument("dump")
    words = words.parse_args()
    classes, held, objects = drawn(words.hprof, words.dump, words.pages)
    size = Path(words.dump).stat().st_size
    print(f"{size / 1e6:.1f} MB\n\n| Page | Time | Beside |\n|---|---|---|")
    viewer = Viewer(words.hprof, words.dump)
    row("until the dump is read", f"{viewer.wait() * 1000:.0f} ms")
    row("the overview, once it is", f"{viewer.get('')[2] * 1000:.0f} ms")
    timed(viewer, "overview", [""] * 100)
    timed(viewer, "class with objects, the first visit", [f"class/{id}" for id in sorted(set(held))])
    timed(viewer, "class with objects", [f"class/{id}" for id in held])
    timed(viewer, "class", [f"class/{id}" for id in classes])
    timed(viewer, "threads", ["threads"] * 100)
    for name in ("object", "refs", "why"):
        timed(viewer, f"{name}, the first", [f"{name}/{objects[0]}"])
        timed(viewer, name, [f"{name}/{id}" for id in objects])
    timed(viewer, "search", [f"find?q={part}" for part in ("java", "Entry", "zz", "util.concurrent")] * (words.pages // 4))
    row("memory of the viewer", f"{viewer.memory() / 1e6:.0f} MB")
    viewer.end()


if __name__ == "__main__":
    main()

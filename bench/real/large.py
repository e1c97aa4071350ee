#!/usr/bin/env python3
"""Times the commands that read objects again, with little memory and with all objects in memory:
large.py [--turns N] [--memory SIZE] [--id ID] [--only WORD..] DUMP..

Each command runs on each dump with `--memory SIZE`, 256M unless it is given, and with `--memory 1T`, in turn. Both must print and write the
same. The reports on an object run if there is an ID, and of all commands only those that are named, if some are. A line has the medians of
the times, their ratio, and the greatest peaks of memory. It needs the built program (`rt run` in crates/hprof leaves it as
crates/hprof/out/hprof) and room for two joined dumps. It is no part of the gate.
"""

import argparse
import os
import statistics
import subprocess
import sys
import tempfile
import time
from pathlib import Path

PROGRAM = Path(__file__).resolve().parent.parent.parent / "crates" / "hprof" / "out" / "hprof"
MUCH = "1T"


NODE_REPORTS = ("object", "text", "show", "refs", "who", "path", "why", "keeps")


def commands(dump, identifier):
    """The words before the option, and those behind it; OUT stands for a new file."""
    reports = [([word], [dump]) for word in ("check", "histo", "classes", "threads", "retained", "suspects")]
    kinds = [([word], ["byte[]", dump]) for word in ("objects", "biggest")]
    nodes = [([word], [identifier, dump]) for word in NODE_REPORTS] if identifier else []
    return reports + kinds + nodes + [(["diff"], [dump, dump]), (["join"], ["OUT", dump]), (["join101"], ["OUT", dump])]


def run(before, memory, behind, folder, program):
    """The seconds, the peak of memory in bytes, and the file of what was printed or written."""
    out, printed = folder / f"out-{memory}", folder / f"printed-{memory}"
    out.unlink(missing_ok=True)
    words = [program, *before, "--memory", memory, *(out if word == "OUT" else word for word in behind)]
    with open(printed, "wb") as file:
        begun = time.perf_counter()
        ran = subprocess.Popen(words, stdin=subprocess.DEVNULL, stdout=file)
        _, status, usage = os.wait4(ran.pid, 0)
        seconds = time.perf_counter() - begun
    if status != 0:
        sys.exit(f"{' '.join(map(str, words))} ended with status {status}")
    return seconds, usage.ru_maxrss * 1024, out if "OUT" in behind else printed


def main():
    words = argparse.ArgumentParser()
    words.add_argument("--turns", type=int, default=5)
    words.add_argument("--memory", default="256M")
    words.add_argument("--program", type=Path, default=PROGRAM)
    words.add_argument("--id")
    words.add_argument("--only", nargs="*", default=[])
    words.add_argument("dumps", nargs="+", type=Path)
    words = words.parse_args()
    print(f"{'dump':24} {'command':8} {words.memory:>8} {MUCH:>8}  ratio  peaks in MB")
    for dump in words.dumps:
        for before, behind in commands(dump.resolve(), words.id):
            if words.only and before[0] not in words.only:
                continue
            with tempfile.TemporaryDirectory(dir=dump.parent) as place:
                folder, times, peaks = Path(place), ([], []), [0, 0]
                for turn in range(words.turns):
                    made = [run(before, memory, behind, folder, words.program) for memory in (words.memory, MUCH)]
                    for which, (seconds, peak, _) in enumerate(made):
                        times[which].append(seconds)
                        peaks[which] = max(peaks[which], peak)
                    if turn == 0 and subprocess.run(["cmp", "-s", made[0][2], made[1][2]], check=False).returncode != 0:
                        sys.exit(f"{before[0]} of {dump}: other bytes")
                little, much = map(statistics.median, times)
                told = f"{little:7.2f}s {much:7.2f}s {little / much:6.2f} {peaks[0] / 1e6:6.0f} {peaks[1] / 1e6:6.0f}"
                print(f"{dump.name:24} {before[0]:8} {told}", flush=True)


main()

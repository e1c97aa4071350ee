#!/usr/bin/env python3
"""Joins and reports on real dumps, which a Java program makes of its own heap, and times it beside a plain Rust program.

For each collector and size: `hprof join` takes the dump; joined again it gives the same bytes; cut into five parts with
all records and sub-records in any order, some repeated, it gives the same bytes; and the plain program writes the same.
So it is with `join101`; with `salvage` too, which also takes the dump cut short at 20 random places, and prints where. Each report of
the dump, of its canonical dump and of the five parts prints what the plain program does. Ten classes, instances and arrays of either
kind each are drawn at random, by the seed: the dump is asked for all of them by `object` and `refs`, and for three of each by `path`;
the canonical dump and the five parts for the first two of each. Then it runs both programs in turn and prints the fastest times, the
peak memories and the ratios; what asks for an identifier asks for the first array of objects that was drawn.

    bench/real/measure.py [--turns N] [--seed N] [--commands WORD,..] [MEGABYTES..]    (5 turns; seed 1; all commands; 1 10 100)

It needs the built program (`rt run` in crates/hprof leaves it as crates/hprof/out/hprof), java, javac and rustc. It is no
part of the gate. 1,000 megabytes take about 6 GB of memory and 10 GB of disk.
"""

import argparse
import filecmp
import os
import random
import shutil
import subprocess
import sys
import tempfile
import time
from pathlib import Path

HERE = Path(__file__).resolve().parent
PROGRAM = HERE.parent.parent / "crates" / "hprof" / "out" / "hprof"
COLLECTORS = ["Serial", "G1", "Z"]


def run(words, stdout=None):
    """The seconds that a command takes, and its peak memory in bytes."""
    start = time.perf_counter()
    process = subprocess.Popen(words, stdout=stdout)
    _, status, usage = os.wait4(process.pid, 0)
    seconds = time.perf_counter() - start
    if status != 0:
        sys.exit(f"{words[0]} ended with status {status}")
    return seconds, usage.ru_maxrss * 1024


def join(program, out, parts, word="join", stdout=None):
    """Joins the parts to a new file."""
    out.unlink(missing_ok=True)
    return run([program, word, out, *parts], stdout)


def report(program, out, parts, *words):
    """Writes a report on the parts to a file."""
    with open(out, "wb") as file:
        return run([program, *words, *parts], file)


JOINS = ["join", "join101", "salvage"]
REPORTS = ["check", "histo"]
# Those that ask for an identifier, and for how many of each kind that were drawn.
ASKING = {"object": 10, "path": 3, "refs": 10}
# For how many of these the canonical dump and the five parts are asked too.
EVERYWHERE = 2
COMMANDS = [*JOINS, *REPORTS, *ASKING]
# How much is left of a dump where it is cut short: 20 random shares, the same in each run.
FRONTS = [random.Random(place).random() for place in range(20)]


def check_same(one, other, what):
    if not filecmp.cmp(one, other, shallow=False):
        sys.exit(f"{what}: other bytes")


def drawn(folder, dump, count, seed):
    """Identifiers of each kind at random, so many of each: of classes, of instances, of arrays of objects and of arrays of values."""
    words = [folder / "plain", "sample", str(seed), str(count), dump]
    printed = subprocess.run(words, check=True, capture_output=True, text=True).stdout
    return [line.split() for line in printed.splitlines()]


def sample(folder, dump, count, seed=1):
    """The same, of all kinds in one list."""
    return [id for ids in drawn(folder, dump, count, seed) for id in ids]


def check_join(folder, dump, parts, word):
    """Checks what a command writes that joins parts; it leaves the dump that it wrote of one as `once`."""
    once, twice, other, cut = (folder / name for name in ("once", "twice", "other", "cut"))
    join(PROGRAM, once, [dump], word)
    join(PROGRAM, twice, [once], word)
    check_same(once, twice, f"{word}, joined again")
    join(folder / "plain", other, [dump], word)
    check_same(once, other, f"{word}, the plain program")
    join(PROGRAM, cut, parts, word)
    check_same(once, cut, f"{word}, cut into five parts")


def check_salvage(folder, dump):
    """Checks what is left of a dump that is cut short, and what is printed of it."""
    front, ours, other = (folder / name for name in ("front", "twice", "other"))
    for share in FRONTS:
        shutil.copyfile(dump, front)
        os.truncate(front, max(31, int(share * dump.stat().st_size)))
        lines = []
        for program, out in ((PROGRAM, ours), (folder / "plain", other)):
            with open(folder / "lines", "wb") as file:
                join(program, out, [front], "salvage", file)
            lines.append((folder / "lines").read_text())
        check_same(ours, other, f"salvage of {share}")
        if lines[0] != lines[1]:
            sys.exit(f"salvage of {share}: other lines")
    for path in (front, folder / "lines"):
        path.unlink()


def asked_for(command, kinds):
    """The words that ask for each identifier, and whether they are asked of the canonical dump and the parts too."""
    return [([command, id], place < EVERYWHERE) for ids in kinds for place, id in enumerate(ids[:ASKING[command]])]


def check_report(folder, parts, words):
    """Checks what a report prints of the parts."""
    ours, other = folder / "twice", folder / "other"
    report(PROGRAM, ours, parts, *words)
    report(folder / "plain", other, parts, *words)
    check_same(ours, other, "the report of the plain program, " + " ".join(words))


def check_reports(folder, dump, parts, commands, kinds):
    """Checks what the reports print of the dump, of its canonical dump, which is `once`, and of the parts."""
    asked = [([word], True) for word in REPORTS if word in commands]
    asked += [words for word in ASKING if word in commands for words in asked_for(word, kinds)]
    for words, everywhere in asked:
        for read in ([dump], [folder / "once"], parts) if everywhere else ([dump],):
            check_report(folder, read, words)


def check(folder, dump, commands, kinds):
    """Checks what is written, with these identifiers of each kind, and leaves nothing behind."""
    parts = [folder / f"part{index}" for index in range(5)]
    subprocess.run([folder / "recut", dump, *parts], check=True)
    # The join is the last, since its dump is what the reports are made of.
    for word in reversed(JOINS):
        if word == "join" or word in commands:
            check_join(folder, dump, parts, word)
    if "salvage" in commands:
        check_salvage(folder, dump)
    check_reports(folder, dump, parts, commands, kinds)
    for path in (*(folder / name for name in ("once", "twice", "other", "cut")), *parts):
        path.unlink()


def measure(folder, dump, turns, work):
    """The fastest seconds of both programs in turn, and their peak memories."""
    out = folder / "out"
    ours, plain = [], []
    for _ in range(turns):
        ours.append(work(PROGRAM, out, [dump]))
        plain.append(work(folder / "plain", out, [dump]))
    out.unlink()
    fastest = [min(seconds for seconds, _ in rows) for rows in (ours, plain)]
    peaks = [max(peak for _, peak in rows) for rows in (ours, plain)]
    return fastest, peaks


def build(folder, programs, heap="Fill.java"):
    """Builds a Java program that fills a heap, and Rust programs of this folder."""
    subprocess.run(["javac", "-Xlint:-options", "-nowarn", "-d", folder, HERE / heap], check=True)
    for name in programs:
        subprocess.run(["rustc", "-O", "--edition", "2024", "-o", folder / name, HERE / f"{name}.rs"], check=True)


def dump_of(folder, collector, megabytes):
    """A dump of about so many megabytes of a heap under that collector."""
    dump = folder / "dump.hprof"
    dump.unlink(missing_ok=True)
    memory = f"-Xmx{max(256, 5 * megabytes)}m"
    java = ["java", memory, f"-XX:+Use{collector}GC", "-cp", folder, "Fill", dump, str(megabytes)]
    subprocess.run(java, check=True)
    return dump


def work_of(command, id):
    """What runs a command: a join, or a report, which asks for the identifier if it asks for one."""
    if command in JOINS:
        return lambda program, out, parts: join(program, out, parts, command)
    words = [command, id] if command in ASKING else [command]
    return lambda program, out, parts: report(program, out, parts, *words)


def print_row(folder, collector, dump, turns, command, id):
    (ours, plain), peaks = measure(folder, dump, turns, work_of(command, id))
    size = dump.stat().st_size
    print(
        f"| {collector} | {size / 1e6:.1f} MB | {command} | {ours:.3f} s | {plain:.3f} s | {ours / plain:.2f} "
        f"| {peaks[0] / 1e6:.0f} MB | {peaks[0] / size:.2f} | {peaks[1] / 1e6:.0f} MB |",
        flush=True,
    )


def main():
    words = argparse.ArgumentParser()
    words.add_argument("--turns", type=int, default=5)
    words.add_argument("--seed", type=int, default=1)
    words.add_argument("--commands", default=",".join(COMMANDS))
    words.add_argument("megabytes", type=int, nargs="*", default=[1, 10, 100])
    words = words.parse_args()
    commands = words.commands.split(",")
    print("| collector | dump | command | ours | plain | ratio | our peak | times the dump | plain peak |")
    print("|---|---|---|---|---|---|---|---|---|")
    with tempfile.TemporaryDirectory() as folder:
        folder = Path(folder)
        build(folder, ["plain", "recut"])
        for megabytes in words.megabytes:
            for collector in COLLECTORS:
                dump = dump_of(folder, collector, megabytes)
                kinds = drawn(folder, dump, max(ASKING.values()), words.seed)
                check(folder, dump, commands, kinds)
                for command in commands:
                    print_row(folder, collector, dump, words.turns, command, kinds[2][0])


if __name__ == "__main__":
    main()

#!/usr/bin/env python3
"""Times `hprof join` on parts of many names beside a plain Rust program with the same table.

It writes parts of 1,000,000 names of about 20 bytes with identifiers of eight bytes, in ascending, in descending and in
random order (random numbers below 2^64), and the random ones in two parts too. It runs both programs on each several
times in turn, checks that they write the same bytes, and prints their times, peak memories and ratios.

    bench/join/measure.py [names] [turns]

It needs the built program (`rt run` in crates/hprof leaves it as crates/hprof/out/hprof) and rustc. It is no part
of the gate.
"""

import filecmp
import os
import random
import subprocess
import sys
import tempfile
import time
from pathlib import Path

HERE = Path(__file__).resolve().parent
PROGRAM = HERE.parent.parent / "crates" / "hprof" / "out" / "hprof"
HEADER = b"JAVA PROFILE 1.0.2\0" + (8).to_bytes(4, "big") + (1).to_bytes(8, "big")


def mixed(seed, count):
    """So many numbers below 2^64, one at a time: a list of them would count in the memory of the programs that are run."""
    generator = random.Random(seed)
    return (generator.getrandbits(64) for _ in range(count))


def write_part(path, numbers):
    with open(path, "wb") as part:
        part.write(HEADER)
        for number in numbers:
            text = b"java/lang/Name%06d" % (number % 1_000_000)
            body = number.to_bytes(8, "big") + text
            part.write(b"\x01\0\0\0\0" + len(body).to_bytes(4, "big") + body)


def run(words, out):
    """The seconds that the command takes, and its peak memory in KiB."""
    out.unlink(missing_ok=True)
    start = time.perf_counter()
    process = subprocess.Popen(words)
    _, status, usage = os.wait4(process.pid, 0)
    seconds = time.perf_counter() - start
    if status != 0:
        sys.exit(f"{words[0]} ended with status {status}")
    return seconds, usage.ru_maxrss


def measure(folder, plain, what, parts, turns):
    """Prints the rows of one table: what both programs take to join the parts."""
    paths = []
    for index, numbers in enumerate(parts):
        paths.append(folder / f"part{index}")
        write_part(paths[-1], numbers)
    ours, theirs = folder / "ours", folder / "theirs"
    rows = []
    for _ in range(turns):
        rows.append((run([PROGRAM, "join", ours, *paths], ours), run([plain, theirs, *paths], theirs)))
    if not filecmp.cmp(ours, theirs, shallow=False):
        sys.exit("the two programs write different bytes")
    fastest = [min(row[side][0] for row in rows) for side in (0, 1)]
    middle = [sorted(row[side][0] for row in rows)[len(rows) // 2] for side in (0, 1)]
    memory = [max(row[side][1] for row in rows) / 1024 for side in (0, 1)]
    print(f"| {what}, fastest | {fastest[0]:.3f} s | {fastest[1]:.3f} s | {fastest[0] / fastest[1]:.2f} |")
    print(f"| the same, middle | {middle[0]:.3f} s | {middle[1]:.3f} s | {middle[0] / middle[1]:.2f} |")
    print(f"| the same, peak memory | {memory[0]:.1f} MiB | {memory[1]:.1f} MiB | {memory[0] / memory[1]:.2f} |", flush=True)


def main():
    names = int(sys.argv[1]) if len(sys.argv) > 1 else 1_000_000
    turns = int(sys.argv[2]) if len(sys.argv) > 2 else 7
    with tempfile.TemporaryDirectory() as folder:
        folder = Path(folder)
        plain = folder / "plain"
        subprocess.run(["rustc", "-O", "--edition", "2024", "-o", plain, HERE / "plain.rs"], check=True)
        print(f"{names} names, {turns} turns; both programs write the same bytes")
        print("| what | hprof | plain | ratio |")
        print("|---|---|---|---|")
        measure(folder, plain, "ascending", [range(1, names + 1)], turns)
        measure(folder, plain, "descending", [range(names, 0, -1)], turns)
        measure(folder, plain, "random", [mixed(7, names)], turns)
        measure(folder, plain, "random, in two parts", [mixed(7, names // 2), mixed(8, names // 2)], turns)


main()

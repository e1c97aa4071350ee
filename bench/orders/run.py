#!/usr/bin/env python3
"""Joins parts whose objects come in hostile orders, with little memory and with much: run.py [--less K] [PROGRAM].

Each case is a set of parts. `join`, `check` and `histo` run on it twice, with `--memory 16M` and with `--memory 1T`. Both runs must end in
one way and give the same bytes, and parts that state the same objects must give the same dump, in whatever order these come. Each line has
the seconds of `join` with little memory and with much, its peak of memory in MB both times, and the most files that were open at once with
little memory. `--less 4` makes each case a quarter as large. It needs the built program (`rt run` in crates/hprof leaves it as
crates/hprof/out/hprof) and 6 GB in the folder of temporary files. It is no part of the gate.
"""

import argparse
import os
import random
import struct
import subprocess
import sys
import tempfile
import time
from pathlib import Path

ROOT = Path(__file__).resolve().parent.parent.parent
MOST_OPEN = 600
LITTLE, MUCH = "16M", "1T"
BYTE = 8


class Dump:
    """A part, with identifiers of that many bytes."""

    def __init__(self, path, id_size=4):
        self.file = open(path, "wb")
        self.form = {4: ">I", 8: ">Q"}[id_size]
        self.file.write(b"JAVA PROFILE 1.0.2\0" + struct.pack(">IQ", id_size, 1))

    def spell(self, number, text=b"0123456789abcdef"):
        """The sub-record of an array of bytes."""
        return b"\x23" + struct.pack(self.form, number) + struct.pack(">IIB", 0, len(text), BYTE) + text

    def segment(self, pieces):
        """Writes sub-records as segments of some 60 MB."""
        batch, size = [], 0
        for piece in pieces:
            batch.append(piece)
            size += len(piece)
            if size > 60_000_000:
                self.record(batch, size)
                batch, size = [], 0
        if batch:
            self.record(batch, size)

    def record(self, batch, size):
        self.file.write(b"\x1c" + struct.pack(">II", 0, size))
        self.file.writelines(batch)

    def sparse(self, number, length):
        """Writes an array of that many zeros, which take no room on the disk."""
        head = b"\x23" + struct.pack(self.form, number) + struct.pack(">IIB", 0, length, BYTE)
        self.file.write(b"\x1c" + struct.pack(">II", 0, len(head) + length) + head)
        self.file.flush()
        end = self.file.tell() + length
        self.file.truncate(end)
        self.file.seek(end)

    def close(self):
        self.file.close()


def part_of(folder, name, numbers):
    """The path of a part with arrays of these identifiers, in this order."""
    path = folder / name
    dump = Dump(path)
    dump.segment(dump.spell(number) for number in numbers)
    dump.close()
    return path


def cut(numbers, parts):
    """The numbers, cut into that many lists."""
    size = -(-len(numbers) // parts)
    return [numbers[at:at + size] for at in range(0, len(numbers), size)]


def dealt(numbers, parts):
    """The numbers, dealt in turn to that many lists."""
    return [numbers[first::parts] for first in range(parts)]


def orders(folder, count):
    """Parts that all state the arrays 1 to count, which is even."""
    up = list(range(1, count + 1))
    pairs = [number for first in range(count - 1, 0, -2) for number in (first, first + 1)]
    half = count // 2
    woven = [number for pair in zip(up[:half], up[half:]) for number in pair]
    mixed = random.Random(1).sample(up, count)
    yield "ascending", [part_of(folder, "part", up)]
    yield "descending", [part_of(folder, "part", up[::-1])]
    yield "two runs, interleaved", [part_of(folder, "part", woven)]
    yield "stretches of two objects", [part_of(folder, "part", pairs)]
    yield "at random", [part_of(folder, "part", mixed)]
    yield "two parts, in turn", [part_of(folder, f"part{at}", numbers) for at, numbers in enumerate(dealt(up, 2))]
    yield "a part given twice", 2 * [part_of(folder, "part", mixed)]
    yield "500 parts, in turn", [part_of(folder, f"part{at}", numbers) for at, numbers in enumerate(dealt(up, 500))]
    yield "500 parts, at random", [part_of(folder, f"part{at}", numbers) for at, numbers in enumerate(cut(mixed, 500))]


def equal_objects(folder, count):
    """Two parts with one array, over and over."""
    yield "one object, over and over", [part_of(folder, f"part{at}", [7] * count) for at in range(2)]


def both_ends(folder, count):
    """Identifiers at both ends of 64 bits, in turn."""
    dump = Dump(folder / "part", 8)
    dump.segment(dump.spell(number if number % 2 else 2 ** 64 - number) for number in range(1, count + 1))
    dump.close()
    yield "identifiers at both ends", [folder / "part"]


def large_object(folder, length):
    """An array of a gigabyte, before one with a smaller identifier."""
    dump = Dump(folder / "part")
    dump.sparse(9, length)
    dump.segment([dump.spell(3)])
    dump.close()
    yield "an object of 1 GB", [folder / "part"]


def conflict(folder, count):
    """The last of many arrays has two contents."""
    dump = Dump(folder / "part")
    dump.segment(dump.spell(number) for number in range(count, 0, -1))
    dump.segment([dump.spell(count, b"another")])
    dump.close()
    yield "a conflict", [folder / "part"]


def run(program, words, parts):
    """The output, the errors, the status, the seconds, the peak of memory in MB, and the most open files."""
    with tempfile.TemporaryFile() as output, tempfile.TemporaryFile() as errors:
        begun = time.monotonic()
        ran = subprocess.Popen([program, *words, *parts], stdin=subprocess.DEVNULL, stdout=output, stderr=errors)
        peak, most = 0, 0
        while ran.poll() is None:
            try:
                most = max(most, len(os.listdir(f"/proc/{ran.pid}/fd")))
                with open(f"/proc/{ran.pid}/status", encoding="ascii") as status:
                    peak = max(peak, *(int(line.split()[1]) for line in status if line.startswith("VmHWM")), 0)
            except (OSError, ValueError, TypeError):
                pass
            time.sleep(0.005)
        seconds = time.monotonic() - begun
        for file in (output, errors):
            file.seek(0)
        return (output.read(), errors.read(), ran.returncode), seconds, peak / 1000, most


def is_same(one, other):
    """Whether two files have the same bytes, or neither is there."""
    if not one.exists() or not other.exists():
        return one.exists() == other.exists()
    return subprocess.run(["cmp", "-s", one, other], check=False).returncode == 0


def compare(program, folder, parts):
    """Runs the commands with little memory and with much. It returns the dump, a line, and what was wrong, or None."""
    dumps = folder / "little", folder / "much"
    for dump in dumps:
        dump.unlink(missing_ok=True)
    joins = [run(program, ["join", "--memory", memory, dump], parts) for memory, dump in zip((LITTLE, MUCH), dumps)]
    (ended, short, low, most), (same, long, high, _) = joins
    line = f"{short:7.2f} s {long:7.2f} s {low:7.0f} MB {high:7.0f} MB {most:4} open"
    if ended != same or not is_same(*dumps):
        return dumps[0], line, "join differs"
    for report in ("check", "histo"):
        if run(program, [report, "--memory", LITTLE], parts)[0] != run(program, [report, "--memory", MUCH], parts)[0]:
            return dumps[0], line, f"{report} differs"
    return dumps[0], line, f"{most} files are open" if most > MOST_OPEN else None


def main():
    words = argparse.ArgumentParser()
    words.add_argument("--less", type=int, default=1)
    words.add_argument("program", nargs="?", type=Path, default=ROOT / "crates" / "hprof" / "out" / "hprof")
    words = words.parse_args()
    if not words.program.exists():
        sys.exit(f"{words.program} is not there: (cd crates/hprof && rt run -- check data/friday.hprof)")
    count, faults, cases = 2 * (1_000_000 // words.less), 0, 0
    sets = [(orders, count), (equal_objects, count // 2), (both_ends, count), (large_object, 10 ** 9 // words.less), (conflict, count)]
    for make, size in sets:
        with tempfile.TemporaryDirectory() as place:
            folder, first = Path(place), Path(place) / "first"
            for name, parts in make(folder, size):
                dump, line, fault = compare(words.program, folder, parts)
                if make == orders and not first.exists():
                    os.rename(dump, first)
                elif make == orders and not is_same(first, dump):
                    fault = "another order gives another dump"
                elif make == conflict and dump.exists():
                    fault = "a dump is left"
                cases += 1
                faults += fault is not None
                print(f"{name:26} {line}  {fault or 'same'}", flush=True)
    print(f"{cases} cases, {faults} faults")
    sys.exit(bool(faults))


main()

#!/usr/bin/env python3
"""Times every command on dumps whose identifiers come in no order, beside the plain program, and on dumps in order.

`MakeHeap.java` fills a heap with varied content and dumps it. Under Z and Shenandoah identifiers come in no order, under Serial and G1
they ascend. `traces` is a dump of stack traces alone, whose serials come in random order: so many thousand of them. Both programs run in
turn, and the medians are printed, with the peak memory in times the dump; what asks for an identifier asks for an array of objects that
is drawn at random. Before that each command's answer is compared with the plain program's.

    bench/real/order.py [--turns N] [--commands WORD,..] [--keep FOLDER] [KIND:SIZE..]

Without words: five turns, all commands, z:100 shenandoah:100 g1:100 serial:100 traces:1000; with --keep the dumps stay in that folder.

KIND is z, shenandoah, g1, serial or traces; SIZE is in megabytes, of traces in thousands. It needs what measure.py needs, and is no part
of the gate. 800 megabytes take 4 GB of memory.
"""

import argparse
import random
import statistics
import struct
import subprocess
import tempfile
from pathlib import Path

import measure
from measure import ASKING, JOINS, PROGRAM, check_same, sample, work_of

COLLECTORS = {"z": "Z", "shenandoah": "Shenandoah", "g1": "G1", "serial": "Serial"}
COMMANDS = ["check", "object", "join", "histo", "refs", "path"]
# So many chunks of MakeHeap are a megabyte of dump.
CHUNKS = 16


def make_traces(dump, count):
    """A dump of so many stack traces in random order of their serials."""
    serials = list(range(1, count + 1))
    random.Random(1).shuffle(serials)
    with open(dump, "wb") as file:
        file.write(b"JAVA PROFILE 1.0.2\0" + struct.pack(">IQ", 8, 0))
        file.write(b"".join(struct.pack(">BIIIIIQ", 5, 0, 20, serial, 1, 1, 4096 + 8 * serial) for serial in serials))


def make_dump(folder, kind, size, dump):
    if kind == "traces":
        return make_traces(dump, 1000 * size)
    memory = f"-Xmx{4 * size + 400}m"
    java = ["java", memory, f"-XX:+Use{COLLECTORS[kind]}GC", "-cp", folder, "MakeHeap", "self", str(CHUNKS * size), dump, "true"]
    subprocess.run(java, check=True, stdout=subprocess.DEVNULL)


def check_answer(folder, dump, work, what):
    ours, other = folder / "ours", folder / "other"
    work(PROGRAM, ours, [dump])
    work(folder / "plain", other, [dump])
    check_same(ours, other, what)
    ours.unlink()
    other.unlink()


def medians(folder, dump, turns, work):
    """The medians of the seconds of both programs in turn, and the greatest peak of ours."""
    out = folder / "out"
    rows = [(work(PROGRAM, out, [dump]), work(folder / "plain", out, [dump])) for _ in range(turns)]
    out.unlink()
    ours, plain = (statistics.median(row[place][0] for row in rows) for place in (0, 1))
    return ours, plain, max(row[0][1] for row in rows)


def print_rows(folder, kind, dump, turns, commands):
    size = dump.stat().st_size
    id = None if kind == "traces" else sample(folder, dump, 1)[2]
    for command in commands:
        if id is None and command in ASKING:
            continue
        work = work_of(command, id)
        check_answer(folder, dump, work, f"{kind}, {command}")
        ours, plain, peak = medians(folder, dump, turns, work)
        row = [kind, f"{size / 1e6:.1f} MB", command, f"{ours:.3f} s", f"{plain:.3f} s", f"{ours / plain:.2f}", f"{peak / size:.2f}"]
        print("| " + " | ".join(row) + " |", flush=True)


def main():
    words = argparse.ArgumentParser()
    words.add_argument("--turns", type=int, default=5)
    words.add_argument("--commands", default=",".join(COMMANDS))
    words.add_argument("--keep")
    words.add_argument("dumps", nargs="*", default=["z:100", "shenandoah:100", "g1:100", "serial:100", "traces:1000"])
    words = words.parse_args()
    print("| Dump | Size | Command | hprof | Plain | Ratio | Peak, times the dump |")
    print("|---|---|---|---|---|---|---|")
    with tempfile.TemporaryDirectory() as folder:
        folder = Path(folder)
        measure.build(folder, ["plain"], "MakeHeap.java")
        for kind, size in (word.split(":") for word in words.dumps):
            dump = Path(words.keep or folder) / f"{kind}-{size}.hprof"
            if not dump.exists():
                make_dump(folder, kind, int(size), dump)
            print_rows(folder, kind, dump, words.turns, words.commands.split(","))
            if not words.keep:
                dump.unlink()


if __name__ == "__main__":
    main()

#!/usr/bin/env python3
"""Times the reading of one class dump of 65,535 constants, static fields and own fields each, with identifiers of eight
bytes (about 2.4 MB): whole, in pieces of 4,096 bytes and byte by byte; the same with a faulty last entry.

Needs `rt` on the path. It copies the crates into a repository of its own in a temporary folder, where `rt` proves and
builds `main.rt.in` over them, and changes nothing here. The status is 0 where each run answers as it should and takes at
most a second.
"""

import pathlib
import shutil
import struct
import subprocess
import sys
import tempfile

MOST_MILLIS = 1000
COUNT = 65_535
PIECES = [1 << 30, 4_096, 1]

HERE = pathlib.Path(__file__).resolve().parent
ROOT = HERE.parent.parent

HEADER = b"JAVA PROFILE 1.0.2\0" + struct.pack(">IQ", 8, 1)


def class_dump(last_type):
    """The sub-record, whose last own field has that type."""
    constants = b"".join(struct.pack(">HBQ", index, 11, index) for index in range(COUNT))
    statics = b"".join(struct.pack(">QBI", index, 10, index) for index in range(COUNT))
    fields = b"".join(struct.pack(">QB", index, 8) for index in range(COUNT - 1)) + struct.pack(">QB", COUNT, last_type)
    count = struct.pack(">H", COUNT)
    front = b"\x20" + struct.pack(">QI", 16, 1) + bytes(48) + struct.pack(">I", 0)
    return front + count + constants + count + statics + count + fields


def part(last_type):
    body = class_dump(last_type)
    return HEADER + b"\x1c" + struct.pack(">II", 0, len(body)) + body


def crates_below(crate):
    """The crate and those that it stands on, as crates.txt names them."""
    lines = [line.split(":") for line in (ROOT / "crates.txt").read_text().split("\n") if ":" in line and not line.startswith("#")]
    below = {name: libraries.split() for name, libraries in lines}
    wanted = [crate]
    for name in wanted:
        wanted += [library for library in below[name] if library in below and library not in wanted]
    return wanted


def build(folder):
    crates = crates_below("hprof_heap")
    for crate in crates:
        shutil.copytree(ROOT / "crates" / crate, folder / "crates" / crate, ignore=shutil.ignore_patterns("out"))
    program = folder / "crates" / "class_dump_bench"
    (program / "src").mkdir(parents=True)
    shutil.copy(HERE / "main.rt.in", program / "src" / "main.rt")
    (program / "proofs" / "fed").mkdir(parents=True)
    shutil.copy(HERE / "Invariants.antt.in", program / "proofs" / "fed" / "Invariants.antt")
    lines = [line for line in (ROOT / "crates.txt").read_text().split("\n") if line.split(":")[0] in crates]
    lines.append("class_dump_bench: hprof_stream hprof_heap")
    (folder / "crates.txt").write_text("\n".join(lines) + "\n")
    built = subprocess.run(["rt", "run", "--jobs", "2"], cwd=program, capture_output=True, text=True)
    if built.returncode != 0:
        sys.exit(built.stdout[-4000:] + built.stderr[-4000:])
    return program / "out" / "class_dump_bench"


def main():
    right = True
    with tempfile.TemporaryDirectory() as name:
        folder = pathlib.Path(name)
        program = build(folder)
        for last_type, what in [(8, "whole and right"), (3, "a faulty last entry")]:
            bytes_ = part(last_type)
            (folder / "part").write_bytes(bytes_)
            # The type of the last entry is the last byte, and settles the fault.
            wanted = "1 facts" if last_type == 8 else "malformed at 40: BadType"
            for piece_len in PIECES:
                out = subprocess.run([program, folder / "part", str(piece_len)], check=True, capture_output=True, text=True).stdout
                took, count, answer = out.strip().split(" ", 2)
                ok = answer == wanted and int(count) == len(bytes_) and int(took) <= MOST_MILLIS
                right = right and ok
                size = f"{len(bytes_)} bytes, pieces of {min(piece_len, len(bytes_))}"
                print(f"{what}, {size}: {took} ms, {answer}{'' if ok else ' (WRONG)'}")
    return 0 if right else 1


if __name__ == "__main__":
    sys.exit(main())

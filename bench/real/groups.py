#!/usr/bin/env python3
"""Joins a real dump in groups: cut into eight parts, which are joined four and four, and the two dumps of these then together.

The bytes are those of one join of all eight, and of the join of the whole dump. For each collector it prints how long each
way took.

    bench/real/groups.py [MEGABYTES]                      (10)

It needs what measure.py needs, and is no part of the gate.
"""

import subprocess
import sys
import tempfile
from pathlib import Path

import measure
from measure import COLLECTORS, PROGRAM, check_same


def join(out, parts):
    return measure.join(PROGRAM, out, parts)[0]


def main():
    megabytes = int(sys.argv[1]) if len(sys.argv) > 1 else 10
    print("| collector | dump | the whole | eight parts | two groups of four | the two together |")
    print("|---|---|---|---|---|---|")
    with tempfile.TemporaryDirectory() as folder:
        folder = Path(folder)
        measure.build(folder, ["recut"])
        for collector in COLLECTORS:
            dump = measure.dump_of(folder, collector, megabytes)
            parts = [folder / f"part{index}" for index in range(8)]
            subprocess.run([folder / "recut", dump, *parts], check=True)
            whole, every, first, second, both = (folder / name for name in ("whole", "every", "first", "second", "both"))
            seconds = [
                join(whole, [dump]),
                join(every, parts),
                join(first, parts[:4]) + join(second, parts[4:]),
                join(both, [first, second]),
            ]
            check_same(whole, every, "eight parts")
            check_same(whole, both, "two groups of four")
            times = " | ".join(f"{one:.3f} s" for one in seconds)
            print(f"| {collector} | {dump.stat().st_size / 1e6:.1f} MB | {times} |", flush=True)
            for path in (whole, every, first, second, both, *parts):
                path.unlink()


if __name__ == "__main__":
    main()

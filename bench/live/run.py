#!/usr/bin/env python3
"""Times a live heap that keeps every edge (`LiveHeap::new`) on real dumps, beside a gatherer that keeps the heap alone.

A dump is read in two halves. After the first the edges to one identifier are asked for while the dump is still arriving; at the
end all edges are put in order, and those to it are looked up. The identifier is the one of some thirty with the most edges to it.

    bench/live/run.py [MEGABYTES..]                      (100)

It needs what bench/real/measure.py needs, and `rt`. It copies the crates into a repository of its own in a temporary folder, where
`rt` proves and builds `main.rt.in` over them, and changes nothing here. The peak memories are without the bytes of the dump, which
the program holds whole. The status is 0 where the edges at the end are those that `hprof refs` prints.
"""

import shutil
import subprocess
import sys
import tempfile
from pathlib import Path

HERE = Path(__file__).resolve().parent
ROOT = HERE.parent.parent
sys.path.insert(0, str(HERE.parent / "real"))

import measure

TURNS = 5


def crates_below(crates):
    """The crates and those that they stand on, as crates.txt names them."""
    lines = [line.split(":") for line in (ROOT / "crates.txt").read_text().split("\n") if ":" in line and not line.startswith("#")]
    below = {name: libraries.split() for name, libraries in lines}
    wanted = list(crates)
    for name in wanted:
        wanted += [library for library in below[name] if library in below and library not in wanted]
    return wanted


def build(folder):
    """The program, over copies of the crates."""
    crates = crates_below(["hprof_text", "hprof_graph"])
    for crate in crates:
        shutil.copytree(ROOT / "crates" / crate, folder / "crates" / crate, ignore=shutil.ignore_patterns("out"))
    program = folder / "crates" / "live_bench"
    (program / "src").mkdir(parents=True)
    shutil.copy(HERE / "main.rt.in", program / "src" / "main.rt")
    lines = [line for line in (ROOT / "crates.txt").read_text().split("\n") if line.split(":")[0] in crates]
    lines.append("live_bench: hprof_text hprof_stream hprof_heap hprof_edges hprof_graph")
    (folder / "crates.txt").write_text("\n".join(lines) + "\n")
    built = subprocess.run(["rt", "run", "--jobs", "2"], cwd=program, capture_output=True, text=True)
    if built.returncode != 0:
        sys.exit(built.stdout[-4000:] + built.stderr[-4000:])
    return program / "out" / "live_bench"


def edges_to(dump, id):
    """How many edges lead to an identifier, as `hprof refs` prints them."""
    printed = subprocess.run([measure.PROGRAM, "refs", id, dump], check=True, capture_output=True, text=True).stdout
    return printed.count("\n")


def run(folder, words):
    """The numbers that the program says, and its peak memory without the bytes of the dump."""
    with open(folder / "said", "wb") as said:
        _, peak = measure.run(words, said)
    return [int(word) for word in (folder / "said").read_text().split()], peak


def main():
    print(
        "| collector | dump | the heap alone | its peak | with all edges | its peak "
        "| edges asked for | after half of it | took | all put in order | at the end | took |"
    )
    print("|---|---|---|---|---|---|---|---|---|---|---|---|")
    right = True
    with tempfile.TemporaryDirectory() as folder:
        folder = Path(folder)
        program = build(folder)
        measure.build(folder, ["plain"])
        for megabytes in [int(word) for word in sys.argv[1:]] or [100]:
            for collector in measure.COLLECTORS:
                dump = measure.dump_of(folder, collector, megabytes)
                size = dump.stat().st_size
                printed, id = max((edges_to(dump, id), id) for id in measure.sample(folder, dump, 10))
                alone = min((sum(said), peak) for said, peak in (run(folder, [program, "alone", dump]) for _ in range(TURNS)))
                rows = [run(folder, [program, "live", dump, id]) for _ in range(TURNS)]
                (first, second, early, early_took, ordered, late, late_took), peak = min(rows, key=lambda row: row[0][0] + row[0][1])
                right = right and late == printed
                print(
                    f"| {collector} | {size / 1e6:.1f} MB | {alone[0] / 1e3:.3f} s | {(alone[1] - size) / 1e6:.0f} MB "
                    f"| {(first + second) / 1e3:.3f} s | {(peak - size) / 1e6:.0f} MB | {id} | {early} | {early_took / 1e3:.1f} ms "
                    f"| {ordered / 1e3:.0f} ms | {late} | {late_took / 1e3:.3f} ms |{'' if late == printed else ' (WRONG)'}",
                    flush=True,
                )
    return 0 if right else 1


if __name__ == "__main__":
    sys.exit(main())

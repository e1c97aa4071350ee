#!/usr/bin/env python3
"""Times `hprof_text::printed` on 100 MB of usual class names beside a plain Rust program.

Needs `rt` and `rustc` on the path. It copies the crate into a repository of its own in a temporary
folder, where `rt` proves and builds `main.rt.in` over it, and changes nothing here. Each program says how
long each of its rounds took, and the best round counts. The status is 0 where both print the same
number of bytes and the crate takes at most twice as long as plain Rust.
"""

import pathlib
import random
import shutil
import subprocess
import sys
import tempfile

SIZE = 100_000_000
MOST = 2.0

HERE = pathlib.Path(__file__).resolve().parent
ROOT = HERE.parent.parent

WORDS = """java util concurrent lang reflect invoke net http client server spring framework context
support apache commons collections google guava cache netty buffer channel handler entry node iterator
abstract default proxy factory builder service request response lambda message""".split()


def class_name(draw):
    """A class name as a heap dump has them; one in fifty is not ASCII."""
    name = "/".join(draw.choice(WORDS) for _ in range(draw.randint(2, 5)))
    name += "/" + "".join(draw.choice(WORDS).capitalize() for _ in range(draw.randint(1, 3)))
    if draw.random() < 0.3:
        name += "$" + draw.choice(WORDS).capitalize()
    if draw.random() < 0.1:
        name = "[L" + name + ";"
    if draw.random() < 0.02:
        name += draw.choice(["é", "\u30af\u30e9\u30b9"])
    return name.encode()


def write_names(path):
    draw = random.Random(1)
    pool = [class_name(draw) for _ in range(20_000)]
    size = 0
    with open(path, "wb") as names:
        while size < SIZE:
            name = draw.choice(pool) + b"\n"
            names.write(name)
            size += len(name)


def build_rattle(folder):
    crates = folder / "crates"
    shutil.copytree(ROOT / "crates" / "hprof_text", crates / "hprof_text", ignore=shutil.ignore_patterns("out"))
    program = crates / "printed_bench"
    (program / "src").mkdir(parents=True)
    shutil.copy(HERE / "main.rt.in", program / "src" / "main.rt")
    (folder / "crates.txt").write_text("hprof_text: hex\nprinted_bench: hprof_text\n")
    built = subprocess.run(["rt", "run", "--jobs", "2"], cwd=program, capture_output=True, text=True)
    if built.returncode != 0:
        sys.exit(built.stdout + built.stderr)
    return program / "out" / "printed_bench"


def build_plain(folder):
    program = folder / "plain"
    subprocess.run(["rustc", "-O", "--edition", "2024", "-o", program, HERE / "plain.rs"], check=True)
    return program


def best_round(program, names):
    """How many bytes the names take in print, and the milliseconds of the best round."""
    lines = subprocess.run([program, names], check=True, capture_output=True, text=True).stdout.split("\n")
    rounds = [tuple(map(int, line.split())) for line in lines if line]
    return rounds[0][0], min(took for _, took in rounds)


def main():
    with tempfile.TemporaryDirectory() as name:
        folder = pathlib.Path(name)
        names = folder / "names"
        write_names(names)
        plain_program = build_plain(folder)
        rattle_program = build_rattle(folder)
        plain_total, plain = best_round(plain_program, names)
        rattle_total, rattle = best_round(rattle_program, names)
    print(f"plain Rust: {plain} ms, {plain_total} bytes")
    print(f"hprof_text: {rattle} ms, {rattle_total} bytes, {rattle / plain:.2f} times plain Rust")
    return 0 if plain_total == rattle_total and rattle <= MOST * plain else 1


if __name__ == "__main__":
    sys.exit(main())

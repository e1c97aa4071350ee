#!/usr/bin/env python3
"""Times `classes`, `threads`, `objects` of the most frequent class, `text` and `show` of the largest string and `diff` with itself, beside
`check`; `who` of that string beside `refs`, and `why` beside `path`.

    bench/real/leak.py [--turns N] [--collector NAME] [--dump FILE] [MEGABYTES]    (5 turns; Serial; 100 megabytes)

It prints the fastest time and the least peak memory of each command, beside the time of the other command in the same turns; `diff` reads
the dump twice, and stands beside twice that time. Then the same is asked of `hprof ask`. It needs the built program, and java, javac and
rustc where no dump is given. It is no part of the gate.
"""

import argparse
import subprocess
import tempfile
import time
from pathlib import Path

from ask import Dialogue
from measure import PROGRAM, build, dump_of, run


def lines(dump, *words):
    return subprocess.run([PROGRAM, *words, dump], check=True, capture_output=True, text=True).stdout.splitlines()


def asked_for(dump):
    """The words of each command: the class with the most objects, and the largest string."""
    rows = [line.split() for line in lines(dump, "histo")]
    classes = [row for row in rows if row[2] != "-"]
    frequent = max(classes, key=lambda row: int(row[1]))
    strings = next(row for row in classes if row[3:] == ["java/lang/String"])
    string = lines(dump, "objects", strings[2])[0].split()[1]
    of_string = [[word, string] for word in ("text", "show", "refs", "who", "path", "why")]
    return [["classes"], ["threads"], ["objects", frequent[2]], *of_string], frequent


def compare(dump, commands, turns):
    """Prints the fastest time and the peak memory of each command beside the time of another one."""
    size = dump.stat().st_size
    beside = {"who": ("refs", 1), "why": ("path", 1), "diff": ("check", 2)}
    runs = {words[0]: (words, []) for words in [["check"], *commands, ["diff", dump]]}
    for _ in range(turns):
        for words, found in runs.values():
            found.append(run([PROGRAM, *words, dump], subprocess.DEVNULL))
    fastest = {name: min(seconds for seconds, _ in found) for name, (_, found) in runs.items()}
    print("| Command | Time | Beside | Memory, times the dump |\n|---|---|---|---|")
    for name, (_, found) in runs.items():
        base, reads = beside.get(name, ("check", 1))
        ratio = fastest[name] / fastest[base] / reads
        memory = min(memory for _, memory in found)
        print(f"| `{name}` | {fastest[name]:.3f} s | {ratio:.2f} `{base}` | {memory / size:.2f} |", flush=True)


def ask(dump, commands):
    """Prints the first and the fastest later time of each question."""
    dialogue = Dialogue(dump)
    dialogue.ask("help")
    print("\n| Question | First | Later |\n|---|---|---|")
    for words in commands:
        times = [dialogue.ask(" ".join(words))[1] for _ in range(6)]
        print(f"| `{words[0]}` | {times[0] * 1000:.2f} ms | {min(times[1:]) * 1000:.2f} ms |", flush=True)
    dialogue.end()


def main():
    words = argparse.ArgumentParser(description=__doc__, formatter_class=argparse.RawDescriptionHelpFormatter)
    words.add_argument("--turns", type=int, default=5)
    words.add_argument("--collector", default="Serial")
    words.add_argument("--dump", type=Path)
    words.add_argument("megabytes", type=int, nargs="?", default=100)
    words = words.parse_args()
    with tempfile.TemporaryDirectory() as name:
        folder = Path(name)
        dump = words.dump
        if dump is None:
            build(folder, ["plain"])
            dump = dump_of(folder, words.collector, words.megabytes)
        commands, frequent = asked_for(dump)
        print(f"{dump.stat().st_size / 1e6:.1f} MB; {frequent[1]} objects of {frequent[3]}\n")
        compare(dump, commands, words.turns)
        ask(dump, commands)


if __name__ == "__main__":
    main()

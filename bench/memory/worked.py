#!/usr/bin/env python3
"""Runs worked cases with each of their requests for memory refused in turn.

A case is read from crates/hprof_worked/stdin by its title, with the names of bytes that it uses. With one request refused all may hold,
as where a join is made once more; or a line says that memory ran out; or the call answers that a write failed, since the writers of the
table keep in memory what they are given. Anything else is wrong. It needs the built program (`rt run` in crates/hprof_worked leaves it as
out/hprof_worked) and cc. Without titles it runs a case of each call that can want memory. It is no part of the gate.

    bench/memory/worked.py [TITLE..]
"""

import os
import re
import subprocess
import sys
import tempfile
from pathlib import Path

HERE = Path(__file__).resolve().parent
CRATE = HERE.parent.parent / "crates" / "hprof_worked"
PROGRAM = CRATE / "out" / "hprof_worked"
CALLS = {"join", "join101", "salvage", "check", "histo", "classes", "objects", "biggest", "retained", "suspects"}
CALLS |= {"object", "refs", "path", "text", "why", "who", "keeps", "show", "threads", "diff", "ask"}
CALLS |= {"edges", "layout", "unite", "read", "facts", "$"}
TITLES = [
    "two names in any order and twice",
    "classes that come late",
    "the plain part as 1.0.1",
    "three parts of which one is whole",
    "parts without facts",
    "a histogram",
    "an object whose classes come late",
    "what refers, where classes come late",
    "a path where classes come late",
    "heaps joined in either order",
    "heaps of many tables",
    "the forms of a part",
    "a layout whose classes come late",
    "edges where classes come late",
    "names in print",
    "no words",
    "the program reports on parts",
    "classes with their objects",
    "objects of a class",
    "texts of strings",
    "parts in any order tell one path",
    "what grew from nothing",
    "each question",
    "the program, asked questions",
]


def is_name(line):
    """Whether the line names bytes."""
    return " = " in line and not line.startswith(("#", "=", ">", "!", ":", "$"))


def words_of(text):
    """The names that a text may use."""
    return set(re.findall(r"[A-Z][A-Z0-9_]*", re.sub(r"'[^']*'", "", text)))


def is_call(line):
    """Whether the line makes a call."""
    return line.split(" ")[0] in CALLS


def case_of(table, title):
    """The lines of a case, behind those that name the bytes that it uses. Of calls with one result the first is made, once, and a report is
    not asked for in a dialogue beside: that is left out where a writer may fail, even if it has room."""
    start = table.index(f"== {title}")
    end = next((place for place in range(start + 1, len(table)) if table[place].startswith("== ")), len(table))
    lines = [line for before, line in zip(table[start - 1:end], table[start:end]) if not (is_call(before) and is_call(line))]
    lines = [line for line in lines if line != "by each"]
    used, names = words_of("\n".join(lines)), []
    for line in reversed([line for line in table[:start] if is_name(line)]):
        name, text = line.split(" = ", 1)
        if name in used:
            names.append(line)
            used |= words_of(text)
    return "\n".join([*names[::-1], lines[0], "room 1000000 fails", *lines[1:]]) + "\n"


def run(text, library, refuse_at):
    """The lines that the program prints, its status, and whether a request was refused."""
    read, write = os.pipe()
    process = subprocess.run(
        ["/bin/sh", "-c", f'exec 9>&{write} env LD_PRELOAD="$0" REFUSE_AT={refuse_at} "$1"', library, PROGRAM],
        input=text.encode(),
        capture_output=True,
        pass_fds=[write],
        timeout=60,
    )
    os.close(write)
    refused = os.read(read, 64) != b""
    os.close(read)
    return process.stdout.decode().splitlines(), process.returncode, refused


def try_case(text, title, library):
    """Counts the runs by what they came to, and prints those that are wrong."""
    came = {"all holds": 0, "want of memory": 0, "write failed": 0, "wrong": 0}
    ample, status, _ = run(text, library, 0)
    if status != 0 or ample != ["1 cases, 0 differ"]:
        sys.exit(f"{title}: {ample}, status {status}, with ample memory")
    for refuse_at in range(1, 1_000_000):
        lines, status, refused = run(text, library, refuse_at)
        if not refused:
            return came, refuse_at - 1
        if (lines, status) == (ample, 0):
            came["all holds"] += 1
        elif status != 0 and not lines or any("out of memory" in line for line in lines):
            came["want of memory"] += 1
        elif any("write failed" in line for line in lines):
            came["write failed"] += 1
        else:
            came["wrong"] += 1
            print(f"{title}, request {refuse_at}: status {status}, {lines}")


def main():
    table = (CRATE / "stdin").read_text().splitlines()
    wrong = 0
    for title in sys.argv[1:]:
        if f"== {title}" not in table:
            sys.exit(f"no case has the title {title}")
    with tempfile.TemporaryDirectory() as folder:
        library = Path(folder) / "refuse.so"
        subprocess.run(["cc", "-O1", "-shared", "-fPIC", "-o", library, HERE / "refuse.c", "-ldl"], check=True)
        for title in sys.argv[1:] or TITLES:
            came, requests = try_case(case_of(table, title), title, library)
            wrong += came["wrong"]
            print(f"{title}: {requests} requests, {came}", flush=True)
    sys.exit(wrong != 0)


main()

#!/usr/bin/env python3
"""Runs the program with each of its requests for memory refused in turn.

A run in which a request was refused has to answer want of memory, with status 1, no output file and nothing printed but some
of the report, from its front, or what the run with ample memory answers; nothing else may come in its place. Each command runs
with all objects in memory, and with no memory for them, so that they are read again. A record that is passed over takes as
many requests whatever its length. It needs the built program (`rt run` in crates/hprof leaves it as
crates/hprof/out/hprof) and cc. It is no part of the gate.
"""

import os
import struct
import subprocess
import sys
import tempfile
from pathlib import Path

HERE = Path(__file__).resolve().parent
PROGRAM = HERE.parent.parent / "crates" / "hprof" / "out" / "hprof"
HEADER = b"JAVA PROFILE 1.0.2\0" + (4).to_bytes(4, "big") + (1).to_bytes(8, "big")


def name(number, text):
    body = number.to_bytes(4, "big") + text
    return b"\x01\0\0\0\0" + len(body).to_bytes(4, "big") + body


def load(serial, owner, name):
    return b"\x02\0\0\0\0" + struct.pack(">IIIII", 16, serial, owner, 1, name)


def segment(*subs):
    body = b"".join(subs)
    return b"\x1c\0\0\0\0" + len(body).to_bytes(4, "big") + body


def class_dump(number, parent, size, entries):
    return struct.pack(">BIIIIIIIII", 0x20, number, 1, parent, 0, 0, 0, 0, 0, size) + entries


def object_dump(tag, number, rest):
    return struct.pack(">BII", tag, number, 1) + rest


# An instance whose class and its superclass come behind it, with names, an array of either kind and roots.
LATE = [
    HEADER + name(5, b"number") + name(6, b"next") + name(2, b"p/A") + load(1, 100, 2) + load(2, 100, 9),
    HEADER + segment(object_dump(0x21, 200, struct.pack(">II", 100, 9) + bytes([0, 0, 0, 7, 0, 0, 0, 201, 255]))),
    HEADER + segment(class_dump(100, 99, 9, struct.pack(">HHHIBIB", 0, 0, 2, 5, 10, 6, 2))),
    HEADER + segment(class_dump(99, 0, 1, struct.pack(">HHHIB", 0, 0, 1, 7, 8))),
    HEADER + segment(object_dump(0x22, 201, struct.pack(">IIII", 2, 100, 200, 0)), object_dump(0x23, 202, b"\0\0\0\2\x08ab")),
    HEADER + segment(b"\x05" + (200).to_bytes(4, "big"), b"\x05" + (16).to_bytes(4, "big")),
]


REPORTS = [["histo"], ["object", "c8"], ["object", "64"], ["object", "c9"], ["object", "ca"]]
REPORTS += [["path", "63"], ["path", "c9"], ["path", "ca"]]
REPORTS += [["refs", "63"], ["refs", "c8"], ["refs", "c9"], ["classes"], ["objects", "64"], ["objects", "byte[]"], ["text", "ca"]]
REPORTS += [["why", "63"], ["why", "c9"], ["why", "ca"], ["who", "c9"], ["who", "ca"]]
REPORTS += [["keeps", "0"], ["keeps", "c9"], ["show", "c8"], ["show", "ca"], ["threads"], ["suspects"], ["retained"]]
REPORTS += [["biggest", "64"], ["biggest", "java.lang.Class"]]

# Each report asked for twice, so that what is kept is made and then used.
QUESTIONS = "".join(f"{' '.join(words)}\n" for words in [["help"], ["check"], *REPORTS, *REPORTS[::-1]]).encode()


def passed_over(length):
    return b"\x7f\0\0\0\0" + length.to_bytes(4, "big") + bytes(length)


def is_resource_fault(text):
    """Whether the text is that of want of memory, for the file of scratch, too, which cannot be created without memory.

    `diff` says of which of its two dumps that file is.
    """
    return b"out of memory" in text or text in (b"hprof: scratch failed\n", b"hprof: part 1: scratch failed\n")


def run(words, library, refuse_at, out):
    """What the program answers, asked the questions if it reads any, and whether a request was refused."""
    out.unlink(missing_ok=True)
    read, write = os.pipe()
    process = subprocess.run(
        ["/bin/sh", "-c", f'exec 9>&{write} env LD_PRELOAD="$0" REFUSE_AT={refuse_at} "$@"', library, PROGRAM, *words],
        input=QUESTIONS,
        capture_output=True,
        pass_fds=[write],
        timeout=60,
    )
    os.close(write)
    refused = os.read(read, 64) != b""
    os.close(read)
    return (process.returncode, process.stdout, process.stderr, out.read_bytes() if out.exists() else None), refused


def main():
    with tempfile.TemporaryDirectory() as folder:
        folder = Path(folder)
        library = folder / "refuse.so"
        subprocess.run(["cc", "-O1", "-shared", "-fPIC", "-o", library, HERE / "refuse.c", "-ldl"], check=True)
        one, two, out = folder / "one", folder / "two", folder / "out"
        one.write_bytes(HEADER + b"".join(name(i, b"name%d" % i) for i in range(60, 0, -1)))
        two.write_bytes(HEADER + name(7, b"name7") + name(100, b"x" * 70_000))
        short, long = folder / "short", folder / "long"
        short.write_bytes(HEADER + passed_over(100_000))
        long.write_bytes(HEADER + passed_over(10_000_000))
        cut = folder / "cut"
        cut.write_bytes(two.read_bytes()[:60])
        late = [folder / f"late{index}" for index in range(len(LATE))]
        for path, part in zip(late, LATE):
            path.write_bytes(part)
        whole = folder / "whole"
        whole.write_bytes(HEADER + b"".join(part[len(HEADER):] for part in LATE))
        cases = {
            "join": ["join", out, one, two],
            "conflict": ["join", out, one, one, two.with_name("three")],
            "join101": ["join101", out, one, two],
            "salvage": ["salvage", out, one, cut, two],
            "check": ["check", one, two],
            **{" ".join(words): [*words, *late] for words in REPORTS},
            "ask": ["ask", *late],
            "diff": ["diff", one, whole],
            "passed over, 100,000 bytes": ["join", out, short],
            "passed over, 10,000,000 bytes": ["join", out, long],
        }
        two.with_name("three").write_bytes(HEADER + name(3, b"other"))
        cases.update({f"{title}, read again": [*words, "--memory", "0"] for title, words in cases.items()})
        wrong, requests = 0, {}
        for title, words in cases.items():
            ample, _ = run(words, library, 0, out)
            if title.startswith("passed over") and ample[3] != HEADER + b"\x2c" + bytes(8):
                wrong += 1
                print(f"{title}: {ample}")
            answers = {"the answer": 0, "want of memory": 0}
            for refuse_at in range(1, 100_000):
                answer, refused = run(words, library, refuse_at, out)
                if not refused:
                    requests[title] = refuse_at - 1
                    break
                if answer == ample:
                    answers["the answer"] += 1
                elif answer[0] == 1 and ample[1].startswith(answer[1]) and answer[3] is None and is_resource_fault(answer[2]):
                    answers["want of memory"] += 1
                else:
                    wrong += 1
                    print(f"{title}, request {refuse_at}: {answer}")
            print(f"{title}: {answers}, {wrong} of another kind", flush=True)
        wrong += requests["passed over, 100,000 bytes"] != requests["passed over, 10,000,000 bytes"]
        print(f"requests for memory: {requests}")
        sys.exit(wrong != 0)


main()

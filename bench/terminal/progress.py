#!/usr/bin/env python3
"""Checks the line of progress that the program writes to a terminal while it reads: progress.py [PROGRAM].

Each case runs the program on a terminal of its own and reads all that comes there. A line of progress has one form and says which part of
how many is read; there are at most ten a second, and what is read grows. Nothing else is written while one is shown, none is shown at the
end, and the text that is left is that of a run without a terminal. If standard error is no terminal, no line is written. Parts come slowly
through FIFOs, or from a file of 2 GB without blocks on the disk. It needs the built program (`rt run` in crates/hprof leaves it as
crates/hprof/out/hprof). It is no part of the gate.
"""

import os
import pty
import re
import subprocess
import sys
import tempfile
import threading
import time
from pathlib import Path

ROOT = Path(__file__).resolve().parent.parent.parent
PROGRAM = Path(sys.argv[1] if len(sys.argv) > 1 else ROOT / "crates" / "hprof" / "out" / "hprof").resolve()
FRIDAY, MONDAY = ((ROOT / "crates" / "hprof" / "data" / f"{day}.hprof").read_bytes() for day in ("friday", "monday"))
HEADER = FRIDAY[:31]
LINE = rb"(?P<line>reading (?:part (\d+) of (\d+)|again): (\d+) (%|MB))"
PIECE = re.compile(rb"\r" + LINE + rb"\x1b\[K|(?P<removal>\r\x1b\[K)|(?P<text>[^\r\x1b]+|\r\n)")


def passed_over(length):
    """The head of a record that is passed over."""
    return b"\xff\0\0\0\0" + length.to_bytes(4, "big")


def feed(paths, parts, seconds):
    """Opens the FIFOs in order, and then writes each part in twenty pieces, in so much time."""
    try:
        files = [open(path, "wb", buffering=0) for path in paths]
        for file, part in zip(files, parts):
            size = max(1, len(part) // 20)
            for at in range(0, len(part), size):
                file.write(part[at:at + size])
                time.sleep(seconds / 20)
            file.close()
    except BrokenPipeError:
        pass


def on_terminal(words, folder, typed=None, own=("stdout", "stderr")):
    """What a run writes to its terminal, each piece with its time; its output elsewhere; and its status. A person types a line at each
    prompt, and then Control-D."""
    ours, theirs = pty.openpty()
    streams = {"stdin": theirs if typed is not None else subprocess.DEVNULL}
    streams |= {stream: theirs if stream in own else subprocess.PIPE for stream in ("stdout", "stderr")}
    program = subprocess.Popen([PROGRAM, *words], cwd=folder, **streams)
    os.close(theirs)
    pieces, elsewhere = [], []
    others = [threading.Thread(target=lambda pipe=pipe: elsewhere.append(pipe.read())) for pipe in (program.stdout, program.stderr) if pipe]
    for other in others:
        other.start()
    while True:
        try:
            piece = os.read(ours, 65536)
        except OSError:
            break
        if not piece:
            break
        pieces.append((time.monotonic(), piece))
        if typed is not None and piece.endswith(b"> "):
            os.write(ours, typed.pop(0) if typed else b"\x04")
    os.close(ours)
    status = program.wait(timeout=60)
    for other in others:
        other.join()
    return pieces, b"".join(elsewhere), status


def lines_of(pieces):
    """The lines of progress, each as (part, parts, number, unit) with its time, and all else that is left on the terminal. Where parts are
    read again, the part and the number of parts are 0."""
    text = b"".join(piece for _, piece in pieces)
    times = [when for when, piece in pieces for _ in piece]
    lines, left, is_shown, at = [], [], False, 0
    while at < len(text):
        found = PIECE.match(text, at)
        assert found, f"what is this: {text[at:at + 80]}"
        if found["line"]:
            part, parts, number = (int(found[group] or 0) for group in (2, 3, 4))
            lines.append((times[at], (part, parts, number, found[5].decode())))
            is_shown = True
        elif found["removal"]:
            assert is_shown, "a line is removed that is not there"
            is_shown = False
        else:
            assert not is_shown, f"written behind a line of progress: {found['text']}"
            left.append(found["text"])
        at = found.end()
    assert not is_shown, "a line is left at the end"
    return lines, b"".join(left).replace(b"\r\n", b"\n")


def check_lines(lines, parts, units):
    """Parts come in order, each with its unit; what is read grows; eleven lines take a second or more, less what a terminal delays."""
    for (_, one), (_, next_one) in zip(lines, lines[1:]):
        assert one[0] < next_one[0] or (one[0] == next_one[0] and one[2] <= next_one[2]), (one, next_one)
    for _, (part, of, number, unit) in lines:
        assert of == parts and 1 <= part <= parts and unit == units[part - 1], (part, of, number, unit)
        assert unit == "MB" or number <= 100, number
    for (first, _), (last, _) in zip(lines, lines[10:]):
        assert last - first > 0.9, f"eleven lines in {last - first:.2f} s"


def fifos(folder, parts, seconds):
    """Names of FIFOs through which the parts come, and the thread that feeds them."""
    names = [f"fifo{number}" for number in range(len(parts))]
    for name in names:
        if (folder / name).exists():
            (folder / name).unlink()
        os.mkfifo(folder / name)
    feeder = threading.Thread(target=feed, args=([folder / name for name in names], parts, seconds), daemon=True)
    feeder.start()
    return names, feeder


def quiet(words, folder, **more):
    """The output and the errors of a run without a terminal, and its status."""
    ran = subprocess.run([PROGRAM, *words], cwd=folder, stdin=subprocess.DEVNULL, capture_output=True, timeout=600, **more)
    return ran.stdout, ran.stderr, ran.returncode


def reports(folder):
    """Each command tells its progress, and leaves on the terminal what it writes without one."""
    (folder / "friday").write_bytes(FRIDAY)
    (folder / "monday").write_bytes(MONDAY)
    one = [["check"], ["histo"], ["classes"], ["objects", "byte[]"], ["object", "740000850"], ["refs", "740000e58"], ["path", "740000410"]]
    for words in [*one, ["text", "7400007f0"], ["ask"], ["join", "out"], ["join101", "out"], ["salvage", "out"], ["diff"]]:
        dumps = {"monday": MONDAY, "friday": FRIDAY} if words[0] == "diff" else {"friday": FRIDAY}
        names, feeder = fifos(folder, list(dumps.values()), 0.6)
        pieces, _, status = on_terminal([*words, *names], folder)
        feeder.join()
        lines, left = lines_of(pieces)
        out = (folder / "out").read_bytes() if "out" in words else b""
        (folder / "out").unlink(missing_ok=True)
        output, errors, expected = quiet([*words, *dumps], folder)
        assert (left, status) == (output + errors, expected), (words, left, status)
        assert "out" not in words or out == (folder / "out").read_bytes(), words
        (folder / "out").unlink(missing_ok=True)
        check_lines(lines, len(dumps), ["MB"] * len(dumps))
        assert {line[0] for _, line in lines} == set(range(1, len(dumps) + 1)), (words, lines)
        yield f"{' '.join(words)}: {len(lines)} lines"


def parts_of_three(folder):
    """Two FIFOs, the second with 6 MB that are passed over, and a file."""
    (folder / "friday").write_bytes(FRIDAY)
    names, feeder = fifos(folder, [FRIDAY, HEADER + passed_over(6_000_000) + bytes(6_000_000)], 1)
    pieces, _, status = on_terminal(["check", *names, "friday"], folder)
    feeder.join()
    lines, left = lines_of(pieces)
    check_lines(lines, 3, ["MB", "MB", "%"])
    assert status == 0 and left.startswith(b"part 0: version") and left.count(b"\n") == 14, left
    assert {line[0] for _, line in lines} >= {1, 2}, lines
    assert max(line[2] for _, line in lines if line[0] == 2) >= 5, lines
    yield f"three parts: {len(lines)} lines"


def percents(folder):
    """A file that takes long to read: 2 GB that are passed over and take no room on the disk."""
    with open(folder / "large", "wb") as large:
        large.write(HEADER)
        large.write(passed_over(2_000_000_000))
        large.seek(2_000_000_000, os.SEEK_CUR)
        large.truncate()
    pieces, _, status = on_terminal(["check", "large"], folder)
    lines, left = lines_of(pieces)
    check_lines(lines, 1, ["%"])
    assert status == 0 and left.startswith(b"part 0: version") and len(lines) >= 3, (left, lines)
    assert lines[0][1][2] < 50 and lines[-1][1][2] > 50, lines
    output, errors, status = quiet(["check", "large"], folder)
    assert (output, errors, status) == (left, b"", 0), (output, errors)
    (folder / "large").unlink()
    yield f"percents: {len(lines)} lines, {[line[2] for _, line in lines][:12]}"


def write_arrays(path, step):
    """Writes a dump of 1.5 GB: small arrays whose identifiers ascend by 1, or descend."""
    length, id_size = 1_000, int.from_bytes(HEADER[19:23], "big")
    with open(path, "wb") as arrays:
        arrays.write(HEADER)
        for first in range(1, 1_500_001, 10_000)[::step]:
            ids = (number.to_bytes(id_size, "big") for number in range(first, first + 10_000)[::step])
            segment = b"".join(b"\x23" + name + bytes(4) + length.to_bytes(4, "big") + b"\x08" + bytes(length) for name in ids)
            arrays.write(b"\x1c" + bytes(4) + len(segment).to_bytes(4, "big") + segment)


def again(folder):
    """Objects that stay in their file, since they ascend, and objects that go to another, since they descend. All are read again."""
    for step in (1, -1):
        write_arrays(folder / "arrays", step)
        words = ["objects", "short[]", "--memory", "64M", "arrays"]
        pieces, _, status = on_terminal(words, folder)
        lines, left = lines_of(pieces)
        first, second = ([line for line in lines if (line[1][0] == 0) == is_again] for is_again in (False, True))
        assert lines == first + second and len(first) >= 3 and len(second) >= 3, (len(first), len(second))
        check_lines(first, 1, ["%"])
        numbers = [line[2] for _, line in second]
        assert numbers == sorted(numbers) and numbers[-1] > 700 and {line[3] for _, line in second} == {"MB"}, numbers
        assert (left, b"", status) == quiet(words, folder) and status == 0, left
        (folder / "arrays").unlink()
        yield f"again: {len(first)} lines, and {len(second)} again"


def refusals(folder):
    """A line is gone before a refusal: in the middle of a part, behind one that is cut, and of an output that is there."""
    (folder / "there").write_bytes(b"")
    bad = FRIDAY + b"\x02\0\0\0\0\0\0\0\1" + FRIDAY[31:]
    cases = [
        (["check"], [FRIDAY, bad], b"hprof: part 1: malformed at 8081: "),
        (["histo"], [FRIDAY[:5000]], b"hprof: part 0: malformed at 4974: "),
        (["join", "out"], [MONDAY, FRIDAY], b"hprof: conflict at load 1\n"),
        (["object", "1x"], [], b"hprof: not an identifier\n"),
        (["join", "there"], [FRIDAY], b"hprof: cannot create the output\n"),
        (["diff"], [FRIDAY, FRIDAY[:4000]], b"hprof: part 1: malformed at "),
    ]
    for words, parts, told in cases:
        names, feeder = fifos(folder, parts, 0.6)
        pieces, _, status = on_terminal([*words, *names], folder)
        feeder.join()
        lines, left = lines_of(pieces)
        assert status in (1, 2) and left.startswith(told) and left.count(b"\n") == 1, (words, left, status)
        assert bool(lines) == (words[-1] not in ("1x", "there")), (words, lines)
        check_lines(lines, len(parts), ["MB"] * len(parts))
        assert not (folder / "out").exists(), words
        yield f"{told.decode().strip()}: {len(lines)} lines"


def dialogue(folder):
    """A line is gone before the first prompt, and none comes behind it."""
    names, feeder = fifos(folder, [FRIDAY], 0.6)
    typed = [b"text 7400007f0\n", b"refs 740000e58\n"]
    pieces, _, status = on_terminal(["ask", *names], folder, typed)
    feeder.join()
    lines, left = lines_of(pieces)
    check_lines(lines, 1, ["MB"])
    assert lines and status == 0 and left.startswith(b"> text 7400007f0\ntext 3 cyd\n\n> refs 740000e58\n740000410 static 0\n\n> "), left
    yield f"ask at a terminal: {len(lines)} lines"


def silence(folder):
    """No line for a small dump, for standard input, nor where standard error is no terminal."""
    (folder / "friday").write_bytes(FRIDAY)
    report = quiet(["histo", "friday"], folder)[0]
    lines, left = lines_of(on_terminal(["histo", "friday"], folder)[0])
    assert (lines, left) == ([], report), (lines, left)
    for own in (("stdout",), ()):
        names, feeder = fifos(folder, [FRIDAY], 0.6)
        pieces, elsewhere, status = on_terminal(["histo", *names], folder, own=own)
        feeder.join()
        lines, left = lines_of(pieces)
        assert (lines, left + elsewhere, status) == ([], report, 0), (own, lines, left, elsewhere)
    names, feeder = fifos(folder, [FRIDAY], 0.6)
    ours, theirs = pty.openpty()
    with open(folder / names[0], "rb") as slow:
        program = subprocess.Popen([PROGRAM], cwd=folder, stdin=slow, stdout=subprocess.PIPE, stderr=theirs)
        dump = program.communicate(timeout=60)[0]
    os.close(theirs)
    feeder.join()
    os.set_blocking(ours, False)
    try:
        said = os.read(ours, 65536)
    except OSError:
        said = b""
    os.close(ours)
    assert dump.startswith(b"JAVA PROFILE") and not said, said
    yield "nothing for a small dump, for standard input, nor without a terminal"


def main():
    cases = (reports, parts_of_three, percents, again, refusals, dialogue, silence)
    faults = 0
    for case in cases:
        with tempfile.TemporaryDirectory() as folder:
            try:
                for line in case(Path(folder)):
                    print(line, flush=True)
            except AssertionError as fault:
                faults += 1
                print(f"{case.__name__}: FAULT {fault}", flush=True)
    print(f"{len(cases)} cases, {faults} faults")
    sys.exit(bool(faults))


if not PROGRAM.exists():
    sys.exit(f"{PROGRAM} is not there: (cd crates/hprof && rt run -- check data/friday.hprof)")
main()

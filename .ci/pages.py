#!/usr/bin/env python3
"""Checks that the pages name what is there, and that README shows what the program prints.

In each page a link leads to a file; a path in backticks is one of the tree; a name in backticks, as `join_to` or `Gatherer::new`, stands
in the code or the definitions; of `call`: `clause` the clause stands in a file that has the call; each crate that is named is there; and
DEFINITIONS names each file of definitions, and LIBRARY quotes the examples. The manual page and the completions of shells have the
commands of the program, the manual page of the viewer has its options, and man has no warning of them. Each command that README shows
behind a `$` is run on the sample dumps, and its output compared line for line, if the program was built. The status is 0 if nothing
differs.
"""

import os
import pty
import re
import subprocess
import sys
import tempfile
from pathlib import Path
from shutil import copy, which

from completions import completions

ROOT = Path(__file__).resolve().parent.parent
PAGES = [ROOT / "README.md", ROOT / "CONTRIBUTING.md", *sorted(ROOT.glob("docs/*.md")), *sorted(ROOT.glob("bench/*.md"))]
PROGRAM = ROOT / "crates" / "hprof" / "out" / "hprof"
SAMPLES = ROOT / "crates" / "hprof" / "data"
MANUAL, VIEWER_MANUAL = ROOT / "docs" / "hprof.1", ROOT / "docs" / "hprof-view.1"
COMMAND = re.compile(r'word: "(\w+)"')
KIT = re.compile(r"rattle-kit-\w+ logic \w+")
NAME = re.compile(r"[A-Za-z]\w*(::\w+)*(\(\))?")
PLACES = re.compile(r"\b(hprof_\w+)(?:: |/specs/)(\w+\.antt(?:, \w+\.antt)*)")
CLAUSES = re.compile(r"`([A-Za-z]\w*(?:::\w+)*)`: ((?:`\w+`(?:, | and )?)+)")
PATH = re.compile(r"[\w.*-]+(/[\w.*-]+)+/?|[\w-]+\.(md|py|rt|antt|txt)")


def words_of(path):
    return set(re.findall(r"\w+", path.read_text(errors="replace")))


def tree():
    """The words of each file of the tree that has names, by the file."""
    crates = ("crates/*/src/**/*.rt", "crates/*/specs/**/*.antt", "crates/*/proofs/*.antt", "crates/*/must-fail/*.edit")
    files = {path: words_of(path) for kind in (*crates, "bench/**/*.py", "viewer/**/*.py", "clients/**/*.py") for path in ROOT.glob(kind)}
    known = set().union(*files.values(), *({*path.parts, path.stem} for path in files))
    return files, known


def is_there(page, text):
    """Whether a path in backticks leads to a file, from the top, from the page or in a crate; what a build leaves is not looked for."""
    return "/out/" in text or any(any(base.glob(text)) for base in (ROOT, page.parent)) or any(ROOT.glob(f"crates/*/**/{text}"))


def faults_of(page, files, known):
    """The names and links of a page that lead nowhere."""
    text = re.sub(r"(?m)^    .*$|```.*?```", "", page.read_text(), flags=re.DOTALL)
    for link in re.findall(r"\]\(([^)#:]+)\)", text):
        if not (page.parent / link).exists():
            yield f"link to {link}"
    for line in page.read_text().splitlines():
        if len(line) > 140 and not line.startswith("|"):
            yield f"long line {line[:40]}"
    for token in re.findall(r"`([^`\n]+)`", text):
        if PATH.fullmatch(token) and not token.startswith(".."):
            if not is_there(page, token):
                yield f"path {token}"
        elif NAME.fullmatch(token) and not set(re.findall(r"\w+", token)) <= known:
            yield f"name {token}"
    for crate in set(re.findall(r"\bhprof_\w+", text)):
        if not any(any(ROOT.glob(place)) for place in (f"crates/{crate}/", f"crates/*/src/{crate}.rt", f"viewer/{crate}.py")):
            yield f"crate {crate}"
    for call, clauses in CLAUSES.findall("\n".join(line for line in text.splitlines() if line.startswith("|"))):
        last = call.split("::")[-1]
        for clause in re.findall(r"\w+", clauses):
            pattern = re.compile(rf"\b(ensures\*?|requires|pub)\s+{clause}\b")
            if not any(pattern.search(path.read_text()) for path, words in files.items() if last in words):
                yield f"clause {call}: {clause}"


def definitions():
    """The files of definitions that DEFINITIONS does not name, and those that it names and are not there."""
    text = (ROOT / "docs" / "DEFINITIONS.md").read_text()
    named = {f"{crate}/specs/{file}" for crate, files in PLACES.findall(text) for file in files.split(", ")}
    there = {str(path.relative_to(ROOT / "crates")) for path in ROOT.glob("crates/*/specs/*.antt") if path.name != "Lib.antt"}
    return sorted(named ^ there)


def examples():
    """The example crates that LIBRARY does not quote as they are."""
    quoted = re.sub(r"(?m)^    ", "", (ROOT / "docs" / "LIBRARY.md").read_text())
    return [str(path.relative_to(ROOT)) for path in ROOT.glob("crates/example_*/src/main.rt") if path.read_text() not in quoted]


def manual():
    """The commands that the program or its manual page has alone, what `--version` should say, and the warnings of man."""
    code = ROOT / "crates" / "hprof_command" / "src" / "command"
    commands = set(re.findall(r"(?m)^\.SS (\w+)", MANUAL.read_text()))
    tables = [code / "subcommands.rt", ROOT / "crates" / "hprof_questions" / "src" / "report_word.rt"]
    yield from sorted(commands ^ {word for table in tables for word in COMMAND.findall(table.read_text())})
    yield from set(KIT.findall((ROOT / "README.md").read_text())) - set(KIT.findall((code / "help.rt").read_text()))
    yield from warnings(MANUAL)


def viewer_manual():
    """The options that the viewer or its manual page has alone, and the warnings of man."""
    words = (ROOT / "viewer" / "view" / "words.py").read_text()
    yield from sorted(set(re.findall(r'"--(\w+)"', words)) ^ (set(re.findall(r"\\-\\-(\w+)", VIEWER_MANUAL.read_text())) - {"help"}))
    yield from warnings(VIEWER_MANUAL)


def warnings(page):
    """What man warns of in a manual page, if there is a man."""
    show = ["man", "--warnings", "-E", "UTF-8", "-l", "-Tutf8", page]
    found = subprocess.run(show, stdout=subprocess.DEVNULL, stderr=subprocess.PIPE, text=True).stderr if which("man") else ""
    return found.splitlines()


def shown():
    """The commands that README shows, each with its output."""
    for block in re.findall(r"(?m)(?:^    .*\n|^\n(?=    ))+", (ROOT / "README.md").read_text()):
        for part in re.split(r"(?m)^    \$ ", block)[1:]:
            command, *output = re.sub(r"(?m)^    ", "", part).rstrip("\n").splitlines()
            yield command, output


def outputs():
    """The commands that print another text than README says."""
    with tempfile.TemporaryDirectory() as folder:
        for dump in SAMPLES.glob("*.hprof"):
            copy(dump, folder)
        for command, output in shown():
            path = f'PATH="{PROGRAM.parent}:$PATH"; {command}'
            found = subprocess.run(["bash", "-c", path], cwd=folder, stdout=subprocess.PIPE, stderr=subprocess.STDOUT, text=True).stdout
            if found.rstrip("\n").splitlines() != output:
                yield f"{command}\n{found}"


def hint():
    """What the program says first to a person at a terminal who gives no command, if FORMAT does not have that line."""
    ours, theirs = pty.openpty()
    with os.fdopen(ours, "wb", buffering=0) as terminal:
        program = subprocess.Popen([PROGRAM], stdin=theirs, stdout=subprocess.DEVNULL, stderr=subprocess.PIPE, text=True)
        os.close(theirs)
        terminal.write(b"\x04")
        said = program.communicate(timeout=60)[1].splitlines()
    if not said or f"`{said[0]}`" not in (ROOT / "docs" / "FORMAT.md").read_text() or len(said) != 2:
        yield f"what is said at a terminal: {said}"


def main():
    files, known = tree()
    faults = [f"{page.relative_to(ROOT)}: {fault}" for page in PAGES for fault in faults_of(page, files, known)]
    faults += [f"docs/DEFINITIONS.md: {place}" for place in definitions()]
    faults += [f"docs/LIBRARY.md: {path} is not quoted" for path in examples()]
    faults += [f"docs/hprof.1: {fault}" for fault in manual()]
    faults += [f"docs/hprof-view.1: {fault}" for fault in viewer_manual()]
    faults += [f"docs/completions/{fault}" for fault in completions()]
    if PROGRAM.exists():
        faults += [f"README.md: {fault}" for fault in outputs()]
        faults += [f"docs/FORMAT.md: {fault}" for fault in hint()]
    print(*faults, f"{len(PAGES)} pages, {len(faults)} faults", sep="\n")
    sys.exit(bool(faults))


main()

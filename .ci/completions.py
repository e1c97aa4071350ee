"""Checks that the completions in docs/completions have the commands, the types and the options that the program has, and no others."""

import re
from pathlib import Path

ROOT = Path(__file__).resolve().parent.parent
FOLDER = ROOT / "docs" / "completions"
REPORTS = ROOT / "crates" / "hprof_questions" / "src" / "report_word.rt"
COMMANDS = ROOT / "crates" / "hprof_command" / "src" / "command" / "subcommands.rt"
REPORT = re.compile(r'word: "(\w+)",\s+follows: Follows::(\w+),\s+about: "([^"]*)"')
COMMAND = re.compile(r'word: "(\w+)",\s+about: "([^"]*)",\s+help: [\w:]+,\s+arguments: &\[([\w, ]*)\]')
# The list that a completion has a command in, by what the command takes before dumps.
TAKES = {
    "Nothing": "heaps",
    "Identifier": "nodes",
    "ClassOrObject": "nodes",
    "ClassOrType": "kinds",
    "": "heaps",
    "OUT": "outs",
    "OLDER, NEWER": "pairs",
}
LIST = re.compile(r"(?m)^\s*(?:local|set)(?: -\w)? (outs|heaps|kinds|nodes|pairs)(?:='|=\(| )([\w ]+)")
# How a completion has a command with its line of help; that for bash has none.
ABOUT = {
    "_hprof": re.compile(r"(?m)^        '(\w+):(.*)'$"),
    "hprof.fish": re.compile(r"(?m)^complete -c hprof -n __fish_use_subcommand -a (\w+) -d '(.*)'$"),
}
TYPE = re.compile(r"\b(\w+\[\])")


def commands():
    """Each command of the program: the list that it belongs to, and its line of help."""
    rows = {word: (TAKES[follows], about) for word, follows, about in REPORT.findall(REPORTS.read_text())}
    rows.update({word: (TAKES[takes], about) for word, about, takes in COMMAND.findall(COMMANDS.read_text())})
    return rows


def types():
    """The types of arrays, as FORMAT has them."""
    row = re.search(r"(?m)^\| (`boolean\[\]`.*?), or ", (ROOT / "docs" / "FORMAT.md").read_text()).group(1)
    return set(TYPE.findall(row))


def options():
    """The options of the program, as its manual page has them: the letter and the word of each."""
    return set(re.findall(r'(?m)^\.BR \\-(\w) ", " \\-\\-(\w+)$', (ROOT / "docs" / "hprof.1").read_text()))


def options_in(text, fish):
    """The options that a completion has, as letters and words."""
    pattern = r"-s (\w) -l (\w+) " if fish else r"-(\w)[ ,]--(\w+)\b"
    return set(re.findall(pattern, text))


def faults_of(name, text, rows):
    """The commands, lines of help, types and options that a completion lacks, or that the program does not have."""
    found = {(word, key) for key, words in LIST.findall(text) for word in words.split()}
    for word, key in sorted(found ^ {(word, key) for word, (key, _) in rows.items()}):
        yield f"{name}: {word} in {key}"
    if name in ABOUT:
        about = set(ABOUT[name].findall(text)) ^ {(word, about) for word, (_, about) in rows.items()}
        yield from sorted(f"{name}: {word}: {line}" for word, line in about if word != "help")
    for one in sorted(set(TYPE.findall(text)) ^ types()):
        yield f"{name}: type {one}"
    for letter, word in sorted(options_in(text, name.endswith(".fish")) ^ options()):
        yield f"{name}: option -{letter} --{word}"


def completions():
    """The faults of all completions."""
    rows = commands()
    for path in sorted(FOLDER.iterdir()):
        yield from faults_of(path.name, path.read_text(), rows)

"""The completions: each shell that is on this machine is asked what may stand at the end of a line."""

import os
import pty
import shlex
import signal
import subprocess
import tempfile
import threading
import time
import unittest
from pathlib import Path
from shutil import which

import completions

FOLDER = completions.FOLDER
TYPES = {"boolean[]", "char[]", "float[]", "double[]", "byte[]", "short[]", "int[]", "long[]"}
COMMANDS = set(completions.commands())
# Asks the function of bash with the words of some lines, behind each of which stands a colon, and prints its replies likewise.
BASH = """
source "$0"
for word in "$@"; do
    if [[ $word != : ]]; then
        COMP_WORDS+=("$word")
        continue
    fi
    COMP_CWORD=$((${#COMP_WORDS[@]} - 1))
    _hprof
    printf '%s\\n' "${COMPREPLY[@]}" :
    COMP_WORDS=()
done
"""
FISH = 'source "$argv[1]"; complete -C "$argv[2]"'
# Makes zsh keep the line that is typed when Control-T is pressed.
ZSH = """
fpath=(%s $fpath); autoload -Uz compinit; compinit -u -D
keep() { print -r -- "$BUFFER" >> .kept; BUFFER= }; zle -N keep; bindkey '^T' keep; print ready >> .kept
"""


def read_to_end(terminal):
    """Reads what a terminal shows, so that the other side never waits."""
    try:
        while os.read(terminal, 1 << 16):
            pass
    except OSError:
        pass


class Folder(unittest.TestCase):
    """A folder with dumps, another file, a folder, and a name with spaces."""

    def setUp(self):
        folder = tempfile.TemporaryDirectory()
        self.addCleanup(folder.cleanup)
        self.folder = Path(folder.name)
        for name in ("friday.hprof", "monday.hprof", "two words.hprof", "notes.txt"):
            (self.folder / name).touch()
        (self.folder / "dumps").mkdir()
        (self.folder / "dumps" / "heap.bin").touch()

    def output_of(self, *command):
        done = subprocess.run(command, cwd=self.folder, stdout=subprocess.PIPE, stderr=subprocess.PIPE, text=True, timeout=60)
        self.assertEqual((done.returncode, done.stderr), (0, ""), command)
        return done.stdout.splitlines()


@unittest.skipUnless(which("bash"), "no bash")
class Bash(Folder):
    def replies(self, *words):
        return self.all_replies([words])[0]

    def all_replies(self, lines):
        words = [word for line in lines for word in ("hprof", *line, ":")]
        replies = [[]]
        for word in self.output_of("bash", "--norc", "-c", BASH, str(FOLDER / "hprof.bash"), *words):
            if word == ":":
                replies.append([])
            else:
                replies[-1].append(word)
        self.assertEqual((len(replies), replies[-1]), (len(lines) + 1, []))
        return replies[:-1]

    def test_commands_come_first(self):
        self.assertEqual(set(self.replies("")), COMMANDS | {"help", "-h", "--help", "-V", "--version"})
        self.assertEqual(self.replies("his"), ["histo"])
        self.assertEqual(self.replies("join"), ["join", "join101"])
        self.assertEqual(self.replies("--"), ["--help", "--version"])

    def test_options_of_commands(self):
        names = sorted(COMMANDS)
        for name, reply in zip(names, self.all_replies([(name, "-") for name in names])):
            self.assertEqual(reply, ["-h", "--help", "--memory"], name)

    def test_a_size_is_no_argument(self):
        self.assertEqual(self.replies("check", "--m"), ["--memory"])
        self.assertEqual(self.replies("help", "--m"), [])
        for begun in (("--memory", ""), ("--memory", "5"), ("--memory", "="), ("--memory", "=", ""), ("--memory=",), ("--memory=5",)):
            self.assertEqual(self.replies("check", *begun), [], begun)
        for size in (("--memory", "1M"), ("--memory", "=", "1M"), ("--memory=1M",)):
            self.assertEqual(self.replies("objects", *size, "b"), ["boolean[]", "byte[]"], size)
            self.assertEqual(self.replies("objects", "byte[]", *size, "f"), ["friday.hprof"], size)
            self.assertEqual(self.replies("join", *size, ""), ["dumps"], size)
            self.assertEqual(self.replies("diff", "a", *size, "b", ""), [], size)

    def test_help_takes_a_command(self):
        self.assertEqual(set(self.replies("help", "")), COMMANDS)
        self.assertEqual(self.replies("help", "histo", ""), [])

    def test_places_of_dumps(self):
        dumps = {"friday.hprof", "monday.hprof", "two words.hprof", "dumps"}
        first = {"outs": {"dumps"}, "heaps": dumps, "kinds": TYPES, "nodes": set(), "pairs": dumps}
        lines, expected = [], []
        for command, (key, _) in completions.commands().items():
            lines += [(command, ""), (command, "one", ""), (command, "one", "two", "")]
            expected += [first[key], dumps, set() if key == "pairs" else dumps]
        for line, reply, meant in zip(lines, self.all_replies(lines), expected):
            self.assertEqual(set(reply), meant, line)

    def test_types(self):
        self.assertEqual(self.replies("objects", "b"), ["boolean[]", "byte[]"])
        self.assertEqual(self.replies("biggest", "int["), ["int[]"])

    def test_names_of_dumps(self):
        self.assertEqual(self.replies("check", "f"), ["friday.hprof"])
        self.assertEqual(self.replies("why", "1", "friday.hprof", "mon"), ["monday.hprof"])
        for begun in ("two\\ w", "'two w", '"two w'):
            self.assertEqual(self.replies("check", begun), ["two words.hprof"], begun)

    def test_other_files_where_no_dump_is(self):
        self.assertEqual(self.replies("check", "n"), ["notes.txt"])
        self.assertEqual(self.replies("check", "dumps/"), ["dumps/heap.bin"])

    def test_an_unknown_command_has_nothing(self):
        self.assertEqual(self.replies("frob", ""), [])


@unittest.skipUnless(which("fish"), "no fish")
class Fish(Folder):
    def replies(self, line):
        lines = self.output_of("fish", "--no-config", "-c", FISH, str(FOLDER / "hprof.fish"), line)
        return {found.split("\t")[0] for found in lines}

    def test_commands_come_first(self):
        self.assertEqual(self.replies("hprof "), COMMANDS | {"help"})
        self.assertEqual(self.replies("hprof his"), {"histo"})
        self.assertEqual(self.replies("hprof help "), COMMANDS)

    def test_arguments(self):
        self.assertEqual(self.replies("hprof objects "), TYPES)
        self.assertEqual(self.replies("hprof why "), set())
        self.assertEqual(self.replies("hprof join "), {"dumps/"})
        for line in ("hprof check f", "hprof why 1 f", "hprof objects byte[] f", "hprof diff f", "hprof diff a f", "hprof join a f"):
            self.assertIn("friday.hprof", self.replies(line), line)
        self.assertEqual(self.replies("hprof diff a b "), set())

    def test_a_size_is_no_argument(self):
        self.assertEqual(self.replies("hprof check --m"), {"--memory"})
        self.assertEqual(self.replies("hprof help --m"), set())
        for size in ("--memory 1M", "--memory=1M"):
            self.assertEqual(self.replies(f"hprof objects {size} "), TYPES, size)
            self.assertIn("friday.hprof", self.replies(f"hprof objects byte[] {size} f"), size)
            self.assertEqual(self.replies(f"hprof join {size} "), {"dumps/"}, size)
            self.assertEqual(self.replies(f"hprof diff a {size} b "), set(), size)


@unittest.skipUnless(which("zsh"), "no zsh")
class Zsh(Folder):
    def completed(self, begun):
        """What lines become at a terminal, when the key Tab is pressed behind each."""
        pid, terminal = pty.fork()
        if not pid:
            try:
                os.chdir(self.folder)
                os.execvp("zsh", ["zsh", "-f", "-i"])
            finally:
                os._exit(127)
        reader = threading.Thread(target=read_to_end, args=(terminal,))
        reader.start()
        try:
            os.write(terminal, (ZSH % shlex.quote(str(FOLDER))).encode())
            self.wait_for(1)
            for number, line in enumerate(begun, 2):
                os.write(terminal, f"{line}\t\x14".encode())
                self.wait_for(number)
            return self.wait_for(len(begun) + 1)[1:]
        finally:
            os.kill(pid, signal.SIGKILL)
            os.waitpid(pid, 0)
            reader.join()
            os.close(terminal)

    def wait_for(self, number):
        """The lines that zsh has kept, once there are so many."""
        kept, end = self.folder / ".kept", time.monotonic() + 20
        while time.monotonic() < end:
            lines = kept.read_text().splitlines() if kept.exists() else []
            if len(lines) == number:
                return lines
            time.sleep(0.01)
        raise AssertionError(f"zsh does not answer: {lines}")

    def test_lines(self):
        lines = {
            "hprof sal": "hprof salvage ",
            "hprof his": "hprof histo ",
            "hprof --v": "hprof --version ",
            "hprof check --h": "hprof check --help ",
            "hprof help his": "hprof help histo ",
            "hprof objects by": "hprof objects byte\\[\\] ",
            "hprof objects byte\\[\\] f": "hprof objects byte\\[\\] friday.hprof ",
            "hprof check f": "hprof check friday.hprof ",
            "hprof check friday.hprof m": "hprof check friday.hprof monday.hprof ",
            "hprof check n": "hprof check notes.txt ",
            "hprof check tw": "hprof check two\\ words.hprof ",
            "hprof why f": "hprof why f",
            "hprof why 1 f": "hprof why 1 friday.hprof ",
            "hprof join d": "hprof join dumps/",
            "hprof join f": "hprof join f",
            "hprof join out f": "hprof join out friday.hprof ",
            "hprof diff a f": "hprof diff a friday.hprof ",
            "hprof diff a b f": "hprof diff a b f",
            "hprof check --m": "hprof check --memory=",
            "hprof help --m": "hprof help --m",
            "hprof check --memory f": "hprof check --memory f",
            "hprof objects --memory 1M by": "hprof objects --memory 1M byte\\[\\] ",
            "hprof join --memory=1M out f": "hprof join --memory=1M out friday.hprof ",
            "hprof join out --memory 1M f": "hprof join out --memory 1M friday.hprof ",
        }
        self.assertEqual(dict(zip(lines, self.completed(list(lines)))), lines)


class Words(unittest.TestCase):
    """That a completion which differs from the program is a fault."""

    def faults(self, name, old, new):
        text = (FOLDER / name).read_text()
        self.assertIn(old, text)
        return list(completions.faults_of(name, text.replace(old, new), completions.commands()))

    def test_they_have_no_fault(self):
        self.assertEqual({path.name for path in FOLDER.iterdir()}, {"hprof.bash", "_hprof", "hprof.fish"})
        self.assertEqual(list(completions.completions()), [])

    def test_a_command_that_is_missing(self):
        self.assertEqual(self.faults("hprof.bash", "biggest objects", "biggest"), ["hprof.bash: objects in kinds"])
        self.assertEqual(self.faults("_hprof", "(biggest objects)", "(biggest)"), ["_hprof: objects in kinds"])
        self.assertEqual(self.faults("hprof.fish", "kinds biggest objects", "kinds biggest"), ["hprof.fish: objects in kinds"])

    def test_a_command_that_is_not_there(self):
        self.assertEqual(self.faults("hprof.bash", "pairs='diff'", "pairs='diff frob'"), ["hprof.bash: frob in pairs"])
        self.assertEqual(self.faults("_hprof", "pairs=(diff)", "pairs=(diff frob)"), ["_hprof: frob in pairs"])
        self.assertEqual(self.faults("hprof.fish", "pairs diff", "pairs diff frob"), ["hprof.fish: frob in pairs"])

    def test_another_line_of_help(self):
        for name in ("_hprof", "hprof.fish"):
            lines = self.faults(name, "by retained size'", "by size'")
            self.assertEqual({line.split(":")[1] for line in lines}, {" biggest", " retained"}, name)

    def test_types_and_options(self):
        for name in ("hprof.bash", "_hprof", "hprof.fish"):
            self.assertEqual(self.faults(name, "int[]", "integer[]"), [f"{name}: type int[]", f"{name}: type integer[]"])
        self.assertEqual(self.faults("hprof.fish", "-s V -l version", "-s v -l version"),
                         ["hprof.fish: option -V --version", "hprof.fish: option -v --version"])

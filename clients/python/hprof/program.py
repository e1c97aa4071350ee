"""The program: where it is, how it is started, and why it ended."""

import os
import re
import shutil
import subprocess
import threading
from typing import Any, List, Optional, Sequence, Union

from .errors import Error, ProgramEnded, ProgramMissing, refusal

FileName = Union[str, "os.PathLike[str]"]
# No refusal is longer; more of standard error is passed over.
SAID = 4096
# How long a program may take to end once its pipes are closed.
PATIENCE = 10.0
STANDARD_INPUT = ("/dev/stdin", "/dev/fd/0", "/proc/self/fd/0")
DESCRIPTOR = re.compile(r"/(?:dev/fd|proc/self/fd)/([0-9]+)")


def found(program: Optional[FileName]) -> str:
    """The program: the one that is named, or that of the variable HPROF, or `hprof` of PATH. Raises ProgramMissing."""
    name = os.fspath(program) if program is not None else os.environ.get("HPROF") or "hprof"
    path = shutil.which(name)
    if path is None:
        raise ProgramMissing(f"no program {name!r}; name it with program=, the variable HPROF, or have it in PATH")
    return path


class Running:
    """A running program, and what it says on standard error."""

    def __init__(self, program: Optional[FileName], words: Sequence[str], parts: Sequence[FileName], **pipes: Any) -> None:
        command = found(program)
        copies: List[int] = []
        names = [part_word(os.fspath(part), copies) for part in parts]
        kept = [int(match.group(1)) for match in map(DESCRIPTOR.fullmatch, names) if match and os.path.exists(match.group())]
        try:
            # In a session of its own Control-C does not end it: the heap does, in its own time.
            self.process = subprocess.Popen(
                [command, *words, *names], stderr=subprocess.PIPE, bufsize=0, pass_fds=kept, start_new_session=True, **pipes
            )
        except OSError as fault:
            raise ProgramMissing(f"{command}: {fault.strerror}") from fault
        finally:
            for copy in copies:
                os.close(copy)
        self.said = b""
        self.listener = threading.Thread(target=self.listen, daemon=True)
        self.listener.start()

    def listen(self) -> None:
        """Keeps the first bytes of standard error, and passes over the others."""
        assert self.process.stderr is not None
        with self.process.stderr as pipe:
            for piece in iter(lambda: pipe.read(SAID), b""):
                self.said = (self.said + piece)[:SAID]

    def wait(self) -> int:
        """Waits for the end of a program whose pipes are closed, and returns its status. One that does not end is ended."""
        for end in (self.process.terminate, self.process.kill):
            try:
                return self.settled()
            except subprocess.TimeoutExpired:
                end()
        return self.settled()

    def settled(self) -> int:
        status = self.process.wait(PATIENCE)
        self.listener.join(PATIENCE)
        return status

    def end(self) -> None:
        """Ends the program at once, and waits for that."""
        self.process.terminate()
        self.wait()

    def fault(self) -> Error:
        """Why the program ended: its refusal, or how it ended without one. Waits for its end."""
        status = self.wait()
        line = self.said.decode("utf-8", "replace").split("\n")[0]
        if status in (1, 2) and line.startswith("hprof: "):
            return refusal(line[len("hprof: ") :])
        return ProgramEnded(status, line)


def part_word(part: str, copies: List[int]) -> str:
    """The word of a part: not taken for an option, nor for the standard input of the program, which has the questions."""
    if part in STANDARD_INPUT:
        copies.append(os.dup(0))
        return f"/dev/fd/{copies[-1]}"
    return "./" + part if part.startswith("-") else part

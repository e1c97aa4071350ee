"""What grew from one dump to another: `hprof diff`, run once, with its lines in a file that has no name."""

import os
import subprocess
import tempfile

from hprof.answers import Answer, Stream
from hprof.lines import Lines
from hprof.program import Running

from .names import LABELLED
from .program import Program


class Growth:
    """`settled` is set once both dumps were read, or one was refused."""

    def __init__(self, hprof, old, new):
        self.lines = tempfile.TemporaryFile()
        running = Running(hprof, ["diff"], [old, new], stdin=subprocess.DEVNULL, stdout=self.lines)
        self.program = Program(running, [old, new])
        self.places = self.program.places
        self.settled = self.program.ended

    def is_refused(self):
        """Whether a dump was refused, once both are settled."""
        return bool(self.program.process.returncode)

    def fault(self):
        """Why hprof ended."""
        return self.program.running.fault()

    def read(self, reader):
        """What the reader makes of the lines."""
        if self.is_refused():
            raise self.fault()
        return reader(Lines(Answer(Stream(self.pieces())), LABELLED))

    def pieces(self):
        """A function that reads on in the lines, with the empty line behind them that an answer of `ask` has."""
        place, done = 0, False

        def read(size):
            nonlocal place, done
            piece = os.pread(self.lines.fileno(), size, place)
            place += len(piece)
            if not piece and not done:
                done, piece = True, b"\n"
            return piece

        return read

    def end(self):
        self.program.end()
        self.lines.close()

"""An answer of `hprof ask`, gone over as it comes.

Nothing of an answer is kept but what is asked for: some of its lines, and of a long line a window. So memory does not grow with the
answer. An answer ends with an empty line, and has no other.
"""

from typing import Callable, Iterator, List, Optional, Pattern

from .errors import UnexpectedAnswer

PIECE = 1 << 20
# The bytes of the lines that are made text at once.
SOME = 1 << 14
# The bytes of a line that is looked through, and a limit that cuts no line.
LONGEST, WHOLE = 1 << 20, 1 << 62


class Ended(Exception):
    """The program closed a pipe."""


class Stream:
    """Bytes that come in pieces, and those of them that were not taken yet.

    `settled` is False while a line is taken: if that is broken off, nobody knows where the next line begins. `ended` is True once no more
    comes."""

    def __init__(self, read: Callable[[int], bytes]) -> None:
        self.read = read
        self.held = b""
        self.place = 0
        self.settled = True
        self.ended = False

    def check(self) -> None:
        """Raises Ended if no more comes, and UnexpectedAnswer if nobody knows where the next line begins."""
        if self.ended:
            raise Ended
        if not self.settled:
            raise UnexpectedAnswer("an answer that was not read to its end")

    def more(self) -> None:
        """Waits for the next piece."""
        before, self.settled = self.settled, False
        piece = self.read(PIECE)
        if not piece:
            self.ended = True
            raise Ended
        self.held = self.held[self.place :] + piece
        self.place = 0
        self.settled = before

    def next_byte(self) -> int:
        if self.place == len(self.held):
            self.more()
        return self.held[self.place]


class Answer:
    """One answer, line by line."""

    def __init__(self, stream: Stream) -> None:
        self.stream = stream
        self.over = False
        self.closed = False
        self.returnable = 0

    def is_over(self) -> bool:
        """Whether no line is left. To be asked at the start of a line."""
        if self.closed:
            raise ValueError("the answer was left: its lines can be read within its block alone")
        self.stream.check()
        if not self.over and self.stream.next_byte() == 10:
            self.stream.place += 1
            self.over = True
        return self.over

    def line(self, start: int = 0, limit: int = LONGEST) -> Optional[bytes]:
        """The next line, of it the bytes from `start` on, at most `limit`. None if no line is left."""
        if self.is_over():
            return None
        stream, passed, self.returnable = self.stream, 0, 0
        kept: List[bytes] = []
        stream.settled = False
        while True:
            end = stream.held.find(b"\n", stream.place)
            stop = len(stream.held) if end < 0 else end
            first, last = max(start - passed, 0), max(start + limit - passed, 0)
            kept.append(stream.held[min(stream.place + first, stop) : min(stream.place + last, stop)])
            passed += stop - stream.place
            stream.place = stop
            if end >= 0:
                stream.place += 1
                stream.settled = True
                return b"".join(kept)
            stream.more()

    def some(self, limit: int = WHOLE) -> List[str]:
        """The next lines as text, of each at most `limit` bytes: some of those that have come already, or one. None if no line is left."""
        if self.is_over():
            return []
        held, place = self.stream.held, self.stream.place
        last = held.find(b"\n\n", place, place + SOME)
        stop = last + 1 if last >= 0 else held.rfind(b"\n", place, place + SOME) + 1
        if stop <= place:
            line = self.line(limit=limit)
            return [] if line is None else [text_of(line)]
        self.stream.place = stop
        found = text_of(held[place : stop - 1]).split("\n")
        self.returnable = len(found)
        return [line[:limit] for line in found] if limit < SOME else found

    def back(self, count: int) -> None:
        """Gives the last lines of `some` back, so that they are still to come."""
        if count > self.returnable:
            raise ValueError("a line that was cut cannot be given back")
        place = self.stream.place
        for _ in range(count):
            place = self.stream.held.rfind(b"\n", 0, place - 1) + 1
        self.stream.place = place
        self.returnable -= count

    def only(self, most: int) -> Optional[bytes]:
        """The line that is left alone, of at most so many bytes. None of any other. No line is taken."""
        if self.is_over():
            return None
        stream = self.stream
        while True:
            end = stream.held.find(b"\n", stream.place, stream.place + most + 1)
            if end < 0 and len(stream.held) > stream.place + most:
                return None
            if 0 <= end < len(stream.held) - 1:
                return stream.held[stream.place : end] if stream.held[end + 1] == 10 else None
            stream.more()

    def skip(self, count: int) -> int:
        """Passes over so many lines, and returns the number that there were."""
        passed, self.returnable = 0, 0
        while passed < count and not self.is_over():
            found = self.skip_held(count - passed)
            if not found:
                self.line(limit=0)
            passed += found or 1
        return passed

    def whole_lines(self) -> int:
        """Where the whole lines of this answer end that have come already."""
        held, place = self.stream.held, self.stream.place
        last = held.find(b"\n\n", place)
        return last + 1 if last >= 0 else max(held.rfind(b"\n", place) + 1, place)

    def skip_held(self, count: int) -> int:
        """Passes over whole lines that have come already, at most `count`, and returns their number."""
        held, place, stop = self.stream.held, self.stream.place, self.whole_lines()
        found = held.count(b"\n", place, stop)
        if found > count:
            for _ in range(count):
                place = held.index(b"\n", place) + 1
            stop, found = place, count
        self.stream.place = stop
        return found

    def rest(self) -> int:
        """Passes over all lines that are left, and returns their number."""
        return self.skip(WHOLE)

    def found(self, pattern: Pattern[bytes]) -> Iterator[bytes]:
        """Each line that is left in which the pattern is found. It looks at all that has come at once, and not line by line."""
        self.returnable = 0
        while not self.is_over():
            held, place, stop = self.stream.held, self.stream.place, self.whole_lines()
            if stop == place:
                line = self.line()
                if line is not None and pattern.search(line):
                    yield line
                continue
            self.stream.place = stop
            while place < stop:
                match = pattern.search(held, place, stop)
                if not match:
                    break
                start, end = held.rfind(b"\n", place, match.start()) + 1, held.index(b"\n", match.end())
                yield held[max(start, place) : end]
                place = end + 1

    def close(self) -> None:
        """Lets nobody read on."""
        self.closed = True


def text_of(data: bytes) -> str:
    """The text of lines, which are printable ASCII and line ends."""
    text = data.decode("ascii", "backslashreplace")
    if len(text) != len(data) or not text.replace("\n", "").isprintable():
        raise UnexpectedAnswer(text)
    return text

"""Names that a person looks for."""

import re

from hprof.names import escaped

from .class_names import written

# The characters of a word that are looked for, and those of a line that are kept where labels are told apart.
LONGEST = 1000
LABELLED = LONGEST + 100


def pattern_of(printed):
    """Texts that have this part, whatever the case. A dot and a slash are one."""
    return re.compile("[./]".join(re.escape(part) for part in re.split(r"[./]", printed)), re.IGNORECASE)


class Wanted:
    """Printed names that have a word as a part, as people write them or as the JVM does. A `*` in the word stands for any text."""

    def __init__(self, word):
        pieces = [piece for piece in escaped(word).split("*") if piece]
        self.pieces = [pattern_of(piece) for piece in pieces]
        names = [re.sub(r"[\[\]]+", "", piece) for piece in pieces]
        # What a line of a report has if its name is wanted: the longest piece. Arrays of numbers have no name in it.
        longest = max(names, key=len, default="")
        in_line = pattern_of(longest).pattern + r"|\[[ZCFDBSIJ]$" if longest else ""
        self.in_line = re.compile(in_line.encode("ascii"), re.IGNORECASE | re.MULTILINE)

    def in_text(self, text):
        """Whether a text has the pieces, one behind the other."""
        place = 0
        for piece in self.pieces:
            match = piece.search(text, place)
            if not match:
                return False
            place = match.end()
        return True

    def in_name(self, label):
        return self.in_text(label) or self.in_text(written(label))

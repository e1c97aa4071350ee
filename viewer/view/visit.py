"""A visit to a page: the words of its address, the heap, and the frame to put the page in."""

import re

NUMBER = re.compile(r"0|[1-9][0-9]{0,11}")


class Missing(Exception):
    """An address that no page has."""


class Visit:
    def __init__(self, frame, words, heap=None, growth=None):
        self.frame = frame
        self.words = words
        self.heap = heap
        self.growth = growth

    def number(self, name="page", least=1):
        """The number of a page; 1 where the address has none. Lesser numbers than `least` are those of no page."""
        word = self.words.get(name, "1")
        if not NUMBER.fullmatch(word) or int(word) < least:
            raise Missing
        return int(word)

    def ask(self, *wanted):
        return self.heap.ask(wanted)

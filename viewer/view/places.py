"""How much of its dumps a process has read: the places of its open files. Linux tells them under /proc; elsewhere nothing is told."""

import os


def identity(path):
    """The file that a path leads to, so that two paths of one file are told as one; its size is 0 where it has none, as a pipe."""
    try:
        found = os.stat(path)
    except OSError:
        return None, 0
    return (found.st_dev, found.st_ino), found.st_size


class Places:
    """The reader's place in each part, in order. A part that was open and is so no longer was read whole."""

    def __init__(self, process, parts):
        self.folder = f"/proc/{process}"
        self.parts = [identity(part) for part in parts]
        self.furthest = [0] * len(self.parts)
        self.seen = [False] * len(self.parts)

    def total(self):
        return sum(size for _, size in self.parts)

    def read(self):
        """The bytes that were read so far of all parts, never less than before."""
        found = self.open_places()
        for index, (file, size) in enumerate(self.parts):
            if found.get(file):
                place = found[file].pop(0)
                self.seen[index] = True
                self.furthest[index] = max(self.furthest[index], min(place, size))
            elif self.seen[index]:
                self.furthest[index] = size
        return sum(self.furthest)

    def open_places(self):
        """The places of the open files, by file, in the order in which they were opened."""
        found = {}
        try:
            numbers = sorted(int(name) for name in os.listdir(f"{self.folder}/fd"))
        except OSError:
            return found
        for number in numbers:
            if number > 2:
                file, _ = identity(f"{self.folder}/fd/{number}")
                place = self.place(number)
                if file is not None and place is not None:
                    found.setdefault(file, []).append(place)
        return found

    def place(self, number):
        try:
            with open(f"{self.folder}/fdinfo/{number}", encoding="ascii") as lines:
                return int(next(line for line in lines if line.startswith("pos:")).split()[1])
        except (OSError, StopIteration, ValueError):
            return None

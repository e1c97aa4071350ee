"""Asks hprof about Java heap dumps, and answers with typed values.

    with hprof.open("friday.hprof") as heap:
        for row in heap.histogram()[:10]:
            print(row.bytes, row.count, row.label)
"""

from .contents import ClassDump, Constant, Contents, Field, Instance, ObjectArray, Own, PrimitiveArray, Static
from .counts import Check, ClassRow, Growth, HistogramRow, Part, RetainedRow, SizedObject
from .errors import (
    CannotOpen,
    Conflict,
    Error,
    IdSizesDiffer,
    Malformed,
    NoSuchClass,
    NothingAt,
    NotUnderstood,
    OutOfMemory,
    ProgramEnded,
    ProgramMissing,
    ReadFailed,
    Refused,
    SeveralClasses,
    UnexpectedAnswer,
)
from .heap import Heap, diff, open
from .holding import Keeps, Kept, Piece, Size, Suspect, Suspects
from .lines import Rows
from .names import Id, Name
from .nodes import Frame, Node, Reference, Root
from .paths import Path, Step, Why
from .referrers import Holder, Referrer, Sum, Who
from .shown import Entry, Referred, Section, Show
from .threads import HeldAt, StackFrame, Thread

__version__ = "0.1.0"
__all__ = [
    "CannotOpen", "Check", "ClassDump", "ClassRow", "Conflict", "Constant", "Contents", "Entry", "Error", "Field", "Frame",
    "Growth", "Heap", "HeldAt", "HistogramRow", "Holder", "Id", "IdSizesDiffer", "Instance", "Keeps", "Kept", "Malformed", "Name",
    "NoSuchClass", "Node", "NotUnderstood", "NothingAt", "ObjectArray", "OutOfMemory", "Own", "Part", "Path", "Piece",
    "PrimitiveArray", "ProgramEnded", "ProgramMissing", "ReadFailed", "Reference", "Referred", "Referrer", "Refused",
    "RetainedRow", "Root", "Rows", "Section", "SeveralClasses", "Show", "Size", "SizedObject", "StackFrame", "Static", "Step", "Sum",
    "Suspect", "Suspects", "Thread", "UnexpectedAnswer", "Who", "Why", "diff", "open",
]

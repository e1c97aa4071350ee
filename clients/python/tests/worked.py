"""The texts of reports in the table of worked cases. They are written by hand there, and the gate compares the program with them."""

import re

from .support import WORKED

CALL = re.compile(r"(check|histo|classes|threads|suspects|retained|diff|show|why|who|keeps|text|object|refs|path|objects|biggest) (.*)")
SUBJECTS = ("show", "why", "who", "keeps", "text", "object", "refs", "path", "objects", "biggest")


def texts():
    """Each report with its subject and its text; only those whose text stands there line by line."""
    calls, lines, is_answer, whole = [], [], False, True
    for row in [*WORKED.read_text(encoding="utf-8").split("\n"), ""]:
        if is_answer and row.startswith("> ") and not row.startswith("> ..."):
            lines.append(row[2:])
        elif is_answer and row[:1] in (":", ">", "!"):
            whole = False
        elif row.startswith("= "):
            is_answer, whole = True, row == "= done"
        else:
            if is_answer and whole:
                yield from ((report, subject, "".join(line + "\n" for line in lines)) for report, subject in calls)
            if is_answer or row.startswith("=="):
                calls, lines, is_answer, whole = [], [], False, True
            match = CALL.fullmatch(row)
            if match:
                calls.append((match.group(1), match.group(2).split(" ")[0] if match.group(1) in SUBJECTS else None))

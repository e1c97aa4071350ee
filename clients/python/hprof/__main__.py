"""The command: `python3 -m hprof REPORT [WORD] DUMP.. --json`."""

import argparse
import os
import re
import sys
from typing import Any, List, NoReturn, Optional, Tuple

from . import diff, open
from .document import document
from .errors import Error
from .reports import BY_WORD, REPORTS

NUMBER = re.compile(r"(?:0[xX])?([0-9a-fA-F]{1,16})")
ABOUT = """REPORT is %s or diff. WORD is an identifier, with or without 0x, or the name of a class; of biggest and objects also a
type, as byte[]. diff takes OLD and NEW. The program is that of --program, of the variable HPROF, or hprof of PATH."""


def subject_of(word: str, takes: str, words: argparse.ArgumentParser) -> Any:
    """The identifier or the name that a word is."""
    match = NUMBER.fullmatch(word)
    if match is not None:
        return int(match.group(1), 16)
    if takes == "id":
        words.error(f"not an identifier: {word}")
    return word


def value_of(found: argparse.Namespace, words: argparse.ArgumentParser) -> Any:
    """The value of the report that the words ask for."""
    if found.report == "diff":
        if len(found.words) != 2:
            words.error("diff takes two dumps")
        return diff(*found.words, program=found.program)
    takes = BY_WORD[found.report].takes
    if len(found.words) < (2 if takes else 1):
        words.error(f"{found.report} takes {'a word and ' if takes else ''}a dump")
    subject: Tuple[Any, ...] = (subject_of(found.words[0], takes, words),) if takes else ()
    with open(*found.words[len(subject) :], program=found.program) as heap:
        return getattr(heap, BY_WORD[found.report].method)(*subject)


def run(given: Optional[List[str]] = None) -> None:
    """Prints the document of a report."""
    reports = [report.word for report in REPORTS]
    about = ABOUT % ", ".join(reports)
    words = argparse.ArgumentParser(prog="python3 -m hprof", description="Prints a report of a heap dump as JSON.", epilog=about)
    words.add_argument("report", metavar="REPORT", choices=[*reports, "diff"])
    words.add_argument("words", metavar="WORD", nargs="+")
    words.add_argument("--json", action="store_true", required=True, help="print one JSON document, the only form that there is")
    words.add_argument("--program", metavar="PROGRAM", help="the program hprof")
    found = words.parse_intermixed_args(given)
    print(document(value_of(found, words)), flush=True)


def main() -> NoReturn:
    """Runs the command, and exits with its status."""
    try:
        run()
    except Error as fault:
        sys.exit(f"hprof: {fault}")
    except BrokenPipeError:
        os.dup2(os.open(os.devnull, os.O_WRONLY), 1)
        sys.exit("hprof: write failed")
    except KeyboardInterrupt:
        sys.exit(130)
    sys.exit(0)


if __name__ == "__main__":
    main()

"""The reports that `hprof ask` answers: their words, their subjects, and how an answer is read."""

from typing import Any, Callable, Dict, List, NamedTuple, Sequence, Union

from . import contents, counts, holding, paths, referrers, shown, texts, threads
from .answers import WHOLE
from .dialogue import Reading
from .errors import Refused, SeveralClasses, refusal
from .lines import Lines, Rows, line
from .names import word_of
from .nodes import node_of

Subject = Union[int, str]
Question = Union[str, Sequence[Any]]
NOTHING, NO_ANSWERS = "nothing at ", ("not understood", "not an identifier", "no class has this name")
# No refusal of a question is longer.
LONGEST = 64
SEVERAL, NODE = line(r"\d+ classes have this name"), line("ID .*")


class Report(NamedTuple):
    """A report: its word, the method of a heap, what follows the word, and the reader of its lines. What follows is nothing, `kind`, `id`,
    or `node` for an identifier or a name. The reader returns the value of the report, or with `has_rows` the rows that are all of it."""

    word: str
    method: str
    takes: str
    read: Callable[[Lines], Any]
    has_rows: bool = False


REPORTS = (
    Report("check", "check", "", counts.check),
    Report("histo", "histogram", "", counts.histogram, True),
    Report("classes", "classes", "", counts.classes, True),
    Report("threads", "threads", "", threads.threads),
    Report("suspects", "suspects", "", holding.suspects),
    Report("retained", "retained", "", counts.retained, True),
    Report("biggest", "biggest", "kind", holding.biggest, True),
    Report("objects", "objects", "kind", counts.objects, True),
    Report("show", "show", "node", shown.show),
    Report("why", "why", "node", paths.why),
    Report("who", "who", "node", referrers.who),
    Report("keeps", "keeps", "node", holding.keeps),
    Report("text", "text", "id", texts.text),
    Report("object", "object", "id", contents.contents),
    Report("refs", "refs", "id", referrers.refs, True),
    Report("path", "path", "id", paths.path),
)
BY_WORD: Dict[str, Report] = {word: report for report in REPORTS for word in (report.word, report.method)}


class Asked(NamedTuple):
    """A question: its report, its line without the end, and whether it asks about a name."""

    report: Report
    line: str
    by_name: bool

    def read(self, answer: Union[str, Lines]) -> Any:
        """The value of an answer, or raises the refusal that it is."""
        lines = Lines(answer) if isinstance(answer, str) else answer
        self.accept(lines)
        return whole(self.report.read(lines))

    def accept(self, lines: Lines) -> None:
        """Raises the refusal that an answer is. It takes no line of another answer."""
        only = lines.only(LONGEST)
        if only is not None and (only in NO_ANSWERS or only.startswith(NOTHING)):
            raise refusal(only)
        match = lines.next_is(SEVERAL) if self.by_name and self.report.takes == "node" else None
        if match is not None:
            raise several(match.group(), lines)

    def reading(self, read: Callable[[Lines], Any], limit: int = WHOLE) -> Reading:
        """The question, and what is made of the lines of its answer. In place of that stands the refusal that an answer is."""

        def outcome(lines: Lines) -> Any:
            try:
                self.accept(lines)
                return whole(read(lines))
            except Refused as refused:
                return refused

        return Reading(self.line, outcome, limit)


def whole(found: Any) -> Any:
    """The value of a report whose reader returns rows: all of them."""
    return tuple(found) if isinstance(found, Rows) else found


def several(text: str, lines: Lines) -> SeveralClasses:
    """The refusal of a name that several classes have."""
    found = SeveralClasses(text)
    found.nodes = tuple(Rows(lines, NODE, lambda match: node_of(match.group())))
    return found


def asked(question: Question) -> Asked:
    """The question of a word, or of a word and its subject. Raises ValueError or TypeError if it is none."""
    words: List[Any] = [question] if isinstance(question, str) else list(question)
    report = BY_WORD.get(words[0]) if words else None
    if report is None:
        raise ValueError(f"no report: {question!r}")
    if len(words) != (2 if report.takes else 1):
        raise ValueError(f"{report.word} takes {'one subject' if report.takes else 'no subject'}: {question!r}")
    if not report.takes:
        return Asked(report, report.word, False)
    by_name = isinstance(words[1], str)
    if by_name and report.takes == "id":
        raise TypeError(f"{report.word} takes an identifier, which is an int: {words[1]!r}")
    return Asked(report, f"{report.word} {word_of(words[1])}", by_name)

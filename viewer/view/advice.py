"""The refusals of hprof that the viewer may meet, and for each of them its cause and what helps, as README has them."""

import re

SALVAGE = "hprof salvage OUT PART.."
MEMORY = 'see "Memory and speed" in README'
ADVICE = (
    (r"part \d+: malformed at 0: BadMagic", "not a heap dump; often one that is compressed", "hprof check <(zcat heap.hprof.gz)"),
    (r"part \d+: malformed at 0: Truncated", "an empty file, or its first bytes alone", "write the dump again"),
    (r"part \d+: malformed at \d+: Truncated", "the dump was cut short", SALVAGE),
    (r"part \d+: malformed at \d+: .*", "another record is wrong; the reasons stand in docs/FORMAT.md", SALVAGE),
    (r"cannot open part \d+", "no such file, or no permission, or too many open files", "see the name; ulimit -n"),
    (r"part \d+: read failed", "{part} is a folder, or the disk failed", "name a file"),
    (r"read failed", "the questions of ask could not be read", "see where they come from"),
    (r"(part \d+: )?conflict at .*", "two dumps were given as parts of one", "ask each alone; hprof diff OLD NEW"),
    (r"identifier sizes differ", "dumps of two machines were given as parts of one", "ask each alone"),
    (r"the words are no text", "a word is not UTF-8, often the name of a file", "give the file another name"),
    (r"no parts", "no part was named, or salvage found no whole header", "name one"),
    (r"(part \d+: )?out of memory", "the system gave no more memory", MEMORY),
    (r"write failed", "the disk is full, or the reader of the output closed it (head)", "make room; sed -n 1,10p in place of head"),
)
UNKNOWN = ("hprof ended before it had answered", "start the viewer again, or run hprof check PART.. by itself")
KILLED = ("the system ended hprof; often it has no more memory", MEMORY)


def advice(line):
    """The cause of a refusal and what helps, of the line that hprof wrote."""
    text = line[len("hprof: ") :] if line.startswith("hprof: ") else line
    for pattern, cause, help in ADVICE:
        if re.fullmatch(pattern, text):
            return cause.format(part=text.partition(":")[0]), help
    return KILLED if "signal" in text else UNKNOWN

"""Reads files of rows: inputs of the programs, each with its answer.

The first line of a file, after comments, is `programs:` with the arguments of each run, the program's name first, separated by
`|`. Each row begins with `== NAME`. Its input follows, then a line that begins with `--`, and the answer:

    --                  the status is 0, and standard output has the lines below
    -- 3                the same with another status
    -- 2 line 1: ..     the same with this line on standard error
    -- counts           for a race: the number of outcomes, and the sum of their steps
    -- line N           a table: each line below is `LINES => WHY`. LINES, separated by ` ; `, replace the line `...` of the
                        input, which is then refused with `line N: WHY`, or accepted if WHY is `read`
    -- overlap          a table of scripts: `read`, or the line that reports the overlap
    -- last             a table of schedules: the last line of the answer
    -- words            a table: `WORDS => ANSWER`, with the arguments, and what the program writes, or `usage`. `""` is an empty word

A line that begins with `%` is a comment; one empty line before a row is ignored. `\\t`, `\\r`, `\\\\` and `\\xHH` stand for bytes, and a
`\\` at the end of a line for the end of the input.
"""

import re
from typing import NamedTuple

ESCAPE = re.compile(rb"\\(?:x([0-9a-f]{2})|([tr\\]))")
BYTES = {b"t": b"\t", b"r": b"\r", b"\\": b"\\"}
USAGE = b"usage: blkq run [WORKERS SLOTS TAGS] or blkq replay\n"


class Answer(NamedTuple):
    """What a run leaves: its status, what it writes, and its line on standard error."""

    status: int
    out: bytes
    error: bytes

    def differs(self, found):
        return found != self


class IsRead(NamedTuple):
    """An input that is answered, whatever the answer is; a schedule may be stuck."""

    def differs(self, found):
        return found.status not in (0, 3) or not found.out or found.error


class LastLine(NamedTuple):
    """The last line of an answer: that a schedule is stuck, or its end."""

    line: bytes

    def differs(self, found):
        status = 3 if self.line.startswith(b"stuck ") else 0
        return (found.status, found.out.splitlines()[-1:], found.error) != (status, [self.line], b"")


class Counts(NamedTuple):
    """How many outcomes a race has, and how many steps lead to them, all told."""

    text: str

    def differs(self, found):
        heads = [line.split() for line in found.out.decode().splitlines() if line.startswith("outcome ")]
        last = found.out.decode().splitlines()[-1:]
        steps = sum(int(words[3]) for words in heads)
        counts = f"outcomes {len(heads)} steps {steps}"
        return (counts, last, found.status, found.error) != (self.text, [f"outcomes {len(heads)}"], 0, b"")


class Row(NamedTuple):
    """An input, the words of each of its runs, and what each run is to leave."""

    name: str
    runs: list
    text: bytes
    wanted: NamedTuple


def byte_of(found):
    return bytes([int(found[1], 16)]) if found[1] else BYTES[found[2]]


def text_of(lines):
    """The bytes of these lines, each with a line feed but one that ends with a backslash of its own."""
    return b"".join(ESCAPE.sub(byte_of, line.encode() + b"\n") for line in lines).removesuffix(b"\\\n")


def lines_of(path):
    with open(path, encoding="utf-8") as file:
        return [line.rstrip("\n") for line in file if not line.startswith("%")]


def blocks_of(lines):
    """The name of each row, with the lines of its input, its line `--` and the lines of its answer."""
    starts = [at for at, line in enumerate(lines) if line.startswith("== ")] + [len(lines)]
    for at, end in zip(starts, starts[1:]):
        block = lines[at + 1 : end - 1]
        middle = next(place for place, line in enumerate(block) if line == "--" or line.startswith("-- "))
        yield lines[at].removeprefix("== "), block[:middle], block[middle].split()[1:], block[middle + 1 :]


def refusal(line):
    """An input that is refused, with this line."""
    return Answer(3 if "overlaps" in line else 2, b"", line.encode() + b"\n")


def row_of_table(kind, runs, block, entry):
    """The row of a line of a table."""
    name, lines = block
    left, _, right = entry.rpartition("=> ")
    left = left.removesuffix(" ")
    if kind[0] == "words":
        wanted = Answer(4, b"", USAGE) if right == "usage" else Answer(0, right.encode() + b"\n", b"")
        words = ["" if word == '""' else word for word in left.split()]
        return Row(f"{name}: {left}", [[runs[0][0], *words]], text_of(lines), wanted)
    at = lines.index("...")
    text = text_of([*lines[:at], *(left.split(" ; ") if left else ()), *lines[at + 1 :]])
    if right == "read":
        wanted = IsRead()
    elif kind[0] == "last":
        wanted = LastLine(right.encode())
    else:
        wanted = refusal(right if kind[0] == "overlap" else f"line {kind[1]}: {right}")
    return Row(f"{name}: {left}", runs, text, wanted)


def rows_of(path):
    """The rows of a file, each line of a table as one."""
    first, *rest = lines_of(path)
    runs = [words.split() for words in first.removeprefix("programs:").split("|")]
    for name, lines, kind, below in blocks_of([*rest, ""]):
        if kind and kind[0] in ("line", "overlap", "last", "words"):
            for entry in below:
                yield row_of_table(kind, runs, (name, lines), entry)
        elif kind == ["counts"]:
            yield Row(name, runs, text_of(lines), Counts(below[0]))
        else:
            status, error = int(kind[0]) if kind else 0, " ".join(kind[1:])
            wanted = Answer(status, text_of(below), (error + "\n").encode() if error else b"")
            yield Row(name, runs, text_of(lines), wanted)

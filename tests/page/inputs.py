"""Inputs for the page: the examples, the rows of tests/rows, and mutations of both, the same in each run."""

import pathlib
import random
import re
import subprocess
import sys
from typing import NamedTuple

ROOT = pathlib.Path(__file__).resolve().parents[2]
sys.path.insert(0, str(ROOT / "tests/rows"))

from rows import rows_of

KINDS = {".blkq": "script", ".gate": "schedule", ".races": "race"}
WORDS = {"blkq": "script", "replay": "schedule", "gate_races": "race"}
SEED = 7
SECONDS = 900


class Input(NamedTuple):
    name: str
    kind: str
    text: bytes


class Native(NamedTuple):
    """A program's status, and its answer or the line on standard error."""

    status: int
    text: bytes


def examples():
    """Each example with its answer file."""
    for path in sorted((ROOT / "examples").rglob("*")):
        if path.suffix in KINDS:
            yield Input(path.name, KINDS[path.suffix], path.read_bytes()), path.with_suffix(".answer").read_bytes()


def rows():
    for path in sorted((*(ROOT / "tests/rows").glob("*.rows"), *(ROOT / "tests/races/rows").glob("*.rows"))):
        for row in rows_of(path):
            word = "replay" if row.runs[0][1:2] == ["replay"] else row.runs[0][0]
            yield Input(row.name, WORDS[word], row.text)


def changed_number(line, some):
    spots = list(re.finditer(rb"[0-9]+", line))
    if not spots:
        return line
    spot = some.choice(spots)
    new = some.choice([b"0", b"1", b"2", b"3", b"8", b"65535", b"65536", b"4294967296", b"18446744073709551616", b"01", b"-1", b"x"])
    return line[: spot.start()] + new + line[spot.end() :]


def mutated(text, other, some):
    """Returns the text with one small change: of a line, a word, a number or a byte."""
    lines = text.split(b"\n")
    at = some.randrange(len(lines))
    match some.randrange(9):
        case 0:
            del lines[at]
        case 1:
            lines.insert(at, some.choice(other.split(b"\n")))
        case 2:
            lines[at] = changed_number(lines[at], some)
        case 3:
            words = lines[at].split(b" ")
            words[some.randrange(len(words))] = some.choice(other.split() or [b"c"])
            lines[at] = b" ".join(words)
        case 4:
            lines[at] += some.choice([b" 1", b" /", b" / kill", b" / put 0 1", b"\r", b"\t# a", b" \xff"])
        case 5:
            beside = some.randrange(len(lines))
            lines[at], lines[beside] = lines[beside], lines[at]
        case 6:
            return text[: some.randrange(len(text) + 1)]
        case 7:
            place = some.randrange(len(text) + 1)
            return text[:place] + bytes([some.choice([0, 9, 10, 13, 32, 35, 47, 48, 99, 128, 195, 255])]) + text[place:]
        case 8:
            return text.replace(b"\n", b"\r\n")
    return b"\n".join(lines)


def mutants(count):
    """Returns this many inputs, each kind equally often."""
    some = random.Random(SEED)
    seeds = [it for it, _ in examples()] + [it for it in rows() if len(it.text) < 4000]
    by_kind = {kind: [it for it in seeds if it.kind == kind] for kind in KINDS.values()}
    for index in range(count):
        kind = list(by_kind)[index % len(by_kind)]
        one, other = some.choice(by_kind[kind]), some.choice(by_kind[kind])
        text = mutated(one.text, other.text, some)
        while some.random() < 0.3:
            text = mutated(text, other.text, some)
        yield Input(f"mutant {index} of {one.name}", kind, text)


class Programs:
    """The native programs."""

    def __init__(self, queue, races):
        self.words = {"script": [queue, "run"], "schedule": [queue, "replay"], "race": [races]}

    def answer(self, given):
        done = subprocess.run(self.words[given.kind], input=given.text, capture_output=True, timeout=SECONDS, check=False)
        return Native(done.returncode, done.stdout or done.stderr.removesuffix(b"\n"))

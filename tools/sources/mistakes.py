"""Reads tables of mistakes: those that tests/planted plants, and the wrong bodies of a crate (crates/NAME/wrong.edits).

The first line of such a file describes what the mistakes are in. A mistake begins with a line '## NAME', and lines 'WORD: TEXT' follow.
'file: FILE' is the file to change; the default is that of the mistake before. A change is a line '--- old', the old text, a line '--- new', and
the new text. A line '--- in FILE' before a change names another file for it. With a line 'function: NAME' the old text is a pattern that occurs
once in this function of C.
"""

import contextlib
import pathlib
import re
from typing import NamedTuple


class Bad(Exception):
    """A mistake that can't be planted, and the reason."""


class Pair(NamedTuple):
    """A text of a file, and its replacement."""

    file: str
    old: str
    new: str

    def put_into(self, text):
        """The text with the mistake. The old text stands once in it."""
        if text.count(self.old) != 1:
            raise Bad(f"its text is {text.count(self.old)} times in {self.file}: {self.old.strip()[:60]}")
        return text.replace(self.old, self.new)


def put_into_function(text, name, pair):
    """The text with the mistake in this function: from the line with its name on, up to the brace that ends it."""
    found = re.search(rf"^[a-z][^\n;]*\b{name}\([^;]*?\n\{{.*?^\}}", text, re.M | re.S)
    if not found:
        raise Bad(f"{pair.file} has no function {name}")
    body, count = re.subn(pair.old, pair.new, found[0])
    if count != 1:
        raise Bad(f"{name} has {count} places of {pair.old}")
    return text[: found.start()] + body + text[found.end() :]


class Mistake(NamedTuple):
    """A mistake by its name, with the file of mistakes that has it, and its words."""

    name: str
    kind: str
    words: dict
    pairs: tuple

    @property
    def file(self):
        return self.words["file"]

    def put_into(self, text, pair):
        """The text with one pair of the mistake."""
        function = self.words.get("function")
        return put_into_function(text, function, pair) if function else pair.put_into(text)

    @contextlib.contextmanager
    def planted(self, folder):
        """The mistake is in the files of a folder until the end of the block."""
        right = {}
        try:
            for pair in self.pairs:
                path = pathlib.Path(folder, pair.file)
                text = path.read_text(encoding="utf-8", errors="surrogateescape")
                right.setdefault(path, text)
                path.write_text(self.put_into(text, pair), encoding="utf-8", errors="surrogateescape")
            yield
        finally:
            for path, text in right.items():
                path.write_text(text, encoding="utf-8", errors="surrogateescape")


def mistake_of(kind, part, file):
    """The mistake that a part of a file says, behind one in this file."""
    head, *texts = part.split("\n--- ")
    name, *lines = head.splitlines()
    words = {"file": file} | dict(line.split(": ", 1) for line in lines if line)
    file, old, pairs = words["file"], None, []
    for mark, _, text in (text.partition("\n") for text in texts):
        if mark == "old":
            old = text
        elif mark == "new":
            pairs.append(Pair(file, old, text.rstrip("\n")))
        else:
            file = mark.removeprefix("in ")
    return Mistake(name, kind, words, tuple(pairs))


def mistakes_of(path):
    """The mistakes of a file."""
    path, file = pathlib.Path(path), None
    for part in path.read_text(encoding="utf-8").split("\n## ")[1:]:
        mistake = mistake_of(path.stem, part, file)
        file = mistake.file
        yield mistake


def mistakes_in(folder, names=()):
    """The mistakes of a folder's files, or those that are named, or whose file is."""
    for path in sorted(pathlib.Path(folder).iterdir()):
        for mistake in mistakes_of(path):
            if not names or {mistake.name, mistake.kind} & {*names}:
                yield mistake

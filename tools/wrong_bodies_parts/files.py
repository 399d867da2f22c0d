"""Reads wrong bodies, from tables and from the files of the kit, and applies them to the texts of a crate."""

import os
import re

from sources.mistakes import Pair, mistakes_of


class CannotApply(Exception):
    """Why an edit doesn't fit the texts that it is for."""


class Edit:
    def __init__(self, crate, name, pairs):
        self.crate, self.name, self.pairs = crate, name, list(pairs)

    @property
    def label(self):
        return f"{self.crate}/{self.name}"


def pairs_of(text):
    """The pairs of one of the kit's files: its other lines are comments."""
    path, old = "", None
    for line in text.split("\n"):
        if line.startswith("file: "):
            path = line.removeprefix("file: ").strip()
        elif line.startswith("old: "):
            old = line.removeprefix("old: ")
        elif line.startswith("new:") and old is not None:
            yield Pair(path, old, line.removeprefix("new:").removeprefix(" "))
            old = None


def edits_of_kit(folder, crate):
    """The edits of a crate that stand in a folder, each in a file of the kit's, by name."""
    for file in sorted(os.listdir(folder)) if os.path.isdir(folder) else ():
        if file.endswith(".edit"):
            with open(f"{folder}/{file}", encoding="utf-8") as it:
                yield Edit(crate, file.removesuffix(".edit"), pairs_of(it.read()))


def edits_in(table, crate):
    """The edits of a crate that a table has, by name."""
    for it in sorted(mistakes_of(table)) if os.path.isfile(table) else ():
        yield Edit(crate, it.name, it.pairs)


class Texts:
    """The texts of a crate's files, of which edits change some."""

    def __init__(self, crate_folder, changed=()):
        self.crate_folder, self.changed = crate_folder, dict(changed)

    def read(self, path):
        if path in self.changed:
            return self.changed[path]
        if not re.match(r"(src|specs|proofs)/", path) or ".." in path:
            raise CannotApply(f"{path or 'no file'} is no file of src/, specs/ or proofs/")
        try:
            with open(f"{self.crate_folder}/{path}", encoding="utf-8") as it:
                return it.read()
        except OSError:
            raise CannotApply(f"there is no file {path}") from None

    def row(self, pair):
        """The line of the old text of a pair."""
        text = self.read(pair.file)
        if text.count(pair.old) != 1:
            raise CannotApply(f"an old text is {text.count(pair.old)} times in {pair.file}: {pair.old}")
        return text.count("\n", 0, text.index(pair.old)) + 1

    def with_pair(self, pair):
        self.row(pair)
        text = self.read(pair.file).replace(pair.old, pair.new)
        return Texts(self.crate_folder, {**self.changed, pair.file: text})

    def with_edit(self, edit):
        """These texts with an edit made in them."""
        if not edit.pairs:
            raise CannotApply("it has no old and new text")
        made = self
        for pair in edit.pairs:
            made = made.with_pair(pair)
        return made

"""Computes the sum for which the wrong bodies of a crate are refused: over everything that decides what the prover says about them, except
the machine. Comments, empty lines and the texts of errors of sources and edits don't change it, and neither do comments and docstrings of the code that judges,
or another kit with the same logic and statements."""

import functools
import hashlib
import json
import os
import re

from sources.rattle import files_in
from sources.statements import Item, statements_of, without_comments, words_of

HERE = os.path.dirname(os.path.realpath(__file__))
# The files here whose code tries edits and judges what the prover says; the others keep what it found.
JUDGING = ("files", "functions", "prover", "reasons", "trials")
# Whatever a crate names, it reads the kit's std, and what that passes on.
OF_STD = ("core", "std", "std_alloc", "std_collections", "std_heap", "std_io")
PARTS = ("src", "specs", "proofs")


class Sums:
    """Sums of the crates of a repository, over the kit that is there."""

    def __init__(self, kit):
        self.kit, self.stated = kit, {}

    def of(self, crate, edits):
        found = hashlib.sha256()
        below = sorted(crate.below(), key=lambda it: it.name)
        own, stated = list(texts_of(crate.folder)), [(it.name, self.stated_by(it.folder)) for it in below]
        texts = [*own, *(item for _, items in stated for item in items)]
        named = set().union(*(words_of(text) for _, text in texts))
        parts = [
            judging(),
            self.kit.logic(),
            kind_of(crate),
            own,
            [(it.name, list(map(words_in, it.pairs))) for it in edits],
            stated,
            self.said_by_kit({name for it in [crate, *below] for name in it.of_kit}, named),
        ]
        for part in parts:
            found.update(f"{json.dumps(part)}\n".encode())
        return found.hexdigest()[:32]

    def said_by_kit(self, crates, named):
        """What the kit's crates state of the things that have these names, and of what their definitions name in turn."""
        left = [it for name in sorted({*OF_STD, *crates}) for it in items_of_kit(self.kit, name)]
        words, taken = named, []
        while new := [it for it in left if it.names <= words]:
            taken += new
            left = [it for it in left if it.file.endswith(".antt") and not it.names <= words]
            words = words.union(*(it.words for it in new))
        return sorted((it.file, it.text) for it in taken)

    def stated_by(self, folder):
        """The texts of what a crate states, by file."""
        if folder not in self.stated:
            self.stated[folder] = [(it.file, it.text) for it in statements_of(folder)]
        return self.stated[folder]


@functools.lru_cache(maxsize=None)
def items_of_kit(kit, name):
    """The statements of one of the kit's crates, or the kit's name where it has no sources of it."""
    folder = kit.sources_of(name)
    if not folder:
        return [Item(name, (), kit.identity())]
    return [Item(f"{name}/{it.file}", it.names, it.text) for it in statements_of(folder)]


def texts_of(folder):
    """The path and the text of each file that a proof of the crate reads, without comments and texts of errors."""
    for part in PARTS:
        for path in files_in(f"{folder}/{part}", (".rt", ".antt")):
            with open(path, encoding="utf-8") as it:
                yield os.path.relpath(path, folder), "\n".join(without_comments(path, it.read()))


def kind_of(crate):
    """What a crate is and names: no other line of crates.txt counts."""
    kind = "program" if crate.is_program else "archive" if crate.is_static else "library"
    return crate.name, kind, sorted(crate.of_kit), sorted(it.name for it in crate.deps)


def words_in(pair):
    """The file of an edit's pair, and both its texts without comments."""
    return pair.file, *("\n".join(without_comments(pair.file, text)) for text in (pair.old, pair.new))


@functools.lru_cache(maxsize=None)
def judging():
    """The code that tries edits and judges what the prover says, without its comments and docstrings."""
    found = []
    for name in JUDGING:
        with open(f"{HERE}/{name}.py", encoding="utf-8") as it:
            text = re.sub(r'(?ms)^ *""".*?"""$', "", it.read())
        found.append((name, [it.rstrip() for it in text.split("\n") if it.strip() and not it.lstrip().startswith("#")]))
    return found

"""The sums of what the page's module is made of: the code of each crate, without comments, and what else goes into the module."""

import hashlib
import os

from proving.crates import crates_of
from sources.rattle import files_in
from sources.statements import without_comments

PARTS = ("docs/try/heap.c", "docs/try/heap.h", "docs/try/wasm.c", "docs/try/wide.c", "tools/page_parts/module.py")


def read(path):
    with open(path, encoding="utf-8") as it:
        return it.read()


def sum_of(text):
    return hashlib.sha256(text.encode()).hexdigest()[:16]


def code_of(crate):
    """The code of a crate, which its contracts are part of."""
    paths = files_in(f"{crate.folder}/src", ".rt")
    return repr([(os.path.relpath(it, crate.folder), without_comments(it, read(it))) for it in paths])


def sums_of_module(root):
    """A sum for each crate of the module, and for each other file that it is made of."""
    crate = next(it for it in crates_of(root) if it.name == "browser")
    of_crates = {f"crates/{it.name}": sum_of(code_of(it)) for it in [*crate.below(), crate]}
    return of_crates | {name: sum_of(read(f"{root}/{name}")) for name in PARTS}


def changed(old, new):
    """The names whose sums differ, or that only one of the two has."""
    return sorted(name for name in {*old, *new} if old.get(name) != new.get(name))

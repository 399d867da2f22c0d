"""Reads the lines of a crates.txt."""

import os
from typing import NamedTuple


class Line(NamedTuple):
    """A crate, what it is beside a library or program (`staticlib`), each crate that it stands on, the kit's too, and its group."""

    name: str
    kind: list
    libraries: list
    group: str


def lines_in(text):
    """The lines of a text, in its order. A comment is the name of the group behind it."""
    group = ""
    for line in text.splitlines():
        if line.startswith("#"):
            group = line.lstrip("# ")
        head, colon, libraries = line.partition("#")[0].partition(":")
        if colon and head.strip():
            name, *kind = head.split()
            yield Line(name, kind, libraries.split(), group)


def lines_of(root):
    """The lines of a repository's crates.txt, in its order."""
    with open(os.path.join(root, "crates.txt"), encoding="utf-8") as file:
        return list(lines_in(file.read()))

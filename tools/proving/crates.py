"""Reads the crates of a repository from its crates.txt."""

import os
import re
import sys

from sources.crates import lines_of
from sources.rattle import files_in

PARTS = ("src", "specs", "proofs")


class Crate:
    """A crate: its folder, the repository's libraries that it names, and the kit's. An archive may be built for another target."""

    def __init__(self, folder, name, kind, libraries, known):
        self.folder, self.name, self.out, self.target = folder, name, None, None
        self.is_program, self.is_static = os.path.isfile(f"{folder}/src/main.rt"), "staticlib" in kind
        self.deps = [known[it] for it in libraries if it in known]
        self.of_kit = ["std", *(it for it in libraries if it not in known)]
        self.rlib = f"{folder}/out/rlib/{name}.rlib"

    def makes_rlib(self):
        return not self.is_program and not self.is_static

    def below(self):
        """The repository's libraries below this crate, each after those that it uses."""
        found = []
        for dep in self.deps:
            found += [it for it in [*dep.below(), dep] if it not in found]
        return found

    def files(self):
        """Each file of the crate's sources, specs and proofs, by name."""
        return [path for part in PARTS for path in files_in(f"{self.folder}/{part}")]

    def lines(self):
        """How many lines of code the crate has."""
        found = 0
        for path in files_in(f"{self.folder}/src", ".rt"):
            with open(path, "rb") as it:
                found += it.read().count(b"\n")
        return found


def crates_of(root):
    """The crates of a repository, each behind those that it stands on: by crates.txt, in which a crate may come before them."""
    lines, found = {line.name: line for line in lines_of(root)}, {}

    def add(name, above):
        if name in above:
            sys.exit(f"crates.txt: {name} depends on itself")
        if name in lines and name not in found:
            line = lines[name]
            for it in line.libraries:
                add(it, (*above, name))
            found[name] = Crate(f"{root}/crates/{name}", name, line.kind, line.libraries, found)

    for name in lines:
        if not re.fullmatch(r"\w+", name):
            sys.exit(f"crates.txt: {name} isn't the name of a crate")
        add(name, ())
    return list(found.values())

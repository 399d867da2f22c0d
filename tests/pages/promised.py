"""Looks up the names in the table of docs/PROOF.md in the sources: crates, functions with their clauses, types and definitions."""

import os
import re

from sources.crates import lines_of
from sources.rattle import Crate

TOKEN = re.compile(r"`([^`]+)`|([()])|([^`()]+)")


class Promised:
    def __init__(self, root):
        self.root = root
        self.crates = {it.name: Crate(os.path.join(root, "crates", it.name)) for it in lines_of(root)}

    def faults(self, rows):
        """What is wrong with the rows: a crate that is missing or there twice, and each name that its crates don't have."""
        named = [name for row in rows for name in crates_in(row[0])]
        yield from (f"{it} has {named.count(it)} rows" for it in {*named, *self.crates} if named.count(it) != 1 or it not in self.crates)
        for row in rows:
            for cell in row[1:]:
                crates = [self.crates[it] for it in [*crates_in(row[0]), *crates_in(cell)] if it in self.crates]
                yield from (f"{row[0]}: {fault}" for fault in self.faults_in(crates, cell))

    def faults_in(self, crates, cell):
        """Names outside parentheses are looked up in these crates. Those in parentheses are clauses of the functions before them."""
        functions, is_inside = [], False
        for name, sign, text in TOKEN.findall(cell):
            if sign:
                functions, is_inside = functions if sign == "(" else [], sign == "("
            elif text:
                functions = functions if is_inside or text in (" ", ", ") else []
            elif is_inside and functions and "/" not in name:
                yield from (f"{it[0].name} has no clause {name}" for it in functions if all(name not in one.labels for one in it))
            else:
                found = [it for crate in crates for it in crate.named(name)]
                functions = [*functions, *([found] if found else [])]
                if not found and not self.knows(crates, name):
                    yield f"nothing is named {name}"

    def knows(self, crates, name):
        is_named = any(name in it.types or name in it.definitions or name in it.constants for it in crates)
        return is_named or name in self.crates or "/" in name and os.path.exists(os.path.join(self.root, name))


def crates_in(cell):
    return re.findall(r"`(\w+)`", cell)

"""Finds the functions of a crate's sources, and the files of their proofs. Reads the texts line by line, in the layout of
`rt fmt`."""

import os
import re

from sources.rattle import FUNCTION, files_in, owner_of
from sources.statements import CONTAINER, indent_of

TYPE = re.compile(r"(?:pub(?:\([a-z ]+\))? )?(?:struct|enum|union) (\w+)")
# An item whose value a function gives.
CALLS = re.compile(r"(?:pub(?:\([a-z ]+\))? )?const \w+:.*= .*\b[a-z_]\w*!?\(")


class Function:
    def __init__(self, file, scope, head, first):
        self.file, self.module, self.owner, self.of_trait = file, scope.module, scope.owner, scope.of_trait
        self.name, before = FUNCTION.match(head)[1], head.partition("fn ")[0].split()
        self.is_const = "const" in before
        # Whether an edit of its body may change what the proofs of others read: a cycle of calls has one proof.
        self.is_alone = "cycle" in before
        # The lines of the whole item, and the line with which its body begins.
        self.first, self.opens, self.last = first, 0, 0

    def settle(self, types):
        """Finds the names by which the prover knows it, once the module of each type is known."""
        home = types.get(self.owner, self.module) if self.owner else self.module
        path = [*home, *([self.owner] if self.owner else [])]
        # An impl of a trait is named by its type and more words, which a check of its module doesn't ask for.
        self.only = "::".join(self.module if self.of_trait else [*path, self.name])
        places = {"/".join([*it, self.owner]).rstrip("/") for it in (home, self.module)}
        self.proofs = "|".join(rf"proofs/{re.escape(it)}\w*/?{re.escape(self.name)}(/|\b)" for it in places)

    def has_row(self, row):
        return self.first <= row <= self.last

    def has_in_body(self, row):
        return self.opens < row < self.last


class Scope:
    """What an impl, a trait, a module or the file has around its items: their indent, the path of their module, and their owner."""

    def __init__(self, indent, module, owner="", of_trait=False):
        self.indent, self.module, self.owner, self.of_trait = indent, module, owner, of_trait

    def within(self, head):
        """The scope that this head opens."""
        if found := re.match(r"(?:pub(?:\([a-z ]+\))? )?mod (\w+)", head):
            return Scope(self.indent + 4, [*self.module, found[1]])
        return Scope(self.indent + 4, self.module, owner_of(head), bool(re.search(r"\btrait |\bfor ", head)))


def module_of(file):
    """The path of the module that a file is."""
    path = file.removeprefix("src/").removesuffix(".rt").removesuffix("/mod").split("/")
    return [] if path in (["lib"], ["main"]) else path


class Reader:
    """Reads the items of one file, line by line."""

    def __init__(self, file, lines):
        self.file, self.found, self.types, self.calls = file, [], {}, False
        self.scopes, self.first, self.head, self.function = [Scope(0, module_of(file))], 0, "", None
        for row, line in enumerate(lines, 1):
            if line.strip():
                self.read(row, line, line.strip())

    def read(self, row, line, text):
        scope = self.scopes[-1]
        if indent_of(line) < scope.indent:
            self.scopes.pop()
            return self.end()
        if not text.startswith("//"):
            self.first = self.first or row
        if indent_of(line) == scope.indent and not text.startswith(("//", "#")):
            self.head = f"{self.head} {text}".strip()
            self.read_head(row, text, scope)
        elif text.endswith(";") and self.head and not self.head.endswith(("{", "(", "[")):
            self.close(row, scope)

    def read_head(self, row, text, scope):
        """Reads a line of an item that isn't within its braces."""
        if not self.function and FUNCTION.match(self.head):
            self.function = Function(self.file, scope, self.head, self.first)
        if self.function and not self.function.opens and text.endswith(("{", "{}")):
            self.function.opens = row
        elif not self.function and CONTAINER.match(self.head) and text.endswith("{"):
            self.scopes.append(scope.within(self.head))
            return self.end()
        if text.endswith(("}", ";")):
            self.close(row, scope)

    def close(self, row, scope):
        if self.function and self.function.opens:
            self.function.last = row
            self.found.append(self.function)
        elif found := TYPE.match(self.head):
            self.types[found[1]] = scope.module
        self.calls = self.calls or bool(CALLS.match(self.head))
        self.end()

    def end(self):
        self.first, self.head, self.function = 0, "", None


def functions_of(folder):
    """The functions of all files below a crate's src, with those of traits and of impls."""
    found, types, calls = [], {}, False
    for path in files_in(f"{folder}/src", ".rt"):
        with open(path, encoding="utf-8") as it:
            reader = Reader(os.path.relpath(path, folder), it.read().split("\n"))
        found, calls = found + reader.found, calls or reader.calls
        types.update(reader.types)
    for it in found:
        it.settle(types)
        # What a constant function gives may be the value of a constant, which others read.
        it.is_alone = it.is_alone or it.is_const and calls
    return found

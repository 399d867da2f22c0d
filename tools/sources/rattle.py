"""Finds the names in the sources of a crate: functions with the labels of their contracts, types, and definitions. Reads the
texts line by line, in the layout of `rt fmt`."""

import os
import re

FUNCTION = re.compile(r'(?:pub(?:\([a-z ]+\))? )?(?:(?:const|ghost|unsafe|extern(?: "C")?) )*fn (\w+)')
TYPE = re.compile(r"(?:pub(?:\([a-z ]+\))? )?(?:struct|enum|trait|type|union) (\w+)")
CONSTANT = re.compile(r"(?:pub(?:\([a-z ]+\))? )?(?:const|static) (\w+):")
CLAUSE = re.compile(r"(requires|ensures)\s*(\w*)\s*\{")
DEFINITION = re.compile(r"(?:(?:pub|abbrev|unfoldable|closed|record|data) )*(\S+)(?: |$)")
NESTED = re.compile(r" +(?:abbrev|record|unfoldable) (?:(?:pub|abbrev|unfoldable|closed|record|data) )*(\S+)(?: |$)")


class Clause:
    """A clause: where it stands, whose contract it is part of, and what it says on one line, with single blanks and no comments. A
    closure's clause is part of no contract: it has no function."""

    def __init__(self, path, line, function, keyword, label, fact):
        self.path, self.line, self.function = path, line, function
        self.keyword, self.label, self.fact = keyword, label, fact


class Function:
    """A function, by its owner's name ('' if it has none), with the labels of its clauses: '' for one without."""

    def __init__(self, owner, name, is_public):
        self.owner, self.name, self.is_public = owner, name, is_public
        self.path = f"{owner}::{name}" if owner else name
        # A law's contract is all that it says: its body is empty, or calls other laws.
        self.is_law, self.labels = False, set()


def files_in(folder, ending="", without=()):
    """The files below a folder whose names end so, by name, but for what is in folders of some names."""
    for where, folders, files in os.walk(folder):
        folders[:] = sorted({*folders} - {*without})
        for file in sorted(files):
            if file.endswith(ending):
                yield os.path.join(where, file)


def without_arguments(text):
    """A head without what stands in angle brackets."""
    before = None
    while before != text:
        before, text = text, re.sub(r"<[^<>]*>", "", text)
    return text


def owner_of(head):
    """The type or the trait that an impl's or a trait's head is for."""
    words = without_arguments(head.replace("->", "")).split("where")[0].rstrip(" {").split()
    if "for" in words:
        words = words[words.index("for") + 1 :]
    names = [re.sub(r".*::|[^\w]", "", word) for word in words if word not in ("pub", "unsafe", "impl", "trait")]
    return next((name for name in names if name), "")


def fact_from(lines, start):
    """What stands in the braces of the clause that begins on this line, and the line behind it."""
    depth, texts, at = 0, [], start
    while at < len(lines):
        text = re.sub(r"(^|\s)//.*", "", lines[at]).strip()
        depth += text.count("{") - text.count("}")
        texts.append(text)
        at += 1
        if depth <= 0:
            break
    whole = " ".join(texts)
    return whole[whole.index("{") + 1 : whole.rindex("}")].strip(), at


class Crate:
    """The names in a crate's src/, specs/ and proofs/, and its clauses in their order."""

    def __init__(self, folder):
        self.folder, self.functions, self.clauses = folder, [], []
        self.types, self.constants, self.definitions = set(), set(), set()
        for path in files_in(os.path.join(folder, "src"), ".rt"):
            with open(path, encoding="utf-8") as file:
                self.read_source(path, file.read().split("\n"))
        for path in (it for part in ("specs", "proofs") for it in files_in(os.path.join(folder, part), ".antt")):
            with open(path, encoding="utf-8") as file:
                self.read_definitions(file)

    def read_source(self, path, lines):
        """Reads a source. A contract ends with the line on which its function's body begins."""
        owner, function, is_in_head, is_public_trait, at = "", None, False, False, 0
        while at < len(lines):
            line, text = lines[at], lines[at].strip()
            if re.match(r"(pub )?(unsafe )?(impl|trait)\b", line):
                owner, is_public_trait = owner_of(line), line.startswith("pub ") and "trait " in line
            if found := FUNCTION.match(text):
                is_inner = line[0] == " "
                function = Function(owner if is_inner else "", found[1], text.startswith("pub ") or is_inner and is_public_trait)
                self.functions.append(function)
                is_in_head = True
            elif found := TYPE.match(text):
                self.types.add(found[1])
            elif found := CONSTANT.match(text):
                self.constants.add(found[1])
            if function and (text == "{}" or path.endswith("laws.rt")):
                function.is_law = True
            if found := CLAUSE.match(text):
                fact, after = fact_from(lines, at)
                self.clauses.append(Clause(path, at + 1, function if is_in_head else None, found[1], found[2], fact))
                if is_in_head:
                    function.labels.add(found[2])
                at = after
                continue
            if text.startswith("{"):
                is_in_head = False
            if line.startswith("}"):
                owner, function, is_public_trait = "", None, False
            at += 1

    def read_definitions(self, lines):
        for line in lines:
            found = NESTED.match(line) if line[0] in " \n" else DEFINITION.match(line)
            if found and not line.startswith(("--", "use ", "import ", "open ")):
                self.definitions.add(found[1])

    def named(self, name):
        """The functions of a name, `Type::function` or `function`."""
        owner, colons, last = name.rpartition("::")
        return [it for it in self.functions if it.name == last and (it.owner == owner or not colons)]

"""Extracts what a crate states to the crates above it: types, constants, the signatures and contracts of functions that others
may call, and the definitions of specs/. Bodies, proofs, comments and private functions are left out. The texts are read
line by line, in the layout of `rt fmt`. Unrecognized lines stay, so that a sum over statements changes rather too often than too
seldom."""

import functools
import os
import re

from sources.rattle import DEFINITION, FUNCTION, files_in, owner_of

CONTAINER = re.compile(r"(pub(\([a-z ]+\))? )?(unsafe )?(impl\b|trait \w|mod \w+ \{)")
CONSTANT_FUNCTION = re.compile(r'(pub(\([a-z ]+\))? )?((ghost|unsafe|extern "C") )*const ')
RUST_COMMENT = re.compile(
    r"""(?P<text>r(#+)".*?"\2|r".*?"|"(?:\\.|[^"\\])*"|'(?:\\.|[^'\\\n])')|//[^\n]*|/\*.*?\*/""", re.DOTALL
)
ERROR_TEXT = re.compile(r'#\[error\("(?:\\.|[^"\\])*"\)\]')
NAMED = re.compile(r"\b(?:struct|enum|union|type|const|static|macro_rules!) (?:mut )?(\w+)")


class Item:
    """A statement: the file that has it, the names without which no other text can speak of it, and its text."""

    def __init__(self, file, names, text):
        self.file, self.names, self.text = file, frozenset(names), text

    @functools.cached_property
    def words(self):
        return words_of(self.text)


def words_of(text):
    return {*re.findall(r"[^\s(){}\[\];,.:&<>=|!?*+@\"'`◌]+", text)}


def indent_of(line):
    return len(line) - len(line.lstrip(" "))


def without_comments(path, text):
    """The lines of a .rt or .antt text that aren't empty, without its comments and the texts of errors. What a string of Rust has is no
    comment."""
    if path.endswith(".rt"):
        text = RUST_COMMENT.sub(lambda it: it[0] if it["text"] else "", text)
        text = ERROR_TEXT.sub("#[error]", text)
    else:
        text = re.sub(r"(?m)(^|[ \t])--([ \t].*)?$", "", text)
    return [it.rstrip() for it in text.split("\n") if it.strip()]


def imported(words):
    """Each path that a `use` item brings: `a::{b, c::{d as e}}` is a::b and a::c::d as e."""
    head, brace, rest = words.partition("{")
    if not brace:
        return [words.strip()] if words.strip() else []
    depth, part, parts = 0, "", []
    for sign in rest.strip().removesuffix("}"):
        depth += {"{": 1, "}": -1}.get(sign, 0)
        if sign == "," and not depth:
            parts, part = [*parts, part], ""
        else:
            part += sign
    return [head.strip() + it for whole in [*parts, part] for it in imported(whole.strip())]


def is_said(path, stated):
    """Whether a text may speak of what an import brings: by its last name, or by the parts of an operator."""
    parts = re.split(r"::|[.\s]", path)[-1].split("◌")
    return all(it in stated for it in parts if it not in ("*", "_"))


class RustReader:
    """Reads the statements of one .rt file."""

    def __init__(self, file, text):
        self.file, self.lines, self.at = file, without_comments(file, text), 0
        # Of each impl, trait and module around the place that is read: its indent, its owner's name, and whether its
        # functions are there for others with no `pub`.
        self.around, self.attributes = [], []
        self.found, self.uses = [], []

    def read(self):
        while self.at < len(self.lines):
            line = self.lines[self.at]
            if self.around and line == " " * self.around[-1][0] + "}":
                self.around.pop()
                self.at += 1
            else:
                self.read_item(line, line.strip())
        stated = "\n".join(it.text for it in self.found)
        needed = sorted({it for it in self.uses if is_said(it, stated)})
        return [*self.found, *(Item(self.file, {it}, f"use {it}") for it in needed)]

    def read_item(self, line, text):
        if re.match(r"#!?\[", text):
            words = self.take(self.closed_at("[", "]"))
            # By which tactic a thing is proved is no part of what it says.
            self.attributes += [] if re.match(r"#!?\[(tactic|inline)\b", words[0]) else words
            return
        attributes, self.attributes = self.attributes, []
        if CONTAINER.match(text):
            self.read_container(attributes)
        elif found := FUNCTION.match(text):
            self.read_function(found[1], attributes)
        elif re.fullmatch(r"mod \w+;", text) or text == "}":
            self.at += 1
        elif text.startswith(("use ", "ghost use ")):
            words = " ".join(self.take(self.end()))
            self.uses += imported(words.removeprefix("ghost ").removeprefix("use ").rstrip("; "))
        else:
            words = self.take(self.plain_end())
            self.add([it for it in NAMED.findall(words[0])[:1]] or [text], [*attributes, *words])

    def take(self, end):
        taken, self.at = self.lines[self.at : end], end
        return [it.strip() for it in taken]

    def end(self, ends=("}", ";")):
        """The line behind the item that begins here: its last one has the indent of its first."""
        indent = indent_of(self.lines[self.at])
        for at in range(self.at, len(self.lines)):
            if indent_of(self.lines[at]) < indent:
                return at
            if indent_of(self.lines[at]) == indent and self.lines[at].endswith(ends):
                return at + 1
        return len(self.lines)

    def plain_end(self):
        """The line behind an item without a body, whose further lines are indented or close what it opened."""
        indent, at = indent_of(self.lines[self.at]), self.at + 1
        while at < len(self.lines):
            line = self.lines[at]
            goes_on = line.strip().startswith((")", "]", "}", "{", "where")) and indent_of(line) == indent
            if indent_of(line) <= indent and not goes_on:
                break
            at += 1
        return at

    def closed_at(self, opens, closes):
        depth = 0
        for at in range(self.at, len(self.lines)):
            depth += self.lines[at].count(opens) - self.lines[at].count(closes)
            if depth <= 0:
                return at + 1
        return len(self.lines)

    def read_container(self, attributes):
        indent = indent_of(self.lines[self.at])
        head = self.take(self.end(("{", "}", ";")))
        words = " ".join(head)
        is_module = re.match(r"(pub(\([a-z ]+\))? )?mod ", words)
        owner = "" if is_module else owner_of(words)
        if words.endswith("{"):
            is_open = not is_module and bool(re.search(r"\btrait |\bfor ", words))
            self.around.append((indent, owner, is_open))
        self.add([owner] if owner else [words], [*attributes, *head])

    def read_function(self, name, attributes):
        indent, first, end = indent_of(self.lines[self.at]), self.at, self.end()
        is_constant = CONSTANT_FUNCTION.match(self.lines[first].strip())
        opens = next((at for at in range(first, end) if self.opens_body(at, indent)), None)
        words = self.take(end)
        owner, is_open = self.around[-1][1:] if self.around else ("", False)
        if not (is_constant or is_open or words[0].startswith("pub ")):
            return
        if opens is not None and not is_constant:
            words = [*words[: opens - first], re.sub(r" ?\{\}?$", "", words[opens - first])]
        self.add([it for it in (owner, name) if it], [*attributes, *filter(None, words)])

    def opens_body(self, at, indent):
        line = self.lines[at]
        return indent_of(line) == indent and (line.endswith(" {") or line.strip() in ("{", "{}"))

    def add(self, names, lines):
        self.found.append(Item(self.file, names, "\n".join(lines)))


def definitions_in(file, text):
    """The definitions of an .antt file, each with all its lines, and its imports."""
    parts = []
    for line in without_comments(file, text):
        found = DEFINITION.match(line) if line[0] != " " else None
        name = found[1] if found and not line.startswith(("use ", "pub use ", "import ", "open ")) else ""
        if line[0] == " " and parts or name and parts and parts[-1][0] == name:
            parts[-1][1].append(line)
        else:
            parts.append((name or line, [line]))
    return [Item(file, {name}, "\n".join(lines)) for name, lines in parts]


def statements_of(folder):
    """The statements of the crate in a folder, by file."""
    found = []
    for part, ending in (("src", ".rt"), ("specs", ".antt")):
        for path in files_in(os.path.join(folder, part), ending):
            file = os.path.relpath(path, folder)
            with open(path, encoding="utf-8") as it:
                text = it.read()
            found += RustReader(file, text).read() if part == "src" else definitions_in(file, text)
    return found

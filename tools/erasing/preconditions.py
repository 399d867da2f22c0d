"""Turns the preconditions of a function into a section of its documentation, and into `debug_assert!`s if they are plain arithmetic."""

import os
import re
import textwrap

from erasing import logic
from erasing.shape import functions, impls, item_start, types

WIDTH = 112
LENGTHS = (("name", "length"), ("name", "vec_len"))
BITS = {"u8": 8, "u16": 16, "u32": 32, "u64": 64, "usize": 64}


class Definitions:
    """The comment above each definition of specs/, by crate, file and name."""

    def __init__(self, root, crates):
        self.found = {}
        for crate in crates:
            folder = os.path.join(root, "crates", crate, "specs")
            for name in sorted(os.listdir(folder)) if os.path.isdir(folder) else ():
                with open(os.path.join(folder, name), encoding="utf-8") as file:
                    self._read(crate, name.removesuffix(".antt"), file.read())

    def _read(self, crate, name, text):
        for match in re.finditer(r"((?:^--[^\n]*\n)+)(?:abbrev |data )?pub (?:record )?([\w'-]+)[ (:]", text, re.M):
            comment = " ".join(line.lstrip("- ").strip() for line in match[1].splitlines())
            self.found[crate, name, match[2]] = comment.rstrip(".")

    def meaning(self, s):
        """What a definition means that a file names, by its `ghost use`."""
        where = {}
        for match in re.finditer(r"Rattle\.(\w+)\.specs\.([\w.]+)\.\{([^}]*)\}", "".join(s.original)):
            for name in match[3].split(","):
                name, _, alias = name.strip().partition(" as ")
                where[alias or name] = (match[1], match[2], name)
        return lambda name: self.found.get(where.get(name, (s.crate, "", name)))


class Asserted:
    """What Rust can compute of a statement: integers that are parameters, constants, lengths, or what a method returns."""

    def __init__(self, sources):
        self.constants, self.exported = {}, {}
        self.accessors, self.modelled, self.fields = {}, set(), {}
        for s in sources:
            self._constants_of(s)
            self._types_of(s)
        for s in sources:
            self._accessors_of(s)

    def _constants_of(self, s):
        for i in s.words("const"):
            name = s.after(i)
            if s.is_word(name) and s.at(s.after(name), ":"):
                self.constants.setdefault(s.text[name], {})[s.crate] = s.text[s.after(s.after(name))]
        if s.name == "lib":
            self.exported[s.crate] = set(s.live_words(0, len(s) - 1))

    def _types_of(self, s):
        self.modelled |= s.modelled
        for it in types(s, ("struct",)):
            opening = it.fields_at(s)
            for first, last, _ in s.parts(opening, s.partner[opening]) if opening and s.at(opening, "{") else ():
                colon = next(i for i in range(first, last + 1) if s.at(i, ":"))
                self.fields[it.name, s.text[s.before(colon)]] = s.code(s.after(colon), last)

    def _accessors_of(self, s):
        """Methods of `&self` alone that are proved to return a part of what a contract sees of the value."""
        owners = impls(s)
        for fn in functions(s):
            if fn.body is None or s.code(fn.opening, fn.closing) != "(&self)":
                continue
            result = s.code(s.after(fn.closing), s.before(fn.body)).removeprefix("->")
            owner = next((it.name for it in owners if it.opening < fn.keyword < it.end), None)
            for at, text in s.promises.items():
                match = re.fullmatch(r"result ≡ (length )?self\.now((?:\.\w+)*)", text)
                match = match or re.fullmatch(r"()self\.now((?:\.\w+)*) ≡ holding result", text)
                path = match and match[2] + ".held" * text.endswith("holding result")
                if match and fn.closing < at < fn.body and result in (*BITS, "bool"):
                    self.accessors[owner, match[1] or "", path] = (fn.name, result)


class Statement:
    """One statement of a function as Rust, or None where it is more than arithmetic."""

    def __init__(self, asserted, s, parameters, owner):
        self.asserted, self.s, self.parameters, self.owner = asserted, s, parameters, owner
        self.kinds, self.constants = set(), set()

    def by_methods(self, tree):
        """The statement with each part of a value by the method that returns it, if there is one."""
        if tree[0] == "name" and "." in tree[1] and (found := self.name(tree[1])):
            return ("name", found[0])
        if tree[0] == "call" and tree[1] in LENGTHS and (found := self.length(tree[2][0])):
            return ("name", found[0])
        if tree[0] == "call":
            return ("call", tree[1], [self.by_methods(part) for part in tree[2]])
        if tree[0] == "of":
            return (*tree[:2], self.by_methods(tree[2]), self.by_methods(tree[3]))
        return tree

    def rust(self, tree):
        return self.relation(tree) if tree[0] == "of" and tree[1] in ("≡", "≤", "<") else None

    def relation(self, tree):
        _, sign, left, right = tree
        if sign == "≡" and right[0] == "name" and right[1] in ("true", "false"):
            value = self.value(left)
            return value and value[1] == "bool" and ("" if right[1] == "true" else "!") + value[0] or None
        sides = [self.value(left), self.value(right)]
        if None in sides or "bool" in (sides[0][1], sides[1][1]):
            return None
        kinds = {kind for _, kind in sides if kind in BITS}
        if not kinds:
            return None
        power = re.fullmatch(r"1 << (\d+)", sides[1][0])
        if power and int(power[1]) >= min(BITS[kind] for kind in kinds):
            return None
        wide = None if len(kinds) == 1 else "u64" if "u64" in kinds else "usize"
        words = [f"({text} as {wide})" if kind and wide and kind != wide else text for text, kind in sides]
        return f"{words[0]} {dict(zip('≡≤<', ('==', '<=', '<')))[sign]} {words[1]}"

    def value(self, tree):
        """A term and its type; None for the type of a plain number."""
        kind = tree[0]
        if kind == "number":
            return tree[1], None
        if kind == "of" and tree[1] == "^" and tree[2] == ("number", "2") and tree[3][0] == "number":
            return f"1 << {tree[3][1]}", None
        if kind == "of" and tree[1] in ("+", "*"):
            return self.sum(tree)
        if kind == "call" and tree[1] in LENGTHS and len(tree[2]) == 1:
            return self.length(tree[2][0])
        return self.name(tree[1]) if kind == "name" else None

    def sum(self, tree):
        sides = [self.value(tree[2]), self.value(tree[3])]
        if None in sides:
            return None
        kinds = {kind for _, kind in sides if kind}
        if len(kinds) > 1 or "bool" in kinds:
            return None
        return f"{sides[0][0]} {tree[1]} {sides[1][0]}", next(iter(kinds), None)

    def length(self, tree):
        if tree[0] != "name":
            return None
        base, *path = tree[1].split(".")
        held = self.parameters.get(base, "")
        is_whole = all(part in ("now", "old", "entry", "items") for part in path) and path
        if is_whole and re.match(r"&?(mut)?(\[|Vec<)", held):
            return f"{base}.len()", "usize"
        return self.accessor(base, "length ", path)

    def name(self, path):
        base, *rest = path.split(".")
        if not rest:
            if self.parameters.get(base) in BITS:
                return base, self.parameters[base]
            return self.constant(base) if base.isupper() else None
        return self.accessor(base, "", rest)

    def constant(self, name):
        """A constant of the crate that the file's `ghost use` names, or of its own, or the only one of this name."""
        crates = self.asserted.constants.get(name, {})
        named = re.search(rf"Rattle\.(\w+)\.specs\.declared\.\w+\.TheConstants\.\{{[^}}]*\b{name}\b", "".join(self.s.original))
        crate = named[1] if named else self.s.crate if self.s.crate in crates else next(iter(crates), None)
        if crate not in crates:
            return None
        self.constants.add((crate, name))
        return name, crates[crate]

    def accessor(self, base, length, path):
        """What a method of the value, or a field of one that contracts see as it is, has at this path."""
        held = self.owner if base == "self" else re.sub(r"^&(mut)?|<.*", "", self.parameters.get(base, ""))
        if not held or (base != "self" and base not in self.parameters):
            return None
        rest = path[1:] if path and path[0] in ("now", "old", "entry") else path
        key = (held, length, "".join("." + part for part in rest))
        if key in self.asserted.accessors:
            name, kind = self.asserted.accessors[key]
            return f"{base}.{name}()", kind
        if not length and len(rest) == 1 and held not in self.asserted.modelled:
            kind = self.asserted.fields.get((held, rest[0]))
            return (f"{base}.{rest[0]}", kind) if kind in BITS or kind == "bool" else None
        return None


def parameters_of(s, fn):
    """The names and types of a function's parameters."""
    found = {}
    for first, last, _ in s.parts(fn.opening, fn.closing):
        colon = next((i for i in range(first, last + 1) if s.at(i, ":")), None)
        if colon:
            found[s.text[s.before(colon)]] = re.sub(r"'\w+ ", "", s.code(s.after(colon), last))
    for match in re.finditer(r"const(\w+):(\w+)", s.code(fn.generics, s.angle(fn.generics)) if fn.generics else ""):
        found[match[1]] = match[2]
    return found


def tell(s, definitions, asserted):
    """Each function's preconditions, in its documentation and in its body."""
    owners = impls(s)
    meaning = definitions.meaning(s)
    for fn in functions(s):
        end = fn.body or fn.end
        required = [text for at, text in s.required.items() if fn.closing < at < end]
        if not required:
            continue
        owner = next((it for it in owners if it.opening < fn.keyword < it.end), None)
        parameters = parameters_of(s, fn)
        if owner and owner.generics:
            for match in re.finditer(r"const(\w+):(\w+)", s.code(owner.generics, s.angle(owner.generics))):
                parameters[match[1]] = match[2]
        statement = Statement(asserted, s, parameters, owner and owner.name)
        trees = [logic.read(text) for text in required]
        parts = [statement.by_methods(part) for tree in trees for part in logic.conjuncts(tree, True)]
        if statements := [words for part in parts if (words := logic.said(part, meaning))]:
            document(s, fn, statements)
        if fn.body:
            insist(s, fn, [part for tree in trees for part in logic.conjuncts(tree)], statement)


def document(s, fn, statements):
    start = item_start(s, fn.keyword)
    comments = []
    for k in range(start, fn.keyword):
        if s.live[k] and s.kind[k] == "comment":
            comments.append(k)
        elif s.counts(k):
            break
    mark = "//" if comments and not s.text[comments[-1]].startswith("///") else "///"
    lines = [f"{mark} # Preconditions", mark]
    for statement in statements:
        text = statement[0].upper() + statement[1:] + "."
        lines += [f"{mark} {line}" for line in textwrap.wrap(f"- {text}", WIDTH, subsequent_indent="  ", break_on_hyphens=False)]
    if comments:
        s.behind[comments[-1]] = "\n" + "\n".join([mark, *lines])
    else:
        first = next(k for k in range(start, fn.keyword + 1) if s.live[k])
        s.ahead[first] = "\n".join(lines) + "\n"


def insist(s, fn, trees, statement):
    """A `debug_assert!` for each statement that Rust can compute."""
    for tree in trees:
        statement.constants = set()
        rust = statement.rust(tree)
        if rust is None or not reachable(s, statement):
            continue
        s.add(fn.body, f"\ndebug_assert!({rust});", "debug_assert!", fn.name)


def reachable(s, statement):
    """Whether the file names these constants, or may import them."""
    for crate, name in statement.constants:
        there = rf"(?m)^\s*(?:pub )?use [^;]*\b{name}\b|^\s*(?:pub(?:\(crate\))? )?const {name}\b"
        imported = re.search(there, "".join(s.original))
        if not imported:
            if name not in statement.asserted.exported.get(crate, ()):
                return False
            s.imports.add((crate, name))
    return True

"""Finds where the items of a file begin and end: functions, types, impls, imports, and their type parameters."""

from erasing.source import BEFORE_AN_ITEM


def item_start(s, i):
    """Back from the keyword of an item over its visibility, attributes and comments."""
    start = i
    while True:
        k, gap = start - 1, ""
        while k >= 0 and (s.kind[k] == "space" or not s.live[k]):
            gap += s.text[k] if s.live[k] else ""
            k -= 1
        if k < 0:
            return start
        if s.kind[k] == "comment" and not s.text[k].startswith("//!") and gap.count("\n") <= 1:
            start = k
        elif s.kind[k] == "word" and s.text[k] in BEFORE_AN_ITEM:
            start = k
        elif s.kind[k] == "text" and s.at(s.before(k), "extern"):
            start = s.before(k)
        elif s.at(k, ")") and s.at(s.before(s.partner[k]), "pub"):
            start = s.before(s.partner[k])
        elif s.at(k, "]") and s.at(s.before(s.partner[k]), "#"):
            start = s.before(s.partner[k])
        else:
            return start


def item_end(s, i):
    """The `;` or `}` that ends the item which begins at `i`."""
    while True:
        if s.at(i, ";"):
            return i
        if s.at(i, "{"):
            return s.partner[i]
        i = s.partner[i] + 1 if s.opens(i) else i + 1


def semicolon(s, i):
    """The `;` behind `i`, outside brackets."""
    while not s.at(i, ";"):
        i = s.partner[i] + 1 if s.opens(i) else i + 1
    return i


def is_item(s, i):
    """Whether the keyword at `i` begins an item, and isn't `impl` of a type or a word within a body."""
    p = s.before(item_start(s, i))
    return p is None or s.text[p] in "};{" or (s.at(p, "]") and s.at(s.before(s.partner[p]), "!"))


class Function:
    """A function: its keyword, its name, and where its parameters and its body stand. `body` is None in a trait."""

    def __init__(self, s, i):
        self.keyword, self.name_at = i, s.after(i)
        self.name = s.text[self.name_at]
        p = s.after(self.name_at)
        self.generics = p if s.at(p, "<") else None
        self.opening = s.after(s.angle(p)) if s.at(p, "<") else p
        self.closing = s.partner[self.opening]
        k = self.closing
        while not (s.at(k, "{") or s.at(k, ";")):
            k = s.partner[k] + 1 if s.opens(k) else k + 1
        self.body = k if s.at(k, "{") else None
        self.end = s.partner[k] if self.body else k


def functions(s):
    return [Function(s, i) for i in s.words("fn") if s.is_word(s.after(i))]


class Impl:
    """An impl: its generics, its trait's name or None, and its type's name."""

    def __init__(self, s, i):
        self.keyword = i
        k = s.after(i)
        self.generics = k if s.at(k, "<") else None
        if self.generics:
            k = s.after(s.angle(k))
        self.trait, self.name = None, None
        while not s.at(k, "{"):
            if s.at(k, "for"):
                self.trait, self.name = self.name, None
            elif s.at(k, "where"):
                break
            elif s.at(k, "<"):
                k = s.angle(k)
            elif s.is_word(k):
                self.name = s.text[k]
            k = s.after(k)
        while not s.at(k, "{"):
            k = s.after(k)
        self.opening, self.end = k, s.partner[k]


def impls(s):
    return [Impl(s, i) for i in s.words("impl") if is_item(s, i)]


class Type:
    """A struct, an enum, a trait or an alias: its name, its generics, and its end."""

    def __init__(self, s, i):
        self.keyword, self.word = i, s.text[i]
        self.name_at = s.after(i)
        self.name = s.text[self.name_at]
        k = s.after(self.name_at)
        self.generics = k if s.at(k, "<") else None
        self.end = item_end(s, i)

    def fields_at(self, s):
        """The `{` or `(` of a struct's fields, or None."""
        k = s.after(s.angle(self.generics)) if self.generics else s.after(self.name_at)
        return k if s.at(k, "{") or s.at(k, "(") else None


def types(s, words=("struct", "enum")):
    return [Type(s, i) for word in words for i in s.words(word) if is_item(s, i)]


def type_parameters(s, opening):
    """The parameters in these angle brackets but for lifetimes: (name, traits it is bound by, part) for each; and all parts."""
    parts = s.parts(opening, s.angle(opening))
    found = []
    for part in parts:
        if s.kind[part[0]] == "lifetime":
            continue
        k = s.after(part[0]) if s.at(part[0], "const") else part[0]
        found.append((s.text[k], bounds(s, s.after(k), part[1]) if k < part[1] else [], part))
    return found, parts


def bounds(s, first, last):
    """The first word of each of the traits between `:` or `&` and the end."""
    found, i, fresh = [], first, True
    while i is not None and i <= last:
        if s.at(i, "<") and (end := s.angle(i)):
            i = end
        elif s.at(i, "+"):
            fresh = True
        elif s.is_word(i) and fresh and s.text[i] != "impl":
            found.append(s.text[i])
            fresh = False
        i = s.after(i)
    return found


def uses(s):
    """The keyword and the `;` of each import."""
    return [(i, semicolon(s, i)) for i in s.words("use")]


def leaves(s, i, end):
    """What an import names: (path, alias or None) for each."""
    text = "".join(s.text[k] for k in range(i + 1, end) if s.live[k] and s.kind[k] != "comment")
    found = []

    def walk(prefix, text):
        text = text.strip()
        if not text.endswith("}"):
            path, _, alias = text.partition(" as ")
            found.append((tuple(prefix + [part.strip() for part in path.split("::")]), alias.strip() or None))
            return
        head, inner = text[: text.index("{")], text[text.index("{") + 1 : -1]
        for piece in pieces(inner):
            walk(prefix + [part.strip() for part in head.split("::") if part.strip()], piece)

    walk([], text)
    return found


def pieces(text):
    """What stands between commas, outside braces."""
    depth, piece = 0, ""
    for sign in text + ",":
        if sign == "," and depth == 0:
            if piece.strip():
                yield piece
            piece = ""
        else:
            depth += (sign == "{") - (sign == "}")
            piece += sign

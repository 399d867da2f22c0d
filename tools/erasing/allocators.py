"""Removes the allocators that values keep and return: in Rust every box has the same allocator."""

import re

from erasing import kit
from erasing.shape import functions, item_start, semicolon


class Givers:
    """The methods whose result is an allocator, or is one unless it is refused: by their names, over all sources."""

    def __init__(self, sources):
        self.plain, self.refusable = set(), set()
        for s in sources:
            for fn in functions(s):
                result = result_of(s, fn)
                if result == kit.ALLOCATOR_TYPE:
                    self.plain.add(fn.name)
                elif result.startswith(f"Result<{kit.ALLOCATOR_TYPE},"):
                    self.refusable.add(fn.name)

    def gives(self, code):
        """What an expression asks for an allocator, where that can't be refused, or None."""
        match = re.fullmatch(r"(?:\w+\.)*\w+\.(\w+)\(\)", code)
        return match and match[1] in self.plain

    def cut(self, s):
        """The methods that only give one go, and of the others the allocator does."""
        for fn in functions(s):
            result = result_of(s, fn)
            if result == kit.ALLOCATOR_TYPE:
                s.cut_lines(item_start(s, fn.keyword), fn.end)
            elif result.startswith(f"Result<{kit.ALLOCATOR_TYPE},"):
                i = next(i for i in s.words(kit.ALLOCATOR_TYPE) if fn.closing < i < fn.body)
                s.write(i, "()", "an allocator that a method gives")


def result_of(s, fn):
    """The type of a function's result, or "" where it has none."""
    arrow = s.after(fn.closing)
    if not fn.body or not (s.at(arrow, "-") and s.at(s.after(arrow), ">")):
        return ""
    return s.code(s.after(s.after(arrow)), fn.body - 1)


def asked_for(s, givers, i):
    """The name that `let alloc = handle.closed()?;` gives, or a match on such a call, and the end of its statement; else None."""
    name = s.after(i)
    if not s.at(s.after(name), "="):
        return None
    first, end = s.after(s.after(name)), semicolon(s, i)
    matched = s.at(first, "match")
    last = s.before(end)
    code = s.code(s.after(first), s.before(s.partner[last])) if matched else s.code(first, last)
    match = re.fullmatch(r"(?:\w+\.)*\w+\.(\w+)\(\)" + ("" if matched else r"\?"), code)
    if not match or match[1] not in givers.refusable:
        return None
    return name, first, end, matched


def cut_what_is_asked_for(s, givers, i):
    """Cuts the name of an allocator that may be refused, and keeps the refusal. The name, or None where `let` gives another."""
    if not (asked := asked_for(s, givers, i)):
        return None
    name, first, end, matched = asked
    s.cut(i, first - 1)
    for k in range(first, end) if matched else ():
        if s.at(k, s.text[name]):
            s.write(k, "()", "an allocator that isn't there")
    return s.text[name]


def taken_apart(s, i, fields):
    """The names of allocators in `let Loose { at, alloc } = ..` and in `let (at, alloc) = Box::into_raw_with_allocator(..)`."""
    opening = s.after(i)
    if s.at(opening, "("):
        last = s.parts(opening, s.partner[opening])[-1]
        call = s.code(s.after(s.after(s.partner[opening])), semicolon(s, i))
        return [s.text[last[0]]] if call.startswith("Box::into_raw_with_allocator(") else []
    brace = s.after(opening)
    if not s.is_word(opening) or not s.at(brace, "{"):
        return []
    named = fields.get(s.text[opening], {})
    return [s.text[first] for first, last, _ in s.parts(brace, s.partner[brace]) if s.code(first, last) in named]


def mend_boxes(s):
    """`Box::into_inner(it)` is `*it`, of which a method's call needs no star; a box is taken apart without its allocator."""
    for i in s.words("into_raw_with_allocator"):
        k = s.before(s.before(s.before(i)))  # Box
        opening = s.partner[s.before(s.before(k))] if s.at(s.before(k), "=") else None
        s.write(i, "into_raw", "a box that is taken apart")
        if opening and s.at(s.before(opening), "let"):
            s.cut(opening, opening)
            s.cut(s.partner[opening], s.partner[opening])
    for i in s.words("into_inner"):
        opening = s.after(i)
        if s.at(opening, "(") and s.code(s.before(s.before(s.before(i))), i) == "Box::into_inner":
            closing = s.partner[opening]
            s.cut(s.before(s.before(s.before(i))), i)
            s.cut(closing, closing)
            s.cut(opening, opening)
            if not s.at(s.after(closing), "."):
                s.write(opening, "*", "a box that is opened")

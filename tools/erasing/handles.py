"""Removes allocators and the handle of the runtime: parameters, fields and local names of their types, and the code that passes them on.

Both are found by their types. In Rust there is one allocator, and waiting, threads and streams need no handle.
"""

import re

from erasing import kit
from erasing.allocators import Givers, cut_what_is_asked_for, taken_apart
from erasing.runtime import mend_runtime
from erasing.shape import bounds, functions, impls, item_start, semicolon, types

CHAIN = r"[&*]*(?:\w+\.)*"


class Handles:
    """What is of the type of an allocator or of the handle, over all sources."""

    def __init__(self, sources, parameters):
        self.parameters = parameters
        self.fields = {}  # the fields that go, by their struct
        self.field_names = {"allocator": set(), "handle": set()}
        self.givers = Givers(sources)
        for s in sources:
            for it in types(s, ("struct",)):
                self._fields_of(s, it)

    def kind(self, s, first, last):
        """Whether these tokens are the type of an allocator, of the handle, of a ghost, or None."""
        code = re.sub(r"^&('\w+ )?", "", s.code(first, last))
        if code in (kit.ALLOCATOR_TYPE, "&" + kit.ALLOCATOR_TYPE):
            return "allocator"
        if code == kit.HANDLE_TYPE:
            return "handle"
        start = next(i for i in range(first, last + 1) if s.counts(i) and s.is_word(i) or i == last)
        if re.fullmatch(r"\w+", code) and self.parameters.is_ghost(s, start):
            return "handle"
        if re.match(r"\(?impl\w", code):
            traits = set(bounds(s, start, last))
            if traits & kit.HANDLE_TRAITS and traits <= kit.HANDLE_TRAITS | {"Sync", "Send"}:
                return "handle"
        if match := re.fullmatch(r"PhantomData<\(?([\w,]+)\)?>", code):
            names = set(match[1].split(","))
            if names <= self.parameters.ghost_names(s, start):
                return "ghost"
        return None

    def _fields_of(self, s, it):
        opening = it.fields_at(s)
        if opening is None or not s.at(opening, "{"):
            return
        for part in s.parts(opening, s.partner[opening]):
            colon = next(i for i in range(part[0], part[1] + 1) if s.at(i, ":"))
            name = s.text[s.before(colon)]
            if kind := self.kind(s, s.after(colon), part[1]):
                self.fields.setdefault(it.name, {})[name] = kind
                self.field_names.setdefault(kind, set()).add(name)

    def cut(self, s):
        """Cuts them in a file. The functions' parameters go last, since names are found by them."""
        names = {}
        for fn in functions(s):
            for part in s.parts(fn.opening, fn.closing):
                colon = next((i for i in range(part[0], part[1] + 1) if s.at(i, ":")), None)
                if colon and (kind := self.kind(s, s.after(colon), part[1])):
                    names.setdefault(kind, []).append((s.text[s.before(colon)], fn.opening, fn.end))
        Cut(s, self, names).all()
        self.givers.cut(s)
        for fn in functions(s):
            parts = s.parts(fn.opening, fn.closing)
            for part in parts:
                colon = next((i for i in range(part[0], part[1] + 1) if s.at(i, ":")), None)
                if colon and (kind := self.kind(s, s.after(colon), part[1])):
                    s.cut_part(part, parts)
                    if kind == "allocator":
                        s.handed.add(fn.name_at)
        self._cut_fields(s)

    def _cut_fields(self, s):
        """The fields of structs, and what literals and patterns of these structs say of them."""
        for it in types(s, ("struct",)):
            opening = it.fields_at(s)
            if it.name in self.fields and opening is not None:
                parts = s.parts(opening, s.partner[opening])
                for part in parts:
                    colon = next(i for i in range(part[0], part[1] + 1) if s.at(i, ":"))
                    if s.text[s.before(colon)] in self.fields[it.name]:
                        first = min(k for k in range(item_start(s, s.before(colon)), colon) if s.live[k])
                        s.cut_part((max(first, opening + 1), *part[1:]), [*parts])
        for i in range(len(s)):
            if s.at(i, "{") and (name := self._struct_before(s, i)) in self.fields:
                parts = s.parts(i, s.partner[i])
                for part in parts:
                    if s.live[part[0]] and s.text[part[0]] in self.fields[name]:
                        s.cut_part(part, parts)

    def _struct_before(self, s, brace):
        """The struct whose literal or pattern opens here."""
        p = s.before(brace)
        if s.at(p, ">"):
            p = s.name_before_angle(p)
        if not s.is_word(p) or s.text[s.before(p)] in ("struct", "impl", "for", "enum", ">"):
            return None
        if s.text[p] == "Self":
            return enclosing_type(s, p)
        return s.text[p]


def enclosing_type(s, i):
    inside = [it for it in impls(s) if it.opening < i < it.end]
    return inside[-1].name if inside else None


class Cut:
    """What goes within the functions of one file."""

    def __init__(self, s, handles, names):
        self.s, self.handles, self.names = s, handles, names

    def kind(self, first, last):
        """Whether this expression is an allocator's or the handle's."""
        code = self.s.code(first, last)
        if match := re.fullmatch(rf"({CHAIN}\w+)\.alloc\(\)", code):
            return "allocator" if self.is_of(match[1], first, "handle") else None
        if self.handles.givers.gives(code):
            return "allocator"
        return next((kind for kind in ("allocator", "handle") if self.is_of(code, first, kind)), None)

    def is_of(self, code, at, kind):
        match = re.fullmatch(rf"({CHAIN})(\w+)", code)
        if not match:
            return False
        if "." in match[1]:
            return match[2] in self.handles.field_names[kind]
        return any(name == match[2] and first < at <= end for name, first, end in self.names.get(kind, ()))

    def all(self):
        self.cut_names()
        mend_runtime(self.s, self)
        self.cut_arguments()
        self.cut_handles_of_macros()

    def cut_names(self):
        """`let alloc = rt.alloc();`: the name is an allocator's from there on."""
        s = self.s
        for i in s.words("let"):
            name = s.after(i)
            for it in taken_apart(s, i, self.handles.fields):
                self.names.setdefault("allocator", []).append((it, i, self.block_around(i)))
            if not s.at(s.after(name), "="):
                continue
            if it := cut_what_is_asked_for(s, self.handles.givers, i):
                self.names.setdefault("allocator", []).append((it, i, self.block_around(i)))
                continue
            end = semicolon(s, i)
            first = s.after(s.after(name))
            if first < end and (kind := self.kind(first, s.before(end))):
                block = self.block_around(i)
                self.names.setdefault(kind, []).append((s.text[name], i, block))
                s.cut_lines(i, end)

    def block_around(self, i):
        s = self.s
        while i < len(s):
            if s.at(i, "}"):
                return i
            i = s.partner[i] + 1 if s.opens(i) else i + 1
        return i

    def cut_arguments(self):
        """An argument of a call that is an allocator or the handle."""
        s = self.s
        for i in range(len(s)):
            if not s.at(i, "("):
                continue
            p = s.before(i)
            if not (s.is_word(p) or s.at(p, ">") or s.at(p, "?")):
                continue
            parts = s.parts(i, s.partner[i])
            owner = s.text[s.before(s.before(s.before(p)))] if s.at(s.before(p), ":") else None
            ghosts = kit.GHOST_ARGUMENTS.get((owner, s.text[p]), ())
            for k, part in enumerate(parts):
                kind = self.kind(part[0], part[1])
                if kind == "allocator" and len(parts) == 1 and s.text[p] == "Ok":
                    s.cut(part[0], part[1])
                    s.write(part[0], "()", "an allocator that isn't there")
                elif k in ghosts or kind:
                    s.cut_part(part, parts)
                if kind == "allocator":
                    s.took.add(p)

    def cut_handles_of_macros(self):
        """`assert!(rt; ..)`, `vec![in alloc; ..]`, `format!(in alloc; ..)`."""
        s = self.s
        for i in range(len(s)):
            if not (s.at(i, "!") and s.is_word(s.before(i))):
                continue
            opening = s.after(i)
            if opening is None or not s.opens(opening):
                continue
            first = s.after(opening)
            start = s.after(first) if s.at(first, "in") else first
            end = start
            while end < s.partner[opening] and not s.at(end, ";"):
                end = s.partner[end] + 1 if s.opens(end) else end + 1
            if s.at(end, ";") and self.kind(start, s.before(end)):
                s.cut(first, end)
                s.took.add(s.before(i))

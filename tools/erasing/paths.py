"""Rewrites imports and paths: each crate becomes a module of `erased`, and so does the stand-in for the kit's library."""

import re

from erasing import kit
from erasing.layout import ABOVE, PROGRAMS, WITHOUT_STD, package_of
from erasing.shape import item_start, leaves, uses

ERASED = "erased"


class Places:
    """Which package has each erased crate, and how a file names it."""

    def __init__(self, packages):
        self.crates = {crate for crates in packages.values() for crate in crates} | kit.KIT_CRATES

    def has_std(self, s):
        return package_of(s.crate, s.name) not in WITHOUT_STD

    def root(self, s):
        """How a file names the module that has all erased crates."""
        is_program = s.name == "main" or s.crate in PROGRAMS
        return (package_of(s.crate, s.name).replace("-", "_") if is_program else "crate", ERASED)

    def top(self, s):
        """How a file names its own crate's root."""
        return ("crate",) if s.crate in PROGRAMS else (*self.root(s), s.crate)

    def within(self, s, path):
        """A path within the crate: a file above names what stands below as the crate hands it on."""
        package, files, _ = ABOVE.get(s.crate, (None, (), None))
        is_below = package == package_of(s.crate, s.name) and path[0] not in files
        return path[1:] if is_below else path

    def target(self, s, path):
        """What a path of the sources is in Rust, or None where nothing stands for it."""
        if path[0] == "crate":
            return (*self.top(s), *self.within(s, path[1:]))
        if path[0] == "atomic_table" and s.crate in kit.TABLES:
            return (*self.root(s), kit.TABLES[s.crate], *path[1:])
        if s.crate in kit.OWN_ATOMICS and path[:-1] == ("std", "sync", "atomic") and path[-1].startswith("Atomic"):
            return (*self.root(s), path[-1])
        if path[0] in self.crates:
            return (*self.root(s), *path)
        if path in kit.STAND_INS:
            stand_in = kit.STAND_INS[path]
            return stand_in and (*self.root(s), *stand_in)
        if path[0] == "std" and not self.has_std(s):
            return ("alloc" if path[1] in kit.ALLOC_MODULES else "core", *path[1:])
        return path


def names_of_code(s):
    """The words outside imports; and those within long written texts."""
    inside = set()
    for i, end in uses(s):
        inside.update(range(i, end))
    found = set()
    for i in range(len(s)):
        if s.live[i] and i not in inside and s.kind[i] not in ("space", "comment"):
            found.update(re.findall(r"\w+", s.text[i]) if s.kind[i] != "text" else re.findall(r"\{(\w+)", s.text[i]))
            found.update(re.findall(r"\w+", s.behind.get(i, "")))
    return found


def name_crates(s, places):
    """A crate that code names, `queue_core::Freezer`, is imported."""
    imports = set()
    for i, end in uses(s):
        imports.update(range(i, end))
    for i in range(len(s)):
        if not s.is_word(i) or i in imports or not s.at(s.after(i), ":") or not s.at(s.after(s.after(i)), ":"):
            continue
        p = s.before(i)
        if s.at(p, ":") and s.at(s.before(p), ":"):
            continue
        if s.text[i] == "crate":
            s.write(i, "::".join(places.top(s)), "a path")
        elif s.text[i] in places.crates:
            s.imports.add((s.text[i],))
        elif s.text[i] == "std" and not places.has_std(s):
            module = s.text[s.after(s.after(s.after(i)))]
            s.write(i, "alloc" if module in kit.ALLOC_MODULES else "core", "a path")


def rewrite_imports(s, places, gone):
    """Each import by where its name stands now; those that nothing names any more go, and those of the file are one block."""
    code = names_of_code(s)
    before = {word: s.original.count(word) for i, end in uses(s) for word in s.live_words(i, end)}
    block, anchor = {added(s, places, path) for path in s.imports}, None
    for i, end in uses(s):
        start = item_start(s, i)
        is_plain = start == i and not is_inside(s, i)
        public = s.at(s.before(i), "pub") or s.at(s.before(i), ")")
        kept = []
        for path, alias in leaves(s, i, end):
            local = alias or path[-1]
            is_left = local in code or local in kit.FOR_METHODS or before.get(local, 0) <= 1
            if path[-1] in gone or is_of_kit_alone(path) or (not public and not is_left):
                continue
            target = path if path[0] in ("self", "super") else places.target(s, path)
            if target:
                kept.append("::".join(target) + (f" as {alias}" if alias else ""))
        if is_plain:
            anchor = i if anchor is None else anchor
            block.update(kept)
            s.cut_lines(i, end)
        elif not kept:
            s.cut_lines(start, end)
        else:
            visibility = s.code(start, s.before(i)) + " " if public else ""
            s.cut(i, end - 1)
            s.text[i], s.live[i] = f";\n{visibility}".join(f"use {path}" for path in grouped(kept)), True
    put_block(s, anchor, [f"use {path};" for path in grouped(sorted(block))])


def is_inside(s, i):
    """Whether a token stands within braces."""
    return any(k < i < end for k, end in s.partner.items() if s.text[k] == "{")


def put_block(s, anchor, lines):
    """The file's imports, where its first one stood; else the layout puts them behind the modules."""
    s.import_lines = lines if anchor is None else []
    if anchor is not None and lines:
        s.text[anchor], s.live[anchor] = "\n".join(lines) + "\n", True


def is_of_kit_alone(path):
    """Whether this is the kit's name for something that Rust needs no name for."""
    return path[0] in kit.KIT_CRATES | {"std"} and path[-1] in kit.NAMELESS


def grouped(paths):
    """Paths that begin alike are one import."""
    groups = {}
    for path in paths:
        head, _, name = path.partition(" as ")[0].rpartition("::")
        groups.setdefault(head, []).append(path[len(head) + 2 :] if head else path)
    for head in [*groups]:
        above, _, last = head.rpartition("::")
        if last in groups.get(above, ()):
            groups[above].remove(last)
            groups[head].insert(0, "self")
    return [line_of(head, names) for head, names in groups.items() if names]


def line_of(head, names):
    path = names[0] if len(names) == 1 else "{" + ", ".join(names) + "}"
    return f"{head}::{path}" if head else path


def added(s, places, path):
    """The path of what a rule needs."""
    if path[0] in ("core", "std", "alloc"):
        head = "std" if path[0] == "core" and places.has_std(s) else path[0]
        return "::".join((head, *path[1:]))
    return "::".join((*places.root(s), *path))

"""Shortens code that has its form for the prover; adds what a package above the crate's own needs."""

from erasing.layout import ABOVE


def mend_taken_fields(s):
    """`let Self { seat, held: _ } = self; seat` is `self.seat`: a value that is taken apart for one field, which is the result."""
    for i in s.words("let"):
        path = s.after(i)
        brace = s.after(path)
        if not s.is_word(path) or not s.at(brace, "{") or not s.at(s.after(s.partner[brace]), "="):
            continue
        value = s.after(s.after(s.partner[brace]))
        end = s.after(value)
        if not s.is_word(value) or not s.at(end, ";"):
            continue
        bound = bound_names(s, brace)
        if len(bound) == 1 and (name := tail_name(s, end, bound[0][1])):
            s.cut_lines(i, end)
            s.write(name, f"{s.text[value]}.{bound[0][0]}", "a field that is taken")


def bound_names(s, brace):
    """The fields that a pattern names, each with the name that it gives; a mutable one has two."""
    found = []
    for first, last, _ in s.parts(brace, s.partner[brace]):
        words = s.live_words(first, last)
        if words[-1] != "_":
            found.append((words[0], words[-1]) if len(words) <= 2 and words[0] != "mut" else (None, None))
    return found


def tail_name(s, end, name):
    """The place of a name that the rest of the block begins with, if it is one expression that has the name once."""
    first = s.after(end)
    if not s.at(first, name or ""):
        return None
    k, count = first, 0
    while not s.at(k, "}"):
        count += s.at(k, name)
        if s.at(k, ";"):
            return None
        k = s.after(s.partner[k]) if s.opens(k) else s.after(k)
    return first if count == 1 else None


def open_to_above(s):
    """`pub(crate)` is `pub` where a file of the crate stands in another package."""
    if s.crate not in ABOVE or s.name in ABOVE[s.crate][1]:
        return
    for i in s.words("crate"):
        if s.at(s.before(i), "(") and s.at(s.before(s.before(i)), "pub"):
            s.cut(s.before(i), s.after(i))

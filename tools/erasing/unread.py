"""Removes what only proofs read: parameters that no code names any more, and listed fields."""

from erasing import kit
from erasing.shape import functions, types


def mend_unread(s):
    for fn in functions(s):
        if fn.body:
            name_unread_parameters(s, fn)
    for it in types(s, ("struct",)):
        opening = it.fields_at(s)
        for first, last, _ in s.parts(opening, s.partner[opening]) if opening and s.at(opening, "{") else ():
            colon = next(i for i in range(first, last + 1) if s.at(i, ":"))
            if (s.crate, it.name, s.text[s.before(colon)]) in kit.READ_BY_PROOFS:
                ahead(s, first, "#[allow(dead_code)] // only proofs read it\n", it.name)


def ahead(s, i, text, name):
    while not s.counts(i):
        i += 1
    s.written.append(("an attribute", s.line[i], name, text.strip()))
    s.ahead[i] = s.ahead.get(i, "") + text


def name_unread_parameters(s, fn):
    """A parameter that the body doesn't name is `_name`, as Rust has it."""
    used = {s.text[i] for i in range(fn.body, fn.end) if s.live[i] and s.kind[i] == "word"}
    used |= {word for i in range(fn.body, fn.end) if s.live[i] for word in s.behind.get(i, "").replace("(", " ").split()}
    texts = " ".join(s.text[i] for i in range(fn.body, fn.end) if s.live[i] and s.kind[i] == "text")
    for first, last, _ in s.parts(fn.opening, fn.closing):
        colon = next((i for i in range(first, last + 1) if s.at(i, ":")), None)
        name = s.before(colon) if colon else None
        if name is None or not s.is_word(name) or s.text[name].startswith("_") or s.text[name] in used:
            continue
        if "{" + s.text[name] not in texts and s.text[name] not in " ".join(s.behind.get(i, "") for i in range(fn.body, fn.end)):
            s.write(name, "_" + s.text[name], "a parameter that only proofs read")

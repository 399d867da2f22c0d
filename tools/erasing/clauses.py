"""Removes what only the prover needs: clauses, ghost items, its attributes, laws, and types that only these name."""

import re

from erasing import kit
from erasing.shape import functions, impls, is_item, item_end, item_start, semicolon, types, uses

CLAUSES = ("requires", "ensures", "decreases", "invariant")
# Before an expression there is one of these words or signs. So what follows is a value, and no clause.
BEFORE_A_VALUE = {"if", "while", "match", "in", "return", "let", "mut", "ref", "break", "else", "fn", "struct", "use", "mod"}


def clause_brace(s, i):
    """The `{` of the clause whose keyword stands at `i`, or None where that is another name."""
    k = s.after(i)
    if s.is_word(k):
        k = s.after(k)
    p = s.before(i)
    if p is None or not s.at(k, "{") or s.text[p] in BEFORE_A_VALUE:
        return None
    if s.at(p, ",") and in_bounds(s, p):
        return k
    if s.kind[p] == "sign" and s.text[p] not in ")]>}|{":
        return None
    if s.text[p] == "{" or (s.text[p] == "}" and s.live[p]):
        return None if s.after(i) == k else k
    return k


def in_bounds(s, i):
    """Whether this is a `where`, or a comma behind one."""
    if s.at(i, ","):
        while not (s.at(i, "where") or s.text[i] in ";{}()"):
            i = s.before(i)
    return s.at(i, "where")


def cut_bound(s, first, last):
    """Cuts a bound behind a `where`, with its comma; and the `where` if it was the only one."""
    last = s.after(last) if s.at(s.after(last), ",") else last
    if s.at(s.before(first), "where") and s.at(s.after(last), "{"):
        first = s.before(first)
    s.cut_lines(first, last)


def cut_clauses(s):
    """Each clause goes, with the comment above it. What is required is kept, for the function's documentation."""
    s.required, s.promises = {}, {}
    for i in sorted(k for word in CLAUSES for k in s.words(word)):
        if not s.live[i] or (brace := clause_brace(s, i)) is None:
            continue
        first = i
        while first > 0 and (s.kind[first - 1] in ("space", "comment") or not s.live[first - 1]):
            first -= 1
        if s.text[i] == "requires":
            s.required[i] = " ".join("".join(s.text[brace + 1 : s.partner[brace]]).split())
        if s.text[i] == "ensures":
            s.promises[i] = " ".join("".join(s.text[brace + 1 : s.partner[brace]]).split())
        s.cut(first, s.partner[brace])


def cut_ghost_items(s):
    """`ghost use ..;`, `ghost view = { .. };` and, in a struct, `ghost whole: { .. },`."""
    for i in s.words("macro_rules"):
        raise s.fault(i, "a macro of its own, for which there is no rule")
    for i in s.words("ghost"):
        if s.live[i] and s.at(s.after(i), "{"):
            raise s.fault(i, "ghost code for which there is no rule")
        if s.live[i] and s.is_word(s.after(i)):
            end = i
            while not (s.at(end, ";") or s.at(end, ",")):
                end = s.partner[end] + 1 if s.opens(end) else end + 1
            s.cut_lines(item_start(s, i), end)


def cut_attributes(s):
    """`#[tactic(..)]` goes, and `Drop` among what is derived: every type of Rust may be dropped."""
    for i in range(len(s)):
        if not s.at(i, "#"):
            continue
        k = s.after(i)
        k = s.after(k) if s.at(k, "!") else k
        if not s.at(k, "["):
            continue
        name = s.text[s.after(k)]
        if name in kit.PROVER_ATTRIBUTES:
            s.cut_lines(i, s.partner[k])
        elif name == "derive":
            cut_derived_drop(s, i, k)


def cut_derived_drop(s, i, bracket):
    opening = s.after(s.after(bracket))
    parts = s.parts(opening, s.partner[opening])
    drops = [part for part in parts if s.code(*part[:2]) == "Drop"]
    if drops and len(parts) == 1:
        s.cut_lines(i, s.partner[bracket])
    for part in drops:
        s.cut_part(part, parts)


def cut_drop_bounds(s):
    """`T: Drop` is a bound that every type of Rust meets."""
    for i in s.words("Drop"):
        p, n = s.before(i), s.after(i)
        if s.at(p, "+"):
            s.cut(p, i)
        elif s.at(p, ":") and not s.at(s.before(p), ":"):
            if in_bounds(s, s.before(s.before(p))) and (s.at(n, ",") or s.at(n, "{")):
                cut_bound(s, s.before(p), i)
            elif s.at(n, "+"):
                s.cut(i, n)
            elif s.at(n, ",") or s.at(n, ">") or s.at(n, ";"):
                s.cut(p, i)


def cut_marker_impls(s, ghosts):
    """An impl of a trait of the prover's goes. A type that has one of a rule's is there for that alone."""
    for it in impls(s):
        if it.trait == "Model":
            s.modelled.add(it.name)
        if it.trait in kit.GHOST_TRAITS:
            if it.trait in kit.RULE_TRAITS:
                ghosts.add(it.name)
            s.cut_lines(item_start(s, it.keyword), it.end)


def is_empty(s, fn):
    return s.after(fn.opening) == fn.closing and s.after(fn.closing) == fn.body and s.after(fn.body) == fn.end


def cut_laws(sources, gone):
    """A function with no parameter, result or body, but a clause, says something and does nothing; so does one of calls of such."""
    for s in sources:
        for fn in functions(s):
            if fn.body and is_empty(s, fn) and any(fn.closing < i < fn.body for i in s.promises):
                gone.add(fn.name)
                s.cut_lines(item_start(s, fn.keyword), fn.end)
    found = True
    while found:
        found = False
        for s in sources:
            for fn in functions(s):
                if fn.body and calls_laws_alone(s, fn, gone):
                    gone.add(fn.name)
                    s.cut_lines(item_start(s, fn.keyword), fn.end)
                    found = True


def calls_laws_alone(s, fn, gone):
    if s.after(fn.opening) != fn.closing or s.after(fn.closing) != fn.body:
        return False
    calls = s.code(fn.body + 1, fn.end - 1).split("();")
    return len(calls) > 1 and calls[-1] == "" and all(call in gone for call in calls[:-1])


def cut_calls_of_laws(s, gone):
    for name in gone:
        for i in s.words(name):
            opening = s.after(i)
            if not s.at(opening, "(") or s.after(opening) != s.partner[opening]:
                continue
            end = s.after(s.partner[opening])
            if s.at(end, ";") and s.text[s.before(i)] in ";{}":
                s.cut_lines(item_start(s, i), end)


def cut_reads(s):
    """`let _ = &self.field;` does nothing but name the field to the prover. The comment above it says so, and goes too. A name that is
    bound to what an accessor reads goes by a list."""
    for i in s.words("let"):
        name = s.after(i)
        if not s.at(s.after(name), "="):
            continue
        is_listed = (s.crate, s.name, s.text[name]) in kit.READ_FOR_PROOFS
        if not is_listed and not s.at(name, "_"):
            continue
        end = semicolon(s, i)
        if re.fullmatch(r"&?\w+(\.\w+)*" + r"\(\)" * is_listed, s.code(s.after(name) + 1, end - 1)):
            s.cut_lines(item_start(s, i), end)


def mentions(s):
    """The names outside types' own definitions and imports; and those that each type's definition has."""
    inside, within = set(), {}
    for it in types(s):
        inside.update(range(item_start(s, it.keyword), it.end + 1))
        named = set(s.live_words(it.name_at + 1, it.end)) - {it.name}
        within[it.name] = within.get(it.name, set()) | named
    for i, end in uses(s):
        inside.update(range(i, end + 1))
    return {s.text[i] for i in range(len(s)) if s.live[i] and s.kind[i] == "word" and i not in inside}, within


def cut_types_of_proofs(sources, gone):
    """A type that nothing names any more goes: not in its crate, and in none that imports it."""
    named, within, imported = {}, {}, {}
    for s in sources:
        mine, of_types = mentions(s)
        named.setdefault(s.crate, set()).update(mine)
        for name, words in of_types.items():
            within[s.crate, name] = within.get((s.crate, name), set()) | words
        for i, end in uses(s):
            imported.setdefault(s.crate, set()).update(s.live_words(i, end))
    reached = {crate: closure(crate, names, within) for crate, names in named.items()}
    used = {
        (crate, name)
        for crate, name in within
        if name in reached[crate] or any(name in reached[c] and name in imported.get(c, ()) for c in reached if c != crate)
    }
    for s in sources:
        for it in types(s):
            if (s.crate, it.name) not in used:
                s.cut_lines(item_start(s, it.keyword), it.end)
    gone |= {name for _, name in within} - {name for _, name in used}


def closure(crate, names, within):
    """The types that these names reach, by what the crate's types have in them."""
    reached, front = set(), list(names)
    while front:
        name = front.pop()
        if name not in reached:
            reached.add(name)
            front += within.get((crate, name), ())
    return reached


def cut_ghost_traits(sources, gone):
    """A trait of the project's without a method is a name for the prover: it goes, with its impls."""
    empty = set()
    for s in sources:
        for it in types(s, ("trait",)):
            opening = s.partner[it.end] if s.text[it.end] == "}" else None
            if opening and s.after(opening) == it.end:
                empty.add(it.name)
                s.cut_lines(item_start(s, it.keyword), it.end)
    for s in sources:
        for it in impls(s):
            if it.trait in empty:
                s.cut_lines(item_start(s, it.keyword), it.end)
    for s in sources:
        cut_value_bounds(s)
    gone |= empty
    return empty - kit.VALUE_TRAITS


def cut_value_bounds(s):
    """`T: Reference<K>` is `T`: what the trait says of a value is a fact, and no method."""
    for name in kit.VALUE_TRAITS:
        for i in s.words(name):
            p, n = s.before(i), s.after(i)
            if s.at(p, ":") and not s.at(s.before(p), ":") and s.at(n, "<"):
                s.cut(p, s.angle(n))


def cut_empty_modules(files):
    """A file of which no code is left goes, with its `mod` line."""
    empty = True
    while empty:
        empty = [key for key, s in files.items() if not any(s.counts(i) for i in range(len(s)))]
        for crate, name in empty:
            del files[crate, name]
            above, _, last = name.rpartition("/")
            parent = files.get((crate, above or "lib"))
            for i in parent.words("mod") if parent else ():
                if parent.text[parent.after(i)] == last and is_item(parent, i):
                    parent.cut_lines(item_start(parent, i), item_end(parent, i))

"""Rewrites calls that allocate and return a refusal, for which Rust's own calls would end the program, by the lists in kit.py."""

from erasing import kit
from erasing.shape import functions, impls


def new_name(s, fn):
    parts = s.parts(fn.opening, fn.closing)
    is_method = parts and "self" in s.live_words(*parts[0][:2])
    if not is_method or not fn.body or "Result" not in s.live_words(fn.closing, fn.body):
        return None
    with_allocator = kit.REFUSABLE_WITH_ALLOCATOR.get(("", fn.name)) if fn.name_at in s.handed else None
    return with_allocator or kit.REFUSABLE.get((fn.name, len(parts) - 1))


def rename_calls(s):
    """Calls that may be refused, and the project's own methods that are named as they are."""
    for fn in functions(s):
        if name := new_name(s, fn):
            s.write(fn.name_at, name, "a method that asks for memory")
    for i in range(len(s)):
        opening = call_of(s, i)
        if opening is not None and not s.at(s.before(i), "fn"):
            rename_call(s, i, opening)


def call_of(s, i):
    """The `(` of a call of the word at `i`, or None."""
    if not s.is_word(i):
        return None
    k = s.after(i)
    if s.at(k, ":") and s.at(s.after(k), ":") and s.at(s.after(s.after(k)), "<"):
        k = s.after(s.angle(s.after(s.after(k))))
    return k if s.at(k, "(") else None


def owner_of(s, i):
    """The type before `::name`, or "" before `.name`, or None."""
    p = s.before(i)
    if s.at(p, "."):
        return ""
    if not (s.at(p, ":") and s.at(s.before(p), ":")):
        return None
    k = s.before(s.before(p))
    k = s.name_before_angle(k) if s.at(k, ">") else k
    return None if k is None else s.text[k]


def rename_call(s, i, opening):
    owner, name = owner_of(s, i), s.text[i]
    count = len(s.parts(opening, s.partner[opening]))
    question = s.after(s.partner[opening])
    if owner == "" and name in kit.PLAIN:
        s.write(i, kit.PLAIN[name], "a call that needs no memory")
    elif owner == "" and (name, count) in kit.REFUSABLE:
        ask(s, i, kit.REFUSABLE[name, count])
    elif i in s.took and (owner, name) in kit.REFUSABLE_WITH_ALLOCATOR:
        ask(s, i, kit.REFUSABLE_WITH_ALLOCATOR[owner, name])
    elif owner == "HashMap" and name == "new":
        s.write(i, "default", "a map's hasher")
    elif owner == "" and name == "clone" and s.at(question, "?"):
        ask(s, i, "try_clone")
    elif owner == "" and s.at(question, "?") and (name == "sort" or (name == "to_string" and i in s.took)):
        insist_on_tests(s, i)
        s.cut(question, question)


def insist_on_tests(s, i):
    """In Rust these calls end the program if memory is refused, so only tests may make them."""
    if s.name.partition("/")[0] != "tests":
        raise s.fault(i, f"{s.text[i]}, whose memory can't be refused in Rust")


def ask(s, i, name):
    s.write(i, name, "a call that asks for memory")
    if name in kit.TRAIT_OF and (s.crate, s.name, name) not in kit.OF_THE_PROJECT:
        s.imports.add(kit.TRAIT_OF[name])


def rename_clones(s):
    """An impl of Clone that may be refused is one of TryClone."""
    for it in impls(s):
        if it.trait == "Clone":
            for i in range(it.keyword, it.end):
                if s.is_word(i) and s.text[i] in ("Clone", "clone"):
                    s.write(i, {"Clone": "TryClone", "clone": "try_clone"}[s.text[i]], "an impl of Clone that may be refused")
            s.imports.add(("fallible", "TryClone"))


def rename_macros(s):
    """`vec![in alloc; x; n]`, `vec![in alloc; x, y]` and `format!(in alloc; ..)`; the allocator is cut already."""
    for i in s.words("vec"):
        if i not in s.took:
            continue
        opening = s.after(s.after(i))
        closing, k = s.partner[opening], s.after(opening)
        while k < closing and not s.at(k, ";"):
            k = s.partner[k] + 1 if s.opens(k) else k + 1
        s.cut(s.after(i), s.after(i))
        if k < closing:
            ask(s, i, "Vec::try_from_elem")
            s.write(k, ",", "vec!")
            s.imports.add(kit.TRAIT_OF["try_from_elem"])
        else:
            ask(s, i, "Vec::try_from_array")
            s.imports.add(kit.TRAIT_OF["try_from_array"])
        s.text[opening], s.text[closing] = ("(", ")") if k < closing else ("([", "])")
    for i in s.words("format"):
        question = s.after(s.partner[s.after(s.after(i))]) if s.at(s.after(i), "!") else None
        if i in s.took and s.at(question, "?"):
            insist_on_tests(s, i)
            s.cut(question, question)

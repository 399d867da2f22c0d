"""Rewrites what a program does with the handle of the runtime: waiting loops, streams, threads."""

import re

STREAMS = ("stdin", "stdout", "stderr")


def chain_start(s, dot):
    """The first token of the names and dots before this one."""
    k = s.before(dot)
    while s.at(s.before(k), ".") and s.is_word(s.before(s.before(k))):
        k = s.before(s.before(k))
    return k


def mend_runtime(s, cut):
    for name in ("forever", *STREAMS):
        for i in s.words(name):
            if not s.at(s.before(i), "."):
                continue
            first = chain_start(s, s.before(i))
            if cut.kind(first, s.before(s.before(i))) != "handle":
                continue
            if name == "forever":
                mend_forever(s, first, s.partner[s.after(i)])
            else:
                s.cut(first, s.before(i))
                s.write(i, f"streams::{name}", "a standard stream")
                s.imports.add(("streams",))
    for i in s.words("Forever"):
        if s.at(s.after(i), "<"):
            s.cut(s.after(i), s.angle(s.after(i)))
            s.write(i, "Repeat<()>", "turns without end")
            s.imports.add(("std", "iter", "Repeat"))


def mend_forever(s, first, last):
    """`for _ in rt.forever()` is a loop, behind which nothing is reached if it has no break; elsewhere turns without end."""
    keyword = s.before(s.before(s.before(first))) if s.at(s.before(first), "in") else None
    if s.at(keyword, "for") and s.at(s.after(keyword), "_") and s.at(s.after(last), "{"):
        s.cut(s.after(keyword), last)
        s.write(keyword, "loop", "a loop without end")
        end = s.partner[s.after(keyword)]
        if "break" not in s.live_words(keyword, end):
            cut_unreachable(s, end)
        return
    s.cut(first, last)
    s.write(first, "iter::repeat(())", "turns without end")
    s.imports.add(("std", "iter"))


def cut_unreachable(s, end):
    i = s.after(end)
    if s.at(i, "unreachable") and s.at(s.after(i), "!"):
        last = s.partner[s.after(s.after(i))]
        last = s.after(last) if s.at(s.after(last), ";") else last
        s.cut(i, last)


def mend_threads(s):
    """Threads that may borrow: the start of one may be refused."""
    for i in s.words("Scope"):
        opening = s.after(i)
        if s.at(opening, "<"):
            code = s.code(opening, s.angle(opening))
            if match := re.fullmatch(r"<('\w+) ,&('\w+) \(\)>", code):
                s.cut(s.after(opening), s.angle(opening))
                s.write(opening, f"<{match[1]}, {match[2]}>", "the type of a scope")
    for i in s.words("spawn"):
        if s.at(s.before(i), ".") and s.at(s.before(s.before(i)), "scope"):
            s.write(i, "try_spawn", "the start of a thread")
            s.imports.add(("thread", "TrySpawn"))


def mend_macros(s):
    for i in s.words("prove"):
        if s.at(s.after(i), "!"):
            s.write(i, "debug_assert", "prove!")
    for i in s.words("writeln"):
        if s.at(s.before(i), "."):
            s.imports.add(("streams", "WriteLine"))
    for i in s.words("write"):
        if s.at(s.after(i), "!") and "Formatter" not in s.text and not re.search(r"fmt::(\{[^}]*)?Write", "".join(s.original)):
            s.imports.add(("std", "fmt", "Write as _"))

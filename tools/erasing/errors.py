"""Writes out what `thiserror` derives: an impl of Display, and one of Rust's Error."""

import re

from erasing.shape import item_start, types


def write_errors(s):
    for it in types(s):
        for i in range(item_start(s, it.keyword), it.keyword):
            if s.at(i, "derive") and s.live[i]:
                opening = s.after(i)
                parts = s.parts(opening, s.partner[opening])
                mine = [part for part in parts if s.code(*part[:2]) == "Error"]
                if mine:
                    s.cut_part(mine[0], parts)
                    write_out(s, it)


def message(s, first, last):
    """The text of `#[error(".."])` between two tokens; the attribute goes."""
    for i in range(first, last):
        if s.at(i, "error") and s.at(s.before(i), "[") and s.at(s.after(i), "("):
            bracket = s.before(i)
            text = s.text[s.after(s.after(i))]
            s.cut_lines(s.before(bracket), s.partner[bracket])
            return text
    raise s.fault(first, "an error without a text")


def printed(text):
    return f"write!(f, {text})" if "{" in text else f"f.write_str({text})"


def write_out(s, it):
    body = of_struct(s, it) if it.word == "struct" else of_enum(s, it)
    code = (
        f"\n\nimpl fmt::Display for {it.name} {{\nfn fmt(&self, f: &mut fmt::Formatter<'_>) -> fmt::Result {{\n{body}\n}}\n}}"
        f"\n\nimpl Error for {it.name} {{}}"
    )
    s.add(it.end, code, "thiserror", it.name)
    s.imports |= {("core", "fmt"), ("core", "error", "Error")}


def of_struct(s, it):
    said = printed(message(s, item_start(s, it.keyword), it.keyword))
    opening = it.fields_at(s)
    if opening is None or "{" not in said:
        return said
    parts = s.parts(opening, s.partner[opening])
    names = [s.text[max(i for i in range(*part[:2]) if s.at(s.after(i), ":"))] for part in parts]
    return f"let {it.name} {{ {', '.join(names)} }} = self;\n{said}"


def of_enum(s, it):
    arms = []
    opening = s.after(it.name_at)
    for first, last, _ in s.parts(opening, it.end):
        text = message(s, first, last + 1)
        name = first
        while not s.is_word(name):
            name = s.after(name)
        fields = s.after(name)
        pattern = ""
        if fields and fields <= last and s.at(fields, "("):
            count = len(s.parts(fields, s.partner[fields]))
            names = [f"field_{k}" for k in range(count)] if count > 1 else ["it"]
            pattern = f"({', '.join(names)})"
            text = re.sub(r"\{(\d+)", lambda match: "{" + names[int(match[1])], text)
        elif fields and fields <= last and s.at(fields, "{"):
            names = [s.text[part[0]] for part in s.parts(fields, s.partner[fields])]
            told = [name for name in names if re.search(r"\{" + name + r"\b", text)]
            pattern = " { " + ", ".join(told + [".."] * (len(told) < len(names))) + " }"
        arms.append(f"{it.name}::{s.text[name]}{pattern} => {printed(text)},")
    return "match self {\n" + "\n".join(arms) + "\n}"

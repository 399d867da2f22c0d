"""Keeps comments, except sentences about what contracts see and links to removed items."""

import re
import textwrap

WIDTH = 118
FOR_CONTRACTS = re.compile(r" ?\bContracts see [^.]*(?:\.[^ ][^.]*)*\.(?= |$)")


def mend_comments(s, places, gone):
    root = "::".join(places.top(s))
    for block in blocks(s):
        cut_sentences(s, block)
    for i in range(len(s)):
        if s.kind[i] == "comment" and s.live[i]:
            text = re.sub(r"\[`(\w+)`\](?!\()", lambda match: f"`{match[1]}`" if match[1] in gone else match[0], s.text[i])
            s.text[i] = text.replace("](crate::", f"]({root}::")


def blocks(s):
    """The comments that follow one another, line by line, with the same mark."""
    block = []
    for i in range(len(s)):
        if not s.live[i]:
            continue
        if s.kind[i] == "comment" and (not block or mark_of(s.text[i]) == mark_of(s.text[block[-1]])):
            block.append(i)
        elif s.kind[i] != "space" or s.text[i].count("\n") > 1:
            if block:
                yield block
            block = [i] if s.kind[i] == "comment" else []
    if block:
        yield block


def mark_of(text):
    return re.match(r"//[/!]?", text)[0] if text.startswith("//") else "/*"


def cut_sentences(s, block):
    """Cuts the sentences of a paragraph on what contracts see, and fills its lines anew."""
    mark = mark_of(s.text[block[0]])
    paragraph = []
    for i in [*block, None]:
        line = None if i is None else s.text[i][len(mark) :].strip()
        if line:
            paragraph.append(i)
            continue
        text = " ".join(s.text[k][len(mark) :].strip() for k in paragraph)
        if FOR_CONTRACTS.search(text):
            fill(s, paragraph, mark, FOR_CONTRACTS.sub("", text).strip())
        paragraph = []


def fill(s, paragraph, mark, text):
    lines = textwrap.wrap(text, WIDTH, break_long_words=False, break_on_hyphens=False)
    behind = "".join(s.behind.pop(i, "") for i in paragraph)
    for i, line in zip(paragraph, lines):
        s.text[i] = f"{mark} {line}"
    for i in paragraph[len(lines) :]:
        s.cut_lines(i, i)
    if lines and behind:
        s.behind[paragraph[len(lines) - 1]] = behind
    elif behind:
        raise s.fault(paragraph[0], "a comment of which nothing is left stands before preconditions")

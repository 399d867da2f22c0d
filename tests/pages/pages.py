"""Splits a page in Markdown into its indented blocks, commands, links and tables."""

import os
import re

from sources.rattle import files_in

BUILT = {".git", "out", "target", "__pycache__"}


def blocks_of(text):
    """The indented blocks of a page, without their indent. The first command in one begins another."""
    found, lines, is_behind_gap = [], [], True
    for line in [*text.splitlines(), "end"]:
        if line.startswith("    $ ") and lines and not any(it.startswith("$ ") for it in lines):
            found.append("\n".join(lines).rstrip("\n"))
            lines = []
        if line.startswith("    ") and (lines or is_behind_gap):
            lines.append(line[4:])
        elif lines and not line.strip():
            lines.append("")
        elif lines:
            found.append("\n".join(lines).rstrip("\n"))
            lines = []
        is_behind_gap = not line.strip()
    return found


def commands_of(text):
    """Each command of a page, with the lines that it prints."""
    found = []
    for block in blocks_of(text):
        is_printed = False
        for line in block.splitlines():
            if line.startswith("$ "):
                found.append((line[2:], []))
                is_printed = True
            elif is_printed:
                found[-1][1].append(line.rstrip())
    for _, printed in found:
        while printed and not printed[-1]:
            printed.pop()
    return found


def links_of(text):
    """What the links of a page lead to, within the tree."""
    text = "\n".join(line for line in text.splitlines() if not line.startswith("    "))
    return [it for it in re.findall(r"\]\(([^)\s]+)\)", text) if not re.match(r"https?:|mailto:", it)]


def slug(heading):
    """How a link names a heading."""
    return re.sub(r"[^\w\- ]", "", heading.lower()).replace(" ", "-")


def rows_of(text, heading=None):
    """The rows of the tables of a page, as their cells, without the heads; or of the part under one heading."""
    found, is_within, is_below = [], heading is None, False
    for line in text.splitlines():
        if line.startswith("#") and heading is not None:
            is_within = line.strip("# ").lower() == heading
        if not line.startswith("|"):
            is_below = False
        elif re.match(r"\|[-| :]+\|$", line):
            is_below = True
        elif is_below and is_within:
            found.append([cell.strip() for cell in line.strip("|").split("|")])
    return found


def paths_in(root, ending):
    """The files of the tree whose names end so, by their paths from the top."""
    for path in files_in(root, ending, BUILT):
        yield os.path.relpath(path, root)

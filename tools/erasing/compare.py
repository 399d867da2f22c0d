"""Compares rust/ with what the sources erase to: byte by byte if the same rustfmt is installed, otherwise by most tokens."""

import os
import re
import subprocess

from counts import Counts
from erasing.layout import ERASED_LINE, PACKAGES, STAND_IN_LINE, laid_out
from erasing.source import TOKEN
from sources.rattle import files_in

# The version that laid rust/ out.
RUSTFMT = "rustfmt 1.9.0"


def check(rust, texts):
    """Tells each file that isn't what it should be, with its line. Whether all are."""
    counts = Counts()
    layouts = laid_out(texts, rust)[0] if has_rustfmt() else {}
    for path, text in sorted(texts.items()):
        line = differs(os.path.join(rust, path), text, layouts.get(path))
        counts.check(f"rust/{path}{line or ''}", not line)
    for path in strangers(rust, texts):
        counts.check(f"rust/{path}: it is nobody's: no source erases to it, and it isn't a stand-in", False)
    if not layouts:
        counts.skip(f"imports, braces and the layout aren't compared, since {RUSTFMT} isn't there (rustup component add rustfmt)")
    return counts.end() == 0


def has_rustfmt():
    try:
        told = subprocess.run(["rustfmt", "--version"], capture_output=True, text=True, check=False).stdout
    except OSError:
        return False
    return told.startswith(RUSTFMT)


def differs(whole, text, layout):
    """How a file differs from what it should be: its line and a word, or None."""
    if not os.path.exists(whole):
        return ": it is missing"
    with open(whole, encoding="utf-8") as file:
        found = file.read()
    if found == layout:
        return None
    mine, wanted = tokens(found), tokens(text)
    for (there, line), (here, _) in zip(mine, wanted):
        if there != here:
            return f":{line}: it says `{shown(there)}`, and the sources erase to `{shown(here)}`"
    if len(mine) != len(wanted):
        line = mine[len(wanted)][1] if len(mine) > len(wanted) else found.count("\n")
        return f":{line}: it {'goes on' if len(mine) > len(wanted) else 'ends'} where the sources don't"
    if layout is None:
        return None
    lines = zip(found.split("\n"), layout.split("\n"))
    line = next((k for k, (a, b) in enumerate(lines, 1) if a != b), found.count("\n"))
    return f":{line}: its imports or its layout aren't rustfmt's"


def shown(token):
    return token if len(token) < 60 else token[:57] + ".."


def tokens(text):
    """The tokens of a file with their lines, without what rustfmt moves: imports, modules, commas, and the braces of a block."""
    text = re.sub(r"^(pub )?(use|mod) [^;{]*(\{[^;]*\})?;", lambda it: "\n" * it[0].count("\n"), text, flags=re.MULTILINE)
    found, line = [], 1
    for match in TOKEN.finditer(text):
        if match.lastgroup != "space" and match.group() not in ",{}":
            found.append((match.group().rstrip(), line))
        line += match.group().count("\n")
    return found


def strangers(rust, texts):
    """The files among the erased ones that are nobody's."""
    found = []
    for package in sorted(os.listdir(rust)):
        for folder in ("src/erased", "src/bin"):
            for whole in files_in(os.path.join(rust, package, folder)):
                path = os.path.relpath(whole, rust)
                by_hand = folder == "src/bin" or package not in PACKAGES
                if path not in texts and not is_known(whole, by_hand):
                    found.append(path)
    return sorted(found)


def is_known(whole, by_hand):
    """Whether a file that no source erases to is a stand-in, or stands where files by hand may."""
    with open(whole, encoding="utf-8") as file:
        line = file.readline()
    return line.startswith(STAND_IN_LINE) or (by_hand and not line.startswith(ERASED_LINE))

"""Reads and writes tests/edits/refused: the crates whose wrong bodies were all refused, with the sum for which they were. Only
tools/wrong_bodies writes that file."""

import fcntl
import os
import re

HEAD = """# The crates whose wrong bodies were all seen refused: the name, how many there are, and a sum of all that decides it
# (CONTRIBUTING.md). tools/wrong_bodies alone writes this file: what anybody else writes here is tried again, or fails.
"""
LINE = re.compile(r"(\w+) ([1-9]\d*) ([0-9a-f]{32})")


class Refused:
    """What the file says: of each crate the number of its wrong bodies and the sum; and what in it no tool wrote."""

    def __init__(self, path):
        self.path, self.lines, self.strange = path, {}, []
        for row, line in enumerate(self.read().split("\n")[:-1], 1):
            found = LINE.fullmatch(line)
            if found and found[1] not in self.lines and sorted([*self.lines, found[1]])[-1] == found[1]:
                self.lines[found[1]] = (int(found[2]), found[3])
            elif line not in HEAD.split("\n"):
                self.strange.append(f"{path}:{row}: tools/wrong_bodies writes no such line here: {line[:80]}")

    def read(self):
        try:
            with open(self.path, encoding="utf-8") as it:
                return it.read()
        except FileNotFoundError:
            return ""

    def why(self, name, number, sum_now):
        """Why the wrong bodies of a crate are to be tried, or None where they were refused as all stands now."""
        if name not in self.lines:
            return "no line"
        if self.lines[name][1] != sum_now:
            return "another sum"
        return None if self.lines[name][0] == number else "another number"

    def forgotten(self, names):
        """Tells the lines of crates that have no wrong bodies now."""
        return [f"{self.path}: {it} has no wrong bodies" for it in self.lines if it not in names]


def note(path, name, line):
    """Puts a crate's number and sum in the file, or takes its line away where none is given. Others' lines stay."""
    held = os.open(os.path.dirname(path), os.O_RDONLY)
    try:
        fcntl.flock(held, fcntl.LOCK_EX)
        lines = {**Refused(path).lines, name: line}
        rows = [f"{it} {lines[it][0]} {lines[it][1]}\n" for it in sorted(lines) if lines[it]]
        with open(f"{path}.new", "w", encoding="utf-8") as it:
            it.write(HEAD + "".join(rows))
        os.replace(f"{path}.new", path)
    finally:
        os.close(held)

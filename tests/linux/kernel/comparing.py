"""Gives the same lines to the kernel's driver and to ours, and reports the first answer that differs, cut down."""

import collections
import random
import subprocess
import time

from kernel import gate_lines, queue_lines
from against_parts.cutting import Cutter

BATCH = 20_000
NAMED = "the last piece isn't aligned to the physical block"
NOT_COMPARED = "not compared, since outside the kernel's rules or our limits"


def judged(line, kernel, ours):
    """Whether two answers agree: 'same', the name of an intended difference, or None."""
    if kernel == ours:
        return "same"
    if kernel == "-" and ours.startswith("refused: "):
        return NOT_COMPARED
    if line.startswith("split "):
        return judged_split(line, kernel, ours)
    return None


def judged_split(line, kernel, ours):
    """The kernel aligns the end of the last piece to the physical block, even if all that is left is within the limits; here
    it stays whole then."""
    words = kernel.split()
    if len(words) != 3 or words[1] != "reach" or not (words[0] + words[2] + ours).isdigit():
        return None
    piece, reach, count = int(words[0]), int(words[2]), int(line.split()[2])
    if words[0] == ours:
        return "same"
    return NAMED if piece < count <= reach and int(ours) == count else None


class Driver:
    """A program that answers lines."""

    def __init__(self, path):
        self.path = path

    def answers(self, lines, seconds=60):
        try:
            done = subprocess.run([self.path], input="\n".join(lines) + "\n", capture_output=True, text=True, timeout=seconds, check=False)
            ended = [] if done.returncode == 0 else [f"the program ends with status {done.returncode}"]
            return done.stdout.split("\n")[:-1] + ended
        except subprocess.TimeoutExpired as why:
            said = why.stdout or b""
            return said.decode(errors="replace").split("\n")[:-1] + ["the program doesn't end"]


class Difference:
    """The lines that show a difference, and both answers to the last of them."""

    def __init__(self, lines, kernel, ours):
        self.lines, self.kernel, self.ours = lines, kernel, ours

    def shown(self):
        rows = [f"    {it}" for it in self.lines]
        return "\n".join([*rows, f"  the kernel  {self.kernel}", f"  blkq        {self.ours}"])


class Kind:
    """A kind of script: how one is made, and its two drivers."""

    def __init__(self, name, make, kernel, ours):
        self.name, self.make, self.kernel, self.ours = name, make, Driver(kernel), Driver(ours)

    def first_difference(self, lines, tally=None):
        """The lines of a script up to the first in which the two differ, if there is one."""
        kernel, ours = self.kernel.answers(lines), self.ours.answers(lines)
        return self.difference_of(lines, kernel, ours, tally)

    def difference_of(self, lines, kernel, ours, tally=None):
        for at, line in enumerate(lines):
            pair = [it[at] if at < len(it) else "no answer" for it in (kernel, ours)]
            how = judged(line, *pair)
            if not how:
                return Difference(lines[: at + 1], *pair)
            if tally is not None:
                tally[how] += 1
        return None

    def cut(self, difference, seconds=300):
        """The fewest lines that show a difference, beginning with the same kind of line."""
        def holds(data):
            found = self.first_difference(data.decode().split("\n"))
            return found is not None and "no answer" not in (found.kernel, found.ours)

        if not holds("\n".join(difference.lines).encode()):
            return difference
        data = Cutter("\n".join(difference.lines).encode(), holds, seconds).cut()
        return self.first_difference(data.decode().split("\n"))


MAKERS = {
    "gate": gate_lines.script,
    "queue": queue_lines.script,
    "split": lambda pick: [queue_lines.split(pick) for _ in range(200)],
}


def kinds_of(builder, names, made=None):
    """The requested kinds. Their drivers are built if they don't exist yet."""
    made = dict(made or {})
    for name in names:
        driver = "queue" if name == "split" else name
        if driver not in made:
            made[driver] = builder.kernel(driver), builder.ours(driver)
    return [Kind(name, MAKERS[name], *made["queue" if name == "split" else name]) for name in names]


def compare(kind, calls, seed, say):
    """Runs random scripts of a kind until this many calls were made. Returns the tally, and the first difference or None."""
    tally, number, spoken = collections.Counter(), 0, time.monotonic()
    while tally.total() < calls:
        scripts, size = [], 0
        while size < min(BATCH, calls - tally.total()):
            number += 1
            scripts.append(kind.make(random.Random(f"{seed} {kind.name} {number}")))
            size += len(scripts[-1])
        whole = [line for it in scripts for line in it]
        kernel, ours, at = kind.kernel.answers(whole), kind.ours.answers(whole), 0
        for it in scripts:
            end = at + len(it)
            found = kind.difference_of(it, kernel[at:end], ours[at:end], tally)
            if found:
                return tally, found
            at = end
        if time.monotonic() - spoken > 1:
            spoken = time.monotonic()
            say(f"{kind.name}: {tally.total():,} calls of {calls:,}")
    return tally, None

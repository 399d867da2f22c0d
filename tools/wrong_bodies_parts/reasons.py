"""Reads why the prover refuses a function, and decides whether the reason is about a contract."""

import enum
import re


class Kind(enum.Enum):
    """What a reason speaks of."""

    CONTRACT = "a contract"
    NEED = "a need of the body"
    VALUE = "another value than the one that a proof by hand is of"
    UNREAD = "the front end can't read it"
    NOT_COVERED = "the borrow checker doesn't cover the function"
    NAMES = "a proof names what is gone"
    SHAPE = "a proof by hand no longer fits"
    OTHER = "something else"

    def tells(self):
        return self in (Kind.CONTRACT, Kind.NEED, Kind.VALUE)


OPEN = "it is not proved that "
# The goals that a contract makes; an open goal of another kind is a need of the body.
OF_CONTRACT = re.compile(r"what the function ensures|the invariant of the loop|the `invariant`|the loop ends")
# A tactic that an answer calls was tried at the goal, and didn't prove it.
TRIED = re.compile(
    r"the goal does not follow|the goal fails at|did not prove|found no proof|does not prove|gave up|`omega`: |is not equal by"
)
GONE = re.compile(
    r"has no field|is not in scope|has no `|can be named from here|was not admitted|were not admitted|is no name|not found"
)
# The goal has the form that its answer is for, and says it of another value.
OTHER_VALUE = re.compile(r"the two (types|sides) (first differ|differ only) where one has")
UNFIT = re.compile(r"expected type|types differ|is not a function|expected a function|expected .* found|too many arguments")
# A place in a file, and what is said of it.
PLACED = re.compile(r"(?:note: )?(?:\./)?((?:src|specs|proofs)/\S+?):(\d+):\d+: (.*)")


def kind_of(said):
    """The kind of one reason: a line of the prover."""
    placed = PLACED.search(said)
    file, text = (placed[1], placed[3]) if placed else ("", said)
    if OPEN in text:
        return Kind.CONTRACT if OF_CONTRACT.search(text) else Kind.NEED
    if "does not cover" in said:
        return Kind.NOT_COVERED
    if file.startswith("proofs/"):
        # A goal or a term that is quoted may have any words.
        plain = re.sub(r"`[^`]*`", "``", text)
        if GONE.search(text) and not TRIED.search(plain):
            return Kind.NAMES
        if TRIED.search(text):
            return Kind.CONTRACT
        if OTHER_VALUE.search(text):
            return Kind.VALUE
        return Kind.SHAPE if UNFIT.search(text) else Kind.OTHER
    if GONE.search(text) and file.startswith("specs/"):
        return Kind.NAMES
    return Kind.UNREAD if "error" in text else Kind.OTHER


class Reason:
    """A line of the prover that says why it refuses, and where."""

    def __init__(self, line):
        placed = PLACED.match(line)
        self.line, self.kind = line, kind_of(line)
        self.file, self.row = (placed[1], int(placed[2])) if placed else ("", 0)
        goal = re.search(r"\(`([^`]*)`\)", line) if OPEN in line else None
        self.goal = goal[1] if goal else ""

    def is_of(self, function):
        """Whether it stands in the function, or in a file of its proof."""
        if self.file == function.file:
            return function.has_row(self.row)
        return bool(re.match(function.proofs, self.file))


REFUSED = re.compile(r"(note: (\./)?src/\S+:\d+:\d+: it is not proved)|((\./)?(src|specs|proofs)/\S+:\d+:\d+: error)")


def reasons_in(said):
    """Each reason that a check's text gives."""
    reasons = [Reason(line) for line in said.split("\n") if REFUSED.match(line)]
    uncovered = re.finditer(r"(?m)^fn (\S+): .*; the borrow checker does not cover this function yet: ((?:src)/\S+?:.*)", said)
    return reasons + [Reason(f"{it[2]} (the borrow checker does not cover this function)") for it in uncovered]


def renamed(reasons):
    """The first words of goals that an answer names and that are gone: an open goal of such a word may be one of these."""
    gone = set()
    for it in reasons:
        if it.kind is Kind.NAMES and ".Goals` has no" in it.line:
            names = re.findall(r"`([a-zA-Z][\w-]*)`", it.line.partition("has no")[2])
            gone |= {name.partition("-")[0] for name in names}
    return gone


def telling(reasons):
    """The reason that shows a contract at work, of those of one edit, or None."""
    gone = renamed(reasons)
    good = [it for it in reasons if it.kind.tells() and it.goal.partition("-")[0] not in gone]
    # The first of a contract, and best one that is shown to be false.
    rank = {Kind.CONTRACT: 0, Kind.NEED: 1, Kind.VALUE: 2}
    return min(good, key=lambda it: ("gave up" in it.line, rank[it.kind]), default=None)

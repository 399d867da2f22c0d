"""Reads a schedule and its answer, and checks the answer with the machine of tests/machines/gate.py."""

import re
from math import inf

from machines.gate import Gate, Stuck
from races_pictures.states import GateState
from races_pictures.svg import Wrong

# The words of each step, and how many numbers follow; those that only look, and the word that each looks at or changes.
PASS_STEPS = {
    "add try": (0, "shared"),
    "add live": (0, "shared"),
    "add get": (1, "shared"),
    "sub": (1, "shared"),
    "undo": (0, "shared"),
    "mark": (0, "shared"),
    "look": (1, "slot"),
    "take": (3, "slot"),
    "give": (3, "slot"),
    "shared": (0, "shared"),
    "front": (0, "front"),
    "word": (1, "word"),
}
CONTROL_STEPS = {
    "dead": (0, "shared"),
    "close": (0, "slot"),
    "collect": (0, "shared"),
    "confirm": (0, "front"),
    "base": (0, "shared"),
    "mark": (0, "shared"),
    "take": (0, "shared"),
    "front": (0, "front"),
    "clear": (0, "shared"),
    "bias": (0, "shared"),
    "open": (0, "slot"),
    "store": (2, "word"),
    "join": (1, None),
    "shared": (0, "shared"),
}
class Step:
    """A step as its line says it."""

    def __init__(self, line, words):
        self.line, self.text = line, " ".join(words[1:])
        if not words or words[0] != "c" and not words[0].isdecimal():
            raise Wrong(f"line {line}: no actor")
        self.actor = "c" if words[0] == "c" else int(words[0])
        known = CONTROL_STEPS if self.actor == "c" else PASS_STEPS
        self.name = " ".join(words[1 : 3 if words[1:2] == ["add"] else 2])
        numbers = words[1 + len(self.name.split()) :]
        if self.name not in known or len(numbers) != known[self.name][0]:
            raise Wrong(f"line {line}: no step")
        if not all(re.fullmatch(r"-?[0-9]{1,20}", word) for word in numbers):
            raise Wrong(f"line {line}: bad number")
        self.numbers = [int(word) for word in numbers]
        self.target = known[self.name][1]

    def at(self, gate):
        """The slot, or the guarded word, that the step is taken on, in a gate as it is before the step."""
        if self.target in ("slot", "word"):
            return gate.at if self.actor == "c" and self.target == "slot" else self.numbers[0]
        return None


class Row:
    """A step that was taken, or the last one, which wasn't enabled: the word that it is taken on, its reply, and the gate after it."""

    def __init__(self, step, target, reply, moment, is_stuck=False):
        self.step, self.target, self.reply, self.moment, self.is_stuck = step, target, reply, moment, is_stuck


class Schedule:
    """A schedule with what each of its steps is answered, and the gate after each of the first `most`."""

    def __init__(self, text, answer, most=inf):
        self.most = most
        self.gate, lines = gate_in(text)
        self.start, self.rows = GateState(self.gate), []
        self.actors = ["c", *range(len(self.gate.passes))]
        self.steps = [Step(line, words) for line, words in lines]
        self.run(answer.splitlines())

    def run(self, answer):
        for step in self.steps:
            if self.rows and self.rows[-1].is_stuck:
                break
            self.take(step)
        made = [row.reply for row in self.rows]
        self.end = made.pop() if self.rows and self.rows[-1].is_stuck else self.gate.end()
        made.append(self.end)
        for line, (mine, theirs) in enumerate(zip(made, answer), 1):
            if mine != theirs:
                raise Wrong(f"the answer's line {line} says '{theirs}', and the machine '{mine}'")
        if len(answer) != len(made):
            raise Wrong(f"the answer has {len(answer)} lines, and the machine gives {len(made)}")

    def take(self, step):
        target = (step.target, step.at(self.gate)) if step.target else None
        try:
            reply, is_stuck = self.gate.take(step), False
        except Stuck as why:
            reply, is_stuck = f"stuck {step.line} {why}", True
        moment = GateState(self.gate) if len(self.rows) < self.most else None
        self.rows.append(Row(step, target, reply, moment, is_stuck))


def said_in(text):
    """The lines that say something, with their numbers from 1 and their words."""
    said = [(line, words.split()) for line, words in enumerate(text.splitlines(), 1)]
    return [(line, words) for line, words in said if words and not words[0].startswith("#")]


def gate_of(words):
    """The gate of a world's line."""
    if len(words) < 5 or words[3] not in ("slots", "atomic", "dead") or not all(it.isdecimal() for it in words[1:3] + words[4:]):
        raise Wrong("no world")
    return Gate(int(words[1]), int(words[2]), words[3], int(words[4]), [int(it) for it in words[5:]])


def gate_in(text):
    """The gate of a schedule, and the lines of its steps."""
    lines = said_in(text)
    if len(lines) < 2 or lines[0][1] != ["gate", "1"] or lines[1][1][0] != "world":
        raise Wrong("no schedule: its first two lines are 'gate 1' and 'world ..'")
    return gate_of(lines[1][1]), lines[2:]


def replies_in(schedule):
    """The replies that are printed in a schedule of a race, and its end."""
    return "".join(f"{line[2:]}\n" for line in schedule.splitlines() if line.startswith("# "))


def schedules_in(answer):
    """The schedules in the answer of a race, each with its replies."""
    for part in re.split(r"^outcomes? .*\n", answer, flags=re.MULTILINE)[1:]:
        if found := re.search("^gate 1$", part, re.MULTILINE):
            schedule = part[found.start() :]
            yield schedule, replies_in(schedule)

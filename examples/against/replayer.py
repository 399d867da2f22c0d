#!/usr/bin/env python3
"""A gate's replayer: reads a schedule from standard input, takes its steps on a gate, and writes their replies.

The gate is the machine of tests/machines/gate.py. Who has a gate of his own puts it in the place of `Gate`: one call for
each step, which answers the reply, or says why the step isn't enabled and leaves the gate as it was.
"""

import os
import re
import sys

sys.path.insert(0, os.path.join(os.path.dirname(os.path.realpath(__file__)), "..", "..", "tests"))

from lines import Fault, Text
from machines.gate import Gate, Stuck

AMOUNT = (0, 65_535)
INDEX = (0, 0xFFFF_FFFF)
WORD = (0, 0xFFFF_FFFF_FFFF_FFFF)
DELTA = (-0xFFFF_FFFF, 0xFFFF_FFFF, "-?")

# Each step with its numbers' ranges.
PASS_STEPS = {
    "add try": (),
    "add live": (),
    "add get": (AMOUNT,),
    "sub": (AMOUNT,),
    "undo": (),
    "mark": (),
    "look": (INDEX,),
    "take": (INDEX, DELTA, AMOUNT),
    "give": (INDEX, DELTA, AMOUNT),
    "shared": (),
    "front": (),
    "word": (INDEX,),
}
CONTROL_STEPS = {name: () for name in "dead close collect confirm base mark take front clear bias open shared".split()}
CONTROL_STEPS |= {"store": (INDEX, WORD), "join": (INDEX,)}


class Step:
    """An atomic step: the actor, what it does, and the numbers behind that."""

    def __init__(self, line):
        self.line, actor = line.number, line.words[0]
        if actor != "c" and not re.fullmatch("[0-9]+", actor):
            raise line.fault("unknown word")
        known = CONTROL_STEPS if actor == "c" else PASS_STEPS
        line.word()
        self.name = line.word({name.split()[0] for name in known})
        if self.name == "add":
            self.name += " " + line.word(("try", "live", "get"))
        ranges = known[self.name]
        line.has_words(1 + len(self.name.split()) + len(ranges))
        line.read = 0
        self.actor = line.word() if actor == "c" else line.number_in(*INDEX)
        line.read += len(self.name.split())
        self.numbers = [line.number_in(*ends) for ends in ranges]


def parsed(data):
    """The gate with which a schedule begins, and its steps."""
    text = Text(data)
    text.head(lambda words: words == ["gate", "1"], "no version")
    world = text.head(lambda words: words[:1] == ["world"], "no world")
    world.has_words(min(max(len(world.words), 5), 13))
    world.word()
    slots, passes = world.number_in(1, 64), world.number_in(1, 64)
    start, kills = world.word(("slots", "atomic", "dead")), world.number_in(0, 1 << 40)
    gate = Gate(slots, passes, start, kills, [world.number_in(*WORD) for _ in world.words[5:]])
    return gate, [Step(line) for line in text]


def main():
    try:
        gate, steps = parsed(sys.stdin.buffer.read())
    except Fault as why:
        print(why, file=sys.stderr)
        sys.exit(2)
    for step in steps:
        try:
            print(gate.take(step))
        except Stuck as why:
            print("stuck", step.line, why)
            sys.exit(3)
    print(gate.end())


main()

"""Random inputs for two builds: scripts, schedules, races, and rows of calls of a gate and of a queue."""

import os
import random
import sys

ROOT = os.path.dirname(os.path.dirname(os.path.dirname(os.path.realpath(__file__))))
sys.path += [os.path.join(ROOT, "tests", it) for it in ("", "races", "page")]

from against_parts.schedules import schedule
from against_parts.scripts import script
from drawn import random_race, text_of
from inputs import mutated

KINDS = ("script", "schedule", "race", "gate", "queue")
EDGES = (0, 1, 2, 63, 64, 65_534, 65_535, 65_536, 2**32 - 1)
GREATEST = 2**64 - 1

# The calls of a gate's pass and control, and of a queue's tag and freezer, as docs/FORMATS.md has them; some of them more often.
PASS = "try try live live get put put put put word front dying zero retire lose".split()
CONTROL = (
    "kill kill kill kill_and_confirm mark_dead close_next close_next collect confirm drop_base reinit reinit resurrect store word"
    " atomic slots zero phase kills releases exit"
).split()
TAG = "try try try look leave leave leave limits give_back lose".split()
FREEZER = "freeze freeze thaw thaw thaw drained set set slots atomic limits remove".split()


def number(pick, most):
    """A number below this, or seldom one at an edge."""
    return pick.choice(EDGES) if pick.random() < 0.06 else pick.randrange(most)


def row(first, lines):
    return "\n".join(["calls 1", first, *lines]).encode() + b"\n"


def gate_calls(pick):
    """A row of calls of a gate. A pass mostly puts one, and the control seldom ends the gate."""
    slots, passes, words = pick.choice((1, 1, 2, 3, 64)), pick.choice((1, 2, 3)), pick.randrange(4)
    start = pick.choice(("slots", "slots", "atomic", "dead"))
    values = "".join(f" {pick.choice((0, 7, GREATEST))}" for _ in range(words))

    def call():
        if pick.random() < 0.35:
            name = pick.choice(CONTROL)
            numbers = {"store": f" {number(pick, 4)} {pick.choice((0, 5, GREATEST))}", "word": f" {number(pick, 4)}"}
            return f"c {name}{numbers.get(name, '')}"
        name = pick.choice(PASS)
        slot, count = number(pick, slots), pick.choice((1, 1, 1, 2, number(pick, 5)))
        numbers = {"get": f" {slot} {count}", "put": f" {slot} {count}", "word": f" {number(pick, 4)}"}
        numbers |= {it: f" {slot}" for it in ("try", "live")}
        return f"{pick.randrange(passes)} {name}{numbers.get(name, '')}"

    return row(f"world {slots} {passes} {start} 0{values}", [call() for _ in range(pick.choice((5, 20, 60)))])


def queue_calls(pick):
    """A row of calls of a queue."""
    slots, tags, hardware = pick.choice((1, 1, 2, 64)), pick.choice((1, 2, 3, 63)), pick.choice((1, 8, 64, 65_535))

    def call():
        if pick.random() < 0.4:
            name = pick.choice(FREEZER)
            limits = f" {number(pick, 9)} {number(pick, 9)} {pick.choice((0, 1, 2, 3, 8))}"
            return f"f {name}{limits if name == 'set' else ''}"
        name = pick.choice(TAG)
        slot = f" {number(pick, slots)}" if name in ("try", "look", "leave") else ""
        return f"{pick.randrange(min(tags, 3))} {name}{slot}"

    return row(f"queue {slots} {tags} {hardware}", [call() for _ in range(pick.choice((5, 20, 60)))])


MADE = {
    "script": script,
    "schedule": schedule,
    "race": lambda pick: text_of(random_race(pick)).encode(),
    "gate": gate_calls,
    "queue": queue_calls,
}


def input_of(seed, index):
    """The kind and the bytes of an input: they hang on the seed and the index alone. One in eight is damaged."""
    pick = random.Random(f"{seed} {index}")
    kind = KINDS[index % len(KINDS)]
    data = MADE[kind](pick)
    if kind in ("script", "schedule", "race") and pick.random() < 0.125:
        data = mutated(data, MADE[kind](pick), pick)
    return kind, data

"""Computes what the page has to show for a schedule, with tools/races_pictures: the gate between its steps, and its lanes."""

import pathlib
import re
import sys

ROOT = pathlib.Path(__file__).resolve().parents[2]
sys.path[:0] = [str(ROOT / "tools"), str(ROOT / "tests")]

from races_pictures import lanes
from races_pictures.schedule import Schedule, schedules_in

# The rows of the table of the gate, as elements of the page.
TABLE = "[...find('state').querySelectorAll('tbody tr')]"
# The name and the value in each row.
STATE = f"{TABLE}.map((row) => [...row.cells].slice(0, 2).map((cell) => cell.textContent))"


def gates(text, answer):
    """The rows of the table of the gate, before the first step and after each one."""
    schedule = Schedule(text, answer)
    return [rows(moment, schedule.actors) for moment in [schedule.start, *(row.moment for row in schedule.rows)]]


def rows(state, actors):
    words = [[word.name, word.told()] for word in sorted(state.words, key=lambda it: it.at is not None)]
    return words + [[lanes.name_of(actor), state.standing(actor).told or "holds nothing"] for actor in actors]


def captions(text, answer):
    """The caption of each step."""
    steps = Schedule(text, answer).rows
    named = [("the control" if row.step.actor == "c" else lanes.name_of(row.step.actor), row) for row in steps]
    return [f"Step {at} of {len(steps)}: {name}: {row.step.text} → {lanes.with_bias(row.reply)}" for at, (name, row) in enumerate(named, 1)]


def drawn(title, name, text, answer):
    """The elements of the lanes, without the style sheet, which the page has once for all drawings."""
    return re.sub(r"<style>.*?</style>\n", "", lanes.draw(title, name, Schedule(text, answer)), flags=re.DOTALL)

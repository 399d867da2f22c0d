#!/usr/bin/env python3
"""Finds all outcomes of a race by exhaustive search; written only from docs/GATE.md and docs/races/README.md.

usage: tests/races/searched.py [--outcomes] FILE ..

It prints a line for each race: its file, the number of its outcomes, and the sum of the steps of their shortest schedules. With --outcomes it
prints each outcome, as in docs/races/README.md, without its schedule. FILE has to be a correct race. The search goes through every moment, even
those that differ only by an exchange of passes with equal calls. An outcome is the answers of the calls at an end, with the figures of the last
line of a replay except the value. tests/races/rows/races.rows has these numbers for some races.
"""

import pathlib
import sys

sys.dont_write_bytecode = True
sys.path.insert(0, str(pathlib.Path(__file__).resolve().parents[1]))

from machines.gate_calls import kept, moments, told
from machines.race import race_of


def summary_of(told):
    """The line of --summary for an outcome, after its number."""
    *lines, (mark, *_, held) = told
    return "; ".join([*lines, f"{mark}, held {held}"])


def states_of(race):
    """The number of states that the program keeps of a race."""
    return len({kept(moment, race) for moment, _, _ in moments(race)})


def all_outcomes(race, most=None):
    """The account of each outcome, with the fewest steps that lead to it; None if the race has more than `most` moments."""
    found = {}
    for seen, (moment, steps, is_end) in enumerate(moments(race)):
        if seen == most:
            return None
        if is_end:
            found.setdefault(told(moment, race), steps)
    return found


def show(found):
    for number, ((*lines, _), steps) in enumerate(found.items(), 1):
        deadlock = " deadlock" if any("waits for " in line for line in lines) else ""
        print(f"outcome {number} steps {steps}{deadlock}", *lines, sep="\n")
    print(f"outcomes {len(found)}")


def main():
    for name in (word for word in sys.argv[1:] if word != "--outcomes"):
        found = all_outcomes(race_of(pathlib.Path(name).read_text(encoding="utf-8")))
        if "--outcomes" in sys.argv:
            show(found)
        else:
            print(name, len(found), sum(found.values()))


if __name__ == "__main__":
    main()

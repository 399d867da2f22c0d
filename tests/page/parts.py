"""The tests of the page, each run in a browser in which the page is open."""

import pathlib
from typing import NamedTuple

import answering
import inputs
import linked
import raced
import reading
import runs
import stepping
import tables
import typed
from chromium import Failed, js
from looks import LOOKS, looks_right

# A race of a million states.
LARGE = js((inputs.ROOT / "tests/races/million.races").read_text(encoding="utf-8"))


class Setting(NamedTuple):
    """The address of the page, the native programs, the folder for pictures, if any, and the program that makes a page of a race."""

    url: str
    programs: inputs.Programs
    shots: str | None = None
    picture: pathlib.Path = inputs.ROOT / "tools/picture"


# The parts, which take a page, the counts and the setting. Those that differ between two versions of the page come first.
PARTS = {
    "stepping": lambda page, counts, _: stepping.stepping(page, counts),
    "tables": lambda page, counts, on: tables.of_tables(page, counts, on.programs, inputs.Input),
    "refusals": lambda page, counts, _: stepping.refusals(page, counts),
    "typed": lambda page, counts, _: typed.of_input(page, counts),
    "linked": lambda page, counts, on: linked.of_links(page, counts, on.url),
    "an old answer": lambda page, counts, _: reading.old_answer(page, counts, LARGE),
    "keys": lambda page, counts, _: reading.keys(page, counts),
    "damaged links": lambda page, counts, on: reading.damaged_links(page, counts, on.url),
    "the way back": lambda page, counts, _: reading.way_back(page, counts),
    "into view": lambda page, counts, on: reading.into_view(page, counts, on.url),
    "by kind": lambda page, counts, _: reading.by_kind(page, counts),
    "runs": lambda page, counts, on: runs.of_runs(page, counts, on.url, LARGE),
    "beside": lambda page, counts, _: answering.beside(page, counts),
    "drawings": lambda page, counts, _: answering.drawings(page, counts),
    "a race's page": lambda page, counts, on: raced.of_races(page, counts, on),
    **{
        f"looks {look}": lambda page, counts, on, look=look: looks_right(page, counts, look, on.url, on.shots)
        for look in LOOKS
    },
    "examples": lambda page, counts, _: answering.examples(page, counts),
    "answers": lambda page, counts, on: answering.equal_answers(page, counts, on.programs),
    "greatest": lambda page, counts, on: answering.greatest(page, counts, on.programs),
}


def tried(page, counts, setting, names=()):
    """Opens the page, and runs each part, or those with these names."""
    page.open(setting.url)
    for name in names or PARTS:
        try:
            PARTS[name](page, counts, setting)
        except Failed as why:
            counts.check(name, False, str(why))

"""The parser of races (docs/races/README.md), and the search through all moments of a race."""

from collections import deque
from typing import NamedTuple


class Race(NamedTuple):
    """A race at a gate."""

    slots: int
    start: str
    kills: int
    words: tuple
    passes: tuple  # the calls of each pass: the words of a call, its numbers as such
    control: tuple


def replaced(items, at, item):
    return (*items[:at], item, *items[at + 1 :])


def calls_in(words):
    """The calls of an actor's line."""
    for call in " ".join(words).split(" / "):
        yield tuple(int(word) if word.isdigit() else word for word in call.split())


def race_of(text):
    """The race of a text that is right, with or without its first line."""
    lines = [line.split() for line in text.splitlines() if line.strip() and not line.strip().startswith("#")]
    (slots, passes, start, kills, *words), *_ = (words for head, *words in lines if head == "world")
    calls = {str(at): () for at in range(int(passes))} | {"c": ()}
    for actor, *said in lines:
        if actor in calls:
            calls[actor] += tuple(calls_in(said))
    *passes, control = calls.values()
    return Race(int(slots), start, int(kills), tuple(map(int, words)), tuple(passes), control)


def calls_of(race):
    """The calls of each actor, by its name."""
    return {str(at): it for at, it in enumerate(race.passes)} | {"c": race.control}


def moments_from(first, turns):
    """Each moment to which steps lead, with how many of them at least, and whether nothing may come next."""
    steps, left = {first: 0}, deque([first])
    while left:
        moment = left.popleft()
        nexts = [it for _, it in turns(moment)]
        yield moment, steps[moment], not nexts
        for it in nexts:
            if it not in steps:
                steps[it] = steps[moment] + 1
                left.append(it)


def line_of(name, told, wanted):
    """What an actor's calls have answered, and what the next one waits for, if it does."""
    waits = [f"waits for {wanted}"] if wanted else []
    return f"{name} {' / '.join([*told, *waits])}".rstrip()

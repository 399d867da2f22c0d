"""Finds the fewest switches of actor among the shortest schedules to each outcome of a race; written only from the pages.

A step is a switch if the step before it was taken by another actor.
"""

from collections import deque

from machines.gate_calls import first, told, turns
from printed import outcomes_of, steps_of


def all_switches(race):
    """The account of each outcome, with the fewest steps that lead to it, and the fewest switches among that many steps."""
    begin = first(race)
    # For each moment: the fewest steps that lead to it, and the fewest switches, by the actor of the last step.
    steps, fewest, left, found = {begin: 0}, {begin: {"": 0}}, deque([begin]), {}
    while left:
        moment = left.popleft()
        known, after = fewest.pop(moment), list(turns(race, moment))
        for actor, it in after:
            if it not in steps:
                steps[it], fewest[it] = steps[moment] + 1, {}
                left.append(it)
            if steps[it] == steps[moment] + 1:
                least = min(count + (last not in ("", actor)) for last, count in known.items())
                fewest[it][actor] = min(least, fewest[it].get(actor, least))
        if not after:
            it, best = told(moment, race), (steps[moment], min(known.values()))
            found[it] = min(best, found.get(it, best))
    return found


def switches_of(schedule):
    """The number of switches in a printed schedule."""
    actors = [line.split()[0] for line in schedule[1:] if not line.startswith(("#", "world"))]
    return sum(one != other for one, other in zip(actors, actors[1:]))


def switched(text):
    """The numbers of steps and of switches in the schedule of each outcome of an answer, by the outcome's account."""
    return {it.told: (steps_of(it.schedule), switches_of(it.schedule)) for it in outcomes_of(text)}

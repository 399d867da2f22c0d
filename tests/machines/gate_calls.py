"""The calls of a race, each as the sequence of steps of gate.py that docs/GATE.md gives for it.

A moment of a race is the state of the gate, and how far each actor is in its calls. An actor is in one call at a time, and begins it once the
call before has its answer. The gate doesn't know of later calls.
"""

from typing import NamedTuple

from machines.gate import DELTA, KILLS, ROOM, Gate
from machines.race import calls_of, line_of, moments_from, replaced

# The step by which a call asks, and what a call is answered that counts and finds nothing.
ASKED = {"front": "front", "dying": "shared", "zero": "shared", "word": "word"}
COUNTED = {"try": "given", "live": "given", "get": "ok", "put": "not last"}


class Place(NamedTuple):
    """How far an actor is: what its calls were answered, the step that comes next, if any, what the call under way is to be answered
    already, and of the control the mode that it wants."""

    told: tuple = ()
    step: tuple = ()
    found: str = ""
    wants: str = ""


# The calls of a pass. Each function returns the next step of a call, as a tuple, or its answer.


def can_be_made(call, gate, held):
    what, *numbers = call
    if what in ASKED:
        return what != "word" or numbers[0] < len(gate.words) and held > 0
    if numbers[0] >= len(gate.slots):
        return False
    if what in ("try", "live"):
        return held < ROOM
    if what == "get":
        return held > 0 and numbers[1] > 0 and held + numbers[1] <= ROOM
    return 0 < numbers[1] <= held


def pass_begins(call, gate, held):
    what, *numbers = call
    if what in ("set", "await"):
        return "ok" if what == "set" else call
    if not can_be_made(call, gate, held):
        return "passed over"
    return (ASKED[what], *numbers) if what in ASKED else ("look", numbers[0])


def on_slot(call, delta):
    """The exchange on a slot with this delta, or the step on the shared word if the slot has no room."""
    count = call[2] if len(call) > 2 else 1
    after = delta - count if call[0] == "put" else delta + count
    if max(abs(delta), abs(after)) > DELTA:
        return on_shared_word(call)
    return ("give" if call[0] == "put" else "take", call[1], delta, count)


def on_shared_word(call):
    return ("sub" if call[0] == "put" else f"add {call[0]}", *call[2:])


def asked(what, reply):
    if what in ("front", "word"):
        return reply
    return "no" if reply.startswith("live" if what == "dying" else ("live", "dead")) else "yes"


def after_pass(call, step, reply):
    what, is_put = call[0], call[0] == "put"
    if step[0] == "await" or what in ASKED:
        return "ok" if step[0] == "await" else asked(what, reply)
    if step[0] == "look":
        return on_shared_word(call) if reply == "closed" else on_slot(call, int(reply.removeprefix("open ")))
    if step[0] == "mark":
        return ("last" if is_put else "refused last") if reply == "last" else ("not last" if is_put else "refused")
    if reply in ("to mark", "refused"):
        return ("mark",) if reply == "to mark" else ("undo",)
    if step[0] == "undo":
        return "refused"
    return on_shared_word(call) if reply == "lost" else COUNTED[what]


# The calls of the control.

FIRST = {"kill": "dead", "mark_dead": "dead", "close_next": "close", "drop_base": "base", "resurrect": "take", "atomic": "close", "slots": "bias"}
FIRST |= {"collect": "collect", "confirm": "confirm", "reinit": "shared", "store": "shared", "zero": "shared"}
ONWARD = {"live in slots": "close", "collected": "confirm", "confirmed": "base", "dead": "take", "reviving": "front", "fronted": "clear"}
ONWARD |= {"live atomic": "bias", "opening": "open"}


def is_mid_switch(gate):
    return gate.phase in ("closing", "collected", "confirmed")


def is_possible(call, gate):
    """Whether the call can be made where it stands."""
    is_last = gate.phase == "closing" and gate.at == len(gate.slots)
    possible = {"close_next": gate.phase == "closing" and not is_last, "collect": is_last}
    possible |= {"confirm": gate.phase == "collected", "drop_base": gate.phase == "confirmed"}
    return call[1] < len(gate.words) if call[0] == "store" else possible.get(call[0], True)


def refusal(what, gate):
    """What a call is answered that takes no step, or nothing."""
    if what not in ("kill", "mark_dead", "reinit", "resurrect", "store", "atomic", "slots"):
        return None
    if is_mid_switch(gate):
        return "mid switch"
    if what in ("kill", "mark_dead"):
        return "already dead" if gate.phase == "dead" else "worn out" if gate.kills >= KILLS else None
    if what in ("atomic", "slots"):
        return None if gate.phase == {"atomic": "live in slots", "slots": "live atomic"}[what] else "ok"
    return None if gate.phase == "dead" else "not dead"


def control_begins(call, gate):
    what = call[0]
    if what in ("set", "await"):
        return "ok" if what == "set" else call
    if not is_possible(call, gate):
        return "passed over"
    return refusal(what, gate) or (FIRST[what],)


def onward(gate):
    """The next step of a kill, a revival or a switch, by the phase that the gate is in."""
    if gate.phase == "closing":
        return ("close",) if gate.at < len(gate.slots) else ("collect",)
    return (ONWARD[gate.phase],)


def after_looking(call, is_zero):
    """What comes behind the look of a call that looks whether the gate is at zero."""
    if call[0] == "zero":
        return "yes" if is_zero else "no"
    if not is_zero:
        return "not zero"
    return ("store", *call[1:]) if call[0] == "store" else ("take",)


def after_control(call, gate, step, reply, found, wants):
    """What comes behind a step that replied so and led to this gate."""
    what = call[0]
    if step[0] in ("mark", "base"):
        return ("mark",) if reply == "to mark" else "last" if reply == "last" else "not last"
    if step[0] == "shared":
        return after_looking(call, gate.zero)
    if what == "kill":
        return onward(gate)
    if what == "mark_dead":
        return str(len(gate.slots) if gate.phase == "closing" else 0)
    if what in ("reinit", "resurrect", "atomic", "slots"):
        return found or "ok" if gate.phase == {"atomic": "live atomic", "slots": "live in slots"}[wants] else onward(gate)
    return str(gate.front) if what == "confirm" else reply


# A race.


def begun(race, gate, actor, place):
    """An actor that begins its next call, once those before it have their answers."""
    calls = race.control if actor == "c" else race.passes[actor]
    while len(place.told) < len(calls):
        call = calls[len(place.told)]
        if actor != "c":
            begins = pass_begins(call, gate, gate.passes[actor].held)
        else:
            if call[0] in ("atomic", "slots") and not is_mid_switch(gate):
                place = place._replace(wants=call[0])
            begins = control_begins(call, gate)
        if isinstance(begins, tuple):
            return place._replace(step=begins, found="")
        place = place._replace(told=(*place.told, begins))
    return place._replace(step=(), found="")


def first(race):
    """The moment at which the race begins."""
    gate = Gate(race.slots, len(race.passes), race.start, race.kills, race.words)
    wants = "atomic" if race.start == "atomic" else "slots"
    places = [begun(race, gate, at, Place()) for at, _ in enumerate(race.passes)]
    return gate.key(), (*places, begun(race, gate, "c", Place(wants=wants)))


def call_of(race, actor, place):
    """The words of the call under way."""
    return (race.control if actor == "c" else race.passes[actor])[len(place.told)]


def may_go(race, moment, place):
    """Whether an actor here may take its next step. A flag is set once a call that sets it has ended."""
    if not place.step or place.step[0] != "await":
        return bool(place.step)
    gate, flag = Gate.of(moment[0]), place.step[1]
    made = [call for calls, it in zip((*race.passes, race.control), moment[1]) for call in calls[: len(it.told)]]
    return {"zero": gate.zero, "dead": gate.dead}.get(flag, ("set", flag) in made)


def goes(race, moment, index, actor):
    """The moment after an actor's next step."""
    gate, place = Gate.of(moment[0]), moment[1][index]
    call, step, found = call_of(race, actor, place), place.step, place.found
    name, *numbers = step
    if actor != "c":
        after = after_pass(call, step, "" if name == "await" else gate.take_of_pass(actor, name, numbers))
    elif name == "await":
        after = "ok"
    else:
        reply = gate.take_of_control(name, numbers)
        if call[0] == "resurrect" and name == "take":
            found = "at zero" if gate.zero else "held"
        after = after_control(call, gate, step, reply, found, place.wants)
    if isinstance(after, tuple):
        place = place._replace(step=after, found=found)
    else:
        place = begun(race, gate, actor, place._replace(told=(*place.told, after)))
    return gate.key(), replaced(moment[1], index, place)


def turns(race, moment):
    """The actors that may go, each with the moment after its step: the number of a pass, or `c`."""
    for index, place in enumerate(moment[1]):
        actor = index if index < len(race.passes) else "c"
        if may_go(race, moment, place):
            yield str(actor), goes(race, moment, index, actor)


def moments(race):
    """Each moment, with how many steps lead to it at least, and whether nothing may come next."""
    return moments_from(first(race), lambda moment: turns(race, moment))


def told(moment, race):
    """What an end tells: a line for each actor, and the figures of the gate."""
    lines = [
        line_of(actor, it.told, it.step[1] if it.step and it.step[0] == "await" else "") for actor, it in zip(calls_of(race), moment[1])
    ]
    return (*lines, Gate.of(moment[0]).figures())


def kept(moment, race):
    """What all moments have alike that differ by an exchange of passes with equal calls."""
    (*gate, seats), (*places, control) = moment
    *seats, own = seats
    return (*gate, own, control), tuple(sorted(zip(race.passes, places, seats), key=repr))

"""Draws random races (docs/races/README.md)."""

from machines.gate import KILLS, ROOM
from machines.race import Race, calls_of


def pass_calls(draw, slots, words):
    """Some calls of a pass, of which mostly the first is a try."""
    first = [(draw.choice(("try", "live")), draw.randrange(slots))] if draw.random() < 0.9 else []
    return tuple(first + [pass_call(draw, slots, words) for _ in range(draw.randrange(4))])


def pass_call(draw, slots, words):
    slot, kind = draw.randrange(slots), draw.random()
    if kind < 0.2:
        return (draw.choice(("try", "live")), slot)
    if kind < 0.6:
        return ("put", slot, draw.choice((1, 1, 1, 2)))
    if kind < 0.7:
        return ("get", slot, draw.choice((1, 2)))
    if kind < 0.75:
        return draw.choice((("get", slot, ROOM - 1), ("put", slot, 0), ("try", slots), ("put", slots, 1), ("word", words)))
    if kind < 0.85:
        return waiting_call(draw)
    return draw.choice((("front",), ("dying",), ("zero",), ("word", draw.randrange(2))))


def waiting_call(draw):
    return draw.choice((("await", draw.choice(("zero", "dead", "a", "b"))), ("set", draw.choice("ab"))))


def resembling(draw, calls, slots):
    """The same calls, with another slot or amount in one of them. They may have the same answers, while other references are held."""
    places = [at for at, call in enumerate(calls) if call[0] in ("try", "live", "get", "put")]
    if not places:
        return calls
    at = draw.choice(places)
    word, slot, *amount = calls[at]
    if amount and draw.random() < 0.7:
        return (*calls[:at], (word, slot, amount[0] % 3 + 1), *calls[at + 1 :])
    return (*calls[:at], (word, (slot + 1) % slots, *amount), *calls[at + 1 :])


def all_pass_calls(draw, slots, words):
    """The calls of each pass. In more than half of the races several passes make equal calls, and in some the calls differ only in a number."""
    passes = [pass_calls(draw, slots, words) for _ in range(draw.choice((1, 1, 1, 2, 2)))]
    if draw.random() < 0.75:
        passes += [draw.choice(passes) for _ in range(draw.choice((1, 1, 2)))]
    if draw.random() < 0.25:
        passes.append(resembling(draw, draw.choice(passes), slots))
    draw.shuffle(passes)
    return passes


PARTS = ("mark_dead", "close_next", "collect", "confirm", "drop_base")


def control_calls(draw, slots, words):
    """Some calls of a control; at times all or some parts of a kill."""
    if draw.random() < 0.25:
        parts = [part for part in PARTS for _ in range(slots if part == "close_next" else 1)]
        return [(part,) for part in parts if draw.random() < 0.9] + [(draw.choice(("reinit", "resurrect", "kill", "zero")),)]
    words = ("kill", "kill", "kill", "reinit", "resurrect", "atomic", "slots", "zero", "store", "store", "wait", "wait", *PARTS)
    calls = [draw.choice(words) for _ in range(draw.randrange(1, 5))]
    return [control_call(draw, call) for call in calls]


def control_call(draw, call):
    if call == "wait":
        return waiting_call(draw)
    return ("store", draw.randrange(2), draw.choice((0, 7, 2**64 - 1))) if call == "store" else (call,)


def random_race(draw):
    slots, start = draw.choice((1, 1, 2, 3)), draw.choice(("slots", "slots", "atomic", "dead"))
    words = tuple(draw.choice((0, 5, 2**64 - 1)) for _ in range(draw.randrange(3)))
    passes = all_pass_calls(draw, slots, len(words))
    kills = draw.choice((0, 0, 0, 0, 3, KILLS - 1, KILLS))
    return Race(slots, start, kills, words, tuple(passes), tuple(control_calls(draw, slots, len(words))))


def text_of(race):
    lines = ["races 1", " ".join(map(str, ("world", race.slots, len(race.passes), race.start, race.kills, *race.words)))]
    for actor, calls in calls_of(race).items():
        if calls:
            lines.append(f"{actor} " + " / ".join(" ".join(map(str, it)) for it in calls))
    return "\n".join(lines) + "\n"

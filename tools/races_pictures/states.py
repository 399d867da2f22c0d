"""Computes what a picture shows between two steps of a gate: its words, and what each actor holds and owes."""

from typing import NamedTuple

from machines.gate import BIAS


class Word(NamedTuple):
    """A word: its kind, its number among those of its kind, its name, what it holds, the marks that are set in it, and whether there is
    nothing to be seen in it."""

    kind: str
    at: int | None
    name: str
    text: str
    marks: tuple = ()
    is_idle: bool = False

    def told(self):
        """All that it holds."""
        return " ".join(filter(None, [*self.marks, self.text]))


class Standing(NamedTuple):
    """What an actor holds and owes: whether it holds, whether it owes, and the words for it."""

    holds: bool
    owes: bool
    told: str


def standing_with(held, owed):
    """The standing of an actor for whom there are these words."""
    return Standing(bool(held), bool(owed), ", ".join([*held, *owed]))


def bias_told(rest):
    """The bias by its name, and what is counted beside it."""
    return f"bias{rest:+}" if rest else "bias"


def slot_told(slot):
    return "closed" if slot is None else f"{slot:+}" if slot else "0"


class GateState:
    """A gate between two steps."""

    def __init__(self, gate):
        self.has_base, self.owes = gate.has_base(), gate.control.owes
        self.passes = [(seat.held, seat.owes, seat.joined) for seat in gate.passes]
        self.words = self.words_of(gate)

    def words_of(self, gate):
        """The words in the order of their columns."""
        marks = tuple(name for name, is_set in (("DEAD", gate.dead), ("ZERO", gate.zero)) if is_set)
        count = bias_told(gate.value - BIAS) if gate.has_bias() else str(gate.value)
        slots = [Word("slot", at, f"slot {at}", slot_told(slot), is_idle=slot is None) for at, slot in enumerate(gate.slots)]
        guarded = [Word("word", at, f"word {at}", str(value)) for at, value in enumerate(gate.words)]
        return [Word("shared", None, "shared word", count, marks), *slots, Word("front", None, "front", str(gate.front)), *guarded]

    def standing(self, actor):
        if actor == "c":
            held, owes = ["the initial reference"] if self.has_base else [], self.owes
        else:
            count, owes, joined = self.passes[actor]
            if joined:
                return Standing(False, False, "joined")
            held = [f"holds {count}"] if count else []
        return standing_with(held, [f"{owes} pending"] if owes else [])

"""Every race of up to two passes and one control, with up to three calls each, on one and two slots, up to renaming."""

import itertools
from dataclasses import dataclass

STARTS = ("atomic", "slots", "dead")
CONTROL = ("kill", "reinit", "resurrect", "atomic", "slots")
MOST_CALLS = 3


@dataclass(frozen=True)
class Race:
    slots: int
    start: str
    passes: tuple
    control: tuple

    def text(self):
        lines = [f"world {self.slots} {max(1, len(self.passes))} {self.start} 0"]
        lines += [f"{at} {' / '.join(calls)}" for at, calls in enumerate(self.passes)]
        return "\n".join(lines + ([f"c {' / '.join(self.control)}"] if self.control else [])) + "\n"

    def short(self):
        return self.text().strip().replace("\n", " | ")


def pass_calls(slots, count, held=0):
    """Each list of this many calls of a pass in which every call can be made: the pass holds a reference if it has to."""
    if not count:
        yield ()
        return
    for slot in range(slots):
        for call, change in (("try", 1), ("live", 1), ("get", 1), ("put", -1)):
            if held or call in ("try", "live"):
                line = f"{call} {slot}" + ("" if call in ("try", "live") else " 1")
                for rest in pass_calls(slots, count - 1, held + change):
                    yield (line, *rest)


def renamed(calls):
    """The same calls with the two slots exchanged."""
    return tuple(" ".join([call, {"0": "1", "1": "0"}[slot], *rest]) for call, slot, *rest in map(str.split, calls))


def pairs(slots, first, second):
    """The calls of two passes, with this many calls each, one for each pair up to renaming of passes and slots."""
    for one in pass_calls(slots, first):
        for other in pass_calls(slots, second):
            names = [(one, other)] + ([(other, one)] if first == second else [])
            if slots == 2:
                names += [tuple(map(renamed, it)) for it in names]
            if (one, other) == min(names):
                yield tuple(it for it in (one, other) if it)


def races(slots):
    """Every race on this many slots, in the order of the number of calls."""
    sizes = [(one, other, third) for one in range(MOST_CALLS + 1) for other in range(one + 1) for third in range(MOST_CALLS + 1)]
    for one, other, third in sorted(sizes, key=lambda it: (sum(it), it)):
        for passes in pairs(slots, one, other):
            for start, control in itertools.product(STARTS, itertools.product(CONTROL, repeat=third)):
                yield Race(slots, start, passes, control)


def counted(slots):
    """The number of races for each number of calls."""
    found = {}
    for one in range(MOST_CALLS + 1):
        for other in range(one + 1):
            count = sum(1 for _ in pairs(slots, one, other))
            for third in range(MOST_CALLS + 1):
                size = one + other + third
                found[size] = found.get(size, 0) + count * len(STARTS) * len(CONTROL) ** third
    return found

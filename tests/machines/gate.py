"""The machine of a gate: a world, its atomic steps, and the reply to each. It was written only from docs/GATE.md and docs/FORMATS.md. Answers to
schedules are compared with it, and gate_calls.py builds the calls of a race from its steps."""

BIAS = 1 << 48
DELTA = 1 << 20
ROOM = 65_535
KILLS = 1 << 40

# The control's steps that move it, and the phases in which each may be taken.
PHASES = {
    "dead": ("live in slots", "live atomic"),
    "close": ("live in slots", "closing"),
    "collect": ("closing",),
    "confirm": ("collected",),
    "base": ("confirmed",),
    "take": ("dead",),
    "front": ("reviving",),
    "clear": ("fronted",),
    "bias": ("live atomic",),
    "open": ("opening",),
}


class Stuck(Exception):
    """A step that isn't enabled, and why."""


class Seat:
    """What a pass holds and owes: nothing, `undo` or `mark`. The control's seat may owe a mark."""

    def __init__(self, held=0, owes=None, joined=False):
        self.held, self.owes, self.joined = held, owes, joined


def needs(holds, why):
    if not holds:
        raise Stuck(why)


class Gate:
    """A gate between two steps."""

    def __init__(self, slots, passes, start, kills, words):
        in_slots, dead = start == "slots", start == "dead"
        self.zero, self.dead = dead, dead
        self.value = 0 if dead else 1 + (BIAS if in_slots else 0)
        self.slots = [0 if in_slots else None] * slots
        self.front, self.kills, self.releases = 2 * kills + dead, kills, 0
        self.words, self.collected = list(words), 0
        self.phase, self.at = ("live in slots" if in_slots else "dead" if dead else "live atomic"), 0
        self.passes, self.control = [Seat() for _ in range(passes)], Seat()

    def key(self):
        """All that it is, as the key of a table."""
        seats = tuple((seat.held, seat.owes, seat.joined) for seat in (*self.passes, self.control))
        counts = (self.zero, self.dead, self.value, self.front, self.kills, self.releases, self.collected, self.phase, self.at)
        return (*counts, tuple(self.slots), tuple(self.words), seats)

    @classmethod
    def of(cls, key):
        """The gate of a key."""
        it = cls.__new__(cls)
        it.zero, it.dead, it.value, it.front, it.kills, it.releases, it.collected, it.phase, it.at, slots, words, seats = key
        it.slots, it.words = list(slots), list(words)
        *it.passes, it.control = (Seat(*seat) for seat in seats)
        return it

    def has_base(self):
        """Whether the initial reference is in."""
        return self.phase != "dead"

    def has_bias(self):
        return self.phase in ("live in slots", "closing", "opening")

    def held(self):
        return sum(seat.held for seat in self.passes)

    def figures(self):
        """The mark, the front, and how many kills, releases and references there are."""
        return ("zero" if self.zero else "dead" if self.dead else "live"), self.front, self.kills, self.releases, self.held()

    def shown(self):
        """The shared word, as a step that loads it is answered."""
        return f"{'zero' if self.zero else 'dead' if self.dead else 'live'} {self.value}"

    def end(self):
        return f"end {self.shown()} front {self.front} kills {self.kills} releases {self.releases} held {self.held()}"

    def take(self, step):
        """Takes a step, and answers its reply; where it isn't enabled, Stuck, and nothing has changed."""
        if step.actor == "c":
            return self.take_of_control(step.name, step.numbers)
        return self.take_of_pass(step.actor, step.name, step.numbers)

    def seat(self, index):
        needs(index < len(self.passes) and not self.passes[index].joined, "no such actor")
        return self.passes[index]

    # The steps of a pass.

    def take_of_pass(self, actor, name, numbers):
        seat = self.seat(actor)
        if name in ("look", "take", "give"):
            needs(numbers[0] < len(self.slots), "no such slot")
        if name == "word":
            needs(numbers[0] < len(self.words), "no such word")
        needs(seat.owes in (None, name), "mid call")
        return getattr(self, "pass_" + name.replace(" ", "_"))(seat, *numbers)

    def add(self, seat, count, refused):
        self.value += count
        if refused:
            seat.owes = "undo"
            return "refused"
        seat.held += count
        return "given"

    def pass_add_try(self, seat):
        needs(seat.held < ROOM, "held full")
        return self.add(seat, 1, self.zero)

    def pass_add_live(self, seat):
        needs(seat.held < ROOM, "held full")
        return self.add(seat, 1, self.dead)

    def pass_add_get(self, seat, count):
        needs(seat.held >= 1, "nothing held")
        needs(count >= 1, "bad amount")
        needs(seat.held + count <= ROOM, "held full")
        return self.add(seat, count, False)

    def subtract(self, seat, count):
        self.value -= count
        seat.owes = "mark" if self.dead and not self.zero and self.value == 0 else None
        return "to mark" if seat.owes else "not last"

    def pass_sub(self, seat, count):
        needs(seat.held >= count, "nothing held")
        needs(count >= 1, "bad amount")
        seat.held -= count
        return self.subtract(seat, count)

    def pass_undo(self, seat):
        needs(seat.owes == "undo", "wrong phase")
        return self.subtract(seat, 1)

    def pass_mark(self, seat):
        needs(seat.owes == "mark", "wrong phase")
        seat.owes = None
        if not self.dead or self.zero or self.value != 0:
            return "lost"
        self.zero = True
        self.releases += 1
        return "last"

    def pass_look(self, _seat, slot):
        return "closed" if self.slots[slot] is None else f"open {self.slots[slot]}"

    def exchange(self, slot, seen, new):
        needs(abs(seen) <= DELTA and abs(new) <= DELTA, "bad amount")
        return self.slots[slot] == seen

    def pass_take(self, seat, slot, seen, count):
        needs(count == 1 or seat.held >= 1, "nothing held")
        needs(count >= 1, "bad amount")
        is_won = self.exchange(slot, seen, seen + count)
        needs(seat.held + count <= ROOM, "held full")
        if is_won:
            self.slots[slot] += count
            seat.held += count
        return "won" if is_won else "lost"

    def pass_give(self, seat, slot, seen, count):
        needs(seat.held >= count, "nothing held")
        needs(count >= 1, "bad amount")
        is_won = self.exchange(slot, seen, seen - count)
        if is_won:
            self.slots[slot] -= count
            seat.held -= count
        return "won" if is_won else "lost"

    def pass_shared(self, _seat):
        return self.shown()

    def pass_front(self, _seat):
        return str(self.front)

    def pass_word(self, seat, word):
        needs(seat.held >= 1, "nothing held")
        return str(self.words[word])

    # The steps of the control.

    def take_of_control(self, name, numbers):
        if name == "join":
            return self.join(*numbers)
        if name == "store":
            needs(numbers[0] < len(self.words), "no such word")
        needs(self.control.owes in (None, name), "mid call")
        if name == "shared":
            return self.shown()
        if name == "mark":
            return self.pass_mark(self.control)
        if name == "store":
            needs(self.phase == "dead" and self.zero, "wrong phase")
            self.words[numbers[0]] = numbers[1]
            return "ok"
        needs(self.phase in PHASES[name], "wrong phase")
        return getattr(self, "control_" + name)()

    def move(self, phase, at=0):
        self.phase, self.at = phase, at
        return "ok"

    def join(self, index):
        seat = self.seat(index)
        needs(self.control.owes is None and seat.owes is None, "mid call")
        needs(seat.held == 0, "still held")
        seat.joined = True
        return "ok"

    def control_dead(self):
        needs(self.kills < KILLS, "worn out")
        self.dead, self.kills = True, self.kills + 1
        return self.move("closing" if self.phase == "live in slots" else "collected")

    def control_close(self):
        needs(self.phase != "closing" or self.at < len(self.slots), "wrong phase")
        delta, self.slots[self.at] = self.slots[self.at], None
        self.collected += delta
        self.move("closing", self.at + 1)
        return f"closed {delta}"

    def control_collect(self):
        needs(self.at == len(self.slots), "wrong phase")
        self.value, self.collected = self.value + self.collected - BIAS, 0
        return self.move("collected" if self.dead else "live atomic")

    def control_confirm(self):
        self.front += 1
        return self.move("confirmed")

    def control_base(self):
        self.move("dead")
        return self.subtract(self.control, 1)

    def control_take(self):
        self.value += 1
        return self.move("reviving")

    def control_front(self):
        self.front += 1
        return self.move("fronted")

    def control_clear(self):
        self.dead = self.zero = False
        return self.move("live atomic")

    def control_bias(self):
        self.value += BIAS
        return self.move("opening")

    def control_open(self):
        self.slots[self.at] = 0
        is_last = self.at + 1 == len(self.slots)
        return self.move("live in slots") if is_last else self.move("opening", self.at + 1)

"""Draws random schedules. They follow the machine of a gate (tests/machines/gate.py), and sometimes end in a step that it refuses."""

import copy

from against_parts.spelling import once_in, text_of
from machines.gate import DELTA, KILLS, ROOM, Gate, Stuck

KNOWN = (
    "gate world atomic dead c add try live get sub undo mark look take give shared front word close collect confirm base clear"
    " bias open store join"
).split()

MOST = 0xFFFF_FFFF
GREATEST = 0xFFFF_FFFF_FFFF_FFFF

# What the control may do next in each phase; some of them more often.
NEXT = {
    "live in slots": ("dead", "dead", "close"),
    "closing": ("close", "close", "collect"),
    "live atomic": ("dead", "dead", "bias"),
    "collected": ("confirm",),
    "confirmed": ("base",),
    "dead": ("take", "store", "store"),
    "reviving": ("front",),
    "fronted": ("clear",),
    "opening": ("open",),
}
PASS_STEPS = ("add try", "add live", "add get", "sub", "undo", "mark", "look", "take", "give", "shared", "front", "word")
CONTROL_STEPS = "dead close collect confirm base mark take front clear bias open store join shared".split()

# The control's steps in the order in which they come, round and round.
ORDER = ("bias", "open", "dead", "close", "collect", "confirm", "base", "take", "front", "clear")

# What comes next where the same steps led elsewhere: a kill and a switch collect alike.
OTHERS = {"collected": ("bias",), "live atomic": ("confirm",)}

# Where a step is worth a try: in each phase, and where few gates stand.
EDGES = (*NEXT, "control owes", "control owes", "pass owes", "pass owes", "not at zero", "at zero", "full", "full")


class Step:
    """A step of an actor, with the numbers behind its name."""

    def __init__(self, actor, name, *numbers):
        self.actor, self.name, self.numbers = actor, name, numbers

    def words(self):
        return [str(self.actor), *self.name.split(), *map(str, self.numbers)]


class Schedule:
    """A schedule that grows step by step, and the gate after the last one."""

    def __init__(self, pick):
        self.pick = pick
        self.slots = pick.choice((1, 1, 2, 2, 3, 5, 64)) if once_in(pick, 3) else pick.choice((1, 2))
        self.passes = pick.choice((1, 3, 5, 64)) if once_in(pick, 3) else 2
        start = pick.choice(("slots", "slots", "atomic", "dead"))
        kills = pick.choice((1, 7, KILLS - 1, KILLS, KILLS)) if once_in(pick, 4) else 0
        words = [pick.choice((0, 1, 512, GREATEST)) for _ in range(pick.choice((0, 1, 2, 2, 8)))]
        self.gate = Gate(self.slots, self.passes, start, kills, words)
        self.lines = [["gate", "1"], ["world", *map(str, (self.slots, self.passes, start, kills, *words))]]
        # How often the control has its turn, and how often somebody looks or counts on a slot.
        self.control_in = pick.choice((2, 3, 3, 6, 20))
        self.is_big = once_in(pick, 4)

    def grow(self):
        """Adds a step that the machine takes; whether there was one."""
        return any(self.takes(self.next()) for _ in range(50))

    def next(self):
        return self.next_of_control() if once_in(self.pick, self.control_in) else self.next_of_pass()

    def owes(self):
        """Whether a seat owes a step."""
        return self.gate.control.owes or any(seat.owes for seat in self.gate.passes)

    def takes(self, step):
        try:
            self.gate.take(step)
        except Stuck:
            return False
        self.lines.append(step.words())
        return True

    def next_of_control(self):
        if self.gate.control.owes:
            return Step("c", self.pick.choice(("mark", "mark", "mark", "shared")))
        name = self.pick.choice(NEXT[self.gate.phase])
        # A dead gate is brought back before it is at zero, but mostly it isn't.
        if name == "take" and not self.gate.zero and not once_in(self.pick, 4) or once_in(self.pick, 12):
            name = self.pick.choice(("shared", "shared", "join"))
        return Step("c", name, *self.numbers_of_control(name))

    def numbers_of_control(self, name):
        if name == "join":
            return (self.a_pass(),)
        if name == "store":
            return self.pick.randrange(len(self.gate.words) or 1), self.pick.choice((0, 1, 4_096, GREATEST))
        return ()

    def a_pass(self):
        return self.pick.randrange(self.passes)

    def next_of_pass(self):
        """A step of a pass: what it owes, or more often one that counts than one that looks."""
        actor = self.pick.choice((0, min(1, self.passes - 1), self.a_pass()))
        seat = self.gate.passes[actor]
        if seat.owes:
            return Step(actor, seat.owes)
        if self.gate.dead and seat.held and once_in(self.pick, 2):
            return Step(actor, "sub", seat.held)
        names = ["add try", "add live", "take", "take", self.pick.choice(("look", "shared", "front"))]
        if seat.held:
            names += ["sub", "give", "give", "word", self.pick.choice(("add get", "take"))]
            names += ["word", "word"] * bool(self.gate.words)
        name = self.pick.choice(names)
        return Step(actor, name, *self.numbers_of_pass(name, seat))

    def numbers_of_pass(self, name, seat):
        slot = self.pick.randrange(self.slots)
        match name:
            case "add get":
                return (self.an_amount(ROOM - seat.held),)
            case "sub":
                return (self.an_amount(seat.held),)
            case "take":
                return slot, self.a_delta(slot), self.an_amount(ROOM - seat.held) if seat.held else 1
            case "give":
                return slot, self.a_delta(slot), self.an_amount(seat.held)
            case "look":
                return (slot,)
            case "word":
                return (self.pick.randrange(len(self.gate.words) or 1),)
        return ()

    def an_amount(self, most):
        """A count from 1 to this, mostly a small one or the whole."""
        if once_in(self.pick, 2 if self.is_big else 12):
            return max(1, most)
        return min(self.pick.choice((1, 1, 1, 2, 3)), max(1, most))

    def a_delta(self, slot):
        """The delta that is in a slot, or one that somebody has seen there earlier."""
        delta = self.gate.slots[slot] or 0
        if once_in(self.pick, 12):
            return self.pick.choice((DELTA, -DELTA, DELTA - 1, 1 - DELTA))
        return delta + self.pick.choice((-1, 1, 2)) if once_in(self.pick, 5) else delta

    # A step that isn't enabled.

    def refuse(self):
        """Adds a step that the machine refuses, of any kind and for any reason, and perhaps some that nobody takes then."""
        refused, probe = {}, copy.deepcopy(self.gate)
        any_step = self.pick.choice((self.any_step, self.any_step_of_control, self.any_step_of_pass))
        for _ in range(150):
            step = any_step()
            try:
                probe.take(step)
                probe = copy.deepcopy(self.gate)
            except Stuck as why:
                refused[step.actor == "c", step.name, str(why)] = step
        if not refused:
            return
        why = self.pick.choice(sorted({why for _, _, why in refused}))
        chosen = self.pick.choice(sorted(key for key in refused if key[2] == why))
        self.lines.append(refused[chosen].words())
        self.lines += [self.any_step().words() for _ in range(self.pick.randrange(3))]

    def any_step(self):
        return self.any_step_of_control() if once_in(self.pick, 3) else self.any_step_of_pass()

    def any_step_of_control(self):
        name = self.pick.choice((*CONTROL_STEPS, "join", "join", "store"))
        numbers = {"join": (self.an_index(self.passes),), "store": (self.an_index(len(self.gate.words)), 7)}
        return Step("c", name, *numbers.get(name, ()))

    def any_step_of_pass(self):
        name = self.pick.choice(PASS_STEPS)
        slot, count = self.an_index(self.slots), self.pick.choice((0, 1, 1, 2, ROOM - 1, ROOM))
        seen = self.pick.choice((0, 1, DELTA, -DELTA, DELTA + 1, -DELTA - 1, MOST, -MOST))
        if slot < self.slots and once_in(self.pick, 2):
            seen = self.gate.slots[slot] or 0
        numbers = {"look": (slot,), "word": (self.an_index(len(self.gate.words)),)}
        numbers |= {"add get": (count,), "sub": (count,), "take": (slot, seen, count), "give": (slot, seen, count)}
        return Step(self.an_index(self.passes), name, *numbers.get(name, ()))

    def an_index(self, count):
        """A number of something that is there, or at times of what isn't."""
        return self.pick.choice((count, count + 1, MOST)) if once_in(self.pick, 8) or not count else self.pick.randrange(count)

    def fill_slot(self):
        """Takes on a slot and gives back on the shared word, until the slot's delta is near its limit; or the other way."""
        actor, slot, is_up = self.a_pass(), self.pick.randrange(self.slots), once_in(self.pick, 2)
        for _ in range(DELTA // ROOM):
            delta = self.gate.slots[slot]
            seat = self.gate.passes[actor]
            if delta is None or seat.owes or seat.joined:
                return
            if is_up:
                steps = [Step(actor, "take", slot, delta, 1)] if not seat.held else []
                steps += [Step(actor, "take", slot, delta + len(steps), ROOM - max(1, seat.held)), Step(actor, "sub", ROOM)]
            else:
                steps = [Step(actor, "add try")] if not seat.held else []
                steps += [Step(actor, "add get", ROOM - max(1, seat.held)), Step(actor, "give", slot, delta, ROOM)]
            for step in steps:
                self.takes(step)


    def add_too_many_words(self):
        """A ninth guarded word, for which the schedule is refused; or the eighth."""
        world = self.lines[1]
        world += ["7"] * (5 + self.pick.choice((8, 9)) - len(world))

    # Steps where few gates stand.

    def is_at(self, edge):
        """Whether the gate stands where it is to: in a phase, or where a seat owes a step."""
        match edge:
            case "control owes":
                return self.gate.control.owes
            case "pass owes":
                return self.who_owes() is not None
            case "full":
                return self.gate.passes[0].held >= ROOM - 1
            case "not at zero":
                return self.gate.phase == "dead" and not self.gate.zero
            case "at zero":
                return self.gate.phase in ("reviving", "fronted") and self.gate.zero
        return self.gate.phase == edge

    def who_owes(self):
        """The first pass that holds something and owes a step, or else that owes one."""
        owing = [actor for actor, seat in enumerate(self.gate.passes) if seat.owes]
        return next((actor for actor in owing if self.gate.passes[actor].held), next(iter(owing), None))

    def drive(self, edge):
        """Goes there as directly as it can: passes settle, so that a kill finds nobody, but for one that is to hold."""
        holds = edge in ("not at zero", "pass owes")
        for actor, seat in enumerate(self.gate.passes):
            for _ in range(3):
                if seat.owes:
                    self.takes(Step(actor, seat.owes))
                elif seat.held and not (holds and actor == 0):
                    self.takes(Step(actor, "sub", seat.held))
        if holds and not self.gate.passes[0].held:
            self.takes(Step(0, "add try"))
        for _ in range(3 * self.slots + 40):
            if self.is_at(edge):
                return
            if edge == "full" and not self.gate.zero and self.takes(Step(0, "add try")):
                self.takes(Step(0, "add get", ROOM - 1 - self.pick.choice((0, 0, 0, 1))))
                return
            if edge != "pass owes" or not self.gate.dead or not self.takes(Step(0, "add live")):
                self.takes(self.next_of_control())

    def steps_at(self, edge):
        """Steps that are worth a try there: most of them aren't enabled, or only just."""
        slot, word = self.pick.randrange(self.slots), self.pick.randrange(len(self.gate.words) + 1)
        delta = self.gate.slots[slot] or 0
        near = [Step("c", name, *self.numbers_of_control(name)) for name in near_steps(self.gate.phase)]
        match edge:
            case "full":
                takes = [(delta, 0), (delta, 1), (delta, 2), (DELTA, 1), (-DELTA - 1, 1)]
                counts = [Step(0, "take", slot, *seen) for seen in takes] + [Step(0, "add get", count) for count in (0, 1, 2)]
                return [Step(0, "add try"), Step(0, "add live"), *counts]
            case "pass owes":
                actor = self.who_owes() or 0
                counts = [Step(actor, name, at, delta, 1) for name in ("take", "give") for at in (slot, self.slots)]
                looks = [Step(actor, "look", self.slots), Step(actor, "word", len(self.gate.words)), Step(actor, "shared")]
                names = ("undo", "mark", "add try", "add live", "front")
                return [*counts, *looks, *(Step(actor, name) for name in names), *[Step("c", "join", actor)] * 3]
            case "control owes":
                others = ("shared", "join", "store", "take", "bias", "base", "dead")
                return [*near, *(Step("c", name, *self.numbers_of_control(name)) for name in others)]
            case "at zero" | "not at zero":
                return [*near, *[Step("c", "store", word, 7)] * 4]
            case "closing":
                # All slots have to be closed before they are collected.
                return [*near, Step("c", "collect"), Step("c", "collect")]
        return [*near, Step("c", "store", word, 7)]

    def try_at(self, edge):
        """Adds steps that are worth a try, up to the first one that the machine refuses, and perhaps some that nobody takes."""
        steps = self.steps_at(edge)
        self.pick.shuffle(steps)
        for step in steps[:4]:
            if not self.takes(step):
                self.lines.append(step.words())
                self.lines += [self.any_step().words() for _ in range(self.pick.randrange(3))]
                return


def near_steps(phase):
    """The control's steps that are one or two before or behind one that a phase has, so that it is easily taken for them."""
    places = {ORDER.index(name) + by for name in NEXT[phase] if name in ORDER for by in (-2, -1, 1, 2)}
    near = {ORDER[place % len(ORDER)] for place in places} | set(OTHERS.get(phase, ()))
    return sorted(near - set(NEXT[phase]))


def range_of(words, at):
    """The range of a word that is a number, by its line and its place there."""
    if words[0] == "world":
        return {1: (1, 64), 2: (1, 64), 3: None, 4: (0, KILLS)}.get(at, (0, GREATEST)) if at else None
    if at == 0 and words[0].isdecimal():
        return 0, MOST
    name = " ".join(words[1 : 3 if words[1:2] == ["add"] else 2])
    return {
        ("add get", 3): (0, ROOM),
        ("sub", 2): (0, ROOM),
        ("look", 2): (0, MOST),
        ("word", 2): (0, MOST),
        ("take", 2): (0, MOST),
        ("take", 3): (-MOST, MOST),
        ("take", 4): (0, ROOM),
        ("give", 2): (0, MOST),
        ("give", 3): (-MOST, MOST),
        ("give", 4): (0, ROOM),
        ("join", 2): (0, MOST),
        ("store", 2): (0, MOST),
        ("store", 3): (0, GREATEST),
    }.get((name, at))


def schedule(pick):
    """The bytes of a random schedule."""
    made = Schedule(pick)
    most = pick.choice((4, 10, 20, 40, 80))
    if once_in(pick, 40):
        made.fill_slot()
        most += len(made.lines)
    end = pick.choice(("whole", "whole", "refused", "at an edge", "at an edge"))
    edge = pick.choice(EDGES) if end == "at an edge" else None
    if edge and once_in(pick, 2):
        most = pick.randint(2, 8)
    while len(made.lines) < most and made.grow():
        # What is refused while a seat owes a step is worth a try.
        if end == "refused" and made.owes() and once_in(pick, 20):
            break
    if edge:
        made.drive(edge)
        made.try_at(edge)
    elif end == "refused":
        made.refuse()
    if once_in(pick, 80):
        made.add_too_many_words()
    return text_of(pick, made.lines, KNOWN, range_of)

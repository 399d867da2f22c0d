"""Random lines of a gate. A plain counter, which isn't compared with anything, says which calls are likely to be allowed."""

MOST_HELD = 65535


class Plain:
    """The state that the lines so far should have left."""

    def __init__(self, passes, start):
        self.held, self.is_dead, self.is_pending = [0] * passes, start == "dead", False
        self.is_slots, self.is_there = start == "slots", True

    def is_zero(self):
        return self.is_dead and not self.is_pending and not sum(self.held)


# Each has the weight 1, times the script's own preference.
PASS = ("try", "live", "get", "put", "dying", "zero")
CONTROL = ("kill", "kill begin", "confirm", "grace", "mode", "reinit", "resurrect", "atomic", "atomic begin", "slots")


def amount(pick, most):
    return max(1, min(most, pick.choice((1, 1, 1, 2, most, most - 1, pick.randint(1, 9), 1 << pick.randrange(16)))))


def pass_line(pick, call, slots, plain):
    """A line of a pass, mostly one that may make this call."""
    holding = [it for it, held in enumerate(plain.held) if held] if call in ("get", "put") else []
    at = pick.choice(holding) if holding and pick.random() < 0.97 else pick.randrange(len(plain.held))
    held, slot = plain.held[at], pick.randrange(slots)
    if call in ("dying", "zero"):
        return f"{call} {at}"
    if call in ("try", "live"):
        if held < MOST_HELD and not (plain.is_zero() if call == "try" else plain.is_dead):
            plain.held[at] += 1
        return f"{call} {at} {slot}"
    n = amount(pick, held if call == "put" else MOST_HELD - held)
    if held and (n <= held if call == "put" else held + n <= MOST_HELD):
        plain.held[at] += -n if call == "put" else n
    return f"{call} {at} {slot} {n}"


def control_line(pick, call, slots, plain):
    """A line of the control, and the plain counter after it."""
    if call in ("kill", "kill begin", "confirm") and not plain.is_dead:
        plain.is_dead, plain.is_pending = True, call == "kill begin" and plain.is_slots
    elif call in ("reinit", "resurrect") and plain.is_dead and not plain.is_pending and (call == "resurrect" or plain.is_zero()):
        plain.is_dead = False
    elif call == "grace":
        plain.is_pending = False
    elif call in ("atomic", "atomic begin", "slots") and not plain.is_pending:
        plain.is_slots = call == "slots"
    if call != "confirm":
        return call
    at = pick.randrange(len(plain.held))
    if plain.held[at] < MOST_HELD - 1:
        plain.held[at] += 1
    return f"confirm {at} {pick.randrange(slots)}"


def is_idle(call, plain):
    """Whether the call most likely changes nothing; most such calls are left out."""
    if call in ("get", "put"):
        return not any(plain.held)
    if call in ("kill", "kill begin", "confirm"):
        return plain.is_dead
    if call in ("reinit", "resurrect"):
        return not plain.is_dead or plain.is_pending or (call == "reinit" and not plain.is_zero())
    return call == "grace" and not plain.is_pending


def script(pick):
    """The lines of one gate, from its beginning to its end."""
    slots, passes = pick.choice((1, 1, 2, 3, 8, 64)), pick.choice((1, 1, 2, 3, 5, 64))
    start = pick.choice(("slots", "slots", "atomic", "dead"))
    plain, lines = Plain(min(passes, 5), start), [f"gate {slots} {passes} {start}"]
    weights = {call: pick.choice((0, 1, 1, 3, 8)) for call in PASS + CONTROL}
    weights["put"], weights["dying"], weights["zero"] = max(2, weights["put"]), pick.choice((0, 1)), pick.choice((0, 1))
    for _ in range(pick.choice((6, 20, 60, 150))):
        calls = [it for it in weights if weights[it] and (not is_idle(it, plain) or pick.random() < 0.05)]
        if not calls:
            break
        call = pick.choices(calls, [weights[it] for it in calls])[0]
        make = pass_line if call in PASS else control_line
        lines.append(make(pick, call, slots, plain))
    return lines + ["end"]

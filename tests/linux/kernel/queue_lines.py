"""Random lines of a queue, and ranges to be split. A plain queue, which isn't compared with anything, says which calls are
likely to be allowed."""

CALLS = ("enter", "nowait", "look", "leave", "limits", "freeze", "thaw", "wait", "drained", "depth", "set", "mode")
PLACES = 1 << 33


class Plain:
    """The state that the lines so far should have left."""

    def __init__(self):
        self.inside, self.waiting, self.depth = set(), set(), 0


def limits(pick, hardware):
    """A maximum, a chunk and a physical block."""
    most = pick.choice((hardware, pick.randint(1, hardware), pick.randint(1, min(hardware, 20))))
    chunk = pick.choice((0, 0, pick.randint(1, 64), 1 << pick.randrange(16), pick.randint(1, 65535)))
    return most, chunk, 1 << pick.choice((0, 0, 1, 2, 3, 5, pick.randrange(16)))


def tag_line(pick, call, slots, tags, plain):
    wanted = plain.inside if call in ("leave", "limits") else set(range(tags)) - plain.inside - plain.waiting
    tag = pick.choice(sorted(wanted)) if wanted and pick.random() < 0.97 else pick.randrange(tags)
    if tag in wanted:
        if call == "leave":
            plain.inside.discard(tag)
        elif call in ("enter", "nowait") and plain.depth:
            plain.waiting |= {tag} if call == "enter" else set()
        elif call != "limits":
            plain.inside.add(tag)
    return f"{call} {tag}" + (f" {pick.randrange(slots)}" if call != "limits" else " 0")


def freezer_line(pick, call, hardware, plain):
    if call == "freeze":
        plain.depth += 1
    elif call == "thaw" and plain.depth:
        plain.depth -= 1
        if not plain.depth:
            plain.inside, plain.waiting = plain.inside | plain.waiting, set()
    elif call == "wait":
        return f"wait {pick.randrange(4)}"
    elif call == "set":
        return "set {} {} {}".format(*limits(pick, hardware))
    elif call == "mode":
        return f"mode {pick.choice(('slots', 'atomic'))}"
    return call


def is_idle(call, plain, tags):
    if call in ("leave", "limits"):
        return not plain.inside
    if call in ("enter", "nowait", "look"):
        return len(plain.inside | plain.waiting) == tags
    return call == "thaw" and not plain.depth


def script(pick):
    """The lines of one queue, from its beginning to its end."""
    slots, tags, hardware = pick.choice((1, 2, 4, 64)), pick.choice((1, 2, 3, 5, 63)), pick.choice((1, 8, 256, 65535))
    plain, few = Plain(), min(tags, 6)
    lines = ["queue {} {} {} {} {} {}".format(slots, tags, hardware, *limits(pick, hardware))]
    weights = {call: pick.choice((0, 1, 1, 3, 8)) for call in CALLS}
    weights["leave"], weights["depth"] = max(2, weights["leave"]), pick.choice((0, 1))
    for _ in range(pick.choice((6, 20, 60, 150))):
        calls = [it for it in weights if weights[it] and (not is_idle(it, plain, few) or pick.random() < 0.05)]
        if not calls:
            break
        call = pick.choices(calls, [weights[it] for it in calls])[0]
        is_tag = call in ("enter", "nowait", "look", "leave", "limits")
        lines.append(tag_line(pick, call, slots, few, plain) if is_tag else freezer_line(pick, call, hardware, plain))
    return lines + ["thaw"] * pick.choice((0, plain.depth)) + ["leave {} 0".format(it) for it in sorted(plain.inside)] + ["destroy"]


def near(pick, number, least, most):
    """A number at or beside another one, within bounds."""
    return max(least, min(most, number + pick.choice((-1, 0, 0, 1))))


def split(pick):
    """A range and limits, at random or beside an edge: a chunk's, a block's, the maximum's."""
    hardware = pick.choice((1, 2, 7, 8, 255, 256, 2560, 65535, pick.randint(1, 65535)))
    most, chunk, block = limits(pick, hardware)
    edge = pick.choice((chunk or 1, block, most))
    place = pick.choice((0, pick.randrange(200), pick.randrange(PLACES), pick.randrange(1, PLACES // edge) * edge))
    start = near(pick, place, 0, PLACES - 1)
    reach = min(most, chunk - start % chunk) if chunk else most
    count = near(pick, pick.choice((1, most, reach, block, reach // block * block, pick.randint(1, 70000), (1 << 32) - 1)), 1, (1 << 32) - 1)
    return f"split {start} {count} {hardware} {most} {chunk} {block}"

"""Makes rows of calls with loops: each is a name, the line of its gate or queue, and its calls with their answers."""

MOST = 65_534


def pair(up, down, n=MOST):
    """Takes an amount on one slot and puts it on another."""
    return [(f"0 get {up} {n}", "ok"), (f"0 put {down} {n}", "not last")]


def closed(*deltas):
    """A kill closes the slots, and finds these deltas."""
    return [("c mark_dead", str(len(deltas))), *(("c close_next", f"closed {delta}") for delta in deltas)]


def collected(front=1):
    """The rest of a kill while references are held."""
    return [("c collect", "ok"), ("c confirm", str(front)), ("c drop_base", "not last")]


def tries(slot, count=1):
    return [(f"0 try {slot}", "given"), (f"0 live {slot}", "given")] * count


def to_the_limit_and_past_it():
    """One slot counts up and the other down. After 16 pairs there is room for 31 more on the one and for 32 on the other, and
    of 17 the last would leave the limit of the deltas, so it goes to the shared word, and not to a slot with room."""
    first, last = [("0 try 0", "given")], [("0 put 0 1", "last")]
    edge = [*pair(0, 1, 31), *pair(0, 1, 1) * 2, *closed(1_048_576, -1_048_576)]
    yield "up_to_the_limit", "2 1 slots 0", [*first, *pair(0, 1) * 16, *edge]
    past = [*closed(1_048_545, -1_048_544), *collected(), *last]
    yield "past_the_limit", "2 1 slots 0", [*first, *pair(0, 1) * 17, *past]
    for name, up, down in (("first_is_full", 0, 1), ("last_is_full", 1, 0)):
        full = [(f"0 get {up} 29", "ok"), *tries(up, 2), (f"0 get {up} 2", "ok"), (f"0 put {down} 33", "not last")]
        deltas = (1_048_576, -1_048_544) if up == 0 else (-1_048_544, 1_048_576)
        rest = [*closed(*deltas), *collected(), ("0 put 0 2", "not last"), *last]
        yield name, "2 1 slots 0", [(f"0 try {up}", "given"), *pair(up, down) * 16, *full, *rest]


def all_slots_count():
    """Each of 64 slots counts each call on it: the deltas all differ, and tell each call's part. The sum of 4 to 67 is held."""
    calls = []
    for slot in range(64):
        calls += [*tries(slot), (f"0 get {slot} {slot + 7}", "ok"), (f"0 put {slot} 5", "not last")]
    calls += [*closed(*range(4, 68)), *collected(), ("0 put 63 2271", "not last"), ("0 put 63 1", "last")]
    yield "all_slots_count", "64 1 slots 0", calls


def full_slots_beside_empty_ones():
    """A count past a slot's limit goes to no other slot, wherever they lie: of four slots two stay at 0."""
    for full, down in ((0, 2), (1, 3), (2, 0), (3, 1)):
        calls = [(f"0 try {full}", "given"), *pair(full, down) * 16, *pair(full, down, 31), *tries(full)]
        calls += [(f"0 get {full} 2", "ok"), (f"0 put {down} 2", "not last"), *[(f"0 put {down} 1", "not last")] * 2]
        calls += closed(*({full: 1_048_576, down: -1_048_576}.get(slot, 0) for slot in range(4)))
        yield f"full_slots_beside_empty_ones, {full}", "4 1 slots 0", [*calls, *collected(), ("0 put 0 1", "last")]


def closed_slots_beside_open_ones():
    """A count on a closed slot goes to no slot that is still open, and is held when all are closed: 8 after each of ten rows."""
    calls = [("0 try 3", "given"), ("c mark_dead", "4")]
    for closing, delta in enumerate((0, 0, 0, 1)):
        calls.append(("c close_next", f"closed {delta}"))
        for slot in range(closing + 1):
            calls += [(f"0 try {slot}", "given"), (f"0 live {slot}", "refused")]
            calls += [(f"0 get {slot} 11", "ok"), (f"0 put {slot} 4", "not last")]
    calls += [("0 put 1 80", "not last"), *collected(), ("0 put 0 1", "last")]
    yield "closed_slots_beside_open_ones", "4 1 slots 0", calls


def a_life(front):
    """A life and its end. The first pass holds, the second only asks for the front, and the third is refused. The word is the
    front of the life, and the next round's is stored at zero."""
    asked = [("1 front", str(front))] * 2 + [("2 front", str(front)), ("0 try 0", "given"), ("0 word 0", str(front))]
    killed = [("c kill", "not last"), ("1 front", str(front + 1)), ("2 live 0", "refused"), ("2 seen", str(front))]
    killed += [("2 front", str(front + 1)), ("2 seen", str(front + 1)), ("c zero", "no"), ("0 put 0 1", "last")]
    stored = [("c zero", "yes"), (f"c store 0 {front + 4}", "ok"), ("1 front", str(front + 1)), ("c reinit", "ok")]
    return asked + killed + stored


def a_life_that_is_held(front):
    """The life after it, which ends by a revival while the first pass still holds."""
    asked = [("1 front", str(front + 2)), ("0 live 0", "given"), ("0 front", str(front + 2)), ("0 word 0", str(front + 4))]
    killed = [("c kill", "not last"), ("0 front", str(front + 3)), ("1 front", str(front + 3)), ("c zero", "no")]
    return [*asked, *killed, ("c resurrect", "held"), ("0 put 0 1", "not last")]


def fronts_and_zeros_of_fifty_lives():
    """In each of fifty lives a pass is answered the front of that life, also one that made no other call since, and the control
    finds the zero of that life alone."""
    born = [("1 front", "1"), ("1 front", "1"), ("c zero", "yes"), ("c reinit", "ok")]
    for start, first, calls in (("slots|atomic", 0, []), ("dead", 2, born)):
        for front in range(first, first + 100, 4):
            calls = calls + a_life(front) + a_life_that_is_held(front)
        yield f"fronts_and_zeros_of_fifty_lives, {start}", f"1 3 {start} 0 {first}", calls


def looks_each_time_in_each_life():
    """A life in which nothing is at zero until the last put, and each call that looks finds so each time: the front, the mark of
    the kill, and a call of the control, which then finds the zero."""
    looking = (("zero", "no", "yes", "ok"), ("reinit", "not zero", "ok", "not dead"), ("store 0 5", "not zero", "ok", "ok"))
    for looks, before, after, revived in looking:
        calls = []
        for front in (0, 2, 4):
            calls += [("1 front", str(front)), ("1 dying", "no"), ("0 live 1", "given"), ("c zero", "no"), ("c kill", "not last")]
            calls += [("1 front", str(front + 1)), ("1 dying", "yes"), (f"c {looks}", before), ("1 zero", "no")]
            calls += [(f"c {looks}", before), ("0 put 0 1", "last"), (f"c {looks}", after)]
            calls += [("c reinit", revived), ("1 zero", "no"), ("c zero", "no")]
        yield f"looks_each_time_in_each_life, {looks}", "2 2 slots|atomic 0 7", calls


def a_life_of_pairs(amounts, pairs, is_odd, front):
    """Takes each amount on the slots of one half, the odd ones or the others, and puts it on the slot beside each. A kill finds
    the sum on each slot, and as much below zero on the slot beside it. One reference is held, and the gate comes back."""
    calls = []
    for n in amounts:
        for even in range(0, 2 * pairs, 2):
            calls += pair(even + is_odd, even + 1 - is_odd, n)
    deltas = [sum(amounts) if slot % 2 == is_odd else -sum(amounts) for slot in range(2 * pairs)]
    return [*calls, *closed(*deltas), *collected(front), ("c resurrect", "held")]


# A reference on the shared word, so that the slots count nothing yet.
HELD_ON_NO_SLOT = [("0 try 0", "given"), ("c slots", "ok")]


def amounts_on_every_slot():
    """Amounts from 1 to 65,534, on each of 64 slots."""
    for n in (1, 2, 777, 999, 1_000, 1_001, 1_999, 2_000, MOST):
        lives = a_life_of_pairs([n], 32, 0, 1) + a_life_of_pairs([n], 32, 1, 3)
        yield f"amounts_on_every_slot, {n}", "64 1 atomic 0", HELD_ON_NO_SLOT + lives


def every_amount_on_its_slot():
    """Every amount on each of four slots, sixteen in a life, and 256 lives of each half in a row: a text has up to 1,048,576 bytes."""
    for begin in range(0, MOST, 4_096):
        calls, front = list(HELD_ON_NO_SLOT), 1
        for first in range(begin + 1, begin + 4_097, 16):
            amounts = [n for n in range(first, first + 16) if n <= MOST]
            for is_odd in (0, 1):
                calls += a_life_of_pairs(amounts, 2, is_odd, front)
                front += 2
        yield f"every_amount_on_its_slot, from {begin + 1}", "4 1 atomic 0", calls


def gate_rows():
    """All rows of a gate."""
    for of_loop in (
        to_the_limit_and_past_it,
        all_slots_count,
        full_slots_beside_empty_ones,
        closed_slots_beside_open_ones,
        fronts_and_zeros_of_fifty_lives,
        looks_each_time_in_each_life,
        amounts_on_every_slot,
        every_amount_on_its_slot,
    ):
        for name, world, calls in of_loop():
            yield name, f"world {world}", calls


def most_freezes():
    """As many freezes as may be, and one more. Each has its thaw, and a tag enters behind the last."""
    calls = [("0 try 0", "entered"), *[("f freeze", str(depth + 1)) for depth in range(1_000)], ("f freeze", "depth full")]
    calls += [("f depth", "1000"), ("0 leave 1", "last"), ("f set 5 0 1", "ok")]
    calls += [*[("f thaw", str(depth)) for depth in reversed(range(1, 1_000))], ("1 try 0", "again"), ("f thaw", "0")]
    yield "most_freezes", "queue 2 2 8", [*calls, ("f thaw", "not frozen"), ("1 try 0", "entered"), ("1 limits", MAX.format(5))]


# The limits with this max, no chunk and physical blocks of one sector.
MAX = "max {} chunk 0 physical 1"


def a_change(life, is_held):
    """A change of the limits. Before it the tag of this life enters on one slot, and it leaves on another while the queue is
    frozen or, if it is held, behind the thaw, when no change was possible."""
    old, new = 1 + life % 8, 1 + (life + (not is_held)) % 8
    tag, up, down = life % 3, life % 4, (life + 1) % 4
    calls = [(f"{tag} try {up}", "entered"), (f"{tag} limits", MAX.format(old)), ("f freeze", "1")]
    if is_held:
        return [*calls, ("f set 3 0 1", "not drained"), ("f thaw", "0"), (f"{tag} limits", MAX.format(old)), (f"{tag} leave {down}", "not last")]
    return [*calls, (f"{tag} leave {down}", "last"), (f"f set {new} 0 1", "ok"), ("f thaw", "0")]


def many_changes():
    """Eighty changes in each mode, each of which the next tag reads. No zero is lost: each drain has its release."""
    for mode in ("slots", "atomic"):
        calls = [(f"f {mode}", "ok"), ("f freeze", "1"), ("f set 1 0 1", "ok"), ("f thaw", "0")]
        for life in range(80):
            calls += [*a_change(life, is_held=True), *a_change(life, is_held=False)]
        calls += [*[(f"{tag} give_back", "ok") for tag in range(3)], ("f remove", "ended dead kills 162 releases 82 words 1 0 1")]
        yield f"many_changes, {mode}", "queue 4 3 8", calls


def each_tag_on_each_slot():
    """Sixteen tags enter, each on a slot of its own, and leave on the slot beside it: the last one to leave drains the queue."""
    for first in range(0, 512, 16):
        calls = [(f"{tag} try {first + tag}", "entered") for tag in range(16)] + [("f freeze", "1")]
        for tag in range(16):
            calls += [(f"{tag} leave {(first + tag + 1) % 512}", "last" if tag == 15 else "not last")]
            calls += [("f drained", "yes" if tag == 15 else "no"), (f"{tag} try {first}", "again")]
        yield f"each_tag_on_each_slot, from {first}", "queue 512 16 8", calls


def all_tags_at_once():
    """As many requests are under way as there may be tags, two of them on each slot. They leave on other slots, the last one first,
    and the first drains the queue."""
    calls = [*((f"{tag} try {tag % 512}", "entered") for tag in range(1_023)), ("f freeze", "1"), ("f drained", "no")]
    calls += [(f"{tag} leave {(tag + 100) % 512}", "not last") for tag in range(1_022, 0, -1)]
    calls += [("f drained", "no"), ("0 limits", MAX.format(8)), ("0 leave 511", "last"), ("f drained", "yes")]
    yield "all_tags_at_once", "queue 512 1023 8", calls


def queue_rows():
    """All rows of a queue."""
    for of_loop in (most_freezes, many_changes, each_tag_on_each_slot, all_tags_at_once):
        yield from of_loop()


ROWS = {"gate": gate_rows, "queue": queue_rows}

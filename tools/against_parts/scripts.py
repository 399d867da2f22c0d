"""Draws random scripts of versions 1 and 2 (docs/FORMATS.md)."""

from against_parts.spelling import once_in, text_of

KNOWN = (
    "blkq disk hw read write freeze thaw set max_sectors chunk_sectors physical_sectors mode atomic slots stat remove"
).split()

# How often a line comes, beside the others.
WEIGHTS = {"read": 12, "write": 16, "freeze": 4, "thaw": 3, "set": 10, "mode": 1, "stat": 2, "remove": 0.2}

DEEPEST = 1_000
MOST = 0xFFFF_FFFF


class Script:
    """A script that grows line by line. It follows the depth and what may be under way, so that its lines meet cases that
    are worth a try; what they are answered it doesn't know."""

    def __init__(self, pick, version=None):
        self.pick = pick
        self.version = version or pick.choice((1, 2))
        sizes = (255, 1_000, 4_096) if once_in(pick, 30) else (1, 2, 3, 4, 8, 8, 12, 16, 24, 40)
        self.sectors = pick.choice(sizes)
        self.hardware = pick.choice((1, 2, 3, 5, 8, 10, self.sectors, self.sectors, 65_535))
        self.depth, self.is_removed, self.under_way = 0, False, []
        # Some scripts have no line of some kind, and many of others.
        self.weights = {kind: weight * pick.choice((0, 1, 1, 1, 4)) for kind, weight in WEIGHTS.items()}
        self.weights["write"] += 1
        # Where a script of version 1 overlaps, all of it is refused.
        self.is_careful = self.version == 1 and not once_in(pick, 5)
        self.bytes = [f"{pick.randrange(256):02x}" for _ in range(3)]
        self.lines = [["blkq", str(self.version)], ["disk", str(self.sectors), "hw", str(self.hardware)]]

    def grow(self):
        """Adds a line, or a few that belong together."""
        weights = dict(self.weights)
        if self.depth > 0:
            weights["thaw"] += 20
        kind = self.pick.choices(list(weights), list(weights.values()))[0]
        getattr(self, "add_" + kind)()

    def add(self, *words):
        self.lines.append([str(word) for word in words])

    def add_read(self):
        self.request("read")

    def add_write(self):
        self.request("write")

    def pattern(self, count):
        """A pattern for so many sectors: of many bytes only where few sectors are written."""
        most = self.pick.choice((1, 1, 1, 2, 3, 7, 64)) if count <= 40 else 1
        return "".join(self.pick.choice(self.bytes) for _ in range(most))

    def request(self, kind):
        start, count = self.range()
        end = start + count
        if self.depth == 0 and end <= self.sectors:
            if self.meets(kind, start, end):
                if self.is_careful and not once_in(self.pick, 15):
                    self.pick.choice((self.add_stat, self.add_set, self.freeze_and_thaw))()
                    return
                self.add_no_drain()
            self.under_way.append((kind, start, end))
        self.add(kind, start, count, *([self.pattern(count)] if kind == "write" else []))

    def meets(self, kind, start, end):
        """Whether a request overlaps one that may be under way."""
        return any(start < last and first < end and "write" in (kind, before) for before, first, last in self.under_way)

    def add_no_drain(self):
        """Before a request that overlaps another: nothing, or a line that looks as if the queue drained for it."""
        if self.version == 2:
            self.under_way.clear()
        elif once_in(self.pick, 2):
            lines = ("thaw", "mode slots", "mode atomic", f"set chunk_sectors {MOST}", f"read {MOST} 1")
            self.add(*self.pick.choice(lines).split())

    def range(self):
        """A range, mostly of the disk, and short or long."""
        if once_in(self.pick, 12):
            return self.odd_range()
        start = self.pick.randrange(self.sectors)
        most = self.sectors - start
        count = self.pick.choice((1, self.pick.randint(1, most), self.pick.randint(1, min(4, most)), most))
        return start, count

    def odd_range(self):
        """A range that ends at the disk's end, beyond it, or beyond the numbers of 32 bits."""
        start = self.pick.choice((0, self.sectors - 1, self.sectors, self.sectors + 1, MOST - self.pick.randrange(4), MOST))
        count = self.pick.choice((1, 2, max(1, self.sectors - start), max(1, self.sectors - start + 1), 5, 65_535))
        return start, count

    def add_freeze(self, count=1):
        for _ in range(count):
            self.add("freeze")
        self.depth = min(DEEPEST, self.depth + count)
        self.under_way.clear()

    def freeze_deep(self):
        """The depth is full at 1,000, which takes a script of its own."""
        self.add_freeze(DEEPEST - self.depth + self.pick.choice((-1, 0, 1, 2)))

    def put_block(self):
        """A setting of version 2 somewhere in a script of version 1, which is refused for it."""
        at = self.pick.randint(2, len(self.lines))
        self.lines.insert(at, ["set", "physical_sectors", str(self.pick.choice((1, 2, 3, 8, 32_768)))])

    def add_thaw(self):
        self.add("thaw")
        self.depth = max(0, self.depth - 1)

    def freeze_and_thaw(self):
        self.add_freeze()
        self.add_thaw()

    def add_set(self):
        names = ["max_sectors", "chunk_sectors", "physical_sectors"][: self.version + 1]
        name = self.pick.choice(names)
        least, values = {
            "max_sectors": (0, (0, 1, 2, 3, 4, 5, self.hardware - 1, self.hardware, self.hardware + 1, 65_535, 65_536, MOST)),
            "chunk_sectors": (0, (0, 0, 1, 2, 3, 4, 5, 6, 7, 8, 65_535, 65_536, MOST)),
            "physical_sectors": (1, (0, 1, 1, 2, 2, 4, 4, 8, 3, 6, 32_768, 65_536, MOST)),
        }[name]
        value = self.pick.choice(values)
        most = self.hardware if name == "max_sectors" else 65_535
        if least <= value <= most:
            self.under_way.clear()
        self.add("set", name, value)

    def add_mode(self):
        self.add("mode", self.pick.choice(("atomic", "slots")))

    def add_stat(self):
        self.add("stat")
        self.under_way.clear()

    def add_remove(self):
        if not self.is_removed or once_in(self.pick, 4):
            self.add("remove")
        self.is_removed = True


def range_of(words, at):
    """The range of a word that is a number, by its line and its place there."""
    return {
        ("disk", 1): (1, 4_096),
        ("disk", 3): (1, 65_535),
        ("read", 1): (0, MOST),
        ("read", 2): (1, 65_535),
        ("write", 1): (0, MOST),
        ("write", 2): (1, 65_535),
        ("set", 2): (0, MOST),
    }.get((words[0], at))


def script(pick, version=None):
    """The bytes of a random script."""
    made = Script(pick, version)
    most = pick.choice((4, 8, 16, 32, 64))
    if once_in(pick, 120):
        made.freeze_deep()
        most += len(made.lines)
    while len(made.lines) < most and not (made.is_removed and once_in(pick, 5)):
        made.grow()
    if not once_in(pick, 3):
        made.add_stat()
    if made.version == 1 and once_in(pick, 40):
        made.put_block()
    return text_of(pick, made.lines, KNOWN, range_of)

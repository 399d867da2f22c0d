"""Makes the scripts of `make measure WHAT=scripts`, by kind. Each has a disk of 4,096 sectors, and ends its spans with `stat`, so
that no two of its requests overlap."""

import random

SECTORS = 4096
EMPTY = f"blkq 1\ndisk {SECTORS} hw 65535\n"


def places(chance, width):
    """Where requests of so many sectors stand that share none, in any order."""
    found = list(range(0, SECTORS - width + 1, width))
    chance.shuffle(found)
    return found


def pattern(chance, length):
    return bytes(chance.randrange(256) for _ in range(length)).hex()


def small(chance):
    """Requests of one sector, as many reads as writes of one byte."""
    for place in places(chance, 1):
        yield f"read {place} 1" if chance.random() < 0.5 else f"write {place} 1 {pattern(chance, 1)}"


def reads(_chance):
    """Reads of the whole disk, which has one run of bytes."""
    yield f"read 0 {SECTORS}"


def large(chance):
    """The whole disk written with one byte, and read."""
    yield f"write 0 {SECTORS} {pattern(chance, 1)}"
    yield "stat"
    yield f"read 0 {SECTORS}"


def dense(chance):
    """64 sectors each time, written with patterns of 63 bytes, so that most runs have one byte, and read."""
    for place in places(chance, 64):
        yield f"write {place} 64 {pattern(chance, 63)}"
    yield "stat"
    for place in places(chance, 64):
        yield f"read {place} 64"


def mixed(chance):
    """Other limits, then requests of one sector with patterns of 4 bytes, then a freeze under which one is refused."""
    yield f"set max_sectors {chance.randint(1, 64)}"
    yield f"set chunk_sectors {chance.choice([0, 3, 8, 128])}"
    for place in places(chance, chance.choice([1, 4, 16])):
        yield f"read {place} 1" if chance.random() < 0.5 else f"write {place} 1 {pattern(chance, 4)}"
    yield from ("freeze", "read 0 1", "thaw")


# Each kind with the most bytes of its script: that of whole disks is short, since each of its lines is much work.
MOST = 1_048_576
KINDS = {small: MOST, reads: 30_000, large: 60_000, dense: 70_000, mixed: MOST}


def script(kind, most, seed):
    """As many rounds of a kind's lines as fit into so many bytes."""
    chance, text = random.Random(f"{kind.__name__} {seed}"), EMPTY
    while True:
        more = "".join(f"{line}\n" for line in (*kind(chance), "stat"))
        if len(text) + len(more) > most:
            return text
        text += more

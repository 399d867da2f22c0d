"""Makes rows whose inputs are too long to write down, with their answers."""

from rows import Answer, Row

BLKQ, SMALL, LARGE, REPLAY, RACES = (
    words.split() for words in ("blkq run", "blkq run 1 1 1", "blkq run 32 64 63", "blkq replay", "gate_races")
)


def text_of(lines):
    return "".join(f"{line}\n" for line in lines).encode()


def written(lines):
    return Answer(0, text_of(lines), b"")


def refused(status, line):
    return Answer(status, b"", text_of([line]))


def two_hundred_writes():
    """The I-th of 200 writes is 20 sectors of the byte I, from sector 20 * I on."""
    script = ["blkq 1", "disk 4096 hw 7", *(f"write {20 * i} 20 {i:02x}" for i in range(200))]
    disk = ",".join([*(f"{i:02x}*10240" for i in range(200)), "00*49152"])
    return text_of(script), written([*(f"{i + 3} ok 7+7+6" for i in range(200)), f"disk {disk}"])


def depth_full():
    """A thousand freezes, one that is refused, and the thaws that lead back to depth 0."""
    script = ["blkq 1", "disk 1 hw 1", *["freeze"] * 1001, *["thaw"] * 1000]
    replies = [f"{depth + 2} depth {depth}" for depth in range(1, 1001)]
    replies += ["1003 depth full", *(f"{2003 - depth} depth {depth}" for depth in range(999, -1, -1))]
    return text_of(script), written([*replies, "disk 00*512"])


def a_long_answer():
    """Each byte that is read, and that the disk has, is a run of its own: 1,310,816 bytes."""
    runs = ",".join(["61*1,62*1"] * 65536)
    script = ["blkq 1", "disk 256 hw 256", "write 0 256 6162", "stat", "read 0 256"]
    counts = "4 stat reads 0 writes 1 again 0 eio 0 depth 0 max 256 chunk 0 mode slots"
    return text_of(script), written(["3 ok 256", counts, f"5 ok 256 {runs}", f"disk {runs}"])


def full_depth(*more):
    """Of 1,001 freezes behind a write all but the last drain, and so does none of the thaws."""
    return text_of(["blkq 1", "disk 8 hw 8", "write 0 1 ab", *["freeze"] * 1001, *["thaw"] * 1000, "read 0 1", *more])


def longest_rows(runs):
    """A comment of as many bytes as a text may have, and one of a byte more."""
    yield Row("refused_longest_comment", runs, b"#" * 1048576, refused(2, "line 2: no version"))
    yield Row("refused_too_long", runs, b"#" * 1048577, refused(2, "line 1: too long"))


def rows_of_races():
    return longest_rows([RACES])


def rows():
    """All of them but those of races."""
    yield from longest_rows([BLKQ, REPLAY])
    yield Row("two_hundred_writes", [SMALL, LARGE], *two_hundred_writes())
    yield Row("depth_full", [BLKQ, SMALL, LARGE], *depth_full())
    yield Row("a_long_answer", [["blkq", "run", "2", "2", "2"]], *a_long_answer())
    freezes = [f"{depth + 3} depth {depth}" for depth in range(1, 1001)]
    thaws = [f"{2004 - depth} depth {depth}" for depth in range(999, -1, -1)]
    answer = ["3 ok 1", *freezes, "1004 depth full", *thaws, "2005 ok 1 ab*512", "disk ab*512,00*3584"]
    yield Row("full_depth", [BLKQ], full_depth(), written(answer))
    yield Row("full_depth, and then an overlap", [BLKQ], full_depth("write 0 1 ab"), refused(3, "line 2006: overlaps line 2005"))

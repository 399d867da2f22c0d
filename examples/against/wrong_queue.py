#!/usr/bin/env python3
"""A request queue on one thread: reads a script, of version 1 or 2, from standard input, and writes its answer.

A request that the queue takes is under way until the queue drains, and what is under way is done in no certain order,
as on a device. One line of this program is wrong, which tools/against finds.
"""

import itertools
import sys

from lines import Fault, Text

SECTOR = 512
DEEPEST = 1_000
MOST = 0xFFFF_FFFF


class Overlap(Exception):
    """A request, in a script of version 1, that overlaps one under way."""


class Request:
    """A read of a range of sectors, or where there is a pattern a write."""

    def __init__(self, start, count, pattern=None):
        self.start, self.end, self.pattern = start, start + count, pattern
        self.line = None

    def overlaps(self, other):
        has_write = self.pattern is not None or other.pattern is not None
        return has_write and self.start < other.end and other.start < self.end


def runs(data):
    """The runs of equal bytes of a range."""
    return ",".join(f"{byte:02x}*{sum(1 for _ in run)}" for byte, run in itertools.groupby(data))


class Queue:
    """A queue with its disk, its limits and its counts, and the replies to the lines that it was asked."""

    def __init__(self, version, sectors, hardware):
        self.version, self.sectors, self.hardware = version, sectors, hardware
        self.disk = bytearray(sectors * SECTOR)
        self.limits = {"max_sectors": hardware, "chunk_sectors": 0, "physical_sectors": 1}
        self.depth, self.mode, self.is_removed = 0, "slots", False
        self.counts = {"reads": 0, "writes": 0, "again": 0, "eio": 0}
        self.under_way, self.replies = [], {}

    def ask(self, line, name, *words):
        """Takes a line of a script. The reply to a request is there when the queue has drained."""
        if self.is_removed:
            self.replies[line] = "ENODEV"
            return
        reply = getattr(self, "ask_" + name)(*words)
        if isinstance(reply, Request):
            reply.line = line
            self.take(reply)
        else:
            self.replies[line] = reply

    def ask_read(self, start, count):
        return self.submit("reads", Request(start, count))

    def ask_write(self, start, count, pattern):
        return self.submit("writes", Request(start, count, pattern))

    def submit(self, kind, request):
        """The request where it is taken, or else the reply to it."""
        refusal = "EAGAIN" if self.depth > 0 else "EIO" if request.end > self.sectors else None
        self.counts[{"EAGAIN": "again", "EIO": "eio", None: kind}[refusal]] += 1
        return refusal or request

    def take(self, request):
        """Puts a request under way, behind a drain where it overlaps one that is."""
        overlapped = next((other for other in self.under_way if other.overlaps(request)), None)
        if overlapped and self.version == 1:
            raise Overlap(f"line {request.line}: overlaps line {overlapped.line}")
        if overlapped:
            self.drain()
        self.under_way.append(request)

    def drain(self):
        """Has the device do what is under way, in whatever order: here the newest comes first."""
        while self.under_way:
            request = self.under_way.pop()
            self.replies[request.line] = self.do(request)

    def do(self, request):
        lengths = "+".join(str(length) for length in self.pieces(request.start, request.end))
        first, last = request.start * SECTOR, request.end * SECTOR
        if request.pattern is None:
            return f"ok {lengths} {runs(self.disk[first:last])}"
        self.disk[first:last] = itertools.islice(itertools.cycle(request.pattern), last - first)
        return f"ok {lengths}"

    def pieces(self, start, end):
        """The lengths of the pieces into which the limits cut a range."""
        block = self.limits["physical_sectors"]
        while start < end:
            stop = start + self.reach(start)
            if stop < end and stop - stop % block > start:
                stop -= stop % block
            yield min(stop, end) - start
            start = stop

    def reach(self, start):
        """How long a piece from here on may be."""
        chunk = self.limits["chunk_sectors"]
        to_boundary = chunk - start % chunk if chunk else MOST
        return min(self.limits["max_sectors"], to_boundary)

    def ask_freeze(self):
        if self.depth == DEEPEST:
            return "depth full"
        self.depth += 1
        self.drain()
        return f"depth {self.depth}"

    def ask_thaw(self):
        if self.depth == 0:
            return "not frozen"
        self.depth -= 1
        return f"depth {self.depth}"

    def ask_set(self, name, value):
        if not self.may_be(name, value):
            return "EINVAL"
        if value < self.limits[name]:  # A request under way meets a higher limit as it meets this one.
            self.drain()
        self.limits[name] = value or (self.hardware if name == "max_sectors" else 0)
        return "ok"

    def may_be(self, name, value):
        if name == "physical_sectors":
            return 1 <= value <= 32_768 and value.bit_count() == 1
        return value <= (self.hardware if name == "max_sectors" else 65_535)

    def ask_mode(self, mode):
        self.mode = mode
        return "ok"

    def ask_stat(self):
        self.drain()
        counts = " ".join(f"{name} {count}" for name, count in self.counts.items())
        physical = f" physical {self.limits['physical_sectors']}" if self.version == 2 else ""
        limits = f"max {self.limits['max_sectors']} chunk {self.limits['chunk_sectors']}{physical}"
        return f"stat {counts} depth {self.depth} {limits} mode {self.mode}"

    def ask_remove(self):
        self.drain()
        self.is_removed = True
        return "removed"

    def answer(self):
        self.drain()
        replies = [f"{line} {reply}\n" for line, reply in sorted(self.replies.items())]
        return "".join(replies) + f"disk {runs(self.disk)}\n"


def range_of(line):
    return line.number_in(0, MOST), line.number_in(1, 65_535)


def asked(line, version):
    """What a line asks: the name of the call, and its words."""
    counts = {"read": 3, "write": 4, "freeze": 1, "thaw": 1, "set": 3, "mode": 2, "stat": 1, "remove": 1}
    name = line.word(counts)
    line.has_words(counts[name])
    match name:
        case "read":
            return name, *range_of(line)
        case "write":
            return name, *range_of(line), line.pattern()
        case "set":
            settings = ["max_sectors", "chunk_sectors", "physical_sectors"][: version + 1]
            return name, line.word(settings), line.number_in(0, MOST)
        case "mode":
            return name, line.word(["atomic", "slots"])
    return (name,)


def parsed(data):
    """The queue that a script begins with, and what its lines ask; each with the line's number."""
    text = Text(data)
    version = int(text.head(lambda words: words in (["blkq", "1"], ["blkq", "2"]), "no version").words[1])
    disk = text.head(lambda words: words[:1] == ["disk"], "no disk")
    disk.has_words(4)
    disk.word()
    sectors = disk.number_in(1, 4_096)
    disk.word(["hw"])
    queue = Queue(version, sectors, disk.number_in(1, 65_535))
    return queue, [(line.number, *asked(line, version)) for line in text]


def main():
    try:
        queue, lines = parsed(sys.stdin.buffer.read())
        for line in lines:
            queue.ask(*line)
    except Fault as why:
        print(why, file=sys.stderr)
        sys.exit(2)
    except Overlap as why:
        print(why, file=sys.stderr)
        sys.exit(3)
    sys.stdout.write(queue.answer())


main()

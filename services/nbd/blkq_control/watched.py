"""Prints a line of the server's counts at intervals."""

import re
import sys
import time

from blkq_control.server import DONE


DISK = re.compile(r'(?<=\{)disk="[^"]*",?')


def values_of(lines):
    """The metrics by name, without the disk label."""
    split = (line.rpartition(" ") for line in lines if not line.startswith("#"))
    return {DISK.sub("", name).removesuffix("{}"): float(value) for name, _, value in split}


def grown(now, before, name, operations):
    return sum(now[f'{name}{{operation="{it}"}}'] - before[f'{name}{{operation="{it}"}}'] for it in operations)


BUCKET = re.compile(r'blkq_latency_seconds_bucket\{operation="(\w+)",le="([^"]+)"\}')


def latency(now, before, operations, part):
    """The upper bound, in milliseconds, of the bucket that reaches this part of the latencies between two moments."""
    counts = {}
    for name in now:
        found = BUCKET.fullmatch(name)
        if found and found[1] in operations:
            bound = float(found[2].replace("+Inf", "inf"))
            counts[bound] = counts.get(bound, 0) + now[name] - before[name]
    most = counts.get(float("inf"), 0)
    return next((bound * 1e3 for bound in sorted(counts) if counts[bound] >= part * most), 0) if most else 0


HEAD = f"{'time':8} {'reads/s':>9} {'writes/s':>9} {'MB/s':>8} {'median ms':>9} {'99 % ms':>9} {'waiting':>7} {'depth':>5} " \
       f"{'max':>6} {'chunk':>6} {'physical':>8}"
READS, WRITES = ("read",), ("write", "trim", "zero")


def watched(now, before, seconds):
    """The line for the time between two moments."""
    both = READS + WRITES
    reads, writes = (grown(now, before, "blkq_requests_total", of) / seconds for of in (READS, WRITES))
    moved = grown(now, before, "blkq_bytes_total", both) / seconds / 1e6
    limits = [now[f'blkq_limit_sectors{{limit="{name}"}}'] for name in ("max", "chunk", "physical")]
    return f"{time.strftime('%H:%M:%S')} {reads:9.0f} {writes:9.0f} {moved:8.1f} " \
           f"{latency(now, before, both, 0.5):9.3f} {latency(now, before, both, 0.99):9.3f} " \
           f"{now['blkq_waiting']:7.0f} {now['blkq_freeze_depth']:5.0f} " \
           f"{limits[0]:6.0f} {limits[1]:6.0f} {limits[2]:8.0f}"


def watch(server, given):
    """Prints a line for each interval. On a terminal the head stays above the last twenty lines."""
    is_live, lines, told = sys.stdout.isatty(), [], 0
    before, began = values_of(server.list("metrics")), time.monotonic()
    if not is_live:
        print(HEAD, flush=True)
    while given.count is None or told < given.count:
        time.sleep(given.seconds)
        now, ended = values_of(server.list("metrics")), time.monotonic()
        line = watched(now, before, ended - began)
        before, began, told = now, ended, told + 1
        lines = [*lines, line][-20:]
        print("\x1b[H\x1b[2J" + "\n".join([HEAD, *lines]) if is_live else line, flush=True)
    return DONE

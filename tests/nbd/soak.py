#!/usr/bin/python3
"""Runs the filter before the file plugin on a tmpfs for a long time: soak.py FILTER [SECONDS [SEED [apart]]]. The default is an hour.

All actors of actors.py run at the same time: clients that compare each read with what they wrote, fio, clients that come and go, settings,
freezes that are owned, leased, kept and left behind by killed controllers, backups and groups of two servers, live ones too. With `apart` the two servers are
frozen one after another, and the run has to fail. At the end, memory and descriptors have to be
as at the beginning, and SIGTERM has to end the server while it is loaded and frozen. It prints a line each minute, and a last line of
figures. The status is 0 if nothing was wrong."""

import multiprocessing
import os
import random
import subprocess
import sys
import tempfile
import time
import traceback
from contextlib import closing

import nbd

from actors import HANGS, Hang, Torn, needs_depth, start_clients, start_controllers
from controls import metrics_of, soon
from server import Control, Server, in_memory

COUNTED = ("reads", "writes", "zeros", "trims", "flushes", "fio_runs", "fio_requests", "ordered_writes", "connections", "settings",
           "refused_settings", "owned", "left", "leased", "kept", "killed", "garbage", "given_up", "copies",
           "live_copies", "lost_copies", "commits", "groups", "live_groups", "lost_groups", "lost_live", "data_errors", "hangs", "faults")
WRONG = ("data_errors", "hangs", "faults")
GROWTH, ROUNDS = 16384, 4  # KiB of memory in a round; how many are made until one grows by less


class Soak:
    """What the actors share: the server, their counts, and whether they go on. The server's SIGTERM follows `ends`."""

    def __init__(self, server, log, seed, apart):
        self.server, self.log, self.seed, self.apart, self.actors, self.threads = server, log, seed, apart, [], weight(server)[2]
        self.counts = {name: multiprocessing.Value("Q", 0) for name in COUNTED}
        self.enough, self.ends = multiprocessing.Event(), multiprocessing.Event()

    def count(self, name, more=1):
        with self.counts[name].get_lock():
            self.counts[name].value += more

    def found(self):
        return {name: value.value for name, value in self.counts.items()}

    def start(self, act, *given):
        process = multiprocessing.Process(target=self.go_through, args=(act, *given), name=act.__name__)
        process.start()
        self.actors.append(process)

    def go_through(self, act, *given):
        """An actor in a process of its own, until there is enough. Its errors are the server's, unless that is being ended."""
        draws = random.Random(f"{self.seed} {act.__name__} {given}")
        try:
            act(self, draws, *given)
        except (Hang, Torn) as wrong:
            self.count("hangs" if isinstance(wrong, Hang) else "data_errors")
            print(f"{act.__name__}: {wrong!r}", flush=True)
        except (OSError, nbd.Error, AssertionError, IndexError, ValueError, subprocess.SubprocessError):
            if not self.ends.is_set():
                self.count("faults")
                traceback.print_exc()

    def join(self, within):
        """Ends the actors. None may take longer than this."""
        self.enough.set()
        late = time.monotonic() + within
        for actor in self.actors:
            actor.join(max(0.0, late - time.monotonic()))
            if actor.is_alive():
                self.count("hangs")
                print(f"{actor.name} hangs", flush=True)
                actor.kill()
                actor.join()
        self.actors = []
        self.enough.clear()

    def control(self):
        control = Control(self.server.control_path)
        control.at.settimeout(HANGS)
        return control

    def client(self, server=None):
        client = nbd.NBD()
        client.connect_unix((server or self.server).socket)
        return client


# ---- The run ----


def weight(server):
    """Kibibytes of memory, descriptors and threads of the server."""
    with open(f"/proc/{server.process.pid}/status", encoding="ascii") as file:
        status = dict(line.rstrip("\n").split(":\t", 1) for line in file)
    return int(status["VmRSS"].split()[0]), len(os.listdir(f"/proc/{server.process.pid}/fd")), int(status["Threads"])


def tell(what, soak, began):
    shown = " ".join(f"{name} {value}" for name, value in soak.found().items())
    memory, descriptors, threads = weight(soak.server)
    print(f"{what} after {time.monotonic() - began:.0f} s: {shown}; {memory} KiB, {descriptors} descriptors, {threads} threads", flush=True)


def is_steady(server):
    """Whether as many descriptors are open for a second: the last connections may be closing still."""
    counts = set()
    for _ in range(20):
        counts.add(weight(server)[1])
        time.sleep(0.05)
    return len(counts) == 1


def at_rest(soak):
    """The server's memory and descriptors once every client and controller has gone."""
    with closing(soak.control()) as control:
        needs_depth(control, "thaw all")
        soon(lambda: metrics_of(control)["blkq_waiting"] == metrics_of(control)["blkq_tags_out"] == 0, "requests of nobody", HANGS)
    soon(lambda: weight(soak.server)[2] == soak.threads, "threads of nobody", HANGS)
    soon(lambda: is_steady(soak.server), "descriptors come and go", HANGS)
    return weight(soak.server)


def loaded(soak, began, seconds):
    """Runs all actors at once, for this many seconds or until something is wrong."""
    start_clients(soak)
    start_controllers(soak)
    told = began
    while time.monotonic() < began + seconds and not any(soak.found()[name] for name in WRONG):
        time.sleep(1)
        if time.monotonic() > told + 60:
            told += 60
            tell("so far", soak, began)
    soak.join(2 * HANGS)


def end(soak):
    """Sends SIGTERM to a server that is loaded and frozen."""
    start_clients(soak)
    time.sleep(2)
    with closing(soak.control()) as control:
        needs_depth(control, "quiesce keep")
        time.sleep(1)
        soak.ends.set()
        soak.enough.set()
        soak.server.end(HANGS)
    soak.join(HANGS)
    soak.log.end(HANGS)


def run(soak, seconds):
    began = time.monotonic()
    loaded(soak, time.monotonic(), min(30.0, seconds / 4))  # so that what is allocated once is
    weights = [at_rest(soak)]
    while len(weights) == 1 or (len(weights) <= ROUNDS and weights[-1][0] >= weights[-2][0] + GROWTH):
        loaded(soak, time.monotonic(), seconds)  # what isn't freed grows in each round; a slow machine reaches its most in a later one
        weights.append(at_rest(soak))
    first, last = weights[-2:]
    with closing(soak.control()) as control:
        shown = " ".join(f"{name.removeprefix('blkq_')} {value:.0f}" for name, value in metrics_of(control).items()
                         if "requests_total" in name or "pieces_total" in name or name.endswith(("freezes_total", "quiesces_total",
                                                                                                 "settings_total", "thaws_total")))
    tell("at rest", soak, began)
    print(f"the server's: {shown}", flush=True)
    print(f"at rest, before each round and at the end: KiB and descriptors {[it[:2] for it in weights]}", flush=True)
    assert len({it[1] for it in weights}) == 1, "descriptors stay open"
    assert last[0] < first[0] + GROWTH, "memory grows"
    assert soak.found()["lost_copies"] <= 2 * soak.found()["kept"], "a freeze ended that nobody thawed"
    end(soak)
    wrong = [name for name in WRONG if soak.found()[name]]
    print(f"ended in order; wrong: {wrong or 'nothing'}", flush=True)
    return 1 if wrong else 0


def main(served, seconds, seed, apart):
    print(f"seed {seed}", flush=True)
    servers = [Server(served, "size=64M") for _ in range(2)]
    try:
        return run(Soak(*servers, seed, apart), seconds)
    finally:
        for server in servers:
            if server.process.poll() is None:
                server.process.kill()
                server.process.wait()
            server.errors.close()
            server.folder.cleanup()


if __name__ == "__main__":
    tempfile.tempdir = in_memory()
    os.environ["MALLOC_ARENA_MAX"] = "4"  # else memory grows by an arena for each thread that comes, eight for each processor
    sys.exit(main(sys.argv[1], float(sys.argv[2]) if len(sys.argv) > 2 else 3600.0,
                  sys.argv[3] if len(sys.argv) > 3 else str(int(time.time())), sys.argv[4:] == ["apart"]))

"""The actors that soak.py runs at the same time: clients that verify what they read, clients that come and go, and controllers. Each actor is
a function of the soak, its own random numbers, and its own number, and runs in its own process."""

import json
import os
import signal
import socket
import struct
import subprocess
import sys
import time
from contextlib import closing

import nbd

from copies import BLKQCTL, BLOCK
from tries import MIB, fio

HANGS = 300.0  # seconds: longer than any freeze of these, on a processor that others share too
WRITERS, MODELS, STORMS, CHANGERS, COMMITTERS = 4, 4, 2, 2, 2
# The writers' places are at the disk's beginning and at its end, the committers' between fio's and the models'.
FIO_AT, COMMITS_AT, MODELS_AT, SIZE = 2 * MIB, 12 * MIB, 16 * MIB, 64 * MIB


class Hang(Exception):
    """A request or a line that gets no answer."""


class Torn(Exception):
    """Bytes that no client wrote there."""


def wait_for(client, *cookies):
    """Waits until requests are done. A refusal is an nbd.Error."""
    late = time.monotonic() + HANGS
    for cookie in cookies:
        while not client.aio_command_completed(cookie):
            client.poll(1000)
            if time.monotonic() > late:
                raise Hang(f"request {cookie}")


def lent(block, place=0, length=None):
    """A buffer over bytes of the caller's. libnbd 1.14 never frees one of its own that a request had."""
    return nbd.Buffer.from_buffer(memoryview(block)[place : None if length is None else place + length])


# ---- Clients that verify ----


class Model:
    """A client with its own part of the disk, and what it wrote there."""

    def __init__(self, soak, draws, number):
        self.soak, self.draws, self.client = soak, draws, soak.client()
        self.at, self.bytes, self.found = MODELS_AT + number * MIB, bytearray(MIB), bytearray(MIB)
        wait_for(self.client, self.client.aio_zero(MIB, self.at))

    def places(self):
        """One to eight places that don't overlap, of at most 128 KiB."""
        count = self.draws.randint(1, 8)
        part = MIB // count
        for first in range(0, part * count, part):
            length = min(self.draws.choice((1, 512, 4096, 65536, 131072)) * self.draws.randint(1, 3), part, 131072)
            yield first + self.draws.randint(0, part - length), length

    def write(self, place, length):
        block = self.draws.randbytes(64) * (length // 64 + 1)
        self.bytes[place : place + length] = block[:length]
        flags = self.draws.choice((0, 0, 0, nbd.CMD_FLAG_FUA))
        return self.client.aio_pwrite(lent(self.bytes, place, length), self.at + place, flags=flags)

    def zero(self, place, length):
        self.bytes[place : place + length] = bytes(length)
        return self.client.aio_zero(length, self.at + place)

    def round(self):
        """Makes requests at once, each in its own place, and overwrites trims; then reads each place."""
        kind, places = self.draws.choice(("writes", "writes", "writes", "zeros", "trims", "reads")), list(self.places())
        if kind == "trims":
            wait_for(self.client, *(self.client.aio_trim(length, self.at + place) for place, length in places))
            self.soak.count("trims", len(places))
        if kind != "reads":
            do = self.zero if kind == "zeros" else self.write
            wait_for(self.client, *[do(place, length) for place, length in places])
            self.soak.count("writes" if kind == "trims" else kind, len(places))
        if self.draws.random() < 0.05:
            wait_for(self.client, self.client.aio_flush())
            self.soak.count("flushes")
        wait_for(self.client, *[self.client.aio_pread(lent(self.found, place, length), self.at + place) for place, length in places])
        self.soak.count("reads", len(places))
        for place, length in places:
            if self.found[place : place + length] != self.bytes[place : place + length]:
                raise Torn(f"{length} bytes at {self.at + place}, after {kind}")


def verifies(soak, draws, number):
    model = Model(soak, draws, number)
    while not soak.enough.is_set():
        model.round()
    model.client.shutdown()


def runs_fio(soak, draws):
    """fio writes four mebibytes at random, and verifies them."""
    command = fio(soak.server, 2, verify="crc32c", size="2m", offset=FIO_AT, offset_increment="4m", bs=draws.choice(("4k", "16k")),
                  **{"output-format": "json"})
    while not soak.enough.is_set():
        said = subprocess.run(command, stdout=subprocess.PIPE, stderr=subprocess.STDOUT, timeout=4 * HANGS, check=False)
        job = json.loads(said.stdout[said.stdout.index(b"{") : said.stdout.rindex(b"}") + 1])["jobs"][0]
        if soak.ends.is_set():
            return
        if said.returncode != 0 or job["error"] != 0:
            raise Torn(said.stdout.decode())
        soak.count("fio_runs")
        soak.count("fio_requests", job["read"]["total_ios"] + job["write"]["total_ios"])


def places_of(writer):
    return writer * BLOCK, SIZE - (writer + 1) * BLOCK


def writes_in_order(soak, _, number):
    """Writes a number near the disk's beginning, and only then near its end (copies.py)."""
    client, written, block = soak.client(), 0, bytearray(BLOCK)
    while not soak.enough.is_set():
        written += 1
        block[:] = struct.pack("<Q", written) * (BLOCK // 8)
        for place in places_of(number):
            wait_for(client, client.aio_pwrite(lent(block), place))
        soak.count("ordered_writes", 2)
    client.shutdown()


def is_torn(copy, writer):
    """Whether a copy is torn: the second place of a writer has neither the number of the first nor the one before."""
    blocks = [copy[place : place + BLOCK] for place in places_of(writer)]
    first, second = (struct.unpack("<Q", block[:8])[0] for block in blocks)
    are_whole = all(block == block[:8] * (BLOCK // 8) for block in blocks)
    return not (are_whole and first - 1 <= second <= first)


def commits(soak, _, number):
    """Writes a number to the disk, and only then to the log's."""
    clients, written, block = [soak.client(), soak.client(soak.log)], 0, bytearray(BLOCK)
    while not soak.enough.is_set():
        written += 1
        block[:] = struct.pack("<Q", written) * (BLOCK // 8)
        for client in clients:
            wait_for(client, client.aio_pwrite(lent(block), COMMITS_AT + number * BLOCK))
        soak.count("commits")
    for client in clients:
        client.shutdown()


def storms(soak, draws, _):
    """Connects and disconnects: in the handshake, in order, or with one request in flight or waiting (only one, since nbdkit 1.32 aborts
    if several threads reply to a killed client)."""
    while not soak.enough.is_set():
        way = draws.randrange(4)
        if way == 0:
            with closing(socket.socket(socket.AF_UNIX)) as leaving:
                leaving.connect(soak.server.socket)
                leaving.recv(draws.randint(1, 18))
        else:
            client = soak.client()
            if way > 1:
                client.aio_pread(nbd.Buffer(512), 0)
            if way == 3:
                with socket.socket(fileno=os.dup(client.aio_get_fd())) as connection:
                    connection.shutdown(socket.SHUT_RDWR)
            else:
                client.shutdown()
        soak.count("connections")


# ---- Controllers ----


def changes(soak, draws, _):
    """Changes settings, which succeed or are given up at a `thaw all`; one in ten is refused."""
    with closing(soak.control()) as control:
        while not soak.enough.is_set():
            drawn = {"max_sectors": draws.choice((0, 1, 7, 8, 64, 256)), "chunk_sectors": draws.choice((0, 3, 8, 128)),
                     "physical_sectors": 1 << draws.randrange(4)}
            if draws.random() < 0.1:
                control.need("set max_sectors 4 physical_sectors 3", "EINVAL")
                soak.count("refused_settings")
            elif draws.random() < 0.1:
                control.need(draws.choice(("mode slots", "mode atomic")), "ok")
            else:
                fields = draws.sample(sorted(drawn), draws.randint(1, 3))
                needs_setting(control, "set " + " ".join(f"{field} {drawn[field]}" for field in fields))
                soak.count("settings")
            time.sleep(draws.random() * 0.02)


def needs_setting(control, line):
    """A line that sets limits. `thaw all` of another may end its freeze before the queue is drained."""
    reply = control.ask(line)
    if reply not in ("ok", "thawed"):
        raise AssertionError(f"{line!r} is answered {reply!r}")


def needs_depth(control, line):
    """A line that freezes or thaws. `thaw all` of another may end the freeze meanwhile."""
    reply = control.ask(line)
    if not reply.startswith("depth ") and reply not in ("thawed", "not yours", "not frozen"):
        raise AssertionError(f"{line!r} is answered {reply!r}")


def freezes(soak, draws):
    """Begins freezes that are thawed, left to the end of the connection, leased for a second, or kept until a `thaw all`."""
    while not soak.enough.is_set():
        how = draws.choice(("owned", "owned", "left", "left", "leased", "kept"))
        with closing(soak.control()) as control:
            verb = draws.choice(("freeze", "quiesce"))
            needs_depth(control, verb + {"leased": " lease 1", "kept": " keep"}.get(how, ""))
            time.sleep(draws.random() * 0.1)
            if how == "owned":
                needs_depth(control, "thaw")
            if how == "kept" and draws.random() < 0.5:
                needs_depth(control, "thaw all")
        if how == "kept":
            with closing(soak.control()) as other:
                needs_depth(other, "thaw all")
        soak.count(how)
        time.sleep(draws.random() * (1.5 if how == "leased" else 0.3))


def breaks(soak, draws):
    """Runs controllers that are killed while they hold or wait, that give up a drain, and that send garbage."""
    while not soak.enough.is_set():
        way = draws.choice(("killed", "killed", "given_up", "garbage"))
        control = soak.control()
        if way == "garbage":
            control.at.sendall(draws.randbytes(draws.randint(1, 600)))
        elif way == "given_up":
            control.at.sendall(draws.choice((b"quiesce\n", b"freeze\nfreeze\n", b"set max_sectors 8\n")))
        else:
            child = os.fork()
            if child == 0:
                control.at.sendall(draws.choice((b"freeze\nset max_sectors 12", b"quiesce\nfreeze\nthaw", b"quiesce lease 1\n")))
                if draws.random() < 0.5:
                    control.at.recv(1)
                os.kill(os.getpid(), signal.SIGKILL)
            control.at.close()
            os.waitpid(child, 0)
        control.close()
        soak.count(way)
        time.sleep(draws.random() * 0.5)


def backs_up(soak, draws):
    """Makes copies under a quiesce. Each has to be whole, or reported as lost."""
    copy = soak.server.path("copy")
    while not soak.enough.is_set():
        told = subprocess.run([sys.executable, BLKQCTL, soak.server.control_path, "quiesce", "--", "cp", soak.server.disk, copy],
                              stderr=subprocess.PIPE, timeout=HANGS, check=False)
        if told.returncode == 125:  # by a `thaw all`
            soak.count("lost_copies")
            continue
        assert told.returncode == 0, told
        with open(copy, "rb") as file:
            copied = file.read()
        for writer in range(WRITERS):
            if is_torn(copied, writer):
                raise Torn(f"a copy of writer {writer}'s")
        soak.count("copies")
        time.sleep(draws.random() * 2)


def backs_up_live(soak, draws):
    """Makes copies while clients write, whole ones and by changes. Each has to be whole, or reported as lost."""
    copy = soak.server.path("live")
    while not soak.enough.is_set():
        told = subprocess.run([sys.executable, BLKQCTL, soak.server.control_path, "backup", "--live", "--deadline", "60s",
                               *draws.choice(([], ["--incremental"])), "--to", copy], stderr=subprocess.PIPE, timeout=HANGS, check=False)
        if told.returncode == 125:  # by a `thaw all`, or since the group has the snapshot
            soak.count("lost_live")
            time.sleep(draws.random())
            continue
        assert told.returncode == 0, told
        copied = read(copy)
        for writer in range(WRITERS):
            if is_torn(copied, writer):
                raise Torn(f"a live copy of writer {writer}'s")
        soak.count("live_copies")
        time.sleep(draws.random() * 2)


READS_PLACES = """
import nbd, os, sys
for name, path in zip(("disk", "log"), sys.argv[3:]):
    reading = nbd.NBD()
    reading.connect_uri(os.environ[f"BLKQ_COPY_{name}"])
    with open(path, "wb") as file:
        file.write(reading.pread(int(sys.argv[1]), int(sys.argv[2])))
"""


def takes_groups(soak, draws):
    """Copies the committers' places from snapshots of both disks, the disk that is written first before the other."""
    disks = soak.server, soak.log
    copies = [disk.path("taken") for disk in disks]
    command = [sys.executable, BLKQCTL, "group", "--live", "--deadline", "60s", f"disk={disks[0].control_path}", f"log={disks[1].control_path}",
               "--", sys.executable, "-c", READS_PLACES, str(BLOCK * COMMITTERS), str(COMMITS_AT), *copies]
    while not soak.enough.is_set():
        told = subprocess.run(command, stderr=subprocess.PIPE, timeout=HANGS, check=False)
        if told.returncode == 125:
            soak.count("lost_live")
            time.sleep(draws.random())
            continue
        assert told.returncode == 0, told
        need_one_moment(copies)
        soak.count("live_groups")
        time.sleep(draws.random())


def need_one_moment(copies):
    first, second = ([struct.unpack_from("<Q", read(copy), number * BLOCK)[0] for number in range(COMMITTERS)] for copy in copies)
    if not all(one - 1 <= other <= one for one, other in zip(first, second)):
        raise Torn(f"disks of two moments: {first}, {second}")


def freezes_groups(soak, draws):
    """Copies the committers' places on both disks, the disk that is written first before the other. Each copy has to be of one moment, or reported as lost."""
    disks = soak.server, soak.log
    copies = [soak.server.path("group"), soak.log.path("group")]
    taking = [f"dd status=none bs={BLOCK} skip={COMMITS_AT // BLOCK} count={COMMITTERS} if={disk.disk} of={copy}"
              for disk, copy in zip(disks, copies)]
    group = [sys.executable, BLKQCTL, "group", f"disk={disks[0].control_path}", f"log={disks[1].control_path}", "--"]
    apart = [[sys.executable, BLKQCTL, disk.control_path, "quiesce", "--"] for disk in disks]
    while not soak.enough.is_set():
        lines = [[*by, *take.split()] for by, take in zip(apart, taking)] if soak.apart else [[*group, "sh", "-c", " && ".join(taking)]]
        statuses = [subprocess.run(line, stderr=subprocess.PIPE, timeout=HANGS, check=False).returncode for line in lines]
        if 125 in statuses:  # by a `thaw all`
            soak.count("lost_groups")
            continue
        assert not any(statuses), statuses
        need_one_moment(copies)
        soak.count("groups")
        time.sleep(draws.random() * 2)


def read(path):
    with open(path, "rb") as file:
        return file.read()


# ---- All of them ----


def start_clients(soak):
    for number in range(MODELS):
        soak.start(verifies, number)
    for number in range(WRITERS):
        soak.start(writes_in_order, number)
    for number in range(COMMITTERS):
        soak.start(commits, number)
    soak.start(runs_fio)
    for number in range(STORMS):
        soak.start(storms, number)


def start_controllers(soak):
    for number in range(CHANGERS):
        soak.start(changes, number)
    for act in (freezes, breaks, backs_up, backs_up_live, freezes_groups, takes_groups):
        soak.start(act)

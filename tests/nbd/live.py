"""Tests copies that are made while clients write: live.py FILTER NAME runs one test."""

import errno
import json
import os
import random
import re
import signal
import subprocess
import sys
import threading
from contextlib import ExitStack, closing, contextmanager, suppress

import nbd

from backups import DATA, backed_up, backing_up, left, read, reader
from controls import depth_of, metrics_of, soon
from copies import BLKQCTL, MIB, TRIES, blkqctl, torn_copies
from flushes import begun
from gates import done_by, shell, write
from groups import Hosts, inconsistent
from server import WITHIN, Server, run_test
from tries import done

LIVE = "--live", "--deadline", "4m"


def live(server, *words, **more):
    """Makes a live backup. Returns its bytes, and what blkqctl writes to standard error."""
    return backed_up(server, *LIVE, *words, **more)


def backing_up_live(server):
    return [*backing_up(server), *LIVE]


@contextmanager
def snapshot(server, *words):
    """Takes a snapshot. Yields the control, the name of its export and its keeper; ends it unless the block did."""
    with closing(server.control()) as control:
        word, name, _ = control.ask(" ".join(["snapshot prepare", *words])).split(" ", 2)
        assert word == "export", word
        keeper = reader(server, name)
        control.need("freeze", "depth 1")
        control.need("snapshot on", "ok")
        control.need("thaw", "depth 0")
        yield control, name, keeper
        with suppress(nbd.Error):
            keeper.shutdown()
        control.ask("snapshot off")


def figures(control):
    """The bytes that were read and those of the disk, from the reply to `copied`, and the greatest room from that to `snapshot off`."""
    copied = re.fullmatch(r"copied (\d+) of (\d+) alike", control.ask("copied"))
    ended = re.fullmatch(r"snapshot kept \d+ peak (\d+)", control.ask("snapshot off"))
    return tuple(map(int, (*copied.groups(), *ended.groups())))


def room(control):
    return metrics_of(control)["blkq_snapshot_bytes"]


# ---- Whole copies ----


def consistent(served):
    """Twenty live backups under load are whole."""
    torn = torn_copies(served, lambda server, _: live(server))
    assert torn == 0, f"{torn} of {TRIES} copies are torn"


def at_one_moment(served):
    """Twenty copies of two disks are of one moment, though they are copied one after the other, and neither is frozen any more."""

    def copy(hosts, _):
        lines = [f'blkqctl {server.control_path} stat | grep " depth 0 " && nbdcopy "$BLKQ_COPY_{name}" {server.path("copy")}'
                 for name, server in hosts.servers.items()]
        hosts.group("--live", "--", "sh", "-c", " && sleep 0.05 && ".join(lines))

    for backend in (None, ["--filter=cow", "file", "{folder}/disk"]):
        found = inconsistent(served, copy, backend=backend)
        assert found == 0, f"{found} of {TRIES} copies aren't of one moment"


class Changer(threading.Thread):
    """Changes parts of a disk at random, and keeps what the disk has."""

    def __init__(self, server, size, seed):
        super().__init__()
        self.client, self.size, self.draws = server.client(), size, random.Random(seed)
        self.bytes, self.enough, self.failed = bytearray(size), False, None

    def change(self):
        place = self.draws.randrange(self.size)
        count = min(self.size - place, self.draws.choice((1, 512, 4096, 20000, 100000)))
        kind = self.draws.randrange(4)
        if kind == 0:
            self.bytes[place : place + count] = bytes(count)
            self.client.zero(count, place, self.draws.choice((0, nbd.CMD_FLAG_NO_HOLE)))
        elif kind == 1:
            self.bytes[place : place + count] = bytes(count)
            self.client.trim(count, place)
            self.client.zero(count, place)
        else:
            self.bytes[place : place + count] = found = self.draws.randbytes(count)
            self.client.pwrite(found, place)

    def run(self):
        try:
            while not self.enough:
                self.change()
        except (nbd.Error, AssertionError) as failed:
            self.failed = failed


def as_it_was(served):
    """Whatever a client does while a snapshot is read, in any order and size, its bytes are those of its moment: of disks whose size is no multiple of the
    block, with blocks of each size, once and several times."""
    for block, size in (("4k", 2 * MIB + 5000), ("16k", 3 * MIB), ("1M", 2 * MIB + 512), ("64k", 100)):
        with Server(served, f"size={size}", f"snapshot_block={block}", "snapshot_max=64M") as server:
            changer = Changer(server, size, f"{block} {size}")
            for once in (False, True, False, True):
                for _ in range(20):
                    changer.change()
                was = bytes(changer.bytes)
                with snapshot(server, *["once"] * once) as (control, name, keeper):
                    run = threading.Thread(target=lambda: [changer.change() for _ in range(60)])
                    run.start()
                    reading, draws = reader(server, name), random.Random(size)
                    step = 1 << draws.choice((12, 16, 18))
                    places = [(at, min(step, size - at)) for at in range(0, size, step)]
                    draws.shuffle(places)
                    if not once:
                        places += [(at, min(draws.randrange(1, 70000), size - at)) for at in (draws.randrange(size) for _ in range(60))]
                    for at, count in places:
                        assert reading.pread(count, at) == was[at : at + count], (block, once, at, count)
                    run.join()
                    told, whole, peak = figures(control)
                    assert told == sum(count for _, count in places) and whole == size and peak <= size
                    reading.shutdown()


def of_each_backend(served):
    """The copy has what clients see, of a backend with and without holes, and of one that keeps writes elsewhere."""
    for backend in (None, ["memory", "64M"], ["--filter=cow", "file", "{folder}/disk"]):
        with Server(served, backend=backend) as server:
            client = server.client()
            client.pwrite(DATA, MIB)
            client.pwrite(DATA, 64 * MIB - len(DATA))
            if client.can_zero():
                client.zero(MIB, 8 * MIB)
            copy, told = live(server)
            assert len(copy) == 64 * MIB and copy.count(0) == 64 * MIB - 2 * (len(DATA) - len(DATA) // 256), told
            assert copy[MIB : MIB + len(DATA)] == DATA == copy[-len(DATA) :]


def holes(served):
    """Zeroes take no room in the overlay, and a copier needn't read them."""
    with Server(served, "size=8M") as server, snapshot(server) as (control, name, _):
        client = server.client()
        client.pwrite(b"x" * MIB, 0)
        assert metrics_of(control)["blkq_snapshot_blocks_total"] == 64 and room(control) == 0
        found = []
        reading = nbd.NBD()
        reading.add_meta_context("base:allocation")
        reading.set_export_name(name)
        reading.connect_unix(server.socket)
        reading.block_status(8 * MIB, 0, lambda _, offset, entries, err: found.extend(entries))
        assert sum(length for length, flags in zip(found[::2], found[1::2]) if flags & 2) >= 7 * MIB, found
        assert reading.pread(MIB, 0) == bytes(MIB)
        reading.shutdown()


def as_it_was_by_extents(served):
    """Data that a client has made a hole since is data in the snapshot, and the other way round."""
    with Server(served, "size=4M") as server:
        client = server.client()
        client.pwrite(b"a" * MIB, MIB)
        was = read(server.disk)
        with snapshot(server) as (_, name, _):
            client.zero(MIB, MIB)
            client.pwrite(b"b" * MIB, 2 * MIB)
            uri = f"nbd+unix:///{name}?socket={server.socket}"
            subprocess.run(["nbdcopy", uri, server.path("copy")], check=True)
            assert read(server.path("copy")) == was


# ---- Clients come first ----


def full(served):
    """A client's write passes though the overlay is full. The backup ends with the reason, its room is free at once, and the last one stays."""
    with Server(served, "size=8M", "snapshot_max=100k") as server, closing(server.control()) as asking:
        client = server.client()
        client.pwrite(b"a" * MIB, 0)
        write(server, "copy", "the last one")
        with snapshot(server) as (control, name, _):
            client.pwrite(b"b" * 65536, 0)
            assert room(asking) == 65536
            client.pwrite(b"b" * 65536, 65536)
            soon(lambda: room(asking) == 0, "the room stays taken")
            assert metrics_of(asking)["blkq_snapshots_lost_total"] == 1
            reading = reader(server, name)
            try:
                reading.pread(512, 0)
                raise AssertionError("a lost snapshot is read")
            except nbd.Error as lost:
                assert lost.errnum == errno.ESHUTDOWN, lost
            reading.shutdown()
            control.need("snapshot off", "lost the overlay is full (blkq-snapshot-max)")
        assert client.pread(131072, 0) == b"b" * 131072


def told(served):
    """If a snapshot is lost while it is copied, blkqctl gives the reason, and the last copy stays."""
    with Server(served, "snapshot_max=4k", backend=["--filter=delay", "memory", "64M", "delay-read=20ms"]) as server:
        client = server.client()
        client.pwrite(b"a" * 16 * MIB, 0)
        write(server, "copy", "the last one")
        with subprocess.Popen(backing_up_live(server), stderr=subprocess.PIPE) as losing, closing(server.control()) as control:
            soon(lambda: metrics_of(control)["blkq_snapshot_seconds"] > 0, "no snapshot")
            client.pwrite(b"b" * 65536, 15 * MIB)
            said = losing.communicate(timeout=WITHIN)[1].decode()
        assert losing.returncode == 125 and ": backup: the snapshot was lost: the overlay is full (blkq-snapshot-max)\n" in said, said
        assert read(server.path("copy")) == b"the last one\n" and not left(server)


def unreadable(served):
    """If the old bytes of a block can't be read, the client's write passes, and the snapshot is lost with the reason."""
    with Server(served, backend=shell()) as server, snapshot(server) as (control, *_):
        client = server.client()
        write(server, "full", "pread 0")
        client.pwrite(bytes(512), 0)
        write(server, "full")
        control.need("snapshot off", "lost reading what a client is about to change: No space left on device")


def before_the_write(served):
    """A block's old bytes are read before a client's write, trim or zero comes to the backend, once for each block, and for no read."""
    with Server(served, "snapshot_block=4k", backend=shell()) as server, snapshot(server):
        client = server.client()
        client.pread(512, 65536)
        os.unlink(server.path("done"))
        for call in (lambda: client.pwrite(bytes(512), 0), lambda: client.trim(512, 4096), lambda: client.zero(512, 8192),
                     lambda: client.pwrite(bytes(8192), 0)):
            call()
        found = [(name, offset, count) for name, _, offset, count in done_by(server, "pread", "pwrite", "trim", "zero")]
        assert found == [("pread", 0, 4096), ("pwrite", 0, 512), ("pread", 4096, 4096), ("trim", 4096, 512), ("pread", 8192, 4096),
                         ("zero", 8192, 512), ("pwrite", 0, 8192)], found


def without_a_snapshot(served):
    """Once a snapshot has ended, by a line, its connection or its keeper, clients read nothing before they write."""
    with Server(served, backend=shell()) as server:
        client = server.client()
        for end in (lambda control, _: control.ask("snapshot off"), lambda control, _: control.close(), lambda _, keeper: keeper.shutdown()):
            with suppress(OSError, ValueError), snapshot(server) as (control, _, keeper):
                end(control, keeper)
                with closing(server.control()) as asking:
                    soon(lambda: not asking.lines("holders")[:-1] or "lost" in server.said(), "the snapshot stays")
                before = len(done_by(server, "pread"))
                client.pwrite(bytes(512), 0)
                assert len(done_by(server, "pread")) == before, "a block is kept for nobody"


# ---- Its life ----


def only_frozen(served):
    """A snapshot is taken only by the controller that prepared it, under its own freeze, with a keeper, and once; one exists at a time."""
    with Server(served) as server, closing(server.control()) as control, closing(server.control()) as other:
        for line, reply in (("snapshot", "missing word"), ("snapshot take", "unknown word"), ("snapshot prepare 1", "extra word"),
                            ("snapshot off whole 1", "extra word"), ("snapshot on", "no snapshot"), ("snapshot off", "no snapshot")):
            control.need(line, reply)
        name = control.ask("snapshot prepare").split(" ")[1]
        other.need("snapshot prepare", "snapshot: busy")
        other.need("snapshot off", "no snapshot")
        control.need("snapshot on", "not frozen")
        other.need("freeze", "depth 1")
        control.need("snapshot on", "not frozen")
        other.need("thaw", "depth 0")
        control.need("freeze", "depth 1")
        control.need("snapshot on", "snapshot: no connection to its export")
        keeper = reader(server, name)
        control.need("snapshot on", "ok")
        control.need("snapshot on", "snapshot: taken")
        control.need("thaw", "depth 0")
        assert keeper.is_read_only() and keeper.pread(512, 0) == bytes(512)
        control.need("copied", "copied 512 of 67108864 alike")
        control.need("snapshot off", "snapshot kept 0 peak 0")
        keeper.shutdown()
        name = control.ask("snapshot prepare").split(" ")[1]
        reader(server, name).shutdown()
        control.need("freeze", "depth 1")
        control.need("snapshot on", "snapshot: its first connection has ended")
        control.need("snapshot off", "lost its first connection has ended")


def twice(served):
    """A snapshot that is read once forgets what was read, and a second read of it loses the snapshot."""
    with Server(served, "size=1M") as server, snapshot(server, "once") as (control, name, _):
        client = server.client()
        client.pwrite(b"b" * MIB, 0)
        reading = reader(server, name)
        assert reading.pread(65536, 0) == bytes(65536)
        client.pwrite(b"c" * MIB, 0)
        try:
            reading.pread(512, 0)
            raise AssertionError("what was forgotten is read")
        except nbd.Error:
            pass
        reading.shutdown()
        control.need("snapshot off", "lost a block was read that isn't needed any more")


def killed(served):
    """A backup that is killed leaves no snapshot, and the file that it leaves goes with the next backup. That of a running one stays."""
    slow = ["--filter=delay", "memory", "64M", "delay-read=50ms"]
    with Server(served, backend=slow) as server, closing(server.control()) as control:
        server.client().pwrite(b"a" * 16 * MIB, 0)
        for number in (signal.SIGTERM, signal.SIGINT, signal.SIGKILL):
            with subprocess.Popen(backing_up_live(server), stderr=subprocess.DEVNULL) as running:
                soon(lambda: [line.split()[1:3] for line in control.lines("holders")[:-1]] == [["snapshot", "taken"]], "no snapshot alone")
                soon(lambda: left(server), "no copy")
                running.send_signal(number)
                status = running.wait(WITHIN)
                assert status == {signal.SIGKILL: -9, signal.SIGTERM: 143, signal.SIGINT: 130}[number], (number, status)
            soon(lambda: control.lines("holders") == ["# EOF"], "the snapshot stays")
            assert depth_of(server) == 0 and bool(left(server)) == (number == signal.SIGKILL)
        copying = [sys.executable, BLKQCTL, server.control_path, "backup", *LIVE, "--to", server.path("copy")]
        of_killed = left(server)
        with subprocess.Popen(copying, stderr=subprocess.PIPE) as first:
            soon(lambda: left(server) not in ([], of_killed), "no copy")
            [mine] = left(server)
            second = subprocess.run(copying, stderr=subprocess.PIPE, timeout=WITHIN, check=False)
            assert second.returncode == 125 and b"snapshot: busy" in second.stderr, second
            blkqctl(server, "backup", "--to", server.path("copy"))
            assert left(server) in ([mine], []), "the file of a running backup is removed"
        assert first.returncode == 0 and not left(server)


def its_place(served):
    """The controller of a snapshot keeps its connection, however many others come."""
    with Server(served) as server, snapshot(server) as (control, *_), ExitStack() as many:
        for _ in range(80):
            many.enter_context(closing(server.control())).ask("stat")
        control.need("copied", "copied 0 of 67108864 alike")


def too_old(served):
    """A snapshot that is older than blkq-snapshot-age is lost."""
    with Server(served, "snapshot_age=0.2") as server, closing(server.control()) as control:
        control.ask("snapshot prepare")
        soon(lambda: "is lost: it was older than 0.2 s (blkq-snapshot-age)" in server.said(), "the snapshot stays")
        control.need("snapshot off", "lost it was older than 0.2 s (blkq-snapshot-age)")


def one_connection(served):
    """Before a backend that takes one connection at a time there are no snapshots; nothing is frozen."""
    with Server(served, backend=shell(model="serialize_connections")) as server, closing(server.control()) as control:
        _, said = live(server, status=125)
        assert ": backup: one connection at a time\n" in said, said
        assert metrics_of(control)["blkq_freezes_total"] == 0


def stuck(served):
    """If a request hangs, the backup gives up at its deadline, and clients go on."""
    with Server(served, backend=shell()) as server:
        write(server, "held", "pwrite")
        client = server.client()
        cookie = client.aio_pwrite(nbd.Buffer.from_bytearray(bytearray(512)), 0)
        begun(server, "pwrite")
        _, said = live(server, "--deadline", "0.3", status=125)
        assert ": backup: no reply within 0.3 s\n" in said, said
        server.client().pread(512, 0)
        write(server, "held")
        assert done([client], [cookie]) == [0]


def nowhere(served):
    """Without a place for the overlay nothing is frozen, and the line has the reason."""
    with Server(served, "snapshot_dir=/nowhere") as server, closing(server.control()) as control:
        _, said = live(server, status=125)
        assert ": backup: snapshot: No such file or directory\n" in said, said
        assert metrics_of(control)["blkq_freezes_total"] == 0


def without_libnbd(served):
    """Without libnbd for Python nothing is frozen, and the line names the package."""
    with Server(served) as server, closing(server.control()) as control:
        with open(server.path("nbd.py"), "w", encoding="ascii") as file:
            file.write("raise ModuleNotFoundError\n")
        _, said = live(server, status=127, env={**os.environ, "PYTHONPATH": server.folder.name})
        assert said == "blkqctl: there is no nbd for Python (apt-get install python3-libnbd)\n", said
        assert metrics_of(control)["blkq_freezes_total"] == 0


# ---- Copies that go by changes ----


def changed(server):
    """How many bytes an incremental copy read, None if it was a whole copy; the copy has to be the disk."""
    copy, said = live(server, "--incremental", "-v")
    assert copy == read(server.disk), "the copy isn't the disk"
    found = re.search(r"(\d+) bytes have changed since the last copy", said)
    assert bool(found) != ("a whole copy, since the server doesn't know" in said), said
    return int(found[1]) if found else None


def incremental(served):
    """After a first copy only the blocks are read that were changed, zeroed or trimmed since."""
    with Server(served, "size=8M") as server:
        client, draws = server.client(), random.Random(1)
        client.pwrite(draws.randbytes(8 * MIB), 0)
        assert changed(server) is None and changed(server) == 0
        client.pwrite(b"b", 16384)
        client.zero(16384, 65536)
        client.trim(16384, 131072)
        client.pwrite(b"c" * 100000, MIB)
        assert changed(server) == 3 * 16384 + 7 * 16384
        for _ in range(5):
            places = {draws.randrange(512) for _ in range(draws.randrange(1, 20))}
            for place in places:
                client.pwrite(draws.randbytes(draws.randrange(1, 16384)), place * 16384)
            assert changed(server) == len(places) * 16384


def not_whole(served):
    """If a copy fails, its changes are read by the next one, also those that came meanwhile."""
    with Server(served, "size=8M", backend=["--filter=delay", "file", "{folder}/disk", "delay-read=20ms"]) as server:
        client = server.client()
        client.pwrite(b"a" * 8 * MIB, 0)
        assert changed(server) is None
        for number in range(3):
            client.pwrite(bytes([number + 1]) * 65536, MIB * number)
            with subprocess.Popen([*backing_up_live(server), "--incremental"], stderr=subprocess.DEVNULL) as running, \
                    closing(server.control()) as control:
                soon(lambda: metrics_of(control)["blkq_snapshot_seconds"] > 0, "no snapshot")
                client.pwrite(b"m" * 16384, 7 * MIB + number * 16384)
                running.kill()
        assert changed(server) == 3 * (65536 + 16384)
        assert changed(server) == 0


def unknown(served):
    """A whole copy is made after a restart, of a copy that was changed, of another disk's, and if the file beside it is gone or garbage."""
    with Server(served, "size=1M") as server, Server(served, "size=1M") as other:
        client = server.client()
        client.pwrite(b"a" * MIB, 0)
        assert changed(server) is None and changed(server) == 0
        base = server.path("copy.base")
        for spoil in (lambda: os.unlink(base), lambda: write(server, "copy.base", "garbage"), lambda: os.utime(server.path("copy")),
                      lambda: os.truncate(server.path("copy"), 5)):
            spoil()
            assert changed(server) is None and changed(server) == 0
        for name in ("copy", "copy.base"):
            os.rename(server.path(name), other.path(name))
        assert changed(other) is None
        blkqctl(server, "backup", "--incremental", "--to", server.path("copy"), status=2)


def grouped(served):
    """A group's report has how long clients waited; a member whose snapshot is lost is named; nothing stays."""
    with ExitStack() as many:
        data, log = (many.enter_context(Server(served, f"snapshot_max={room}", "size=8M")) for room in ("8M", "4k"))
        hosts = many.enter_context(Hosts(data=data, log=log))
        for server in (data, log):
            server.client().pwrite(b"a" * MIB, 0)
        said, _ = hosts.group("--live", "--once", "--json", "--", "sh", "-c", 'for it in "$BLKQ_COPY_data" "$BLKQ_COPY_log"; do nbdcopy "$it" null: || exit; done')
        found = json.loads(said)
        assert found["status"] == 0 and 0 < found["held_seconds"] <= found["freeze_seconds"] + found["flush_seconds"] + 5, found
        change = ";".join(f"h = nbd.NBD(); h.connect_uri('{server.uri}'); h.pwrite(b'b' * 65536, 0)" for server in (data, log))
        _, said = hosts.group("--live", "--", sys.executable, "-c", f"import nbd; {change}", status=125)
        assert re.search(r"^blkqctl: log: the snapshot ended before \S+ did \(the overlay is full", said, flags=re.M) and "data:" not in said, said
        _, said = hosts.group("--live", "--", "true", status=2, remote=("log",))
        assert "--live needs disks on this host" in said, said
        for server in (data, log):
            with closing(server.control()) as control:
                soon(lambda: control.lines("holders") == ["# EOF"], "the snapshot stays")


if __name__ == "__main__":
    run_test(globals())

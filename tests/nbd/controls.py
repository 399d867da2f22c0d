"""Tests the control, and what happens to the freezes of controllers that go: controls.py SERVED NAME runs one test."""

import os
import re
import signal
import socket
import subprocess
import sys
import tempfile
import time
from contextlib import ExitStack, closing, contextmanager

import nbd

from gates import Paused
from server import WITHIN, Control, Server, run_test, soon
from tries import done

FIELDS = {"max": 12, "chunk": 14, "physical": 16}


def depth_of(server):
    with closing(server.control()) as asking:
        return int(asking.ask("stat").split()[10])


def in_force(control):
    """The limits in force."""
    found = control.ask("stat").split()
    return {name: int(found[place]) for name, place in FIELDS.items()}


class Busy:
    """A request that is in flight, in a backend that is held up, so that a drain waits."""

    def __init__(self, server):
        self.client = server.client()
        self.cookie = self.client.aio_pread(nbd.Buffer(512), 0)
        with closing(server.control()) as control:
            soon(lambda: metrics_of(control)["blkq_tags_out"] == 1, "the request isn't in flight")

    def need_done(self):
        assert done([self.client], [self.cookie]) == [0]


def slow(served, seconds):
    """A server whose requests take this long."""
    if "filter" in served:
        return Server(served, backend=["--filter=delay", "memory", "1M", f"delay-read={int(seconds * 1e3)}ms"])
    return Server(served, "size=1M", f"latency_microseconds={int(seconds * 1e6)}")


@contextmanager
def held_up(served, seconds=10):
    """A server whose requests are held up, and a call that lets them go; those of the plugin go by themselves, after so long."""
    if "filter" in served:
        with Paused(served) as server:
            server.tell(b"p")
            yield server, lambda: server.tell(b"r")
    else:
        with slow(served, seconds) as server:
            yield server, lambda: None


@contextmanager
def busy_at(path):
    """A socket at which nobody can connect, since its backlog is full."""
    with socket.socket(socket.AF_UNIX) as busy, ExitStack() as many:
        busy.bind(path)
        busy.listen(0)
        while True:
            coming = many.enter_context(socket.socket(socket.AF_UNIX))
            coming.setblocking(False)
            if coming.connect_ex(path) != 0:
                break
        yield path


# ---- Freezes and their controllers ----


def owned(served):
    """A freeze ends with its connection, however that ends. `thaw` ends only freezes of the same connection."""
    with Server(served, "size=1M") as server, closing(server.control()) as other:
        first = server.control()
        first.need("freeze", "depth 1")
        first.need("quiesce", "depth 2")
        other.need("thaw", "not yours")
        other.need("freeze", "depth 3")
        first.close()
        soon(lambda: depth_of(server) == 1, "the freezes of a controller that went stay")
        other.need("thaw", "depth 0")
        other.need("thaw", "not frozen")
        program = ("import socket, sys, time; at = socket.socket(socket.AF_UNIX); at.connect(sys.argv[1]); "
                   "at.sendall(b'freeze\\nset max_sectors 12'); print(at.recv(99)); sys.stdout.flush(); time.sleep(60)")
        with subprocess.Popen([sys.executable, "-c", program, server.control_path], stdout=subprocess.PIPE) as killed:
            assert killed.stdout.readline() == b"b'depth 1\\n'\n"
            killed.kill()
        soon(lambda: depth_of(server) == 0, "the freeze of a killed controller stays")
        assert in_force(other)["max"] == 65535, "half a line was run"


def kept(served):
    """A kept or leased freeze outlives its connection. A lease ends by itself, and `thaw all` ends all."""
    with Server(served, "size=1M") as server, closing(server.control()) as control:
        with closing(server.control()) as leaving:
            leaving.need("freeze keep", "depth 1")
            leaving.need("freeze lease 3000", "depth 2")
            leaving.need("quiesce lease 1", "depth 3")  # the last one: a line behind it may come when it has ended
        soon(lambda: depth_of(server) == 2, "a lease doesn't end")
        time.sleep(0.2)
        control.need("thaw", "not yours")
        control.need("freeze lease 1", "depth 3")
        soon(lambda: depth_of(server) == 2, "a lease of a controller that stays doesn't end")
        control.need("thaw", "not yours")
        control.need("thaw all", "depth 0")
        control.need("freeze keep", "depth 1")
        control.need("thaw", "depth 0")


def given_up(served):
    """A drain delays no other controller, and ends with its own or by `thaw all`; then a request enters at once."""
    for seconds in (10, 60, 240):
        began = time.monotonic()
        try:
            return given_up_within(served, seconds)
        except AssertionError:
            if "filter" in served or time.monotonic() < began + seconds or seconds == 240:
                raise  # else the plugin's request may have been done too early


def given_up_within(served, seconds):
    with held_up(served, seconds) as (server, let_go), closing(server.control()) as control:
        busy = Busy(server)
        waiting, ending, setting = server.control(), server.control(), server.control()
        ending.at.sendall(b"quiesce keep\nstat\n")
        setting.at.sendall(b"set max_sectors 8 chunk_sectors 8\n")
        waiting.at.sendall(b"freeze\nthaw\n")
        waiting.at.shutdown(socket.SHUT_WR)
        soon(lambda: depth_of(server) == 3, "stat waits for a drain")
        ending.close()
        soon(lambda: depth_of(server) == 2, "a drain outlives its controller")
        control.need("thaw", "not yours")
        control.need("thaw all", "depth 0")
        assert waiting.replies.read() == "thawed\nnot frozen\n"
        assert setting.replies.readline() == "thawed\n"
        control.at.sendall(b"freeze\n")  # drained once the request is done
        let_go()
        busy.need_done()
        assert control.replies.readline() == "depth 1\n"
        control.need("thaw", "depth 0")
        assert in_force(control)["chunk"] == 0
        waiting.close()
        setting.close()


def one_change(served):
    """A set of several fields is one change, whole or refused."""
    with Server(served, "size=1M", "hardware_sectors=64") as server, closing(server.control()) as control:
        control.need("set chunk_sectors 16 max_sectors 8 physical_sectors 2", "ok")
        assert in_force(control) == {"max": 8, "chunk": 16, "physical": 2}
        control.need("set max_sectors 4 physical_sectors 3", "EINVAL")
        control.need("set chunk_sectors 4 max_sectors 65", "EINVAL")
        assert in_force(control) == {"max": 8, "chunk": 16, "physical": 2}
        control.need("freeze", "depth 1")
        control.need("set max_sectors 0 chunk_sectors 0", "ok")
        control.need("thaw", "depth 0")
        assert in_force(control) == {"max": 64, "chunk": 0, "physical": 2}


# ---- Connections ----


def parts(served):
    """A line may come in parts. A line without its end is never run. A line that is too long, or garbage, harms only its own controller."""
    with Server(served, "size=1M") as server:
        with closing(server.control()) as first:
            for part in (b"fre", b"eze\nth", b"aw\r\nthaw\nset max_sectors 1"):
                first.at.sendall(part)
                time.sleep(0.02)
            first.at.shutdown(socket.SHUT_WR)
            assert first.replies.read() == "depth 1\ndepth 0\nnot frozen\n"
        with closing(server.control()) as long:
            long.at.sendall(b"#" * 255 + b"\nthaw\n")
            assert long.replies.readline() == "not frozen\n"
            long.at.sendall(b"#" * 256)
            assert long.at.recv(1) == b"", "a line that is too long"
        with closing(server.control()) as garbage:
            garbage.at.sendall(bytes(range(256)).replace(b"\n", b"") * 2 + b"\n")
            garbage.at.settimeout(WITHIN)
            try:
                assert garbage.at.recv(99) in (b"", b"unknown word\n")
            except ConnectionResetError:
                pass
        with closing(server.control()) as last:
            last.need("\x00freeze", "unknown word")
            assert in_force(last)["max"] == 65535


def idle(served):
    """Idle connections don't block places: the one that is idle longest is closed. Connections that hold a freeze stay."""
    with Server(served, "size=1M") as server, ExitStack() as many:
        holding = many.enter_context(closing(server.control()))
        holding.need("freeze", "depth 1")
        sleeping = [many.enter_context(closing(server.control())) for _ in range(63)]
        for control in [*sleeping, sleeping[0]]:  # all are let in before the first is heard again
            control.need("thaw", "not yours")
        for _ in range(3):
            many.enter_context(closing(server.control())).need("thaw", "not yours")
        sleeping[0].need("thaw", "not yours")
        assert sleeping[1].at.recv(1) == b"", "the connection that is idle longest stays"
        holding.need("thaw", "depth 0")


def hanging(served):
    """A controller that doesn't read replies delays nobody, and continues once it reads them."""
    with Server(served, "size=1M") as server, closing(server.control()) as other:
        with closing(server.control()) as deaf:
            deaf.at.setblocking(False)
            asked = 0
            try:
                while asked < 100000:
                    asked += deaf.at.send(b"metrics\n" * 30) // 8
            except BlockingIOError:
                pass
            other.need("freeze", "depth 1")
            other.need("thaw", "depth 0")
            deaf.at.setblocking(True)
            assert deaf.replies.readline().startswith("# HELP blkq_requests ")
        other.need("thaw", "not frozen")


# ---- Counted ----


def metrics_of(control):
    lines = [re.sub(r'(?<=\{)disk="[^"]*",?', "", line).replace("{}", "") for line in control.lines("metrics")]
    return {name: float(value) for name, _, value in (line.rpartition(" ") for line in lines if line[0] != "#")}


def metrics(served):
    """Each request is counted once, in the right place; buckets grow; the names stay."""
    with Server(served, "size=1M", "max_sectors=2") as server, closing(server.control()) as control:
        client = server.client()
        client.pwrite(bytes(4096), 0)
        client.pread(1024, 512)
        client.trim(512, 0)
        control.need("freeze", "depth 1")
        cookie = client.aio_pread(nbd.Buffer(512), 0)
        soon(lambda: metrics_of(control)["blkq_waiting"] == 1, "a request that waits isn't counted")
        control.need("set max_sectors 4", "ok")
        control.need("thaw", "depth 0")
        assert done([client], [cookie]) == [0]
        found = metrics_of(control)
        for name, value in (
            ('requests_total{operation="read"}', 2), ('bytes_total{operation="write"}', 4096),
            ('pieces_total{operation="write"}', 4), ('pieces_total{operation="read"}', 2), ("waiting", 0),
            ('requests_total{operation="trim"}', 1), ('waits_total{operation="read"}', 1), ("freeze_depth", 0),
            ('waits_total{operation="write"}', 0), ("freezes_total", 1), ("settings_total", 1), ("thaws_total", 1),
            ('limit_sectors{limit="max"}', 4), ('latency_seconds_bucket{operation="read",le="+Inf"}', 2),
            ('latency_seconds_count{operation="read"}', 2), ('waiting_seconds_count{operation="read"}', 1),
        ):
            assert found[f"blkq_{name}"] == value, (name, found[f"blkq_{name}"])
        buckets = [value for name, value in found.items() if name.startswith('blkq_latency_seconds_bucket{operation="read"')]
        assert buckets == sorted(buckets) and len(buckets) == 25
        assert 0 < found['blkq_waiting_seconds_sum{operation="read"}'] <= found['blkq_latency_seconds_sum{operation="read"}']


def switches(server):
    """How often the threads of a server gave up their processor to wait."""
    found = 0
    for task in os.listdir(f"/proc/{server.process.pid}/task"):
        with open(f"/proc/{server.process.pid}/task/{task}/status", encoding="ascii") as file:
            found += int(next(line for line in file if line.startswith("voluntary")).split()[1])
    return found


def waiting_is_cheap(served):
    """Three hundred waiting requests make at most a thousand checks a second together, and not twenty a second each."""
    with Server(served, "size=1M") as server, closing(server.control()) as control:
        clients = [server.client() for _ in range(20)]
        control.need("freeze", "depth 1")
        cookies = [(client, client.aio_pread(nbd.Buffer(512), 0)) for client in clients for _ in range(15)]
        soon(lambda: metrics_of(control)["blkq_waiting"] == 300, "not all wait")
        found = []
        while not found or (found[-1] >= 1000 and len(found) < 5):  # threads that look at one time also wait for one another
            time.sleep(0.2)
            before, began = switches(server), time.monotonic()
            time.sleep(2)
            found.append((switches(server) - before) / (time.monotonic() - began))
        control.need("thaw", "depth 0")
        assert done(*zip(*cookies)) == [0] * 300
        assert found[-1] < 1000, found


# ---- Begun ----


def started(served):
    """A server that can't bind its control's socket doesn't start, even in the background. A dead server's socket is replaced."""
    server = Server(served, "size=1M")
    with tempfile.TemporaryDirectory() as folder:
        words = server.words(["size=1M"], None, ())
        again = subprocess.run(["nbdkit", "-U", f"{folder}/nbd", *words], stderr=subprocess.PIPE, check=False)
        assert again.returncode != 0 and b"Address already in use" in again.stderr, again
        server.process.send_signal(signal.SIGKILL)
        server.process.wait()
        assert os.path.exists(server.control_path)
        subprocess.run(["nbdkit", "-U", f"{folder}/nbd", "-P", f"{folder}/pid", *words], check=True)
        with closing(Control(server.control_path)) as control:
            control.need("thaw", "not frozen")
        with open(f"{folder}/pid", encoding="ascii") as file:
            os.kill(int(file.read()), signal.SIGTERM)
        soon(lambda: not os.path.exists(server.control_path), "the control's socket stays")
        with open(server.control_path, "w", encoding="ascii") as file:
            file.write("a file")
        again = subprocess.run(["nbdkit", "-U", f"{folder}/nbd2", *words], stderr=subprocess.PIPE, check=False)
        assert again.returncode != 0 and os.path.isfile(server.control_path), "a file was removed"
    server.errors.close()


if __name__ == "__main__":
    run_test(globals())

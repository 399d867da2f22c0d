"""Tests the control's socket and its places: served.py SERVED NAME runs one test."""

import fcntl
import grp
import os
import select
import signal
import socket
import stat
import subprocess
import sys
import tempfile
import time
from contextlib import ExitStack, closing, suppress

import nbd

from controls import busy_at, depth_of, metrics_of, soon
from copies import BLKQCTL
from gates import Paused, is_answered
from server import WITHIN, Control, Server, run_test
from tries import done


def private(served):
    """Only the control's user may connect, whatever nbdkit's umask is. The backend keeps nbdkit's umask."""
    before = os.umask(0)
    try:
        server = Server(served, "size=1M")
    finally:
        os.umask(before)
    with server:
        found = os.lstat(server.control_path)
        assert stat.S_ISSOCK(found.st_mode) and stat.S_IMODE(found.st_mode) == 0o700, oct(found.st_mode)
        with open(f"/proc/{server.process.pid}/status", encoding="ascii") as file:
            assert "Umask:\t0022\n" in file.readlines()  # nbdkit's own


def grouped(served):
    """A group and a mode let others connect. With a group or mode that doesn't exist the server doesn't start."""
    name = "daemon" if os.getuid() == 0 else grp.getgrgid(os.getgid()).gr_name
    with Server(served, "size=1M", f"control_group={name}", "control_mode=660") as server:
        found = os.lstat(server.control_path)
        assert stat.S_IMODE(found.st_mode) == 0o660 and found.st_gid == grp.getgrnam(name).gr_gid, found
        assert stat.S_IMODE(os.lstat(server.control_path).st_mode) == 0o660
        with closing(server.control()) as control:
            control.need("thaw", "not frozen")
    for wrong in ("control_group=no such group", "control_mode=9", "control_mode=1000", "control_mode=", "control_fd=0"):
        refused = Server(served, "size=1M", wrong, wait=False)
        assert refused.process.wait(WITHIN) != 0, wrong
        refused.errors.close()
        refused.folder.cleanup()


def listening(path):
    at = socket.socket(socket.AF_UNIX)
    at.bind(path)
    at.listen(8)
    return at


def activated(served):
    """The command of the systemd unit takes over the sockets of the disk and the control. Connections from before its start are served. Both sockets stay."""
    unit = os.path.join(os.path.dirname(__file__), "..", "..", "services", "nbd", "systemd", "blkq-nbd@.service")
    [start] = [line for line in read(unit).replace("\\\n", "").splitlines() if line.startswith("ExecStart=")]
    with ExitStack() as open_ones:
        folder = open_ones.enter_context(tempfile.TemporaryDirectory())
        disk, control = (open_ones.enter_context(listening(f"{folder}/{name}")) for name in ("nbd", "control"))
        open_ones.enter_context(socket.socket(socket.AF_UNIX, socket.SOCK_DGRAM)).bind(f"{folder}/journal")
        subprocess.run(["truncate", "-s", "1M", f"{folder}/disk"], check=True)
        command = start.split("=", 1)[1].replace("--filter=blkq", f"--filter={served}").replace("/var/lib/blkq-%i/disk.img", f"{folder}/disk")
        command = command.replace("blkq-audit=journal", f"blkq-audit={folder}/journal")
        given = [fcntl.fcntl(at, fcntl.F_DUPFD, 20) for at in (disk, control)]
        early = Control(f"{folder}/control")
        begin = f'exec env LISTEN_PID=$$ LISTEN_FDS=2 "$@" 3<&{given[0]} 4<&{given[1]}'
        with subprocess.Popen(["bash", "-c", begin, "bash", *command.split()], pass_fds=given) as running:
            try:
                with closing(early):
                    early.at.settimeout(WITHIN)
                    try:
                        early.need("quiesce", "depth 1")
                    except TimeoutError:
                        raise AssertionError("nobody answers who came before the server") from None
                    early.need("thaw", "depth 0")
                    assert metrics_of(early)['blkq_state{state="running"}'] == 1
                client = nbd.NBD()
                client.connect_unix(f"{folder}/nbd")
                client.pwrite(b"x" * 512, 0)
                client.shutdown()
            finally:
                running.terminate()
            assert running.wait(WITHIN) == 0
        for at in given:
            os.close(at)
        assert os.path.exists(f"{folder}/control"), "the socket of systemd's is removed"


def of_another(served):
    """A server removes no socket of another server: neither at its end, if another took its path, nor at its start, if a server answers there."""
    with tempfile.TemporaryDirectory() as folder:
        path = f"{folder}/control"
        with Server(served, "size=1M", f"control={path}") as first:
            os.unlink(path)
            with Server(served, "size=1M", f"control={path}") as second:
                first.process.send_signal(signal.SIGTERM)
                assert first.process.wait(WITHIN) == 0
                assert os.path.exists(path), "the socket of another server is removed"
                with closing(Control(path)) as control:
                    control.need("thaw", "not frozen")
                assert second.process.poll() is None
        with busy_at(path):
            refused = Server(served, "size=1M", f"control={path}", wait=False)
            try:
                status = refused.process.wait(WITHIN)
            except subprocess.TimeoutExpired:
                refused.process.kill()
                status = refused.process.wait()
            assert status > 0 and "Address already in use" in refused.said(), refused.said()
            refused.errors.close()
            assert os.path.exists(path), "the socket of a busy server is removed"


def evicted(served):
    """If all places are taken, a draining controller keeps its own, however long it waits."""
    with Paused(served) as server, ExitStack() as many:
        client = server.client()
        server.tell(b"p")
        cookie = client.aio_pread(nbd.Buffer(512), 0)
        with closing(server.control()) as control:
            soon(lambda: metrics_of(control)["blkq_tags_out"] == 1, "the request isn't in flight")
        draining = many.enter_context(closing(server.control()))
        draining.at.sendall(b"quiesce\n")
        soon(lambda: depth_of(server) == 1, "no freeze")
        for _ in range(70):
            many.enter_context(closing(server.control())).need("thaw", "not yours")
        assert not is_answered(draining, 0.1), "a controller that drains has to go"
        assert depth_of(server) == 1, "the freeze of a controller that drains ends"
        server.tell(b"r")
        assert draining.replies.readline() == "depth 1\n"
        assert done([client], [cookie]) == [0]


def why(served):
    """`why` tells the field and the reason of a refused setting only to its own controller."""
    with Server(served, "size=1M", "hardware_sectors=64") as server, closing(server.control()) as control, \
            closing(server.control()) as other:
        control.need("why", "nothing was refused")
        for line, reason in (
            ("set max_sectors 65", "max_sectors: more sectors than the hardware takes"),
            ("set max_sectors 4 chunk_sectors 65536", "chunk_sectors: a chunk of more than 65535 sectors"),
            ("set physical_sectors 3 max_sectors 4",
             "physical_sectors: a physical block that isn't a power of two from 1 to 32768 sectors"),
            ("set chunk_sectors 1 physical_sectors 0",
             "physical_sectors: a physical block that isn't a power of two from 1 to 32768 sectors"),
        ):
            control.need(line, "EINVAL")
            control.need("set max_sectors 2", "ok")
            control.need("why", reason)
            other.need("why", "nothing was refused")
        control.need("why now", "extra word")


def read(path):
    """The text of a file that may not be there yet."""
    with suppress(FileNotFoundError), open(path, encoding="ascii") as file:
        return file.read()


def in_flight(control, client):
    """Begins a read and returns while it is in flight. On a starved machine a read may be done before that is seen; then another follows."""
    while True:
        before = metrics_of(control)['blkq_requests_total{operation="read"}']
        cookie = client.aio_pread(nbd.Buffer(512), 0)
        client.poll(0)  # sends it
        found = metrics_of(control)
        while found["blkq_tags_out"] == 0 and found['blkq_requests_total{operation="read"}'] == before:
            found = metrics_of(control)
        if found["blkq_tags_out"] == 1:
            return cookie
        assert done([client], [cookie]) == [0]


def in_background(served):
    """A server that went into the background answers a drain as soon as the last request is done, and then ends."""
    with tempfile.TemporaryDirectory() as folder:
        slow = ["--filter=delay", "memory", "1M", "delay-read=3000ms", f"blkq-control={folder}/control"]
        if "filter" in os.path.basename(served):
            words = [f"--filter={served}", *slow]
        else:
            words = [served, "size=1M", "latency_microseconds=3000000", f"control={folder}/control"]
        subprocess.run(["nbdkit", "-U", f"{folder}/nbd", "-P", f"{folder}/pid", *words], timeout=WITHIN, check=True)
        soon(lambda: read(f"{folder}/pid"), "the server doesn't start")
        process = int(read(f"{folder}/pid"))
        try:
            client = nbd.NBD()
            client.connect_unix(f"{folder}/nbd")
            with closing(Control(f"{folder}/control")) as control:
                cookie = in_flight(control, client)
                control.at.sendall(b"quiesce\n")
                assert select.select([control.at], [], [], WITHIN)[0], "the drain isn't answered"
                assert control.replies.readline() == "depth 1\n"
                control.need("thaw", "depth 0")
            assert done([client], [cookie]) == [0]
            client.shutdown()
        finally:
            os.kill(process, signal.SIGTERM)
        soon(lambda: not os.path.exists(f"{folder}/control"), "the server doesn't end")


def crowded(served):
    """A connection to a server whose backlog is full waits, within --timeout."""
    with Server(served) as server, ExitStack() as many:
        os.kill(server.process.pid, signal.SIGSTOP)
        os.waitid(os.P_PID, server.process.pid, os.WSTOPPED)
        try:
            while True:
                waiting = many.enter_context(closing(socket.socket(socket.AF_UNIX)))
                waiting.setblocking(False)
                waiting.connect(server.control_path)
        except BlockingIOError:
            pass
        command = [sys.executable, BLKQCTL, "--timeout", "0.3", server.control_path, "stat"]
        began = time.monotonic()
        told = subprocess.run(command, stderr=subprocess.PIPE, check=False)
        took = time.monotonic() - began
        assert told.returncode == 3 and b": no connection within 0.3 s\n" in told.stderr, told
        command[3] = "4m"
        with subprocess.Popen(command, stdout=subprocess.PIPE) as asking:
            time.sleep(3 * took)  # on a slow machine, too, it has tried by then
            many.close()
            os.kill(server.process.pid, signal.SIGCONT)
            assert asking.communicate(timeout=WITHIN)[0].startswith(b"stat ")


if __name__ == "__main__":
    run_test(globals())

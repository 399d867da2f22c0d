"""Tests the filter before backends and together with nbdkit's own filters: filters.py FILTER NAME runs one test."""

import errno
import os
import re
import signal
import socket
import struct
import subprocess
import tempfile
from contextlib import closing

import nbd

from controls import metrics_of, soon
from server import Server, run_test
from tries import MIB, done, fio, run, while_settings_change

# A line of nbdkit's log filter: a request below the queue.
LOGGED = re.compile(r"(\w+) id=\d+ offset=(\w+) count=(\w+)(.*) \.\.\.")


def logged(server, name):
    """The requests of a name below the queue: offset, length and flags."""
    with open(server.path("log"), encoding="ascii") as file:
        found = [LOGGED.search(line) for line in file]
    return [(int(it[2], 16), int(it[3], 16), it[4].strip()) for it in found if it and it[1] == name]


def with_log(served, *parameters, backend):
    """A server with the log filter below the queue."""
    return Server(served, *parameters, backend=["--filter=log", *backend, "logfile={folder}/log"])


# ---- What is passed on ----


def passed_on(served):
    """Clients see the backend's abilities; each kind of request reaches it in pieces by the limits."""
    with with_log(served, "max_sectors=4", "chunk_sectors=6", backend=("memory", "8T")) as server:
        client = nbd.NBD()
        client.add_meta_context("base:allocation")
        client.connect_unix(server.socket)
        assert client.can_trim() and client.can_zero() and client.can_cache() and client.can_fua() and client.can_df()
        client.pwrite(b"x" * 5000, 700)
        wanted = [(700, 1860), (2560, 512), (3072, 2048), (5120, 580)]  # sectors 1 to 4, 5, 6 to 9, 10 and 11
        assert [it[:2] for it in logged(server, "Write")] == wanted, logged(server, "Write")
        assert client.pread(5000, 700) == b"x" * 5000
        assert [it[:2] for it in logged(server, "Read")] == wanted
        far = (5 << 40) + 5 * 512
        client.zero(4096, far)
        client.trim(4096, far)
        client.cache(4096, far)
        start = far // 512
        ends = [e for e in range(start + 1, start + 8) if e % 6 == 0]
        for name in ("Zero", "Trim", "Cache"):
            found = [it[:2] for it in logged(server, name)]
            assert sum(length for _, length in found) == 4096 and found[0][0] == far, (name, found)
            assert all(length <= 2048 for _, length in found), (name, found)
            assert all(any(place == end * 512 for place, _ in found) for end in ends), (name, found)
        client.flush()
        found = []
        client.block_status(MIB, 0, lambda *it: found.append(it) or 0)
        assert found
        with open(server.path("log"), encoding="ascii") as file:
            text = file.read()
        assert "Flush" in text and "Extents" in text
        client.shutdown()


def refused_on(served):
    """Clients see no ability that the backend lacks, and a read-only backend stays read-only."""
    with Server(served, backend=["--filter=nozero", "--filter=fua", "--filter=nocache", "memory", "1M", "zeromode=none",
                                 "cachemode=none"]) as server:
        client = server.client()
        assert not client.can_zero() and not client.can_fua() and not client.can_cache() and not client.is_read_only()
    with Server(served, backend=["pattern", "1M"]) as server, closing(server.control()) as control:
        assert server.client().is_read_only()
        control.need("quiesce", "depth 1")
        control.need("thaw", "depth 0")


def through(served):
    """FUA: each piece writes through if the backend does so itself. If nbdkit flushes for it, only the last piece does."""
    for mode, wanted in (("native", [True] * 4), ("emulate", [False, False, False, True])):
        backend = ["--filter=fua", "memory", "1M", f"fuamode={mode}"]
        with with_log(served, "max_sectors=2", backend=backend) as server:
            client = server.client()
            client.pwrite(bytes(4096), 0, nbd.CMD_FLAG_FUA)
            client.trim(4096, 0, nbd.CMD_FLAG_FUA)
            for name in ("Write", "Trim"):
                assert ["fua=1" in it[2] for it in logged(server, name)] == wanted, (mode, logged(server, name))


def fast_zero(served):
    """A fast zero that would be cut is refused at once. Other fast zeros are passed on."""
    with with_log(served, "max_sectors=4", backend=("memory", "1M")) as server:
        client = server.client()
        client.zero(2048, 0, nbd.CMD_FLAG_FAST_ZERO)
        assert done([client], [client.aio_zero(4096, 0, flags=nbd.CMD_FLAG_FAST_ZERO)]) == [errno.ENOTSUP]
        assert [it[:2] for it in logged(server, "Zero")] == [(0, 2048)]


def minimum(served):
    """No piece is below the backend's smallest block, or ends inside one, however small the limits are."""
    below = ["--filter=blocksize-policy", "memory", "1M", "blocksize-error-policy=error", "blocksize-minimum=4096",
             "blocksize-preferred=8192", "blocksize-maximum=1M"]
    for limits, wanted in ((["max_sectors=1", "physical_sectors=32"], 16384), (["chunk_sectors=3"], 8192),
                           (["max_sectors=12"], 8192), (["max_sectors=9", "physical_sectors=2"], 8192)):
        with with_log(served, *limits, backend=below) as server:
            shown = run("nbdinfo", server.uri).decode()
            assert "block_size_minimum: 4096" in shown and f"block_size_preferred: {wanted}" in shown, shown
            client = server.client()
            data = os.urandom(65536)
            client.pwrite(data, 4096)
            assert client.pread(65536, 4096) == data
            for offset, length, _ in logged(server, "Write"):
                assert offset % 4096 == 0 and length % 4096 == 0 and length <= 8192, (limits, offset, length)


# ---- Backends ----


def backends(served):
    """fio verifies its writes, and nbdcopy copies, over a few of nbdkit's backends, while settings change."""
    # Not sparse-random: what that gives of a block depends on where the read begins (nbdkit 1.32).
    plain = ["pattern", "16M"]
    with tempfile.TemporaryDirectory() as folder:
        halves = [f"{folder}/one", f"{folder}/two"]
        run("truncate", "-s", "8M", *halves)
        for backend in (["memory", "16M"], ["data", "size=16M", "data=@0 1"], ["split", *halves], plain):
            with Server(served, backend=backend) as server:
                if backend is plain:  # it takes no writes
                    for half in halves:
                        while_settings_change(server, ["nbdcopy", server.uri, half], 50)
                    run("cmp", *halves)
                else:
                    while_settings_change(server, fio(server, 4, verify="crc32c", size="512k"), 50)


def is_listened_at(path):
    """Whether a server takes connections there. Its socket has the path a little earlier."""
    with socket.socket(socket.AF_UNIX) as coming:
        return coming.connect_ex(path) == 0


def qcow2(served):
    """A qcow2 image behind qemu-nbd and nbdkit's nbd plugin."""
    server = None
    folder = os.environ.get("TMPDIR", "/tmp")
    image, below = f"{folder}/{os.getpid()}.qcow2", f"{folder}/{os.getpid()}.nbd"
    run("qemu-img", "create", "-q", "-f", "qcow2", image, "16M")
    with subprocess.Popen(["qemu-nbd", "-t", "-e", "8", "-f", "qcow2", "-k", below, image]) as qemu:
        try:
            soon(lambda: is_listened_at(below), "qemu-nbd doesn't start")
            with Server(served, "max_sectors=8", backend=["nbd", f"socket={below}"]) as server, \
                    closing(server.control()) as control:
                while_settings_change(server, fio(server, 4, verify="crc32c", size="512k"), 50)
                client = server.client()
                client.pwrite(b"q" * 512, 0)
                control.need("quiesce", "depth 1")
                control.need("thaw", "depth 0")
        finally:
            qemu.terminate()
            qemu.wait()
            for path in (image, below):
                if os.path.exists(path):
                    os.unlink(path)


def serial(served):
    """A backend that does one request at a time: requests, a freeze under load and a quiesce."""
    for model in ("serialize-requests", "serialize-all-requests", "serialize-connections"):
        backend = ["--filter=noparallel", "memory", "16M", f"serialize={model.removeprefix('serialize-')}"]
        with Server(served, backend=backend) as server, closing(server.control()) as control:
            while_settings_change(server, fio(server, 1 if "connections" in model else 4, verify="crc32c", size="256k"), 50)
            control.need("quiesce", "depth 1")
            control.need("thaw", "depth 0")


# ---- Beside other filters ----


def beside(served):
    """nbdkit's own filters, below the queue and above it."""
    filters = (("pause", ["pause-control={folder}/pause"]), ("blocksize", ["minblock=4k", "maxdata=64k"]),
               ("blocksize-policy", ["blocksize-minimum=512", "blocksize-preferred=4k"]), ("error", ["error-pread-rate=0"]),
               ("delay", ["rdelay=1ms"]), ("cow", []), ("cache", []))
    for name, words in filters:
        for is_below in (True, False):
            below, outer = ([f"--filter={name}"], []) if is_below else ([], [name])
            backend = [*below, "file", "{folder}/disk", *words]
            with Server(served, "max_sectors=64", backend=backend, outer=outer) as server, \
                    closing(server.control()) as control:
                client = server.client()
                for setting in ("max_sectors 64", "max_sectors 3 chunk_sectors 5"):
                    data = os.urandom(1 << 18)
                    control.need(f"set {setting}", "ok")
                    client.pwrite(data, 4096)
                    assert client.pread(len(data), 4096) == data, (name, is_below, setting)
                    control.need("quiesce", "depth 1")
                    control.need("thaw", "depth 0")
                assert metrics_of(control)['blkq_pieces_total{operation="write"}'] > 64 or not is_below, name


# ---- Backends that fail, clients that go ----


def failing(served):
    """The errors of a backend reach the client as they are, are counted, and leave the queue fit."""
    backend = ["--filter=error", "memory", "1M", "error-pread=ENOMEM", "error-pread-rate=100%", "error-pwrite=ENOSPC",
               "error-pwrite-rate=100%", "error-pwrite-file={folder}/full"]
    with Server(served, backend=backend) as server, closing(server.control()) as control:
        client = server.client()
        assert done([client], [client.aio_pread(nbd.Buffer(512), 0)]) == [errno.ENOMEM]
        client.pwrite(bytes(512), 0)
        with open(server.path("full"), "w", encoding="ascii"):
            pass
        assert done([client], [client.aio_pwrite(nbd.Buffer(1 << 16), 0)]) == [errno.ENOSPC]
        found = metrics_of(control)
        assert found['blkq_errors_total{operation="read"}'] == found['blkq_errors_total{operation="write"}'] == 1
        assert control.ask("stat").startswith("stat reads 0 writes 1 again 0 eio 2 ")
        control.need("freeze", "depth 1")
        control.need("thaw", "depth 0")


def killed_writers(served):
    """Fifty killed writers leave nothing behind: tags, freezes and connections are as before."""
    with Server(served, "tags=8") as server, closing(server.control()) as control:
        for number in range(50):
            with subprocess.Popen(["nbdcopy", "/dev/zero", server.uri], stderr=subprocess.DEVNULL) as writer:
                soon(lambda: metrics_of(control)['blkq_requests_total{operation="write"}'] > number, "nobody writes")
                if number % 2:
                    control.need("freeze", "depth 1")
                writer.kill()
                writer.wait()
                if number % 2:
                    control.need("thaw", "depth 0")
        soon(lambda: metrics_of(control)["blkq_waiting"] == 0, "requests of the killed wait")
        control.need("quiesce", "depth 1")
        control.need("thaw", "depth 0")
        run(*fio(server, 8, verify="crc32c"))


def lost_while_made(served):
    """Clients that go in the middle of the handshake leave nothing for a quiesce to stumble over."""
    with Server(served) as server, closing(server.control()) as control:
        for _ in range(40):
            with socket.socket(socket.AF_UNIX) as leaving:
                leaving.connect(server.socket)
                leaving.recv(18, socket.MSG_WAITALL)
                export = struct.pack(">I", 0) + struct.pack(">H", 0)
                leaving.sendall(struct.pack(">IQII", 3, 0x49484156454F5054, 7, len(export)) + export)  # NBD_OPT_GO
            control.need("quiesce", "depth 1")
            control.need("thaw", "depth 0")
        run(*fio(server, 2, verify="crc32c"))


def never_done(served):
    """Writes that wait when the server ends, for the thaw and for a tag, are refused, and don't reach the backend."""
    with tempfile.TemporaryDirectory() as folder:
        run("truncate", "-s", "1M", f"{folder}/kept")
        server = Server(served, "tags=1", backend=["file", f"{folder}/kept"])
        control, clients = server.control(), [server.client() for _ in range(3)]
        control.need("quiesce", "depth 1")
        cookies = [client.aio_pwrite(nbd.Buffer.from_bytearray(bytearray(b"x" * 512)), 0) for client in clients]
        soon(lambda: metrics_of(control)["blkq_waiting"] == 3, "the writes don't wait")
        server.process.send_signal(signal.SIGTERM)
        assert done(clients, cookies) == [errno.ESHUTDOWN] * 3
        control.close()
        server.end()
        with open(f"{folder}/kept", "rb") as file:
            assert file.read() == bytes(MIB), "a write passed the frozen queue"


if __name__ == "__main__":
    run_test(globals())

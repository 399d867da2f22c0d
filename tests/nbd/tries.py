"""Tests the plugin with clients that were written elsewhere: tries.py PLUGIN NAME runs one test; its status says whether it passed."""

import errno
import random
import signal
import subprocess
import tempfile
import threading
import time

import nbd

from pieces import pieces, watched
from server import WITHIN, Server, run_test, soon

MIB = 1 << 20
SETTINGS = ["max_sectors 1", "chunk_sectors 3", "max_sectors 7", "physical_sectors 8", "max_sectors 128",
            "chunk_sectors 0", "physical_sectors 1", "chunk_sectors 64", "max_sectors 0", "mode atomic", "mode slots"]


def run(*words, **more):
    return subprocess.run(words, check=True, stdout=subprocess.PIPE, timeout=1200, **more).stdout


def done(clients, cookies, within=WITHIN):
    """Waits until each client's request is done, and returns the errno of each; 0 is success."""
    found, late = [], time.monotonic() + within
    for client, cookie in zip(clients, cookies):
        try:
            while not client.aio_command_completed(cookie):
                assert time.monotonic() < late, "a request isn't answered"
                client.poll(100)
            found.append(0)
        except nbd.Error as refused:
            found.append(refused.errnum)
    return found


def fio(server, jobs, seconds=None, **options):
    """Runs fio on this many connections, each on its own mebibyte. A timed run goes over it again and again, so it has one
    request in flight at a time: overlapping requests would race for the disk's bytes, which the thread sanitizer reports."""
    depth = "1" if seconds else "4"
    given = {"rw": "randrw", "bs": "4k", "size": "1m", "offset_increment": "1m", "iodepth": depth, **options}
    timed = ["--time_based", f"--runtime={seconds}"] if seconds else []
    return ["fio", "--name=try", "--ioengine=nbd", f"--uri={server.uri}", "--thread", "--group_reporting",
            "--randrepeat=0", "--verify_state_save=0", f"--numjobs={jobs}", *timed,
            *(f"--{name}={value}" for name, value in given.items())]


class Changing(threading.Thread):
    """Changes settings at least a thousand times, until it is told to end."""

    def __init__(self, server, least):
        super().__init__()
        self.control, self.least, self.changed, self.enough = server.control(), least, 0, False
        self.wrong = []

    def run(self):
        while not self.enough or self.changed < self.least:
            setting = SETTINGS[self.changed % len(SETTINGS)]
            line = setting if setting.startswith("mode") else f"set {setting}"
            reply = self.control.ask(line)
            if reply != "ok":
                self.wrong.append((line, reply))
                return
            self.changed += 1
        self.control.close()


def while_settings_change(server, command, least=1000):
    """Runs a command while settings change."""
    changing = Changing(server, least)
    changing.start()
    try:
        run(*command)
    finally:
        changing.enough = True
        changing.join()
    assert not changing.wrong, changing.wrong
    assert changing.changed >= least, changing.changed


# ---- What is served ----


def told(plugin):
    """nbdinfo shows the limits that NBD has."""
    with Server(plugin, "size=8M", "physical_sectors=8", "max_sectors=16") as server:
        shown = run("nbdinfo", server.uri).decode()
        for line in ("export-size: 8388608 (8M)", "block_size_minimum: 512", "block_size_preferred: 4096",
                     "block_size_maximum: 33553920", "can_multi_conn: true"):
            assert line in shown, (line, shown)
        client = server.client()
        client.set_strict_mode(0)
        for count, place in ((512, 100), (100, 512)):
            assert done([client], [client.aio_pread(nbd.Buffer(count), place)]) == [errno.EINVAL]


def refused_parameters(plugin):
    """With a refused parameter the server doesn't start, and says why."""
    before = "blkq-" if "filter" in plugin else ""
    wrong = {"slots=513": "slots or tags", "tags=1024": "slots or tags", "max_sectors=65536": "more sectors",
             "physical_sectors=3": "power of two", "hardware_sectors=0": "hardware limit", "chunk_sectors=65536": "chunk",
             "nowait=perhaps": "perhaps", "sectors=4": "no such parameter",
             "name=": "name: a name has 1 to 63 characters", "name=" + 64 * "x": "1 to 63 characters", 'name="db"': "no double quotes",
             "control=/nowhere/at/all": f"error: {before}control=/nowhere/at/all: bind: No such file"}
    for number in ("0", "-1"):
        wrong[f"control_fd={number}"] = f"error: {before}control{'-' if before else '_'}fd: has to be a Unix socket that listens"
    if "filter" not in plugin:
        wrong["size=1000"] = "size"
    for parameter, why in wrong.items():
        server = Server(plugin, parameter, wait=False)
        try:
            status = server.process.wait(WITHIN)
        except subprocess.TimeoutExpired:
            server.process.kill()
            raise
        assert status != 0, parameter
        assert why in server.said(), (parameter, server.said())
        server.errors.close()


def copies(plugin):
    """nbdcopy reads back what it wrote, while settings change."""
    with Server(plugin, "size=32M") as server, tempfile.TemporaryDirectory() as folder:
        given, taken = f"{folder}/given", f"{folder}/taken"
        with open(given, "wb") as file:
            file.write(random.Random(1).randbytes(32 * MIB))
        while_settings_change(server, ["nbdcopy", given, server.uri], 100)
        while_settings_change(server, ["nbdcopy", server.uri, taken], 100)
        run("cmp", given, taken)


def patterns(plugin):
    """qemu-io verifies its patterns at unaligned places, and zeros and trims."""
    with Server(plugin, "size=4M", "max_sectors=3", "chunk_sectors=5", "physical_sectors=2") as server:
        steps = ["write -P 0xa1 0 1M", "write -P 0xb2 1000 3000", "read -P 0xb2 1000 3000", "read -P 0xa1 0 1000",
                 "read -P 0xa1 4000 1000000", "write -z 64k 64k", "read -P 0 64k 64k", "discard 512k 4k",
                 "read -P 0 512k 4k", "read -P 0xa1 516k 8k", "write -P 0xc3 4194000 304", "read -P 0xc3 4194000 304",
                 "flush"]
        shown = run("qemu-io", "-f", "raw", *(word for step in steps for word in ("-c", step)), server.uri).decode()
        assert "verification failed" not in shown and "error" not in shown, shown


# ---- Many clients ----


def verified(plugin):
    """fio finds what it wrote, with 1 to 16 connections, while a thousand settings change."""
    with Server(plugin, "size=16M") as server:
        for jobs in (1, 4, 16):
            while_settings_change(server, fio(server, jobs, verify="crc32c"))


def hundred(plugin):
    """A hundred connections at once, each with a request under way before the first is answered."""
    with Server(plugin, "size=1M") as server:
        control, clients = server.control(), [server.client() for _ in range(100)]
        control.need("freeze", "depth 1")
        blocks = [bytearray([number] * 4096) for number in range(100)]
        cookies = [client.aio_pwrite(nbd.Buffer.from_bytearray(block), number * 8192)
                   for number, (client, block) in enumerate(zip(clients, blocks))]
        control.need("thaw", "depth 0")
        assert done(clients, cookies) == [0] * 100
        for number in range(100):
            assert clients[99 - number].pread(4096, number * 8192) == blocks[number], number
        control.close()


def frozen_second(plugin):
    """Sixteen clients wait through a freeze of a second, and all are answered after the thaw."""
    with Server(plugin, "size=1M", "tags=8") as server:
        control, clients = server.control(), [server.client() for _ in range(16)]
        control.need("freeze", "depth 1")
        cookies = [client.aio_pread(nbd.Buffer(4096), 0) for client in clients]
        began = time.monotonic()
        while time.monotonic() < began + 1:
            for client, cookie in zip(clients, cookies):
                client.poll(1)
                assert not client.aio_command_completed(cookie), "a request passed a frozen queue"
        control.need("set max_sectors 1", "ok")
        control.need("thaw", "depth 0")
        assert done(clients, cookies) == [0] * 16
        assert control.ask("stat").startswith("stat reads 16 writes 0 again 0 eio 0 depth 0 max 1 ")
        control.close()


def held_still(plugin):
    """When a freeze is answered the queue is drained: under load, counts don't change then, and limits can be set."""
    with Server(plugin, "size=16M", "max_sectors=1") as server:
        load = subprocess.Popen(fio(server, 8, 20, bs="512k"), stdout=subprocess.DEVNULL, stderr=subprocess.DEVNULL)
        control = server.control()
        soon(lambda: control.ask("stat").split()[2] not in ("0", "1"), "the load doesn't begin")
        try:
            for _ in range(20):
                control.need("freeze", "depth 1")
                counted = control.ask("stat")
                control.need("set max_sectors 1", "ok")
                time.sleep(0.02)
                control.need("stat", counted)
                control.need("thaw", "depth 0")
        finally:
            load.send_signal(signal.SIGINT)  # fio ends what it began
            load.wait()
        control.close()


def refused_at_once(plugin):
    """With nowait a request to a frozen queue is refused at once, and counted."""
    with Server(plugin, "size=1M", "nowait=true", "tags=1") as server:
        control, client = server.control(), server.client()
        control.need("freeze", "depth 1")
        for _ in range(3):
            assert done([client], [client.aio_pread(nbd.Buffer(512), 0)]) == [errno.EINVAL]  # NBD has no EAGAIN
        assert "Resource temporarily unavailable" in server.said()
        assert control.ask("stat").startswith("stat reads 0 writes 0 again 3 eio 0 depth 1 ")
        control.need("thaw", "depth 0")
        client.pread(512, 0)
        control.close()


def until_waiting(control, count):
    """Waits until this many requests wait."""
    soon(lambda: waiting_now(control) == count, f"not {count} requests wait")


def waiting_now(control):
    """The number of waiting requests."""
    return next(int(line.rpartition(" ")[2]) for line in control.lines("metrics") if line.startswith("blkq_waiting{"))


def gone(plugin):
    """A client that disconnects or is killed while its request waits leaves the only tag to others."""
    with Server(plugin, "size=64M", "tags=1") as server:
        control, leaving = server.control(), server.client()
        control.need("freeze", "depth 1")
        leaving.aio_pread(nbd.Buffer(512), 0)
        until_waiting(control, 1)
        server.drop(leaving)
        until_waiting(control, 0)  # its request looks each second whether its client is still there
        control.need("thaw", "depth 0")
        assert control.ask("stat").startswith("stat reads 0 "), "a request was done that nobody waits for"
        copying = subprocess.Popen(["nbdcopy", "/dev/zero", server.uri], stderr=subprocess.DEVNULL)
        time.sleep(0.1)
        copying.kill()
        copying.wait()
        others = [server.client() for _ in range(4)]
        assert done(others, [other.aio_pread(nbd.Buffer(512), 0) for other in others]) == [0] * 4
        control.need("freeze", "depth 1")
        control.need("thaw", "depth 0")
        control.close()


# ---- The control ----


def lines(plugin):
    """Faults are found in the order of docs/FORMATS.md, and lines are cut as it says."""
    with Server(plugin, "size=1M", "hardware_sectors=64") as server:
        control = server.control()
        for line, reply in (
            ("stat", "stat reads 0 writes 0 again 0 eio 0 depth 0 max 64 chunk 0 physical 1 mode slots state running"),
            ("read 0 1", "unknown word"), ("freeze now", "extra word"), ("freeze keep on", "extra word"),
            ("freeze lease", "missing word"), ("freeze lease 1 2", "extra word"), ("freeze lease x", "bad number"),
            ("freeze lease 0", "out of range"), ("quiesce lease 4294967296", "out of range"), ("thaw each", "extra word"),
            ("thaw all now", "extra word"), ("thaw 1 2", "extra word"), ("thaw 4294967296", "out of range"), ("thaw 7", "no such freeze"),
            ("freeze hold", "missing word"), ("freeze lease 1.", "bad number"), ("freeze lease 1.0000000001", "bad number"),
            ("freeze hold 0.0", "out of range"), ("holders all", "extra word"), ("flush", "not frozen"), ("export", "not frozen"),
            ("flush now", "extra word"), ("metrics all", "extra word"), ("set", "missing word"),
            ("set max_sectors 4 chunk_sectors", "missing word"), ("set max_sectors 4 max_sectors 5", "extra word"),
            ("set max_sectors x chunk_sectors -1", "bad number"), ("set max_sectors 9 chunk_sectors 65536", "EINVAL"),
            ("set x", "missing word"), ("set x y", "unknown word"), ("set max_sectors 4 4 4", "extra word"),
            ("set max_sectors -1", "bad number"), ("set max_sectors 000000000000000000004", "bad number"),
            ("set max_sectors 00000000000000000004", "ok"), ("set max_sectors 4294967296", "out of range"),
            ("set max_sectors 65", "EINVAL"), ("set max_sectors 0", "ok"), ("set chunk_sectors 65536", "EINVAL"),
            (" set\tchunk_sectors  65535\r", "ok"), ("set physical_sectors 0", "EINVAL"),
            ("set physical_sectors 32768 max_sectors 64", "ok"), ("mode", "missing word"), ("mode quick", "unknown word"),
            ("mode atomic", "ok"), ("thaw", "not frozen"), ("freeze", "depth 1"), ("set max_sectors 4294967295", "EINVAL"),
            ("set max_sectors 7", "ok"), ("thaw", "depth 0"), ("# nothing\n\n \t\nstat",
             "stat reads 0 writes 0 again 0 eio 0 depth 0 max 7 chunk 65535 physical 32768 mode atomic state running"),
        ):
            control.need(line, reply)
        for depth in range(1, 1001):
            control.need("freeze", f"depth {depth}")
        control.need("freeze", "depth full")
        for depth in range(999, -1, -1):
            control.need("thaw", f"depth {depth}")
        control.close()


# ---- The end ----


def ended(plugin):
    """SIGTERM ends the server under load, and while clients wait at a frozen queue, also if a thousand freezes hold it."""
    for freezes in (0, 1, 1000):
        server = Server(plugin, "size=16M")
        loading = subprocess.Popen(fio(server, 8, 20), stdout=subprocess.DEVNULL, stderr=subprocess.DEVNULL)
        control = server.control()
        soon(lambda: control.ask("stat").split()[2] not in ("0", "1"), "the load doesn't begin")
        for depth in range(1, freezes + 1):
            control.need("freeze", f"depth {depth}")
        try:
            server.end()
        finally:
            loading.kill()
            loading.wait()
        control.close()


def one_setting(plugin):
    """No request is cut by two settings: each has the pieces of the limits that were in force all along."""
    two, count = cut_by_two(plugin)
    assert count > 1000, count
    assert two == 0, f"{two} of {count} requests are cut by two settings"


def two_settings(plugin):
    """Without the queue, requests are cut by two settings. So the test above would see it."""
    two, count = cut_by_two(plugin)
    assert two > 0, f"none of {count} requests"


def cut_by_two(plugin):
    """The number of requests that were cut by two settings, and of all requests."""
    with Server(plugin, "size=16M") as server:
        found = []
        while len(found) <= 1000:  # a second of a busy machine may have some hundred
            while_settings_change(server, fio(server, 8, 1, bs="64k"))
            found = list(watched(server.watched))
    two = sum(first != last or cut != pieces(start, length, first) for start, length, cut, first, last in found)
    return two, len(found)


if __name__ == "__main__":
    run_test(globals())

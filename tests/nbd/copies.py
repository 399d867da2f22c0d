"""Tests copies of a disk that clients write to, and blkqctl: copies.py FILTER NAME runs one test."""

import json
import os
import re
import signal
import struct
import subprocess
import sys
import tempfile
import threading
from contextlib import ExitStack, closing, contextmanager

from controls import Busy, busy_at, depth_of, held_up, in_force, soon
from server import WITHIN, Server, in_memory, run_test
from tries import MIB

BLKQCTL = os.environ.get("BLKQCTL") or os.path.join(os.path.dirname(__file__), "..", "..", "services", "nbd", "blkqctl")
WRITERS, TRIES, BLOCK, SIZE = 4, 20, 4096, 32 * MIB


def blkqctl(server, *words, status=0, **more):
    """Runs blkqctl, which has to end with this status, and returns its output."""
    found = subprocess.run([sys.executable, BLKQCTL, server.control_path, *words], stdout=subprocess.PIPE,
                           stderr=subprocess.PIPE, timeout=1200, check=False, **more)
    assert found.returncode == status, (words, found)
    return found.stdout.decode()


# ---- Consistent copies ----


class Writer(threading.Thread):
    """Writes a number near the disk's beginning, and only then the same number near its end. At each moment the second number is equal
    to the first or one less. Otherwise a copy is torn."""

    def __init__(self, server, number):
        super().__init__()
        self.client, self.places, self.enough = server.client(), (number * BLOCK, SIZE - (number + 1) * BLOCK), False
        self.written = 0

    def run(self):
        while not self.enough:
            self.written += 1
            for place in self.places:
                self.client.pwrite(struct.pack("<Q", self.written) * (BLOCK // 8), place)

    def is_torn_in(self, copy):
        first, second = (copy[place : place + BLOCK] for place in self.places)
        numbers = [struct.unpack("<Q", block[:8])[0] for block in (first, second)]
        is_whole = all(block == struct.pack("<Q", number) * (BLOCK // 8) for block, number in zip((first, second), numbers))
        return not (is_whole and numbers[0] - 1 <= numbers[1] <= numbers[0])


def torn_copies(served, copy):
    """How many of twenty copies of the disk into the server's file `copy` are torn, while four clients write."""
    torn = 0
    with Server(served, "size=32M") as server:
        with open(server.disk, "wb") as disk:  # with no holes, which a copy would skip
            disk.write(bytes(4 * WRITERS * BLOCK).ljust(SIZE, b"x"))
            disk.seek(SIZE - WRITERS * BLOCK)
            disk.write(bytes(WRITERS * BLOCK))
        writers = [Writer(server, number) for number in range(WRITERS)]
        for writer in writers:
            writer.start()
        try:
            for _ in range(TRIES):
                before = [writer.written for writer in writers]
                soon(lambda: all(it.written > 10 + was for it, was in zip(writers, before)), "a writer hangs")
                copy(server, writers)
                with open(server.path("copy"), "rb") as file:
                    copied = file.read()
                torn += any(writer.is_torn_in(copied) for writer in writers)
        finally:
            for writer in writers:
                writer.enough = True
                writer.join()
    return torn


def consistent(served):
    """Twenty copies under a quiesce are whole."""
    torn = torn_copies(served, lambda server, _: blkqctl(server, "quiesce", "--", "cp", "--reflink=auto", server.disk, server.path("copy")))
    assert torn == 0, f"{torn} of {TRIES} copies are torn"


def torn(served):
    """Plain copies are torn if the writers go on between their halves, as in a copy that takes long. So the test above would see it."""

    def copy_plainly(server, writers):
        with open(server.disk, "rb") as disk, open(server.path("copy"), "wb") as copied:
            copied.write(disk.read(SIZE // 2))
            before = [writer.written for writer in writers]
            soon(lambda: all(it.written > 10 + was for it, was in zip(writers, before)), "a writer hangs")
            copied.write(disk.read())

    found = torn_copies(served, copy_plainly)
    assert found == TRIES, f"{found} of {TRIES} copies are torn"


# Kills a server by its process id one second later, like a server that takes long to end.
LATE_KILL = 'kill() { if [[ $1 == %* ]]; then builtin kill "$@"; else (sleep 1; builtin kill "$@") >/dev/null & fi; }\n'


def page(served):
    """Runs the README's backup, line by line, and a second backup over it. No file is overwritten while clients wait: the file that cp
    writes doesn't exist when it begins. At the end the server has ended, even a slow one."""
    with open(os.path.join(os.path.dirname(BLKQCTL), "README.md"), encoding="utf-8") as file:
        text = file.read().split("## A consistent backup in five minutes\n", 1)[1].split("\n## ", 1)[0]
    steps = [line[4:] for line in text.splitlines() if line.startswith("    ") and not line.startswith(("    apt-get", "    make", "    export"))]
    [taken] = [step for step in steps if " cp " in step]
    [last] = [number for number, step in enumerate(steps) if " watch" in step]
    steps[last : last + 1] = [steps[last].replace("watch", "watch -c 1"), taken, "cmp -n 1 backup.img disk.img"]
    script = LATE_KILL + "\n".join(steps).replace("$HOME/usr/lib/nbdkit/filters/nbdkit-blkq-filter.so", served)
    script = script.replace("--runtime=60 ", "--runtime=1200 ")  # so that the load is there until it is killed
    assert "1200" in script
    # A disk may take minutes to free a backup that is replaced.
    with tempfile.TemporaryDirectory(dir=in_memory()) as folder:
        programs = {"cp": '#!/bin/bash\n[ ! -e "${@: -1}" ] || { touch overwritten; exit 1; }\nexec /bin/cp "$@"\n',
                    "blkqctl": f'#!/bin/sh\nexec {sys.executable} {os.path.abspath(BLKQCTL)} "$@"\n'}
        for name, program in programs.items():
            with open(f"{folder}/{name}", "w", encoding="ascii", opener=lambda path, flags: os.open(path, flags, 0o755)) as file:
                file.write(program)
        given = {**os.environ, "PATH": f"{folder}:{os.environ['PATH']}"}
        told = subprocess.run(["bash", "-e"], input=script.encode(), cwd=folder, env=given, stdout=subprocess.PIPE, timeout=1200,
                              check=False)
        assert not os.path.exists(f"{folder}/overwritten"), "a copy overwrites a file while clients wait"
        said = told.stdout.decode()
        assert told.returncode == 0 and "ok\n" in said and "reads/s" in said, said
        assert re.search(r"^stat reads \d+ writes [1-9]", said, flags=re.M), f"the backup may come before the load: {said}"
        left = [name for name in ("disk.sock", "disk.control", "nbdkit.pid") if os.path.exists(f"{folder}/{name}")]
        assert not left, f"the next start finds {left}"
        assert os.path.getsize(f"{folder}/backup.img") == 64 * MIB and not os.path.exists(f"{folder}/backup.new")


# ---- blkqctl ----


def commands(served):
    """Each command, its output and its status."""
    with Server(served, "size=1M", "hardware_sectors=64") as server, closing(server.control()) as control:
        assert blkqctl(server, "set", "max_sectors", "8", "chunk_sectors", "16") == "ok\n"
        assert in_force(control) == {"max": 8, "chunk": 16, "physical": 1}
        for words, reply in ((["max_sectors", "65"], "EINVAL: max_sectors: more sectors than the hardware takes"),
                             (["max_sectors", "4", "chunk_sectors", "65536"],
                              "EINVAL: chunk_sectors: a chunk of more than 65535 sectors"), (["max_sectors"], "missing word")):
            assert refusal(server, "set", *words) == f"blkqctl: {server.control_path}: set: {reply}\n"
        assert blkqctl(server, "mode", "atomic") == "ok\n"
        assert blkqctl(server, "stat").startswith("stat reads 0 writes 0 ")
        assert blkqctl(server, "metrics").endswith("# EOF\n")
        assert len(blkqctl(server, "watch", "-n", "0.1", "-c", "2").splitlines()) == 3
        assert on_a_terminal(server, "watch", "-n", "0.1", "-c", "3").count(b"\x1b[H\x1b[2Jtime ") == 3
        first = int(re.fullmatch(r"depth 1 number (\d+)\n", blkqctl(server, "quiesce", "--keep"))[1])
        assert blkqctl(server, "freeze", "--lease", "3000") == f"depth 2 number {first + 1}\n"
        assert json.loads(blkqctl(server, "--json", "freeze", "--hold", "90m"))["number"] == first + 2
        assert blkqctl(server, "thaw", str(first + 1)) == "depth 2\n"
        assert refusal(server, "thaw", str(first + 1)).endswith("thaw: no such freeze\n")
        assert blkqctl(server, "thaw", "all") == "depth 0\n"
        for words in (["freeze"], ["thaw"], ["freeze", "--lease", "1", "--keep"], ["freeze", "--keep", "--", "true"], ["stat", "--", "true"], ["freeze", "--"],
                      ["mode", "quick"], ["set", "sectors", "8"], ["freeze", "--lease", "0"], ["watch", "-n", "-1"], ["watch", "-n", "nan"], []):
            blkqctl(server, *words, status=2)
        assert "exit status" in blkqctl(server, "--help")
        shown = blkqctl(server, "backup", "--help")
        assert shown.startswith("usage: blkqctl SOCKET backup [-h]") and "limit for the copy" in shown, shown
        with open("/dev/full", "wb") as full:
            for words in ("stat", "metrics", "watch -c 1 -n 0.01"):
                told = subprocess.run([sys.executable, BLKQCTL, server.control_path, *words.split()], stdout=full, stderr=subprocess.PIPE, check=False)
                assert (told.returncode, told.stderr) == (125, b"blkqctl: No space left on device\n"), told
        told = subprocess.run(f"{sys.executable} {BLKQCTL} {server.control_path} stat >&-", shell=True, stderr=subprocess.PIPE, check=False)
        assert (told.returncode, told.stderr) == (125, b"blkqctl: standard output is closed\n"), told
    gone = subprocess.run([sys.executable, BLKQCTL, "/nowhere", "stat"], stderr=subprocess.PIPE, check=False)
    assert gone.returncode == 3 and gone.stderr == b"blkqctl: /nowhere: No such file or directory\n"


def refusal(server, *words, status=1):
    """What blkqctl writes to standard error when the server refuses, or when it ends with another status."""
    found = subprocess.run([sys.executable, BLKQCTL, server.control_path, *words], stderr=subprocess.PIPE, timeout=1200, check=False)
    assert found.returncode == status, (words, found)
    return found.stderr.decode()


def on_a_terminal(server, *words):
    """The output of blkqctl on a terminal."""
    leader, follower = os.openpty()
    with subprocess.Popen([sys.executable, BLKQCTL, server.control_path, *words], stdout=follower) as running:
        os.close(follower)
        output = b""
        try:
            while more := os.read(leader, 4096):
                output += more
        except OSError:  # Linux's end of a terminal
            pass
        os.close(leader)
    assert running.returncode == 0
    return output


def around(served):
    """A freeze around a command has the command's status, and is thawed however the command ends. A freeze that is lost meanwhile is reported."""
    with Server(served, "size=1M") as server, closing(server.control()) as control:
        for command, status in ((["true"], 0), (["sh", "-c", "exit 7"], 7), (["sh", "-c", "kill -9 $$"], 137)):
            blkqctl(server, "freeze", "--", *command, status=status)
            assert depth_of(server) == 0, command
        for program, status, reason in (("/no/such/program", 127, "No such file or directory"), ("/", 126, "Permission denied"),
                                        ("no-such-program", 127, "No such file or directory")):
            assert refusal(server, "freeze", "--", program, status=status) == f"blkqctl: {program}: {reason}\n"
            assert depth_of(server) == 0, program
        asking = ["sh", "-c", f"{sys.executable} {BLKQCTL} {server.control_path} stat"]
        assert " depth 1 " in blkqctl(server, "quiesce", "--", *asking)
        thawed = ["sh", "-c", f"until {asking[2]} | grep -q ' depth 0 '; do sleep 0.1; done"]
        blkqctl(server, "freeze", "--lease", "1", "--", *thawed, status=125)
        with Sleeping(server) as losing:
            control.need("thaw all", "depth 0")
            losing.process.terminate()
            assert losing.process.wait(WITHIN) == 125
        asking[2] = asking[2].replace(" stat", " holders")
        assert re.search(r" ends in [1-6]\d?s\n$", blkqctl(server, "quiesce", "--", *asking)), "a freeze around a command has no end"
        for number, status, more in ((signal.SIGTERM, 143, ()), (signal.SIGINT, 130, ()), (signal.SIGKILL, -9, ()), (signal.SIGKILL, -9, ("--lease", "3000"))):
            with Sleeping(server, *more) as ended:
                ended.process.send_signal(number)
                assert ended.process.wait(WITHIN) == status
                soon(lambda: depth_of(server) == 0, "the freeze stays")
                assert ended.process.stdout.read() == b"", "COMMAND outlives blkqctl"  # its end, once COMMAND has closed it
        told = subprocess.run([sys.executable, BLKQCTL, "-v", server.control_path, "quiesce", "--", "sleep", "0.2"],
                              stderr=subprocess.PIPE, timeout=1200, check=True).stderr.decode()
        found = re.fullmatch(r"blkqctl: the quiesce took (\d+\.\d\d) s, and sleep (\d+\.\d\d) s\n", told)
        assert found and float(found[2]) >= 0.2, told


def told(served):
    """-v reports how long a freeze took, even one that outlives blkqctl. --version is the tree's."""
    with Server(served, "size=1M") as server:
        for name in ("freeze", "quiesce"):
            found = subprocess.run([sys.executable, BLKQCTL, "-v", server.control_path, name, "--lease", "3000"], stdout=subprocess.DEVNULL,
                                   stderr=subprocess.PIPE, timeout=1200, check=True).stderr.decode()
            assert re.fullmatch(rf"blkqctl: the {name} took \d+\.\d\d s\n", found), found
        blkqctl(server, "thaw", "all")
    with open(os.path.join(os.path.dirname(BLKQCTL), "..", "..", "VERSION"), encoding="ascii") as file:
        version = file.read()
    found = subprocess.run([sys.executable, BLKQCTL, "--version"], stdout=subprocess.PIPE, check=True).stdout.decode()
    assert found == f"blkqctl {version}", found


class Sleeping:
    """blkqctl with a freeze around a sleep, which has begun."""

    def __init__(self, server, *more):
        sleep = ["sh", "-c", "echo begun && exec sleep 3000"]
        command = [sys.executable, BLKQCTL, server.control_path, "freeze", *more, "--", *sleep]
        self.process = subprocess.Popen(command, stdout=subprocess.PIPE, stderr=subprocess.DEVNULL)
        assert self.process.stdout.readline() == b"begun\n"
        assert depth_of(server) == 1

    @staticmethod
    @contextmanager
    def around(served):
        """A server that ends otherwise than its own way, and a blkqctl that sleeps there."""
        server = Server(served, "size=1M")
        command = [sys.executable, BLKQCTL, server.control_path, "freeze", "--", "sh", "-c", "echo begun && exec sleep 3000"]
        with subprocess.Popen(command, stdout=subprocess.PIPE, stderr=subprocess.PIPE) as running:
            assert running.stdout.readline() == b"begun\n"
            yield server, running
        server.errors.close()
        server.folder.cleanup()

    def __enter__(self):
        return self

    def __exit__(self, *_):
        self.process.terminate()
        self.process.wait(WITHIN)
        self.process.stdout.close()


def in_time(served):
    """A drain that takes too long is given up, and leaves nothing behind. The message names the socket, and there is a status for it. If
    nobody takes its connection, the status is that of a server that isn't there."""
    with held_up(served) as (server, let_go):
        busy = Busy(server)
        for more, status in ((["--", "true"], 125), (["--keep"], 4)):
            given_up = subprocess.run([sys.executable, BLKQCTL, "--timeout", "0.5", server.control_path, "quiesce", *more],
                                      stderr=subprocess.PIPE, check=False)
            assert given_up.returncode == status, given_up
            assert given_up.stderr.decode().startswith(f"blkqctl: {server.control_path}: quiesce"), given_up
            assert given_up.stderr.endswith(b": no reply within 0.5 s\n"), given_up
            soon(lambda: depth_of(server) == 0, "the drain goes on")
        let_go()
        busy.need_done()
        with busy_at(server.path("busy")) as path:
            for words in (["stat"], ["quiesce", "--", "true"], ["backup", "--to", server.path("copy")]):
                late = subprocess.run([sys.executable, BLKQCTL, "--timeout", "0.1", path, *words], stderr=subprocess.PIPE, check=False)
                assert late.returncode == 3 and late.stderr.decode().startswith(f"blkqctl: {path}: "), late


def json_told(served):
    """--json has the same content as the text."""
    with Server(served, "size=1M", "max_sectors=8") as server:
        server.client().pwrite(bytes(512), 0)
        found = json.loads(blkqctl(server, "--json", "stat"))
        assert (found["writes"], found["max"], found["mode"], found["depth"]) == (1, 8, "slots", 0), found
        found = json.loads(blkqctl(server, "--json", "quiesce", "--", "sh", "-c", "sleep 0.2; exit 3", status=3))
        assert found["status"] == 3 and found["command_seconds"] >= 0.2 and found["quiesce_seconds"] >= 0 and found["lost"] is None
        found = json.loads(blkqctl(server, "--json", "freeze", "--lease", "1.5"))
        assert found["depth"] == 1 and found["freeze_seconds"] >= 0
        soon(lambda: depth_of(server) == 0, "a lease doesn't end")


def server_goes(served):
    """If the server goes, blkqctl ends with a message: during a command, in `watch`, and before it began."""
    with Sleeping.around(served) as (server, losing):
        server.process.kill()
        server.process.wait()
        told = losing.communicate(timeout=WITHIN)[1].decode()
        assert losing.returncode == 125 and "the server has gone: sh was killed\n" in told, told
    server = Server(served, "size=1M")
    with subprocess.Popen([sys.executable, BLKQCTL, server.control_path, "watch", "-n", "0.05"], stdout=subprocess.PIPE,
                          stderr=subprocess.PIPE) as watching:
        watching.stdout.readline()
        server.process.kill()
        server.process.wait()
        told = watching.communicate(timeout=WITHIN)[1].decode()
    assert watching.returncode == 3 and told == f"blkqctl: {server.control_path}: watch: the server has gone\n", told
    server.errors.close()
    server.folder.cleanup()


def emergency(served):
    """`thaw all` gets a place although 64 controllers hold freezes. No freeze can begin from that place."""
    with Server(served, "size=1M") as server, ExitStack() as many:
        freezing = [many.enter_context(closing(server.control())) for _ in range(64)]
        for number, control in enumerate(freezing, 1):
            control.need("freeze", f"depth {number}")
        for words in (["quiesce", "--keep"], ["set", "max_sectors", "8"]):
            assert refusal(server, *words) == f"blkqctl: {server.control_path}: {words[0]}: busy\n"
        for _ in range(9):
            many.enter_context(closing(server.control())).need("thaw", "not yours")
        assert blkqctl(server, "thaw", "all") == "depth 0\n"
        freezing[0].need("freeze", "depth 1")


if __name__ == "__main__":
    run_test(globals())

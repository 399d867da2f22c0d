"""Tests groups of disks that are frozen at one moment: groups.py FILTER NAME runs one test."""

import json
import os
import re
import signal
import struct
import subprocess
import sys
import tempfile
import threading
from contextlib import ExitStack, closing

from controls import Busy, depth_of, metrics_of, soon
from copies import BLKQCTL
from gates import Paused, done_by, shell, write
from server import WITHIN, Server, run_test

BLOCK, TRIES = 4096, 20
DRAIN, FLUSH = "drain took more than {:g} s", "not flushed {:g} s after the freeze began"
PROGRAMS = {"blkqctl": BLKQCTL, "ssh": os.path.join(os.path.dirname(__file__), "ssh.py")}


class Hosts:
    """Servers by their names, and the environment of a blkqctl that reaches them by `ssh` too."""

    def __init__(self, **servers):
        self.servers, self.folder = servers, tempfile.TemporaryDirectory()
        for name, program in PROGRAMS.items():
            with open(self.path(name), "w", encoding="ascii", opener=lambda path, flags: os.open(path, flags, 0o755)) as file:
                file.write(f'#!/bin/sh\nexec {sys.executable} {os.path.abspath(program)} "$@"\n')
        self.given = {**os.environ, "PATH": f"{self.folder.name}:{os.environ['PATH']}", "HOSTS": self.path("hosts")}

    def path(self, name):
        return os.path.join(self.folder.name, name)

    def members(self, remote=()):
        """The members of all servers, some of them on other hosts."""
        return [f"{name}={'ssh://' + name + '.example' * (name in remote) if name in remote else ''}{server.control_path}"
                for name, server in self.servers.items()]

    def start(self, *words, remote=()):
        """Starts blkqctl group with options, members, --, and a command. The limits are those of a starved machine, unless the options have others."""
        at = words.index("--")
        limits = "--timeout", "4m", "--deadline", "4m", "--hold", "10m"
        command = [self.path("blkqctl"), "group", *limits, *words[:at], *self.members(remote), *words[at:]]
        return subprocess.Popen(command, env=self.given, stdout=subprocess.PIPE, stderr=subprocess.PIPE)

    def group(self, *words, status=0, remote=()):
        """Runs it, which has to end with this status. Returns its output and its errors."""
        with self.start(*words, remote=remote) as running:
            told, errors = (it.decode() for it in running.communicate(timeout=WITHIN))
        assert running.returncode == status, (running.returncode, told, errors)
        return told, errors

    def rolled_back(self, name, why, *words, remote=()):
        """Runs it with a member that hangs, which alone has to be named, with the reason. On a starved machine others may be late too; then all have
        more time."""
        for seconds in (0.5, 5, 60):
            errors = self.group("--deadline", f"{seconds:g}s", *words, status=125, remote=remote)[1]
            found = re.fullmatch(r"blkqctl: rolled back: ([\w, ]+): (.*) \(held (\d+\.\d) s\)\n", errors)
            assert found, errors
            names, told, held = found.groups()
            assert told in (DRAIN.format(seconds), FLUSH.format(seconds)) and float(held) >= seconds, errors
            self.need_thawed()
            if (names, told) == (name, why.format(seconds)):
                return
            assert told != why.format(seconds) or name in names.split(", "), errors
        raise AssertionError(errors)

    def need_thawed(self):
        for name, server in self.servers.items():
            soon(lambda: depth_of(server) == 0, f"{name} stays frozen")

    def __enter__(self):
        return self

    def __exit__(self, *_):
        self.folder.cleanup()


class Committer(threading.Thread):
    """Writes a number to the first disk and only then to the second: at each moment the second has the same, or the one before."""

    def __init__(self, first, second):
        super().__init__()
        self.clients, self.enough, self.written = (first.client(), second.client()), False, 0

    def run(self):
        while not self.enough:
            self.written += 1
            for client in self.clients:
                client.pwrite(struct.pack("<Q", self.written) * (BLOCK // 8), 0)


def number_in(path):
    with open(path, "rb") as file:
        block = file.read(BLOCK)
    found = struct.unpack("<Q", block[:8])[0]
    assert block == struct.pack("<Q", found) * (BLOCK // 8), "a torn block"
    return found


def inconsistent(served, copy, backend=None):
    """The number of copies of two disks, of twenty, that aren't of one moment, while a client writes to one disk after the other. The command
    `copy` copies each disk into the file copy of its server."""
    found = 0
    with Server(served, backend=backend) as data, Server(served, backend=backend) as log, Hosts(data=data, log=log) as hosts:
        committer = Committer(data, log)
        committer.start()
        try:
            for _ in range(TRIES):
                before = committer.written
                soon(lambda: committer.written > 10 + before, "the writer hangs")
                copy(hosts, committer)
                first, second = (number_in(server.path("copy")) for server in (data, log))
                found += not first - 1 <= second <= first
        finally:
            committer.enough = True
            committer.join()
    return found


def copying(server):
    return f"dd status=none bs={BLOCK} count=1 if={server.disk} of={server.path('copy')}"


# ---- At one moment ----


def at_one_moment(served):
    """Twenty copies of two disks are of one moment, though the disk that is written first is copied first."""

    def copy(hosts, _):
        hosts.group("--", "sh", "-c", "; sleep 0.02; ".join(copying(it) for it in hosts.servers.values()))

    found = inconsistent(served, copy)
    assert found == 0, f"{found} of {TRIES} copies aren't of one moment"


def through_the_servers(served):
    """Copies from the exports in the command's variables are of one moment too, of disks that aren't plain files. A disk on another host has no
    export."""
    copying_all = " && ".join(f'nbdcopy "$BLKQ_COPY_{name}" {{{name}}} && sleep 0.02' for name in ("data", "log"))

    def copy(hosts, _):
        lines = copying_all.format(**{name: server.path("copy") for name, server in hosts.servers.items()})
        hosts.group("--", "sh", "-c", lines)
        told = hosts.group("--", "sh", "-c", "env | grep ^BLKQ_COPY_ | cut -d= -f1", remote=("log",))[0]
        assert told == "BLKQ_COPY_data\n", told

    found = inconsistent(served, copy, backend=["--filter=cow", "file", "{folder}/disk"])
    assert found == 0, f"{found} of {TRIES} copies aren't of one moment"


def one_after_another(served):
    """Copies under one quiesce after another aren't of one moment. So the test above would see it."""

    def copy(hosts, committer):
        for server in hosts.servers.values():
            subprocess.run([hosts.path("blkqctl"), server.control_path, "quiesce", "--", "sh", "-c", copying(server)], check=True)
            before = committer.written
            soon(lambda: committer.written > 10 + before, "the writer hangs")

    found = inconsistent(served, copy)
    assert found == TRIES, f"{found} of {TRIES} copies aren't of one moment"


def all_before_any(served):
    """No disk is flushed before all are frozen, and the command runs once all are flushed."""
    with Paused(served) as held, Server(served, backend=shell()) as other, Hosts(held=held, other=other) as hosts:
        client = other.client()
        client.pwrite(bytes(512), 0)
        held.tell(b"p")
        busy = Busy(held)
        with hosts.start("--", "sh", "-c", f"cat {other.path('done')}") as running:
            soon(lambda: depth_of(other) == 1 == depth_of(held), "no freeze")
            assert not done_by(other, "flush"), "a disk is flushed before all are frozen"
            held.tell(b"r")
            busy.need_done()
            told = running.communicate(timeout=WITHIN)[0].decode()
        assert running.returncode == 0 and told.splitlines()[-1].startswith("flush "), told
        hosts.need_thawed()
        with closing(other.control()) as control:
            assert metrics_of(control)["blkq_freezes_total"] == 1


def of_named_exports(served):
    """NAME=SOCKET#EXPORT names one of the backend's exports."""
    with tempfile.TemporaryDirectory() as disks:
        for name in ("a", "b c"):
            with open(os.path.join(disks, name), "wb") as file:
                file.write(name[:1].encode() * BLOCK)
        with Server(served, backend=["file", f"dir={disks}"]) as server, Hosts(data=server) as hosts:
            for live in ((), ("--live",)):
                for name in ("a", "b c"):
                    command = [hosts.path("blkqctl"), "group", *live, f"data={server.control_path}#{name}", "--", "sh", "-c",
                               f'nbdcopy "$BLKQ_COPY_data" {server.path("copy")}']
                    assert subprocess.run(command, env=hosts.given, check=False).returncode == 0
                    with open(server.path("copy"), "rb") as file:
                        assert file.read() == name[:1].encode() * BLOCK


# ---- Rolled back ----


def rolled_back(served):
    """If one of four disks on two hosts hangs, it is named with the reason, all are thawed, and the command isn't run."""
    with Paused(served) as hung, ExitStack() as many:
        others = {name: many.enter_context(Server(served)) for name in ("db", "wal", "log")}
        hosts = many.enter_context(Hosts(**others, wal2=hung))
        hung.tell(b"p")
        busy = Busy(hung)
        for remote in ((), ("log", "wal2")):
            hosts.rolled_back("wal2", DRAIN, "--", "touch", hosts.path("ran"), remote=remote)
        assert not os.path.exists(hosts.path("ran")), "the command runs though a disk hangs"
        for server in others.values():
            server.client().pread(512, 0)
        hung.tell(b"r")
        busy.need_done()
        hosts.group("--", "touch", hosts.path("ran"), remote=("log", "wal2"))
        assert os.path.exists(hosts.path("ran"))
        with open(hosts.path("hosts"), encoding="ascii") as file:
            reached = file.read().split()
        assert reached.count("log.example") == reached.count("wal2.example") == len(reached) // 2 >= 2, reached
        hosts.need_thawed()


def refused(served):
    """A member whose flush fails or hangs, or that doesn't exist, is named with the reason."""
    with Server(served, backend=shell()) as server, Server(served) as other, Hosts(data=server, other=other) as hosts:
        client = server.client()
        client.pwrite(bytes(512), 0)
        write(server, "unflushed", done_by(server, "pwrite")[0][1])
        errors = hosts.group("--", "true", status=125)[1]
        assert "rolled back: data: flush: No space left on device (" in errors, errors
        hosts.need_thawed()
        write(server, "unflushed")
        write(server, "held", "flush")
        hosts.rolled_back("data", FLUSH, "--", "true")
        write(server, "held")
        errors = hosts.group("gone=/nowhere", "far=ssh://far/nowhere", "--", "true", status=125)[1]
        assert "rolled back: gone: No such file or directory (" in errors, errors
        errors = hosts.group("far=ssh://far/nowhere", "--", "true", status=125)[1]
        assert "rolled back: far: ssh ended with status 3 (" in errors, errors
        hosts.need_thawed()


def thawed_while_it_flushes(served):
    """If a freeze is thawed during the flush, its disk is named, and the command isn't run."""
    with Server(served, backend=shell()) as server, Server(served) as other, Hosts(data=server, other=other) as hosts:
        server.client().pwrite(bytes(512), 0)
        write(server, "held", "flush")
        with hosts.start("--", "touch", hosts.path("ran")) as running, closing(server.control()) as control:
            soon(lambda: done_by(server, "flush"), "no flush")
            control.need(f"thaw {control.lines('holders')[0].split()[0]}", "depth 0")
            write(server, "held")
            errors = running.communicate(timeout=WITHIN)[1].decode()
        assert running.returncode == 125 and errors.startswith("blkqctl: rolled back: data: not frozen (held "), errors
        assert not os.path.exists(hosts.path("ran")), "the command runs though a disk isn't frozen"
        hosts.need_thawed()


# ---- Lost ----


def waiting_command(hosts):
    """A command that says when it runs, and ends once it may."""
    return "--", "sh", "-c", f"echo runs; until test -e {hosts.path('go')}; do sleep 0.02; done"


def begun(hosts, holds, remote):
    """A group whose command has begun. On a starved machine a hold may end before that; then the next one is tried."""
    for hold in holds:
        running = hosts.start("--hold", hold, *waiting_command(hosts), remote=remote)
        if running.stdout.readline() == b"runs\n":
            return running
        with running:
            errors = running.communicate(timeout=WITHIN)[1].decode()
        assert re.match(r"blkqctl: rolled back: \w+: not frozen \(", errors), errors
    raise AssertionError(errors)


def lost(served):
    """If a freeze ends before the command, by its lease, another's thaw, its server or its ssh, it is named and the status is 125."""

    def thaw(server, _):
        with closing(server.control()) as control:
            control.need("thaw all", "depth 0")

    def kill(server, _):
        server.process.kill()
        server.process.wait()

    def end_ssh(_, running):
        found = subprocess.run(["ps", "--ppid", str(running.pid), "-o", "pid=,args="], stdout=subprocess.PIPE, check=True).stdout.decode()
        os.kill(int(next(line for line in found.splitlines() if "ssh.py" in line).split()[0]), signal.SIGKILL)

    for how, why, remote in ((thaw, "not frozen", ()), (thaw, "not frozen", ("log",)), (end_ssh, "ssh ended with status -9", ("log",)),
                             (kill, "the server has gone", ()), (kill, "the server has gone", ("log",)), (None, "held for more than ", ())):
        with Server(served) as data, ExitStack() as ended:
            log = Server(served)
            if how is kill:
                ended.callback(log.folder.cleanup)
                ended.callback(log.errors.close)
            else:
                ended.enter_context(log)
            hosts = ended.enter_context(Hosts(data=data, log=log))
            with begun(hosts, ("10m",) if how else ("0.2", "5", "60"), remote) as running:
                if how:
                    how(log, running)
                if how is not kill:
                    soon(lambda: depth_of(log) == 0, "the freeze stays")
                write(hosts, "go")
                errors = running.communicate(timeout=WITHIN)[1].decode()
            why = "ssh ended with status 3" if how is kill and remote else why
            assert running.returncode == 125 and f"log: the freeze ended before sh did ({why}" in errors, errors
            assert ("data:" in errors) == (how is None), errors
            soon(lambda: depth_of(data) == 0, "the other stays frozen")


def ssh_ends(served):
    """A quiesce that was started over ssh ends with the ssh, and so does its running command."""
    with Server(served) as server, Hosts(data=server) as hosts:
        command = f"blkqctl {server.control_path} quiesce -- sh -c 'echo runs; exec sleep 3000'"
        with subprocess.Popen(["ssh", "--", "host", command], env=hosts.given, stdin=subprocess.PIPE, stdout=subprocess.PIPE,
                              executable=hosts.path("ssh")) as running:
            assert running.stdout.readline() == b"runs\n" and depth_of(server) == 1
            running.kill()
        hosts.need_thawed()


# ---- Around it ----


def hooks(served):
    """Hooks run before the freeze and after the thaw; those after the thaw run whatever happens."""
    with Server(served) as data, Server(served) as log, Hosts(data=data, log=log) as hosts:
        asking = f"blkqctl {data.control_path} stat | cut -d' ' -f10-11"
        marks = "--before", f"{asking} >&2", "--after", "echo first >&2; exit 1", "--after", f"{asking} >&2"
        errors = hosts.group(*marks, "--", "sh", "-c", f"{asking} >&2", status=125)[1]
        assert errors == "depth 0\ndepth 1\nfirst\nblkqctl: 'echo first >&2; exit 1' ended with status 1\ndepth 0\n", errors
        after = "--after", "echo after >&2"
        errors = hosts.group("--before", "exit 3", "--before", "echo next >&2", *after, "--", "true", status=125)[1]
        assert errors == "blkqctl: 'exit 3' ended with status 3\nafter\nblkqctl: rolled back: --before 'exit 3' failed (held 0.0 s)\n", errors
        with closing(quiescing_by(data)):
            pass
        with hosts.start(*after, *waiting_command(hosts)) as running:
            assert running.stdout.readline() == b"runs\n" and depth_of(data) == depth_of(log) == 1
            running.terminate()
            assert running.communicate(timeout=WITHIN)[1] == b"after\n"
        assert running.returncode == 143
        hosts.need_thawed()
        assert hosts.group(*after, "--", "sh", "-c", "exit 7", status=7)[1] == "after\n"


def quiescing_by(server):
    """A controller that has flushed under a hold that then ended. On a starved machine it may end before; then the next one is longer."""
    control = server.control()
    for hold in ("0.5", "5", "60"):
        control.need(f"freeze hold {hold}", "depth 1")
        flushed = control.ask("flush")
        soon(lambda: depth_of(server) == 0, "a hold doesn't end")
        control.need("flush", "not frozen")
        if flushed == "ok":
            return control
        assert flushed == "not frozen", flushed
    raise AssertionError(flushed)


def ended_while_it_drains(served):
    """A signal while a disk drains thaws all disks, and the command isn't run. The last hook still runs, unless the signal is SIGKILL."""
    with Paused(served) as hung, Server(served) as other, Hosts(hung=hung, other=other) as hosts:
        hung.tell(b"p")
        busy = Busy(hung)
        for number, status, said in ((signal.SIGTERM, 143, "after\nblkqctl: rolled back: signal 15 (held "), (signal.SIGKILL, -9, "")):
            with hosts.start("--after", "echo after >&2", "--", "touch", hosts.path("ran")) as running:
                soon(lambda: depth_of(other) == 1 == depth_of(hung), "no freeze")
                running.send_signal(number)
                errors = running.communicate(timeout=WITHIN)[1].decode()  # its end, once the process that waits to run the command has ended
            assert running.returncode == status and errors.startswith(said), errors
            hosts.need_thawed()
        assert not os.path.exists(hosts.path("ran")), "the command runs after blkqctl"
        hung.tell(b"r")
        busy.need_done()


def told(served):
    """--json prints the outcome. Wrong arguments print the usage."""
    with Server(served) as data, Server(served) as log, Hosts(data=data, log=log) as hosts:
        found = json.loads(hosts.group("--json", "--", "sleep", "0.3")[0])
        assert found["status"] == 0 and found["rolled_back"] is None and found["lost"] == {"data": None, "log": None}
        assert found["freeze_seconds"] >= 0 <= found["flush_seconds"]
        assert found["held_seconds"] >= found["freeze_seconds"] + found["flush_seconds"] + 0.299  # each is rounded
        told, _ = hosts.group("--json", "--hold", "0.2", "--", "sleep", "3", status=125)
        assert json.loads(told)["held_seconds"] < 3, told  # clients waited until the hold ended
        write(hosts, "go")
        for words in (["--"], ["--deadline", "0", "--", "true"], ["--hold", "1d", "--", "true"], ["data=/twice", "--", "true"], ["a.b=/x", "a-b=/y", "--", "true"],
                      ["nameless", "--", "true"], ["far=ssh://-x/p", "--", "true"], ["far=ssh://host", "--", "true"]):
            hosts.group(*words, status=2)
        hosts.need_thawed()


if __name__ == "__main__":
    run_test(globals())

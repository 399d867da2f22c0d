"""Tests who holds freezes, how long they may last, and how they are logged: holders.py SERVED NAME runs one test."""

import json
import os
import re
import select
import socket
import subprocess
import sys
import tempfile
from contextlib import closing

import nbd

from controls import Busy, depth_of, held_up, in_force, metrics_of, soon
from copies import BLKQCTL, blkqctl, refusal
from flushes import begun
from gates import Paused, is_answered, shell, write
from server import WITHIN, Server, run_test
from tries import done


def listed_of(server):
    return json.loads(blkqctl(server, "--json", "holders"))


def state_of(server):
    return json.loads(blkqctl(server, "--json", "stat"))["state"]


def listed(served):
    """`holders` has a line for each freeze with its number, owner, age and end. `thaw N` ends a freeze, whoever owns it."""
    with Server(served, "size=1M") as server, closing(server.control()) as control:
        assert listed_of(server) == [] and blkqctl(server, "holders") == "" and state_of(server) == "running"
        control.need("label of\x01 a \"test\" ", "ok")
        control.need("freeze", "depth 1")
        blkqctl(server, "--label", "nightly  copy", "quiesce", "--lease", "3000")
        blkqctl(server, "freeze", "--keep")
        found = listed_of(server)
        assert [(it["number"], it["verb"], it["state"], it["label"]) for it in found] == [
            (1, "freeze", "held", "of? a ?test? "), (2, "quiesce", "held", "nightly copy"), (3, "freeze", "held", "")], found
        assert found[0]["pid"] == os.getpid() and found[0]["uid"] == os.getuid() and found[0]["ends"] is None
        assert 2000 < found[1]["ends"] <= 3000 and found[0]["seconds"] >= found[1]["seconds"] >= 0
        assert state_of(server) == "held"
        lines = blkqctl(server, "holders").splitlines()
        assert re.fullmatch(r'2 quiesce held \d+s pid \d+ uid \d+ "nightly copy" ends in [23]\d\d\ds', lines[1]), lines
        assert re.fullmatch(r"3 freeze held \d+s pid \d+ uid \d+", lines[2]), lines
        assert blkqctl(server, "thaw", "2") == "depth 2\n" and [it["number"] for it in listed_of(server)] == [1, 3]
        for number in ("2", "0", "4"):
            assert refusal(server, "thaw", number) == f"blkqctl: {server.control_path}: thaw: no such freeze\n"
        assert blkqctl(server, "thaw", "1") == "depth 1\n"
        control.need("thaw", "not yours")
        assert blkqctl(server, "thaw", "all") == "depth 0\n" and state_of(server) == "running"
        blkqctl(server, "thaw", "some", status=2)


def draining(served):
    """`holders` distinguishes draining from held freezes. A draining freeze can be thawed by its number too."""
    with Paused(served) as server, closing(server.control()) as first, closing(server.control()) as second:
        server.tell(b"p")
        busy = Busy(server)
        first.at.sendall(b"quiesce\n")
        soon(lambda: state_of(server) == "draining", "no drain")
        second.at.sendall(b"set max_sectors 8\n")
        soon(lambda: depth_of(server) == 2, "no drain")
        assert [(it["number"], it["verb"], it["state"]) for it in listed_of(server)] == [(1, "quiesce", "draining"), (2, "set", "draining")]
        with closing(server.control()) as third:
            assert metrics_of(third)["blkq_oldest_hold_seconds"] > 0, "a drain that hangs isn't seen"
        assert blkqctl(server, "thaw", "2") == "depth 1\n"
        assert second.replies.readline() == "thawed\n"
        server.tell(b"r")
        busy.need_done()
        assert first.replies.readline() == "depth 1\n" and state_of(server) == "held"
        first.need("thaw", "depth 0")
        assert in_force(second)["max"] == 65535


# ---- Bounds ----


def bounded(served):
    """A drain or a flush that takes longer than the server allows is thawed, and the reply says so. Clients go on."""
    with Paused(served, "drain_timeout=0.3") as server, closing(server.control()) as control:
        server.tell(b"p")
        busy = Busy(server)
        control.at.sendall(b"freeze\n")
        assert is_answered(control, WITHIN), "a drain has no bound"
        assert control.replies.readline() == "drain took more than 0.3 s\n"
        for words in (["set", "max_sectors", "8"], ["quiesce", "--keep"], ["freeze", "--lease", "60"]):
            told = refusal(server, *words)
            assert told == f"blkqctl: {server.control_path}: {words[0]}: drain took more than 0.3 s\n", told
            assert depth_of(server) == 0
        server.tell(b"r")
        busy.need_done()
        server.client().pread(512, 0)
        assert in_force(control)["max"] == 65535
        control.need("set max_sectors 8", "ok")
    with Server(served, "drain_timeout=0.3", backend=shell()) as server, closing(server.control()) as control:
        client = server.client()
        client.pwrite(bytes(512), 0)
        write(server, "held", "flush")
        control.need("quiesce", "flush took more than 0.3 s")
        assert depth_of(server) == 0
        control.need("freeze", "depth 1")
        control.need("flush", "flush took more than 0.3 s")
        write(server, "held")
        control.need("thaw", "depth 0")


def held_too_long(served):
    """No freeze lasts longer than the server allows, whoever holds it; its holder can ask why it ended."""
    with Server(served, "size=1M", "max_hold=0.5") as server, closing(server.control()) as control:
        control.need("freeze keep", "depth 1")
        soon(lambda: depth_of(server) == 0, "a freeze that is kept stands for ever")
        control.need("thaw", "not frozen")
        control.need("why", "freeze: held for more than 0.5 s")
        control.need("set max_sectors 65536", "EINVAL")
        control.need("why", "max_sectors: more sectors than the hardware takes")
        until = f"until {sys.executable} {BLKQCTL} {server.control_path} stat | grep -q ' depth 0 '; do sleep 0.1; done"
        told = subprocess.run([sys.executable, BLKQCTL, server.control_path, "quiesce", "--", "sh", "-c", until], stderr=subprocess.PIPE,
                              timeout=WITHIN, check=False)
        assert told.returncode == 125 and b"ended before sh did (held for more than 0.5 s)" in told.stderr, told
        control.need("freeze lease 0.1", "depth 1")
        soon(lambda: depth_of(server) == 0, "a lease doesn't end")
        control.need("why", "freeze: held for more than 0.1 s")


# ---- Noted ----


def noted_in(journal):
    assert select.select([journal], [], [], WITHIN)[0], "nothing is noted"
    return journal.recv(4096).decode()


def noted(served):
    """Freezes, thaws, settings and refusals are sent to the journal, with the name of the disk and the process that asked."""
    with held_up(served) as (folder, let_go), socket.socket(socket.AF_UNIX, socket.SOCK_DGRAM) as journal:
        let_go()
        path = folder.path("journal")
        journal.bind(path)
        with Server(served, "size=1M", "name=db", f"audit={path}") as server, closing(server.control()) as control:
            control.need("label nightly", "ok")
            asked = rf'pid {os.getpid()} uid {os.getuid()} "nightly"'
            for line, reply, noted_as in (
                ("freeze", "depth 1", r"freeze 1: freeze, after \d+\.\d{3} s, " + asked),
                ("thaw", "depth 0", r"freeze 1: ended by its owner, after \d+\.\d{3} s, " + asked),
                ("set max_sectors 8", "ok", "set: max 8 chunk 0 physical 1, " + asked),
                ("set max_sectors 65536", "EINVAL", "refused: more sectors than the hardware takes, " + asked),
                ("quiesce keep", "depth 1", r"freeze 3: quiesce, after \d+\.\d{3} s, " + asked),
                ("thaw all", "depth 0", rf"freeze 3: ended by thaw all of {asked}, after \d+\.\d{{3}} s, " + asked),
            ):
                control.need(line, reply)
                fields = dict(it.split("=", 1) for it in noted_in(journal).splitlines())
                assert re.fullmatch("blkq db: " + noted_as, fields.pop("MESSAGE")), (line, fields)
                assert fields == {"PRIORITY": "5", "SYSLOG_IDENTIFIER": "blkq", "BLKQ_DISK": "db"}
            with closing(server.control()) as leaving:
                leaving.need("freeze", "depth 1")
            assert "freeze 4: freeze, " in noted_in(journal) and "freeze 4: ended by its connection's end, " in noted_in(journal)


def in_flight(served):
    """Each request in flight has a line, the oldest first, and the metrics have the oldest one's age."""
    with Server(served, backend=shell()) as server, closing(server.control()) as control:
        assert blkqctl(server, "requests") == "" and metrics_of(control)["blkq_oldest_request_seconds"] == 0
        write(server, "held", "pwrite", "pread")
        clients = [server.client(), server.client()]
        cookies = [clients[0].aio_pwrite(nbd.Buffer.from_bytearray(bytearray(1024)), 4096)]
        begun(server, "pwrite")
        cookies.append(clients[1].aio_pread(nbd.Buffer(512), 8192))
        begun(server, "pread")
        told = blkqctl(server, "requests")
        assert re.fullmatch(r"write 1024 at 4096 \d+\.\d{3}\nread 512 at 8192 \d+\.\d{3}\n", told), told
        found = json.loads(blkqctl(server, "--json", "requests"))
        assert [it["operation"] for it in found] == ["write", "read"] and found[0]["length"] == 1024
        assert metrics_of(control)["blkq_oldest_request_seconds"] > 0
        write(server, "held")
        assert done(clients, cookies) == [0, 0] and blkqctl(server, "requests") == ""


def no_journal(served):
    """A journal that isn't there is refused at the start; notes that one doesn't take are counted."""
    with tempfile.TemporaryDirectory() as folder:
        refused = subprocess.run(["nbdkit", "-f", "-U", f"{folder}/nbd", f"--filter={served}", "memory", "1M", f"blkq-control={folder}/control",
                                  f"blkq-audit={folder}/journal"], stderr=subprocess.PIPE, timeout=WITHIN, check=False)
        assert refused.returncode == 1 and f"{folder}/journal: No such file or directory".encode() in refused.stderr, refused
        with closing(socket.socket(socket.AF_UNIX, socket.SOCK_DGRAM)) as journal:
            journal.bind(f"{folder}/journal")
            with Server(served, f"audit={folder}/journal") as server, closing(server.control()) as control:
                control.need("freeze", "depth 1")
                assert metrics_of(control)["blkq_audit_lost_total"] == 0
                os.unlink(f"{folder}/journal")
                control.need("thaw", "depth 0")
                assert metrics_of(control)["blkq_audit_lost_total"] == 1


if __name__ == "__main__":
    run_test(globals())

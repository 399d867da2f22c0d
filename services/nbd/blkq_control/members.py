"""The members of a group: controls on this host, or over ssh on others, which are asked at the same time."""

import os
import re
import select
import shlex
import subprocess
import time
from contextlib import suppress
from urllib.parse import quote, urlsplit

from blkq_control.server import Refused, connected_to

NAME, OF_NO_VARIABLE = re.compile(r"[A-Za-z0-9_.-]+"), re.compile(r"[.-]")


class Failed(Exception):
    """The names of members that failed at a line, and the reason."""

    def __init__(self, members, why):
        super().__init__(f"{', '.join(member.name for member in members)}: {why}")
        self.why = why


def uri_of(export, address, name="", certificates=None):
    """The URI of an export. The backend gets the name after the /."""
    kind, _, place = address.partition(":")
    secure, options = ("s", [f"tls-certificates={quote(certificates)}"]) if certificates else ("", [])
    export = quote(f"{export}/{name}" if name else export)
    if kind == "unix":
        return f"nbd{secure}+unix:///{export}?{'&'.join([f'socket={quote(place)}', *options])}"
    if kind == "tcp":
        return f"nbd{secure}://{place}/{export}" + "".join(f"?{it}" for it in options)
    raise Refused("the server can't tell which socket it listens on")


def ssh(address):
    """The command that carries lines to the control at ssh://[USER@]HOST[:PORT]/PATH."""
    parts = urlsplit(address)
    user = f"{parts.username}@" if parts.username else ""
    port = ["-p", str(parts.port)] if parts.port else []
    return ["ssh", "-o", "BatchMode=yes", *port, "--", f"{user}{parts.hostname}", f"blkqctl {shlex.quote(parts.path)} relay"]


class Member:
    """A disk of a group. Its freezes end when its connection, or its ssh, ends."""

    def __init__(self, words):
        self.name, found, address = words.partition("=")
        self.address, _, self.export = address.partition("#")
        if not found or not NAME.fullmatch(self.name) or not self.address:
            raise ValueError(f"'{words}' isn't NAME=PATH[#EXPORT] or NAME=ssh://[USER@]HOST[:PORT]/PATH")
        self.is_remote = self.address.startswith("ssh://")
        if self.is_remote:
            parts = urlsplit(self.address)
            if not parts.hostname or parts.hostname.startswith("-") or not parts.path or parts.port == 0:
                raise ValueError(f"'{self.address}' isn't ssh://[USER@]HOST[:PORT]/PATH")
        self.variable = f"BLKQ_COPY_{OF_NO_VARIABLE.sub('_', self.name)}"
        self.carrier = self.at = None
        self.heard = b""

    def connect(self, within):
        try:
            if self.is_remote:
                # A session of its own, so that a terminal's Ctrl-C doesn't end the freeze before the command.
                self.carrier = subprocess.Popen(ssh(self.address), stdin=subprocess.PIPE, stdout=subprocess.PIPE, bufsize=0,
                                                start_new_session=True)
            else:
                self.at = connected_to(self.address, within)
        except OSError as refused:
            raise Failed([self], refused.strerror or refused) from refused

    def variables(self, reply, certificates=None):
        """The variable that gives the command this disk's export, if there is one, from the reply to `export`."""
        words = reply.split(" ", 2)
        if words[0] != "export" or words[2] == "none":
            return []
        return [f"{self.variable}={uri_of(words[1], words[2], self.export, certificates)}"]

    def reads(self):
        return (self.at or self.carrier.stdout).fileno()

    def send(self, line):
        writes = (self.at or self.carrier.stdin).fileno()
        try:
            os.write(writes, line.encode() + b"\n")
        except OSError as lost:
            raise Failed([self], self.gone()) from lost

    def gone(self):
        if not self.is_remote:
            return "the server has gone"
        with suppress(subprocess.TimeoutExpired):
            return f"ssh ended with status {self.carrier.wait(1)}"
        return "ssh has ended"

    def replies(self, count):
        """The next `count` lines, or None if they aren't complete yet."""
        more = b""
        with suppress(OSError):
            more = os.read(self.reads(), 4096)
        if not more:
            raise Failed([self], self.gone())
        self.heard += more
        if self.heard.count(b"\n") < count:
            return None
        *lines, self.heard = self.heard.split(b"\n", count)
        return [line.decode("ascii", "replace") for line in lines]

    def close(self):
        """Closes the connection, which ends its freezes."""
        if self.at:
            self.at.close()
        if self.carrier:
            self.carrier.stdin.close()
            self.carrier.stdout.close()

    def wait(self):
        """Waits for ssh, which has nothing left to do, and kills it after 2 s."""
        if self.carrier:
            try:
                self.carrier.wait(2)
            except subprocess.TimeoutExpired:
                self.carrier.kill()
                self.carrier.wait()


def ask_all(asked, late, overdue):
    """Sends each member the lines that it is asked. Yields each with its replies as they come, or with none and the reason, which is `overdue` at
    the time `late`."""
    poll, waiting = select.poll(), {}
    for member, lines in asked.items():
        try:
            member.send("\n".join(lines))
            poll.register(member.reads(), select.POLLIN)
            waiting[member.reads()] = member
        except Failed as failed:
            yield member, None, failed.why
    while waiting:
        found = poll.poll(max(0.0, late - time.monotonic()) * 1e3)
        if not found and time.monotonic() >= late:
            yield from ((member, None, overdue) for member in waiting.values())
            return
        for at, _ in found:
            try:
                replies, why = waiting[at].replies(len(asked[waiting[at]])), None
            except Failed as failed:
                replies, why = None, failed.why
            if replies is not None or why is not None:
                poll.unregister(at)
                yield waiting.pop(at), replies, why


def need_all(asked, wanted, late, overdue):
    """Sends each member the lines that it is asked, and returns its replies, of which the first has to begin with `wanted`. Failed names the first
    member that refuses, or all that are overdue."""
    told, overdue_ones = {}, []
    for member, replies, why in ask_all(asked, late, overdue):
        if why == overdue:
            overdue_ones.append(member)
        elif why is not None or replies[0].split(" ")[0] != wanted:
            raise Failed([member], why or replies[0])
        else:
            told[member] = replies
    if overdue_ones:
        raise Failed(overdue_ones, overdue)
    return told

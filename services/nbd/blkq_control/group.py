"""Freezes several disks at one moment."""

import json
import time

from blkq_control.command import Command, Ended, Unheard, raised_signals, run
from blkq_control.held import tell
from blkq_control.live import END, PREPARE, TAKE, connected, freeze_for
from blkq_control.members import Failed, ask_all, need_all
from blkq_control.server import NOT_HELD, Missing, Refused

ANSWERED_WITHIN = 30.0  # seconds for a connection, and for a thaw


def how_ended(reply, why):
    """How a freeze ended before its thaw got this reply; `why` tells more if the freeze ended by itself."""
    kind, _, more = why.partition(": ")
    return more if kind == "freeze" else reply


class Group:
    """A freeze of all members around a command: how it went, and how long clients waited."""

    def __init__(self, given):
        self.given, self.members = given, given.members
        self.began = self.frozen = self.flushed = self.ended = None
        self.lost, self.keepers = {}, []

    def ask(self, line):
        return {member: [line] for member in self.members}

    def connect(self):
        within = self.given.timeout or ANSWERED_WITHIN
        for member in self.members:
            member.connect(within)
        late = time.monotonic() + within
        label = self.given.label or f"group of {len(self.members)}"
        need_all(self.ask(f"label {label}"), "ok", late, f"no reply within {within:g} s")

    def freeze(self):
        """Freezes all members at the same time, then flushes all at the same time, before one deadline. Returns the command's variables, each naming
        an export of a disk on this host."""
        seconds = self.given.deadline
        self.began = time.monotonic()
        late = self.began + seconds
        need_all(self.ask(f"freeze hold {self.given.hold:.9f}"), "depth", late, f"drain took more than {seconds:g} s")
        self.frozen = time.monotonic()
        asked = {member: ["flush"] if member.is_remote else ["flush", "export"] for member in self.members}
        told = need_all(asked, "ok", late, f"not flushed {seconds:g} s after the freeze began")
        self.flushed = time.monotonic()
        return [it for member, replies in told.items() for it in member.variables(replies[-1])]

    def prepare(self):
        """Prepares a snapshot of each member. Returns the command's variables."""
        late = time.monotonic() + (self.given.timeout or ANSWERED_WITHIN)
        once = " once" if self.given.once else ""
        variables = []
        for member, replies in need_all(self.ask(PREPARE + once), "export", late, "no snapshot").items():
            variables += member.variables(replies[0], self.given.tls_certificates)
            try:
                self.keepers.append(connected(variables[-1].partition("=")[2]))
            except (Refused, Missing) as refused:
                raise Failed([member], str(refused)) from refused
        return variables

    def take(self):
        """Takes snapshots of all members at one moment, at which all are frozen. Returns the command's variables, each naming a snapshot's export."""
        variables, seconds = self.prepare(), self.given.deadline
        self.began = time.monotonic()
        late = self.began + seconds
        need_all(self.ask(f"freeze hold {seconds:.9f}"), "depth", late, f"drain took more than {seconds:g} s")
        self.frozen = time.monotonic()
        if freeze_for(self.keepers) == "quiesce":
            need_all(self.ask("flush"), "ok", late, f"not flushed {seconds:g} s after the freeze began")
        self.flushed = time.monotonic()
        need_all(self.ask(TAKE), "ok", late, f"no snapshot {seconds:g} s after the freeze began")
        self.thaw()
        if self.lost:
            raise Failed([it for it in self.members if it.name in self.lost], "the freeze ended before the snapshots were taken")
        return variables

    def drop(self):
        """Ends all snapshots. One that can't be read any more is lost, and says why."""
        late = time.monotonic() + (self.given.timeout or ANSWERED_WITHIN)
        for member, replies, why in ask_all(self.ask(END), late, "no reply"):
            if why is not None or not replies[0].startswith("snapshot "):
                self.lost[member.name] = why or replies[0].removeprefix("lost ")

    def thaw(self):
        """Thaws all members at the same time. A member whose freeze ended earlier is lost, and says how it ended."""
        late = time.monotonic() + (self.given.timeout or ANSWERED_WITHIN)
        ends = [self.frozen or self.began]
        for member, replies, why in ask_all({it: ["thaw", "why"] for it in self.members}, late, "no reply to the thaw"):
            is_lost = why is not None or not replies[0].startswith("depth ")
            if is_lost:
                self.lost[member.name] = why or how_ended(*replies)
            held_out = is_lost and self.lost[member.name].startswith("held for more than ")
            ends.append(self.frozen + self.given.hold if held_out else time.monotonic())
        self.ended = max(ends)

    def run(self):
        """Runs the command under the freeze, or over snapshots. Returns its status, or 125 if one of them ended before it did."""
        child, live = Command(self.given.command), self.given.live
        begin, end = (self.take, self.drop) if live else (self.freeze, self.thaw)
        try:
            self.connect()
            status = child.run(variables=begin())
            end()
        finally:
            for member in self.members:
                member.close()
            for keeper in self.keepers:
                keeper.shutdown()
            self.ended = self.ended or time.monotonic()
            child.end()
        for name, why in self.lost.items():
            tell(f"{name}: the {'snapshot' if live else 'freeze'} ended before {self.given.command[0]} did ({why}): the copies may be torn")
        return NOT_HELD if self.lost else status

    def held(self):
        """The number of seconds for which clients waited."""
        return self.ended - self.began if self.began else 0.0

    def told(self, status, why):
        """What --json prints."""
        lost = {member.name: self.lost.get(member.name) for member in self.members}
        found = {"status": status, "held_seconds": round(self.held(), 6), "rolled_back": why, "lost": lost}
        if self.flushed:
            found.update(freeze_seconds=round(self.frozen - self.began, 6), flush_seconds=round(self.flushed - self.frozen, 6))
        return json.dumps(found)


def run_hooks(hooks, goes_on):
    """Runs shell commands one after another. Returns the first that failed; the others still run if goes_on is set."""
    failed = None
    for hook in hooks:
        status = run(["sh", "-c", hook])
        if status != 0:
            tell(f"'{hook}' ended with status {status}")
            failed = failed or hook
            if not goes_on:
                break
    return failed


def around(found, given):
    """Runs the group after its --before hooks. Returns its status, and the reason for a roll-back."""
    try:
        failed = run_hooks(given.before, False)
        if failed:
            return NOT_HELD, f"--before '{failed}' failed"
        return found.run(), None
    except Failed as failed:
        return NOT_HELD, str(failed)
    except Unheard:
        return NOT_HELD, "nobody reads the output"
    except Ended as ended:
        return 128 + ended.args[0], f"signal {ended.args[0]}"


def group(given):
    """Freezes all members, runs the command, and thaws all."""
    found = Group(given)
    with raised_signals():
        try:
            status, why = around(found, given)
        finally:
            failed = run_hooks(given.after, True)
    if why:
        tell(f"rolled back: {why} (held {found.held():.1f} s)")
    if failed:
        status = NOT_HELD
    if given.verbose and found.flushed:
        tell(f"frozen in {found.frozen - found.began:.3f} s, flushed in {found.flushed - found.frozen:.3f} s, held {found.held():.3f} s")
    if given.json:
        print(found.told(status, why))
    for member in given.members:
        member.wait()
    return status

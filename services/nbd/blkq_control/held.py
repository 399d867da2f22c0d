"""Freezes one disk, around a command or until later."""

import json
import sys
import time

from blkq_control.command import Command, Unheard
from blkq_control.server import DONE, NOT_HELD, Gone, Late, Refused


HOLD = 60.0  # seconds of a freeze around a command, unless --hold is given


def tell(text):
    print(f"blkqctl: {text}", file=sys.stderr)


class Held:
    """A freeze around a command: its times, and how it was lost, if it was."""

    def __init__(self, given):
        self.given, self.command = given, given.command
        self.asked, self.began, self.ended, self.lost = time.monotonic(), None, None, None

    def fail(self, text):
        self.lost = text
        tell(f"{self.given.socket}: {text}")
        return NOT_HELD

    def run(self, server, line):
        """Freezes, runs the command, and thaws. The freeze may have ended by then, by --lease or another's `thaw all`."""
        child = Command(self.command)
        try:
            server.label(self.given.label)
            server.ask(line, "depth")
            self.began = time.monotonic()
            status = child.run(server=server.at.fileno())
        except (Refused, Gone, Late) as refused:
            return self.fail(f"{line}: {refused}" if self.began is None else f"{refused}: {self.command[0]} was killed")
        except Unheard:
            return NOT_HELD
        finally:
            child.end()
        self.ended = time.monotonic()
        try:
            server.thaw()
        except (Refused, Gone, Late) as lost:
            return self.fail(f"the freeze ended before {self.command[0]} did ({lost}): a copy may be torn")
        return status

    def tell_times(self, status):
        """Prints what -v and --json ask for."""
        name, taken = self.given.name, self.began and self.began - self.asked
        command = self.ended and self.ended - self.began
        if self.given.verbose and self.ended:
            tell(f"the {name} took {taken:.2f} s, and {self.command[0]} {command:.2f} s")
        if self.given.json:
            print(json.dumps({"status": status, f"{name}_seconds": taken, "command_seconds": command, "lost": self.lost}))


def freeze(server, given):
    """Begins a freeze, around a command or until later. A freeze around a command always ends with this program."""
    bound, seconds = ("hold", given.hold or HOLD) if given.command else ("lease", given.hold)
    how = " keep" if given.keep else f" {bound} {seconds:.9f}"
    if given.command:
        held = Held(given)
        status = held.run(server, given.name + how)
        held.tell_times(status)
        return status
    server.label(given.label)
    asked = time.monotonic()
    reply = server.ask(given.name + how, "depth")
    taken, number = time.monotonic() - asked, int(server.ask("number", "number").split()[1])
    print(json.dumps({"depth": int(reply.split()[1]), "number": number, f"{given.name}_seconds": taken}) if given.json else f"{reply} number {number}")
    if given.verbose:
        tell(f"the {given.name} took {taken:.2f} s")
    return DONE

"""Runs a command while disks are frozen."""

import ctypes
import os
import select
import shutil
import signal
import sys
from contextlib import contextmanager, suppress

from blkq_control.server import NOT_FOUND, NOT_RUN, Gone

PR_SET_PDEATHSIG = 1  # of Linux


class Unheard(Exception):
    """Nobody reads this program's output any more, as when the ssh that started it has ended."""


class Overdue(Exception):
    """A command took too long and was killed."""


class Ended(Exception):
    """A signal, by number, that ends this program."""


@contextmanager
def raised_signals():
    """Raises Ended at a signal that would end this program, so that cleanup runs first."""

    def end(number, _):
        raise Ended(number)

    before = {number: signal.signal(number, end) for number in (signal.SIGTERM, signal.SIGHUP, signal.SIGINT)}
    try:
        yield
    finally:
        for number, handler in before.items():
            signal.signal(number, handler)


LEAVES_WITHIN = 5.0  # seconds for a command that can't go on
PASSED_ON = (signal.SIGTERM, signal.SIGHUP, signal.SIGINT)


def execute(file, words, variables, said):
    """Becomes the program in a file, with these variables and those sent with the start message."""
    variables.update(it.split(b"=", 1) for it in said.split(b"\0")[1:])
    os.execvpe(file, words, variables)


def become(words, go, ready, parent):
    """Runs in the child: waits for the start message, which has the command's variables, and becomes the command.

    Linux kills the child if its parent is killed, since the freeze has ended then. Clients wait from that message on, so the program is looked up
    before it, and a first try, which fails, has Linux copy the memory that the second one writes."""
    try:
        for number in (*PASSED_ON, signal.SIGPIPE, signal.SIGXFSZ):
            signal.signal(number, signal.SIG_DFL)
        ctypes.CDLL(None).prctl(PR_SET_PDEATHSIG, signal.SIGKILL)
        found, variables = shutil.which(words[0]) or words[0], dict(os.environb)
        with suppress(OSError):
            execute("/", words, variables, b"go")
        os.close(ready)
        said = os.read(go, 65536)
        if os.getppid() == parent and said:
            execute(found, words, variables, said)
    except OSError as refused:
        os.write(2, f"blkqctl: {words[0]}: {refused.strerror}\n".encode())
        os._exit(NOT_FOUND if isinstance(refused, FileNotFoundError) else NOT_RUN)
    finally:
        os._exit(NOT_RUN)


class Command:
    """A command whose process waits before the freeze begins, so that clients don't wait for its creation."""

    def __init__(self, words):
        sys.stdout.flush()
        parent, (reads, self.go), (waits, ready) = os.getpid(), os.pipe(), os.pipe()
        self.pid = os.fork()
        if self.pid == 0:
            os.close(self.go)
            become(words, reads, ready, parent)
        os.close(reads)
        os.close(ready)
        os.read(waits, 1)  # returns once the child has closed its end
        os.close(waits)
        self.status = self.passed = self.leave = None

    def wait(self, within, server):
        """Waits until the command ends. Ends it once nobody reads this program's output, after this many seconds, or if the server's connection, unless
        None, ends."""
        ended, poll = os.pidfd_open(self.pid), select.poll()
        poll.register(ended, select.POLLIN)
        poll.register(1, 0)
        if server is not None:
            poll.register(server, select.POLLRDHUP)
        try:
            while True:
                found = dict(poll.poll(within and within * 1e3))
                if ended in found:
                    return
                if found.get(1) == select.POLLNVAL:
                    poll.unregister(1)
                    continue
                if self.leave and server not in found:
                    self.lets_go()
                    select.select([ended], [], [], LEAVES_WITHIN)
                with suppress(ProcessLookupError):
                    os.kill(self.pid, signal.SIGKILL)
                raise Gone("the server has gone") if server in found else Unheard if found else Overdue
        finally:
            os.close(ended)

    def lets_go(self):
        """Ends what the command reads, so that it ends by itself: nbdkit 1.32 may abort where it is killed. Once."""
        leave, self.leave = self.leave, None
        leave()

    def pass_on(self, number, _):
        self.passed = number
        if self.status is None and self.leave:
            self.lets_go()
        elif self.status is None:
            with suppress(ProcessLookupError):
                os.kill(self.pid, number)

    def run(self, within=None, variables=(), server=None, leave=None):
        """Runs the command with these additional variables, and returns its status. Passes signals that would end this program on to it, or calls `leave`
        at the first."""
        self.leave = leave
        before = {number: signal.signal(number, self.pass_on) for number in PASSED_ON}
        try:
            os.write(self.go, "\0".join(["go", *variables]).encode())
            self.wait(within, server)
        finally:
            status = self.end()
            for number, handler in before.items():
                signal.signal(number, handler)
        return status

    def end(self):
        """Waits until the command ends; a command that wasn't run ends at once. Returns its status, or 128 plus the signal that ended it."""
        if self.status is None:
            os.close(self.go)
            status = os.waitstatus_to_exitcode(os.waitpid(self.pid, 0)[1])
            self.status = 128 - status if status < 0 else status
        return self.status


def run(words):
    return Command(words).run()

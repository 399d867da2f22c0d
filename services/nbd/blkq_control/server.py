"""A connection to the control of a server."""

import socket
import time

DONE, REFUSED, USAGE, NO_SERVER, TIMED_OUT = 0, 1, 2, 3, 4
NOT_HELD, NOT_RUN, NOT_FOUND = 125, 126, 127  # with a COMMAND


class Refused(Exception):
    """The server's reply to a line that it refuses."""


class Gone(Exception):
    """The server has closed the connection."""


class Late(Exception):
    """The server hasn't replied in time."""


class Missing(Exception):
    """A program or a module that isn't installed."""


def connected_to(path, timeout):
    """A connection to a control. A server whose backlog is full is waited for, within the timeout."""
    at, late = socket.socket(socket.AF_UNIX), timeout and time.monotonic() + timeout
    at.settimeout(timeout)
    while True:
        try:
            at.connect(path)
            return at
        except BlockingIOError:
            if time.monotonic() > late:
                at.close()
                raise TimeoutError(f"no connection within {timeout:g} s") from None
            time.sleep(0.01)
        except OSError:
            at.close()
            raise


class Server:
    """A connection to the control's socket. Its freezes end with it."""

    def __init__(self, path, timeout=None):
        self.timeout, self.at = timeout, connected_to(path, timeout)
        self.replies = self.at.makefile("r", encoding="ascii")

    def send(self, line):
        try:
            self.at.sendall(line.encode() + b"\n")
        except OSError as lost:
            raise Gone("the server has gone") from lost

    def reply(self):
        """The next line of a reply."""
        try:
            line = self.replies.readline()
        except TimeoutError as late:
            raise Late(f"no reply within {self.timeout:g} s") from late
        except OSError as lost:
            raise Gone("the server has gone") from lost
        if not line.endswith("\n"):
            raise Gone("the server has gone")
        return line.rstrip("\n")

    def ask(self, line, *wanted):
        """Sends a line and returns its reply, which has to begin with one of these words."""
        self.send(line)
        reply = self.reply()
        if reply == "EINVAL":
            self.send("why")
            raise Refused(f"{reply}: {self.reply()}")
        if reply.split(" ")[0] not in wanted:
            raise Refused(reply)
        return reply

    def thaw(self):
        """Thaws a freeze of this connection. Refused says how the freeze ended if it ended earlier."""
        try:
            self.ask("thaw", "depth")
        except Refused as refused:
            self.send("why")
            why, _, more = self.reply().partition(": ")
            raise Refused(more if why == "freeze" else refused) from refused

    def within(self, seconds):
        """Limits each reply from now on."""
        self.timeout = seconds
        self.at.settimeout(seconds)

    def label(self, text):
        if text:
            self.ask(f"label {text}", "ok")

    def list(self, line):
        """Sends a line and returns the lines of its reply, including the last one, '# EOF'."""
        self.send(line)
        lines = []
        while not lines or lines[-1] != "# EOF":
            lines.append(self.reply())
        return lines

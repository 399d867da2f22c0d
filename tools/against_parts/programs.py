"""Runs a program on an input, with limits on its time and output."""

import os
import selectors
import shlex
import signal
import subprocess
import time


class CannotStart(Exception):
    """A program that can't be started."""


class Outcome:
    """What a program did with an input: how it ended, and what it wrote. `seconds` is how long that took."""

    def __init__(self, ended, answer, errors, seconds):
        self.ended, self.answer, self.seconds = ended, answer, seconds
        # Of standard error the last line counts, and that only where the input is refused.
        self.fault = (errors.decode(errors="backslashreplace").strip().splitlines() or [""])[-1]

    def is_refusal(self):
        return self.ended in ("status 2", "status 3") and not self.answer

    def differs(self, other):
        """Whether two programs did different things."""
        if self.ended != other.ended or self.answer != other.answer:
            return True
        return self.is_refusal() and self.fault != other.fault


def ended(status):
    """How a program ended, in words."""
    if status >= 0:
        return f"status {status}"
    try:
        return f"died of signal {-status}, {signal.Signals(-status).name}"
    except ValueError:
        return f"died of signal {-status}"


class Program:
    """A command with its words, started anew for each input, which is its standard input."""

    def __init__(self, words):
        self.words = words

    @classmethod
    def of_text(cls, text):
        """The command that a text spells, as a shell splits it."""
        return cls(shlex.split(text))

    def start(self, path):
        return Run(self.words, path)


class Run:
    """A program under way."""

    def __init__(self, words, path):
        self.began = time.monotonic()
        try:
            with open(path, "rb") as file:
                # In a group of its own, so that what it starts ends with it.
                self.process = subprocess.Popen(
                    words, stdin=file, stdout=subprocess.PIPE, stderr=subprocess.PIPE, start_new_session=True
                )
        except (OSError, ValueError) as why:
            raise CannotStart(f"{' '.join(words)}: {why}") from None

    def outcome(self, limit, most):
        """What it did, where it may take so many seconds, and write so many bytes."""
        try:
            what, answer, errors = self.read(limit, most)
        finally:
            self.end()
        if what is None:
            what = ended(self.process.returncode)
        return Outcome(what, answer, errors, time.monotonic() - self.began)

    def read(self, limit, most):
        """How it broke its bounds, None where it ended by itself, and what it wrote to either stream."""
        written = {self.process.stdout: bytearray(), self.process.stderr: bytearray()}
        with selectors.DefaultSelector() as waits:
            for stream in written:
                waits.register(stream, selectors.EVENT_READ)
            while waits.get_map():
                left = self.began + limit - time.monotonic()
                ready = waits.select(left) if left > 0 else []
                if not ready:
                    return self.told("hangs", written)
                for key, _ in ready:
                    part = os.read(key.fd, 1 << 16)
                    written[key.fileobj] += part
                    if not part:
                        waits.unregister(key.fileobj)
                if any(len(bytes_) > most for bytes_ in written.values()):
                    return self.told("prints without end", written)
        try:
            self.process.wait(max(0.01, self.began + limit - time.monotonic()))
        except subprocess.TimeoutExpired:
            return self.told("hangs", written)
        return self.told(None, written)

    def told(self, what, written):
        return what, bytes(written[self.process.stdout]), bytes(written[self.process.stderr])

    def end(self):
        """Ends it and what it has started, as far as that is still there."""
        try:
            os.killpg(self.process.pid, signal.SIGKILL)
        except ProcessLookupError:
            pass
        self.process.wait()
        self.process.stdout.close()
        self.process.stderr.close()

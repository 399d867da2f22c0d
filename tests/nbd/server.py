"""Starts nbdkit with the plugin, or with the filter before a backend, in a folder of its own; connects to its control."""

import os
import signal
import socket
import subprocess
import sys
import tempfile
import time
from contextlib import suppress

import nbd

# The seconds after which a try takes what it waits for as never coming. A starved machine takes minutes for what is done in a second here.
WITHIN = float(os.environ.get("WITHIN", "300"))
STARTS_WITHIN = 300.0  # also where WITHIN is less

# Words before nbdkit, as valgrind and its options.
CHECKED = os.environ.get("CHECKED", "").split()


# A sanitizer's report leaves the status to nbdkit: the report is looked at.
QUIET = {name: "exitcode=0" for name in ("ASAN_OPTIONS", "LSAN_OPTIONS", "TSAN_OPTIONS")}


def faults(told, plugin):
    """The parts of a sanitizer's report that tell of the plugin. (nbdkit may end before it frees its connections.)"""
    leaks = [part for part in told.split("\n\n") if " leak of " in part and plugin in part]
    return leaks + [line for line in told.split("\n") if "runtime error:" in line or "WARNING: Thread" in line
                    or ("ERROR: " in line and "Sanitizer" in line and "LeakSanitizer" not in line)]


def in_memory():
    """A folder in memory with room for a disk and its copies, if there is one."""
    place, needed = "/dev/shm", 1 << 29
    if not os.access(place, os.W_OK | os.X_OK):
        return None
    room = os.statvfs(place)
    return place if room.f_bavail * room.f_frsize >= needed else None


def soon(is_so, why, within=WITHIN):
    """Waits until a condition holds."""
    late = time.monotonic() + within
    while not is_so():
        assert time.monotonic() < late, why
        time.sleep(0.01)


def run_test(tests):
    """Runs the test that the command line names. Whatever doesn't come in time, or is cut off, fails it as an assertion does."""
    try:
        tests[sys.argv[2]](sys.argv[1])
    except (subprocess.TimeoutExpired, TimeoutError) as late:
        raise AssertionError(f"it hangs: {late}") from late
    except ConnectionError as gone:
        raise AssertionError(f"the server has gone: {gone}") from gone


class Control:
    """A connection to the control's socket."""

    def __init__(self, path):
        self.at = socket.socket(socket.AF_UNIX)
        try:
            self.at.connect(path)
        except OSError:
            self.at.close()
            raise
        self.replies = self.at.makefile("r", encoding="ascii")

    def reply(self):
        """The next line of a reply."""
        line = self.replies.readline()
        if not line:
            raise ConnectionError("the server has closed the control")
        return line.rstrip("\n")

    def ask(self, line):
        self.at.sendall(line.encode() + b"\n")
        return self.reply()

    def lines(self, line):
        """Sends a line and returns the lines of its reply, including the last one, '# EOF'."""
        found = [self.ask(line)]
        while found[-1] != "# EOF":
            found.append(self.reply())
        return found

    def need(self, line, reply):
        found = self.ask(line)
        assert found == reply, f"{line!r} is answered {found!r}, not {reply!r}"

    def close(self):
        self.replies.close()
        self.at.close()


class Server:
    """Serves until the end of the block, and then checks the status and standard error. The filter is placed before the file plugin on
    `size` bytes (64M), or before the filters and plugin in `backend`, in which {folder} is the server's folder; and after the filters
    in `outer`."""

    def __init__(self, served, *parameters, backend=None, outer=(), wait=True):
        self.served, self.plugin = served, os.path.basename(served)
        self.folder = tempfile.TemporaryDirectory()
        self.socket, self.control_path = self.path("nbd"), self.path("control")
        self.watched, self.disk = self.path("watched"), self.path("disk")
        self.uri = f"nbd+unix:///?socket={self.socket}"
        self.errors = open(self.path("errors"), "w+b")
        sanitizer = {"LD_PRELOAD": os.environ["PRELOAD"], **QUIET} if os.environ.get("PRELOAD") else {}
        given = {**os.environ, **sanitizer, "WATCHED": self.watched}
        words = self.words(parameters, backend, outer)
        command = [*CHECKED, "nbdkit", "-f", "-U", self.socket, *words]
        self.process = subprocess.Popen(command, stderr=self.errors, env=given)
        self.clients = []
        if wait:
            self.wait_for_control()

    def path(self, name):
        return os.path.join(self.folder.name, name)

    def words(self, parameters, backend, outer):
        """The arguments of nbdkit after its own options."""
        given = {"control": self.control_path}
        given.update(parameter.split("=", 1) for parameter in parameters)
        self.control_path = given["control"]
        if "filter" not in self.plugin:
            return [self.served, *(f"{key}={value}" for key, value in given.items())]
        subprocess.run(["truncate", "-s", given.pop("size", "64M"), self.disk], check=True)
        backend = backend or ["file", "{folder}/disk"]
        ours = [f"blkq-{key.replace('_', '-')}={value}" for key, value in given.items()]
        backend = [word.replace("{folder}", self.folder.name) for word in backend]
        return [*(f"--filter={name}" for name in outer), f"--filter={self.served}", *backend, *ours]

    def wait_for_control(self):
        """Waits until the control answers. nbdkit answered earlier."""
        late = time.monotonic() + STARTS_WITHIN
        while True:
            assert self.process.poll() is None, self.said()
            assert time.monotonic() < late, "the server doesn't start"
            try:
                control = self.control()
            except OSError:
                time.sleep(0.01)
                continue
            control.ask("stat")
            return control.close()

    def said(self):
        self.errors.flush()
        with open(self.errors.name, encoding="utf-8", errors="replace") as file:
            return file.read()

    def control(self):
        return Control(self.control_path)

    def client(self):
        """Opens a connection, which is closed before the end, since nbdkit waits for idle clients."""
        client = nbd.NBD()
        client.connect_unix(self.socket)
        self.clients.append(client)
        return client

    def drop(self, client):
        """Cuts a client's connection, in the middle of a request."""
        self.clients.remove(client)
        with socket.socket(fileno=os.dup(client.aio_get_fd())) as connection:
            connection.shutdown(socket.SHUT_RDWR)

    def processor_time(self):
        """Processor time of the server's threads so far, in seconds."""
        with open(f"/proc/{self.process.pid}/stat", encoding="ascii") as file:
            fields = file.read().rpartition(")")[2].split()
        return (int(fields[11]) + int(fields[12])) / os.sysconf("SC_CLK_TCK")

    def end(self, within=300.0):
        """Sends SIGTERM, and waits until the server has ended, which has to be with status 0."""
        for client in self.clients:
            with suppress(nbd.Error):  # one that ends already may have closed the connection
                client.shutdown()
        self.process.send_signal(signal.SIGTERM)
        try:
            status = self.process.wait(within)
        except subprocess.TimeoutExpired:
            self.process.kill()
            self.process.wait()
            raise AssertionError(f"the server doesn't end within {within} seconds") from None
        told = self.said()
        self.errors.close()
        assert status == 0, f"the server ended with status {status}: {told}"
        assert not faults(told, self.plugin), told
        assert "queue: " not in told, told  # what the queue refuses at the end, as where a tag is out
        assert not os.path.exists(self.control_path), "the control's socket stays"
        self.folder.cleanup()

    def __enter__(self):
        return self

    def __exit__(self, failed, *_):
        if failed is None:
            self.end()
            return
        print(self.said(), file=sys.stderr)  # of a server that ended by itself, the reason
        if self.process.poll() is None:
            self.process.kill()
            self.process.wait()

"""Backends, made of nbdkit's eval plugin and pause filter, that a test can hold up and release, that fail on demand, and that record what they
do."""

import os
import select
import socket

from server import Server

# Each call of the shell's backend, with its words as nbdkit gives them ($2: the connection, $3 and $4: count and offset). All are one
# line of {folder}/done; the ones in {folder}/held wait while that file has their name.
CALL = 'echo {name} $2 $4 $3 >>{{folder}}/done; while grep -qs {name} {{folder}}/held; do sleep 0.02; done; {rest}'


def shell(*words, **rest):
    """The arguments of a backend of a mebibyte that stores nothing; rest has what a call also does. A call fails with ENOSPC if
    {folder}/full has a line with its name and offset."""
    full = 'grep -qsx "$1 $4" {folder}/full && echo ENOSPC full >&2 && exit 1; '
    given = {"pread": full + "head -c $3 /dev/zero", "pwrite": "cat >/dev/null; " + full, "trim": full, "zero": full, "cache": full,
             "flush": 'grep -qsx "$2" {folder}/unflushed && echo ENOSPC full >&2 && exit 1; '}
    able = [f"can_{name}=exit 0" for name in ("write", "trim", "zero", "flush")]
    calls = [f"{name}=" + CALL.format(name=name, rest=rest.get(name, "") + does + "true" * (name != "pread"))
             for name, does in given.items()]
    return [*words, "eval", f"thread_model=echo {rest.get('model', 'parallel')}", "get_size=echo 1M", "open=echo $$",
            "can_cache=echo native", *able, *calls]


def done_by(server, *names):
    """The calls of these names so far: name, connection, offset and count."""
    if not os.path.exists(server.path("done")):
        return []
    with open(server.path("done"), encoding="ascii") as file:
        found = [line.split() for line in file]
    return [(it[0], it[1], *map(int, it[2:])) for it in found if it[0] in names]


def write(server, name, *lines):
    """Writes lines into a file of the server's folder in one step."""
    with open(server.path("new"), "w", encoding="ascii") as file:
        file.writelines(f"{line}\n" for line in lines)
    os.rename(server.path("new"), server.path(name))


def is_answered(control, within):
    """Whether a line of a reply comes within this many seconds."""
    return bool(select.select([control.at], [], [], within)[0])


class Paused(Server):
    """The filter before nbdkit's pause filter, and a disk in memory."""

    def __init__(self, served, *parameters):
        words = ["--filter=pause", "memory", "1M", "pause-control={folder}/pause"]
        super().__init__(served, *parameters, backend=words)
        self.pausing = socket.socket(socket.AF_UNIX)
        self.pausing.connect(self.path("pause"))

    def tell(self, letter):
        """Holds up each request that comes to the backend from now on (p), and lets them go (r)."""
        self.pausing.sendall(letter)
        assert self.pausing.recv(1) == letter.upper()

    def __exit__(self, *failed):
        super().__exit__(*failed)
        self.pausing.close()  # now: the pause filter's thread would wake where nbdkit has unloaded it

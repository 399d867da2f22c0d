"""Snapshots, which are read while clients write."""

import json
import os
import time
from contextlib import contextmanager, suppress

from blkq_control.members import uri_of
from blkq_control.server import Missing, Refused

PREPARE, TAKE, END = "snapshot prepare", "snapshot on", "snapshot off"
READ_AT_ONCE, ASKED_AT_ONCE = 1 << 18, 1 << 30  # bytes
ASKED_WITHIN = 2.0  # seconds
HOLE, ZERO = 1, 2  # of base:allocation


def client():
    """libnbd, which is needed for snapshots alone."""
    try:
        import nbd
    except ModuleNotFoundError as missing:
        raise Missing("there is no nbd for Python (apt-get install python3-libnbd)") from missing
    return nbd


def connected(uri, *contexts):
    """A connection to an export, with these contexts of metadata."""
    nbd = client()
    made = nbd.NBD()
    try:
        for context in contexts:
            made.add_meta_context(context)
        made.set_uri_allow_local_file(True)  # for the certificates
        made.connect_uri(uri)
    except nbd.Error as refused:
        raise Refused(f"{uri}: {refused.string}") from refused
    return made


def need_answer(uri):
    """Raises Refused if a server can't be read, as one that asks for TLS. Opens no disk. Without libnbd, or if no answer comes, it may be or not."""
    with suppress(Missing):
        nbd = client()
        asking = nbd.NBD()
        try:
            asking.set_uri_allow_local_file(True)
            asking.set_opt_mode(True)
            asking.aio_connect_uri(uri)
            late = time.monotonic() + ASKED_WITHIN
            while asking.aio_is_connecting() and time.monotonic() < late:
                asking.poll(100)
            if asking.aio_is_negotiating():
                asking.opt_list(lambda *_: 0)
                asking.opt_abort()
        except nbd.Error as refused:
            raise Refused(f"{uri}: {refused.string}; if the server asks for TLS, give --tls-certificates") from refused


def freeze_for(keepers):
    """The line that freezes for snapshots. If the backend's connections may see different bytes, it flushes too."""
    return "freeze" if all(it.can_multi_conn() for it in keepers) else "quiesce"


@contextmanager
def prepared(server, given, *how):
    """Prepares a snapshot, and yields its URI and its keeper: a connection through which the server reads what a client is about to overwrite. The snapshot
    ends with the block."""
    _, export, address = server.ask(" ".join([PREPARE, *how]), "export").split(" ", 2)
    uri = uri_of(export, address, given.export, given.tls_certificates)
    keeper = connected(uri)
    try:
        yield uri, keeper
    finally:
        keeper.shutdown()


# ---- Copies that go by changes ----


class Last:
    """The last copy at a path, and its name for the server, which knows what has changed since. A file beside the copy has both."""

    def __init__(self, path):
        self.path, self.base, self.name = path, f"{path}.base", ""
        with suppress(OSError, ValueError, KeyError, TypeError):
            with open(self.base, encoding="ascii") as file:
                found = json.load(file)
            if (found["size"], found["modified"]) == self.state():
                self.name = found["name"]

    def state(self):
        found = os.stat(self.path)
        return found.st_size, found.st_mtime_ns

    def write(self, name):
        """Notes that the path has the copy of this name."""
        size, modified = self.state()
        with open(f"{self.base}.new", "w", encoding="ascii") as file:
            json.dump({"name": name, "size": size, "modified": modified}, file)
            file.flush()
            os.fsync(file.fileno())
        os.rename(f"{self.base}.new", self.base)


def copy_changes(uri, at):
    """Reads what has changed since the last copy into a file that has that copy. Returns how many bytes."""
    nbd, copied, offset = client(), 0, 0
    reading = connected(uri, "base:allocation")
    try:
        size = reading.get_size()
        os.ftruncate(at, size)
        while offset < size:
            found = []
            reading.block_status(min(size - offset, ASKED_AT_ONCE), offset, lambda _, __, entries, ___: found.extend(entries))
            for length, flags in zip(found[::2], found[1::2]):
                end = min(offset + length, size)
                if flags != HOLE:
                    copied += end - offset
                    copy_part(reading, at, offset, end, flags & ZERO)
                offset = end
    except nbd.Error as refused:
        raise Refused(f"{refused.string}") from refused
    finally:
        reading.shutdown()
    return copied


def copy_part(reading, at, offset, end, is_zero):
    while offset < end:
        count = min(end - offset, READ_AT_ONCE)
        os.pwrite(at, bytes(count) if is_zero else reading.pread(count, offset), offset)
        offset += count

"""Tests copies of a disk through its server while it is frozen: backups.py FILTER NAME runs one test."""

import errno
import os
import re
import subprocess
import sys
import tempfile
from contextlib import closing

import nbd

from controls import depth_of, metrics_of, soon
from copies import BLKQCTL, MIB, TRIES, blkqctl, torn_copies
from filters import is_listened_at
from gates import shell, write
from flushes import begun
from server import WITHIN, Server, run_test
from tries import done

DATA = bytes(range(256)) * 16


def backing_up(server):
    """The command of a backup that a starved machine may take minutes for."""
    return [sys.executable, BLKQCTL, server.control_path, "backup", "--hold", "4m", "--to", server.path("copy")]


def backed_up(server, *words, status=0, **more):
    """Makes a backup, which has to end with this status. Returns its bytes, and what blkqctl writes to standard error."""
    command = [*backing_up(server), *words]
    try:
        found = subprocess.run(command, stdout=subprocess.PIPE, stderr=subprocess.PIPE, timeout=WITHIN, check=False, **more)
    except subprocess.TimeoutExpired:
        raise AssertionError("the backup hangs") from None
    assert found.returncode == status and not found.stdout, found
    assert not left(server), "half a copy stays"
    assert depth_of(server) == 0
    return read(server.path("copy")), found.stderr.decode()


def left(server):
    """The files of copies that aren't whole."""
    return [name for name in os.listdir(server.folder.name) if name.endswith(".new")]


def read(path):
    if not os.path.exists(path):
        return None
    with open(path, "rb") as file:
        return file.read()


def export_of(control):
    """Opens an export for the last freeze of a controller, and returns its name."""
    word, name, address = control.ask("export").split(" ", 2)
    assert word == "export" and address.startswith("unix:/"), (word, address)
    return name


def reader(server, name):
    """A connection to an export."""
    client = nbd.NBD()
    client.set_export_name(name)
    client.connect_unix(server.socket)
    return client


def refused(server, name):
    """Whether a connection to an export is refused."""
    try:
        reader(server, name).shutdown()
    except nbd.Error:
        return True
    return False


def fails_with(call, number):
    try:
        call()
    except nbd.Error as wrong:
        return wrong.errnum == number
    return False


# ---- Whole copies ----


def consistent(served):
    """Twenty backups under load are whole."""
    torn = torn_copies(served, lambda server, _: backed_up(server))
    assert torn == 0, f"{torn} of {TRIES} copies are torn"


def cow(served):
    """Writes that the filter behind the queue keeps for itself are in the copy, though not in the file."""
    with Server(served, backend=["--filter=cow", "file", "{folder}/disk"]) as server:
        server.client().pwrite(DATA, MIB)
        copy, _ = backed_up(server)
        assert copy[MIB : MIB + len(DATA)] == DATA and len(copy) == 64 * MIB
        assert read(server.disk) == bytes(64 * MIB)


def qcow2(served):
    """The copy of a qcow2 image that qemu-nbd serves has the disk's bytes, and not the container's."""
    served_by_qemu = "nbd", "socket={folder}/qemu", "shared=false"
    with Server(served, backend=["null"], wait=False) as folder:
        folder.wait_for_control()
        image, at = folder.path("image"), folder.path("qemu")
        subprocess.run(["qemu-img", "create", "-q", "-f", "qcow2", image, "64M"], check=True)
        with subprocess.Popen(["qemu-nbd", "-t", "-e", "8", "-f", "qcow2", "-k", at, image]) as qemu:
            try:
                soon(lambda: is_listened_at(at), "qemu-nbd doesn't start")
                with Server(served, backend=[it.replace("{folder}", folder.folder.name) for it in served_by_qemu]) as server:
                    server.client().pwrite(DATA, MIB)
                    copy, _ = backed_up(server)
                    assert copy[MIB : MIB + len(DATA)] == DATA and len(copy) == 64 * MIB
            finally:
                qemu.terminate()


def behind_a_name(served):
    """The backend gets the name of one of its own exports."""
    with tempfile.TemporaryDirectory() as disks:
        for name, byte in (("a", b"a"), ("b c", b"b")):
            with open(os.path.join(disks, name), "wb") as file:
                file.write(byte * MIB)
        with Server(served, backend=["file", f"dir={disks}"]) as server:
            assert backed_up(server, "--export", "b c")[0] == b"b" * MIB
            assert backed_up(server, "--export", "a")[0] == b"a" * MIB


# ---- While the freeze stands ----


def owner_alone(served):
    """An export exists while its own freeze stands. Only its owner knows the name, other names are refused, and it is read-only."""
    with Server(served, backend=["memory", "1M"]) as server, closing(server.control()) as control, closing(server.control()) as other:
        writing = server.client()
        writing.pwrite(DATA, 0)
        control.need("export", "not frozen")
        control.need("quiesce", "depth 1")
        other.need("export", "not yours")
        first, second = export_of(control), export_of(control)
        assert first != second and refused(server, first) and refused(server, second[:-1]) and refused(server, second + "0")
        cookie = writing.aio_pwrite(nbd.Buffer.from_bytearray(bytearray(512)), 0)
        reading = reader(server, second)
        assert reading.is_read_only() and reading.pread(len(DATA), 0) == DATA
        other.need("freeze", "depth 2")
        control.need("thaw", "depth 1")
        assert fails_with(lambda: reading.pread(512, 0), errno.ESHUTDOWN), "an export outlives its freeze"
        assert refused(server, second)
        other.need("thaw", "depth 0")
        assert fails_with(lambda: reading.pread(512, 0), errno.ESHUTDOWN)
        reading.shutdown()
        assert done([writing], [cookie]) == [0]


def thawed_meanwhile(served):
    """A read that is in the backend when the freeze ends returns no bytes."""
    with Server(served, backend=shell()) as server, closing(server.control()) as control:
        control.need("quiesce", "depth 1")
        reading = reader(server, export_of(control))
        write(server, "held", "pread")
        cookie = reading.aio_pread(nbd.Buffer(512), 0)
        begun(server, "pread")
        control.need("thaw", "depth 0")
        write(server, "held")
        assert done([reading], [cookie]) == [errno.ESHUTDOWN]
        reading.shutdown()


# ---- Backups that fail ----


def late(server):
    """A backup that takes longer than the freeze may last, and what stays of the last one. On a starved machine the freeze may end before the copy
    begins; then the next one has more time."""
    for hold in ("0.5", "5", "60"):
        copy, told = backed_up(server, "--hold", hold, status=125)
        if f": backup: not copied within {hold} s (--hold)\n" in told:
            return copy
        assert re.search(": backup: (not frozen|held for more than [0-9.]+ s)\n", told), told
    raise AssertionError(told)


def kept(served):
    """The last backup stays until the new one is whole. A copy that is late, fails or loses its freeze leaves it untouched."""
    with Server(served, backend=shell()) as server, closing(server.control()) as control:
        write(server, "copy", "the last one")
        write(server, "held", "pread")
        assert late(server) == b"the last one\n"
        write(server, "held")
        write(server, "full", "pread 0")
        copy, told = backed_up(server, status=125)
        assert copy == b"the last one\n" and ": backup: nbdcopy ended with status 1\n" in told, told
        write(server, "full")
        write(server, "held", "pread")
        before = server.path("done")
        os.unlink(before)
        with subprocess.Popen(backing_up(server), stderr=subprocess.PIPE) as losing:
            begun(server, "pread")
            control.need("thaw all", "depth 0")
            write(server, "held")
            told = losing.communicate(timeout=WITHIN)[1].decode()
        assert losing.returncode == 125 and ": backup: not frozen\n" in told, told
        assert read(server.path("copy")) == b"the last one\n" and not left(server)
        copy, told = backed_up(server)
        assert copy == bytes(MIB)


def another_answers(served):
    """If it isn't the filter that answers at its address, nothing is replaced, and the line says so."""
    with Server(served, outer=["tls-fallback"]) as server:
        write(server, "copy", "the last one")
        for how in ((), ("--live", "--deadline", "4m")):
            copy, told = backed_up(server, *how, status=125)
            assert copy == b"the last one\n", told
            assert "0 of the disk's 0 were read through its export: another server answers there" in told or "connection to its export" in told, told


def certificates(folder):
    """Makes the certificates of a server, and of who signed it, in a folder."""
    ask = ["openssl", "req", "-newkey", "rsa:2048", "-nodes"]
    with open(f"{folder}/names", "w", encoding="ascii") as file:
        file.write("subjectAltName=DNS:localhost,IP:127.0.0.1")
    for line in ([*ask, "-x509", "-keyout", "ca-key.pem", "-out", "ca-cert.pem", "-subj", "/CN=ca", "-days", "9"],
                 [*ask, "-keyout", "server-key.pem", "-out", "server.csr", "-subj", "/CN=localhost"],
                 ["openssl", "x509", "-req", "-in", "server.csr", "-CA", "ca-cert.pem", "-CAkey", "ca-key.pem", "-CAcreateserial", "-out",
                  "server-cert.pem", "-days", "9", "-extfile", "names"]):
        subprocess.run(line, cwd=folder, check=True, stderr=subprocess.DEVNULL)


def tls(served):
    """A server that asks for TLS is copied with its certificates. Without them nothing is frozen."""
    with tempfile.TemporaryDirectory() as folder:
        certificates(folder)
        backend = ["--tls=require", f"--tls-certificates={folder}", "file", "{folder}/disk"]
        with Server(served, "size=1M", backend=backend) as server, closing(server.control()) as control:
            for how in ((), ("--live", "--deadline", "4m")):
                _, told = backed_up(server, *how, status=125)
                assert "TLS" in told and metrics_of(control)["blkq_frozen_seconds_total"] == 0, told
            for how in ((), ("--live", "--deadline", "4m")):
                copy, told = backed_up(server, *how, "--tls-certificates", folder)
                assert copy == bytes(MIB), told


def at_once(served):
    """Of two backups to one file at once each is whole, and the file is one of them."""
    with Server(served) as server:
        server.client().pwrite(DATA * 1024, 0)
        with subprocess.Popen(backing_up(server)) as one, subprocess.Popen(backing_up(server)) as other:
            assert (one.wait(WITHIN), other.wait(WITHIN)) == (0, 0)
        assert read(server.path("copy")) == read(server.disk) and not left(server)


def modes(served):
    """Only its owner may read a new copy. One that replaces a file has that file's mode, and a symlink is followed."""
    with Server(served, "size=1M") as server:
        copy = server.path("copy")
        backed_up(server)
        assert os.stat(copy).st_mode & 0o777 == 0o600
        os.chmod(copy, 0o640)
        backed_up(server)
        assert os.stat(copy).st_mode & 0o777 == 0o640
        os.rename(copy, server.path("real"))
        os.symlink("real", copy)
        backed_up(server)
        assert os.path.islink(copy) and os.path.getsize(server.path("real")) == MIB
        assert os.stat(copy).st_mode & 0o777 == 0o640


def another_connects(served):
    """Before a backend that takes one connection at a time a backup ends in time, and doesn't hang."""
    with Server(served, backend=shell(model="serialize_connections")) as server:
        server.client().pread(512, 0)
        late(server)


def nowhere(served):
    """If the copy can't be made at its path, nothing is frozen, and the line has the reason."""
    with Server(served) as server, closing(server.control()) as control:
        _, told = backed_up(server, "--to", f"{server.disk}/copy", status=125)
        assert re.fullmatch(rf"blkqctl: {server.control_path}: backup: .*Not a directory: '{server.disk}/copy'\n", told), told
        assert metrics_of(control)["blkq_quiesces_total"] == 0


def without_nbdcopy(served):
    """Without nbdcopy nothing is frozen, and the line names the package."""
    with Server(served) as server:
        _, told = backed_up(server, status=127, env={**os.environ, "PATH": server.folder.name})
        assert told == "blkqctl: there is no nbdcopy (apt-get install libnbd-bin)\n", told
        blkqctl(server, "backup", status=2)


if __name__ == "__main__":
    run_test(globals())

"""Copies a disk through its server, while it is frozen or from a snapshot."""

import fcntl
import glob
import json
import os
import shutil
import signal
import stat
import subprocess
import sys
import tempfile
import time
from contextlib import contextmanager, suppress

from blkq_control.command import PASSED_ON, Command, Ended, Overdue, Unheard, raised_signals
from blkq_control.held import HOLD, tell
from blkq_control.live import END, TAKE, Last, copy_changes, freeze_for, need_answer, prepared
from blkq_control.members import uri_of
from blkq_control.server import DONE, NOT_FOUND, NOT_HELD, Gone, Late, Missing, Refused

COPIER = "nbdcopy"
POLITE = "--connections=1", "--requests=4"  # clients wait longer beside more


# ---- Where the copy goes ----


def is_replaced(path):
    """Whether a copy is made in a new file that then replaces the path. Otherwise it is written in place."""
    with suppress(FileNotFoundError):
        return stat.S_ISREG(os.stat(path).st_mode)
    return "://" not in path


def remove_left(path):
    """Removes the new files that killed backups left beside a path. Those of running backups are locked."""
    for left in glob.glob(f"{glob.escape(path)}.*.new"):
        with suppress(OSError), open(left, "rb") as at:
            fcntl.flock(at, fcntl.LOCK_EX | fcntl.LOCK_NB)
            os.unlink(left)


def move(new, path):
    """Moves a whole copy to its path, with the mode of what it replaces, once its bytes are on the disk."""
    at = os.open(new, os.O_RDONLY)
    try:
        with suppress(FileNotFoundError):
            os.fchmod(at, stat.S_IMODE(os.stat(path).st_mode))
        os.fsync(at)
    finally:
        os.close(at)
    os.rename(new, path)


@contextmanager
def replacing(path):
    """Yields a new file, which only this user may read, and which then replaces the path. If the block fails, the path stays as it was."""
    if not is_replaced(path):
        yield path
        return
    path = os.path.realpath(path)
    remove_left(path)
    before = signal.pthread_sigmask(signal.SIG_BLOCK, PASSED_ON)  # one that came between the file and the block would leave the file
    try:
        at, new = tempfile.mkstemp(".new", f"{os.path.basename(path)}.", os.path.dirname(path) or ".")
        try:
            signal.pthread_sigmask(signal.SIG_SETMASK, before)
            fcntl.flock(at, fcntl.LOCK_EX)
            yield new
            move(new, path)
        finally:
            with suppress(FileNotFoundError):
                os.unlink(new)
            os.close(at)
    finally:
        signal.pthread_sigmask(signal.SIG_SETMASK, before)


# ---- The copy ----


def run_copier(server, given, *words):
    """Runs nbdcopy. A signal that would end this program, or the time limit, ends what nbdcopy reads."""

    def leave():
        with suppress(Refused, Gone, Late):
            server.ask(END if given.live else "thaw", "snapshot", "lost", "depth")

    progress = ["--progress"] if sys.stderr.isatty() else []
    command = Command([COPIER, *progress, *words])
    status = command.run(given.hold if given.live else given.hold or HOLD, leave=leave)
    if command.passed:
        raise Ended(command.passed)
    if status != 0:
        raise Refused(f"{COPIER} ended with status {status}")


def need_whole(server, path):
    """Raises Refused unless the whole disk was read through the export: another server may answer at its address."""
    _, read, _, size, are_alike = server.ask("copied", "copied").split()
    length = os.stat(path).st_size if is_replaced(path) else int(size)
    if int(size) == 0 or int(read) < int(size) or length != int(size):
        raise Refused(f"the copy has {length} bytes, and {read} of the disk's {size} were read through its export: another server answers there")
    if are_alike != "alike":
        tell("the backend doesn't promise that all connections see the same disk: the copy is what a new connection sees")


def told_of(given, figures):
    if given.json:
        print(json.dumps(figures))


def copy(server, given):
    """Copies under a quiesce."""
    with replacing(given.to) as path:
        server.label(given.label)
        need_answer(uri_of("", server.ask("address", "address").partition(" ")[2], certificates=given.tls_certificates))
        asked = time.monotonic()
        server.ask(f"quiesce hold {given.hold or HOLD:.9f}", "depth")
        began = time.monotonic()
        _, export, address = server.ask("export", "export").split(" ", 2)
        try:
            run_copier(server, given, uri_of(export, address, given.export, given.tls_certificates), path)
            need_whole(server, path)
        except Refused:
            server.thaw()  # tells how the freeze ended, if it did
            raise
        server.thaw()
        told_of(given, {"waited_seconds": round(time.monotonic() - asked, 6), "copy_seconds": round(time.monotonic() - began, 6)})
        if given.verbose:
            tell(f"the quiesce took {began - asked:.2f} s, and the copy {time.monotonic() - began:.2f} s")


def take(server, given, keeper, since=""):
    """Takes a snapshot under a freeze. Returns the server's answer, and for how many seconds clients waited."""
    asked, timeout = time.monotonic(), server.timeout
    server.within(given.deadline)
    server.ask(f"{freeze_for([keeper])} hold {given.deadline:.9f}", "depth")
    taken = server.ask(f"{TAKE} {since}", "ok")
    server.thaw()
    server.within(timeout)
    return taken, time.monotonic() - asked


def copy_by(server, given, uri, how, last):
    """Copies all of a snapshot, or what has changed since the last copy."""
    with replacing(given.to) as path:
        if how == "changes":
            subprocess.run(["cp", "--reflink=auto", "--sparse=auto", "--", last.path, path], check=True)
            with open(path, "r+b") as file:
                copied = copy_changes(uri, file.fileno())
            if given.verbose:
                tell(f"{copied} bytes have changed since the last copy")
        else:
            if last is not None:
                tell("a whole copy, since the server doesn't know what has changed since the last one")
            run_copier(server, given, *POLITE, uri, path)
        need_whole(server, path)


def end(server, failed):
    """Ends a snapshot whose copy failed. If it was lost, that is the reason."""
    told = server.ask(END, "snapshot", "lost", "no")
    if told.startswith("lost"):
        raise Refused(f"the snapshot was lost: {told.removeprefix('lost ')}") from failed


def copy_live(server, given):
    """Copies a snapshot, for which clients wait only while it is taken."""
    server.label(given.label)
    last = Last(os.path.realpath(given.to)) if given.incremental else None
    with prepared(server, given, "once", *["track"] * given.incremental) as (uri, keeper):
        taken, waited = take(server, given, keeper, last.name if last else "")
        began, (_, name, how) = time.monotonic(), (*taken.split(), "", "")[:3]
        try:
            copy_by(server, given, uri, how, last)
        except (Refused, Overdue, OSError, subprocess.CalledProcessError) as failed:
            end(server, failed)
            raise
        if last:
            last.write(name)
        _, _, blocks, _, peak = server.ask(f"{END} whole", "snapshot").split()
    told_of(given, {"waited_seconds": round(waited, 6), "copy_seconds": round(time.monotonic() - began, 6), "kept_blocks": int(blocks),
                    "peak_bytes": int(peak), "incremental": how == "changes"})
    if given.verbose:
        tell(f"clients waited {1e3 * waited:.1f} ms, and the copy took {time.monotonic() - began:.2f} s; "
             f"{blocks} blocks were kept, in at most {int(peak) / 2**20:.1f} MiB")


def backup(server, given):
    """Copies the disk into a new file, which then replaces the old one."""
    if shutil.which(COPIER) is None:
        tell(f"there is no {COPIER} (apt-get install libnbd-bin)")
        return NOT_FOUND
    try:
        with raised_signals():
            (copy_live if given.live else copy)(server, given)
        return DONE
    except Overdue:
        tell(f"{given.socket}: backup: not copied within {given.hold or HOLD:g} s (--hold)")
    except Missing as missing:
        tell(str(missing))
        return NOT_FOUND
    except (Refused, Gone, Late, OSError, subprocess.CalledProcessError) as lost:
        tell(f"{given.socket}: backup: {lost}")
    except Ended as ended:
        return 128 + ended.args[0]
    except Unheard:
        pass
    return NOT_HELD

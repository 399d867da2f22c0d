"""Times changes on busy machines: on one processor, and beside programs that only loop."""

import ctypes
import os
import signal
import subprocess
from contextlib import contextmanager
from functools import partial


def ends_with_its_maker():
    """Before a program begins: the kernel ends it where its maker ends, however that ends."""
    ctypes.CDLL(None).prctl(1, signal.SIGKILL)


@contextmanager
def on(processors, loops):
    """So many processors of those that this one has, and so many programs that loop beside it."""
    every = os.sched_getaffinity(0)
    running = [subprocess.Popen(["sh", "-c", "while :; do :; done"], preexec_fn=ends_with_its_maker) for _ in range(loops)]
    os.sched_setaffinity(0, sorted(every)[:processors])
    try:
        yield
    finally:
        os.sched_setaffinity(0, every)
        for one in running:
            one.kill()
            one.wait()


# By the names of docs/MEASURED.md.
PLACES = {
    "every processor": partial(on, None, 0),
    "one processor": partial(on, 1, 0),
    "beside 8 loops": partial(on, None, 8),
    "beside 16 loops": partial(on, None, 16),
}

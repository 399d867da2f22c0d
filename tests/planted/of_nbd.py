"""Plants mistakes in the filter and the plugin. A test of tests/nbd has to find each.

A mistake has a line 'try: NAME' with the test that has to fail, in the file of tests/nbd with the name of the file of mistakes, and a line
'of: plugin' if it is in the plugin. It is built with the queue's library that is installed in the folder QUEUE.
"""

import contextlib
import os
import pathlib
import shutil
import signal
import subprocess

from sources.mistakes import Bad

ROOT = pathlib.Path(__file__).resolve().parents[2]
SERVICE, TRIES = ROOT / "services/nbd", ROOT / "tests/nbd"
TIMES = 3


def fails(served, file, name):
    """Whether a try fails, by what it looks for, and by which."""
    given = {**os.environ, "PYTHONDONTWRITEBYTECODE": "1", "WITHIN": "20", "BLKQCTL": os.path.join(os.path.dirname(served), "blkqctl")}
    # Only Debian's Python has the bindings of libnbd.
    command = ["/usr/bin/python3", TRIES / f"{file}.py", served, name]
    with subprocess.Popen(command, env=given, stderr=subprocess.PIPE, start_new_session=True) as run:
        try:
            said = run.communicate(timeout=600)[1].decode()
        except subprocess.TimeoutExpired:
            return True, "it hangs"
        finally:
            with contextlib.suppress(ProcessLookupError):
                os.killpg(run.pid, signal.SIGKILL)  # what it left behind
    found = [line for line in said.splitlines() if line.startswith(("AssertionError", "nbd.Error"))]
    if run.returncode and not found:
        return False, f"it ends otherwise: {said[-150:]}"
    return run.returncode != 0, found[-1] if found else ""


class Kind:
    MOST_JOBS = 2

    def __init__(self, work):
        self.work, self.queue = work, os.environ["QUEUE"]

    def as_it_is(self, chosen):
        """tests/nbd/run tries what is right."""
        return []

    def built(self, mistake, source):
        """Builds the wrong filter or plugin, and gives its path."""
        is_plugin = mistake.words.get("of") == "plugin"
        built = "plugin.so" if is_plugin else "nbdkit-blkq-filter.so"
        target, library = "PLUGIN" if is_plugin else "FILTER", f"{self.queue}/lib/libfreeze_queue.a"
        words = [f"{target}={source}/{built}", f"{source}/{built}", f"HEADERS={self.queue}/include", f"ARCHIVE={library}", "MORE=-O0 -Wno-error"]
        run = subprocess.run(["make", "-s", "-C", source, *words], stderr=subprocess.PIPE, check=False)
        if run.returncode:
            raise Bad(run.stderr.decode())
        return f"{source}/{built}"

    def found_by(self, mistake):
        """How its try fails, of so many times once: on a slow machine the mistake may come too late to be seen."""
        source, why = f"{self.work}/{mistake.name}", ""
        shutil.copytree(SERVICE, source, ignore=shutil.ignore_patterns("*.so"))
        with mistake.planted(source):
            served = self.built(mistake, source)
            for _ in range(TIMES):
                found, why = fails(served, mistake.kind, mistake.words["try"])
                if found:
                    return why[:200]
        raise Bad(why or "nothing finds it")

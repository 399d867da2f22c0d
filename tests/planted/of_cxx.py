"""Plants mistakes in the headers for C++17. A test of c/tests has to find each, by a wrong answer or a report."""

import pathlib
import shutil
import subprocess

from running import Tests

ROOT = pathlib.Path(__file__).resolve().parents[2]
LIBRARY, HERE = ROOT / "c", ROOT / "c/tests"
OF_GATES = (f"percpu_gate_{it}" for it in ("try_get", "try_get_live", "put", "kill"))
WRAPPED = "-Wl" + "".join(f",--wrap={it}" for it in (*OF_GATES, "freeze_queue_waits_leave"))
# A test, and flags for the compiler; the quickest first.
TESTS = [
    ("owners_calls", [WRAPPED]),
    ("owners_edges", ["-DFREEZE_QUEUE_DEBUG"]),
    ("owners", []),
    ("owners_misuse", ["-DFREEZE_QUEUE_DEBUG"]),
    ("owners_edges", ["-fsanitize=thread"]),
]


class Kind:
    MOST_JOBS = 2

    def __init__(self, work):
        self.work, self.tests = work, Tests(15)
        command = ["make", "-s", "-C", LIBRARY, "BUILD=erased"]
        subprocess.run(command, check=True, stdout=subprocess.DEVNULL)
        folder = subprocess.run([*command, "folder"], check=True, capture_output=True, text=True).stdout.strip()
        self.archives = [f"{folder}/lib{it}.a" for it in ("freeze_queue", "percpu_gate")]

    def as_it_is(self, chosen):
        """What finds something wrong in the headers as they are."""
        yield "the headers", self.first(self.copied("right"))

    def found_by(self, mistake):
        """The test that finds a mistake in a copy of the headers."""
        folder = self.copied(mistake.name)
        with mistake.planted(folder):
            return self.first(folder)

    def copied(self, name):
        return shutil.copytree(LIBRARY / "include", self.work / name)

    def fails(self, folder, test, flags):
        """How a test fails that is compiled with the headers of a folder, or None."""
        program = folder / test
        command = ["c++", "-std=c++17", "-O1", "-g", "-w", *flags, f"-I{folder}", HERE / f"{test}.cc", *self.archives]
        subprocess.run([*command, "-pthread", "-o", program], check=True)
        return self.tests.fails((test, *flags), [program])

    def first(self, folder):
        """The first test that fails, or None."""
        for test, flags in TESTS:
            how = self.fails(folder, test, flags)
            if how is not None:
                return how + " ".join([test, *(it for it in flags if it != WRAPPED)])
        return None

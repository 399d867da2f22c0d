"""Compares the answers of two builds on random inputs."""

import concurrent.futures
import os
import subprocess
import tempfile
from typing import NamedTuple

from counts import Counts
from random_inputs import ROOT, input_of

LIBRARIES = ("percpu_gate", "freeze_queue")
PROGRAMS = ("blkq", "gate_races")
SECONDS = 900
# The C callers that answer a row of calls, with the library that each is linked to.
CALLERS = {"gate": ("c/tests/calls.c", "percpu_gate"), "queue": ("c/tests/queue/calls.c", "freeze_queue")}
# Seen in the answers of ten thousand inputs: what a comparison that says little would lack.
SEEN = {
    "script": (b" ok ", b"disk", b"line "),
    "schedule": (b"stuck", b"end "),
    "race": (b"outcome",),
    "gate": (b"given", b"last", b"passed over", b"ended"),
    "queue": (b"entered", b"again", b"last", b"passed over", b"not drained"),
}


class Build(NamedTuple):
    """What a build is called, and the file of each program and of each archive."""

    name: str
    programs: dict
    archives: dict


def build_in(folder, name):
    """The build in a folder, which has its programs in x86_64-linux/bin and its archives in x86_64-linux/lib."""
    there = f"{folder}/x86_64-linux"
    archives = {it: f"{there}/lib/lib{it}.a" for it in LIBRARIES}
    return Build(name, {it: f"{there}/bin/{it}" for it in PROGRAMS}, archives)


class Callers:
    """The programs of a build, with C callers that are compiled into a folder."""

    def __init__(self, build, folder):
        os.makedirs(folder)
        self.commands = {"script": [build.programs["blkq"], "run"], "schedule": [build.programs["blkq"], "replay"]}
        self.commands["race"] = [build.programs["gate_races"]]
        for kind, (source, library) in CALLERS.items():
            to = f"{folder}/{kind}"
            words = ["cc", "-std=c11", "-O2", f"-I{ROOT}/c/include", f"{ROOT}/{source}", build.archives[library]]
            subprocess.run([*words, "-pthread", "-o", to], check=True)
            self.commands[kind] = [to]

    def answer(self, kind, data):
        """The status and what was written; of a refusal the line on standard error."""
        try:
            ran = subprocess.run(self.commands[kind], input=data, capture_output=True, timeout=SECONDS, check=False)
        except subprocess.TimeoutExpired:
            return f"no end after {SECONDS} s", b""
        return ran.returncode, ran.stdout or ran.stderr


def compare(one, other, count, seed=1):
    """Gives both builds so many inputs. How many are answered alike, and the faults."""
    same, faults, seen = 0, [], set()
    with tempfile.TemporaryDirectory() as folder, concurrent.futures.ThreadPoolExecutor(len(os.sched_getaffinity(0))) as pool:
        callers = [Callers(one, f"{folder}/one"), Callers(other, f"{folder}/other")]

        def tried(index):
            kind, data = input_of(seed, index)
            return index, kind, data, *[it.answer(kind, data) for it in callers]

        for index, kind, data, first, second in pool.map(tried, range(count)):
            same += first == second
            seen |= {(kind, it) for it in SEEN[kind] if it in first[1]}
            if first != second and len(faults) < 3:
                told = f"{kind} {index} of seed {seed}: {one.name} answers {first}, and {other.name} {second}"
                faults.append(f"{told}\n{data.decode(errors='replace')}")
    if count >= 1000:
        missing = [(kind, it) for kind in SEEN for it in SEEN[kind] if (kind, it) not in seen]
        faults += [f"no answer of a {kind} has '{it.decode()}'" for kind, it in missing]
    return same, faults


def main(one, other, count, seed=1):
    """Prints how many inputs are answered alike, and some that aren't."""
    counts = Counts()
    same, faults = compare(one, other, count, seed)
    counts.hold(f"{same} of {count} inputs are answered alike", faults)
    return counts.end()


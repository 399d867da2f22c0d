"""Plants mistakes in the correct queue and replayer of examples/against, and in the machine of a gate that the replayer uses. Of RUNS inputs
(2,000) that tools/against makes with the seed SEED (1), at least one has to be answered differently than by blkq."""

import io
import os
import pathlib
import signal
import subprocess
import sys
import types

from counts import program_of

ROOT = pathlib.Path(__file__).resolve().parents[2]
EXAMPLES = ROOT / "examples/against"

# The maximum processor time, in seconds, for a mistake on one input.
PATIENCE = 5

# The files of each program, the name to import each as, and what to correct in it first.
MENDED = (
    "if value < self.limits[name]:  # A request under way meets a higher limit as it meets this one.",
    "if self.depth == 0:",
)
PROGRAMS = {
    "queue": (("lines", "lines.py", EXAMPLES), (None, "wrong_queue.py", EXAMPLES)),
    "gate": (
        ("lines", "lines.py", EXAMPLES),
        ("machines.gate", "gate.py", ROOT / "tests/machines"),
        (None, "replayer.py", EXAMPLES),
    ),
}


class Hangs(Exception):
    """An input took too long."""


def hang(*_):
    raise Hangs


class Planted:
    """A program with a mistake in one of its files, or with none, within this process."""

    def __init__(self, kind, change=None):
        for name, file, folder in PROGRAMS[kind]:
            text = (folder / file).read_text(encoding="utf-8")
            text = text.replace(*MENDED).removesuffix("\nmain()\n")
            if change and change.file == file:
                text = change.pairs[0].put_into(text)
            module = types.ModuleType(name or "planted")
            module.__file__ = str(folder / file)
            exec(compile(text, file, "exec"), module.__dict__)
            if name:
                sys.modules[name] = module
        self.main = module.main

    def outcome(self, data):
        """The status, the answer and the last line on standard error; a status of its own where it dies or hangs."""
        streams = sys.stdin, sys.stdout, sys.stderr
        sys.stdin, sys.stdout, sys.stderr = io.TextIOWrapper(io.BytesIO(data)), io.StringIO(), io.StringIO()
        signal.setitimer(signal.ITIMER_PROF, PATIENCE)
        try:
            self.main()
            status = 0
        except SystemExit as why:
            status = why.code
        except Exception as why:
            status = type(why).__name__
        finally:
            signal.setitimer(signal.ITIMER_PROF, 0)
            written, sys.stdin, sys.stdout, sys.stderr = (sys.stdout, sys.stderr), *streams
        answer, errors = (stream.getvalue() for stream in written)
        return str(status), answer, (errors.strip().splitlines() or [""])[-1] if not answer else ""


def inputs(kind, folder):
    """Each input with what blkq does with it."""
    words = ["--replay"] * (kind == "gate") + ["--blkq", program_of("blkq"), "--write", folder]
    words += ["--seed", os.environ.get("SEED", "1"), "--runs", os.environ.get("RUNS", "2000")]
    subprocess.run([ROOT / "tools/against", *words], check=True, stderr=subprocess.DEVNULL)
    for path in sorted(folder.iterdir()):
        if path.suffix in (".gate", ".blkq"):
            status, answer, fault = (path.with_suffix(it) for it in (".status", ".answer", ".fault"))
            said = fault.read_text().strip() if fault.exists() else ""
            yield path.read_bytes(), (status.read_text().strip(), answer.read_text(), said)


class Kind:
    MOST_JOBS = 1

    def __init__(self, work):
        self.work, self.inputs = work, {}
        signal.signal(signal.SIGPROF, hang)

    def tried(self, kind):
        if kind not in self.inputs:
            self.inputs[kind] = list(inputs(kind, self.work / kind))
        return self.inputs[kind]

    def first(self, kind, mistake=None):
        """The first input that is answered otherwise than by blkq."""
        planted = Planted(kind, mistake)
        return next((f"input {at}" for at, (data, wanted) in enumerate(self.tried(kind), 1) if planted.outcome(data) != wanted), None)

    def as_it_is(self, chosen):
        return ((kind, self.first(kind)) for kind in sorted({it.kind for it in chosen}))

    def found_by(self, mistake):
        return self.first(mistake.kind, mistake)

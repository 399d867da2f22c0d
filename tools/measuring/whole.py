"""Times whole programs with hyperfine."""

import json
import pathlib
import shlex
import shutil
import subprocess
import sys

import scripts as kinds
from busy import PLACES

ROOT = pathlib.Path(__file__).resolve().parents[2]
CONFIGS = "1 1 1", "4 8 16", "32 64 63"
WORKERS = 1, 2, 4, 8, 16, 32


def timed(commands, source, runs):
    """The median seconds of each command, which reads this file."""
    kept = source.with_suffix(".json")
    words = ["hyperfine", "--warmup", "1", "--runs", str(max(2, runs)), "--export-json", kept]
    subprocess.run([*words, *(f"{shlex.join(it)} <{source}" for it in commands)], check=True, stdout=subprocess.DEVNULL, stderr=subprocess.DEVNULL)
    return [it["median"] for it in json.loads(kept.read_text())["results"]]


def alike(commands, source):
    """Whether all commands answer the same, and the megabytes that each had at most."""
    answers, megabytes = set(), []
    for command in commands:
        with open(source, "rb") as given:
            ran = subprocess.run(["/usr/bin/time", "-f", "%M", *command], stdin=given, capture_output=True, check=True)
        answers.add(ran.stdout)
        megabytes.append(int(ran.stderr.split()[-1]) / 1024)
    return len(answers) == 1, megabytes


def prepared(folder):
    """The plain program, and the file of each kind of script."""
    for needed, package in (("hyperfine", "hyperfine"), ("/usr/bin/time", "time"), ("rustc", "rustc")):
        if not shutil.which(needed):
            sys.exit(f"tools/measure: there is no {needed} (apt-get install {package})")
    folder = pathlib.Path(folder)
    subprocess.run(["rustc", "--edition", "2021", "-O", "-o", folder / "plain", ROOT / "tools/measuring/plain.rs"], check=True)
    files = {}
    for kind, most in kinds.KINDS.items():
        files[kind.__name__] = folder / f"{kind.__name__}.blkq"
        files[kind.__name__].write_text(kinds.script(kind, most, 1))
    return str(folder / "plain"), files


def scripts(runs, folder, table):
    """Scripts by `blkq run` beside the plain program; other numbers of workers; small requests where it is busy."""
    plain, files = prepared(folder)
    path = subprocess.run([ROOT / "tools/run_program", "--path", "blkq"], check=True, stdout=subprocess.PIPE, text=True).stdout.strip()
    commands = [[plain], *([path, "run", *config.split()] for config in CONFIGS)]
    heads, rows = [f"({config})" for config in CONFIGS], []

    def cells(source):
        first, *ours = timed(commands, source, runs)
        return [f"{first * 1e3:.0f} ms", *(f"{took * 1e3:.0f} ms, {took / first:.2f}" for took in ours)]

    for name in map(lambda kind: kind.__name__, kinds.KINDS):
        is_alike, memory = alike(commands, files[name])
        if not is_alike:
            sys.exit(f"tools/measure: the answers to {name} differ")
        rows.append([name, *cells(files[name]), f"{memory[0]:.0f} MB", f"{memory[2]:.0f} MB, {memory[2] / memory[0]:.2f}"])
    yield table(["script", "plain", *heads, "memory, plain", heads[1]], rows)
    by_workers = [[path, "run", str(count), "64", "63"] for count in WORKERS]
    rows = [[name, *(f"{took * 1e3:.0f} ms" for took in timed(by_workers, files[name], runs))] for name in ("small", "dense")]
    yield table(["workers (with 64 slots, 63 tags)", *WORKERS], rows)
    rows = []
    for name, place in PLACES.items():
        with place():
            rows.append([name, *cells(files["small"])])
    yield table(["small", "plain", *heads], rows)

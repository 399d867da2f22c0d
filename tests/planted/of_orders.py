"""Plants mistakes in the erased gate and queue and in their crates. A test of rust/orders has to find each: the test with the name of the file of
mistakes, or another. rust/orders is built over the changed copy; gate_races stays as it is."""

import pathlib
import re
import shutil
import subprocess

from sources.mistakes import Bad
from running import by_cargo

ROOT = pathlib.Path(__file__).resolve().parents[2]
RUST = ROOT / "rust"
TESTS = ["steps", "gate", "queue", "waits", "biased", "handed", "whole", "whole_gate"]


class Kind:
    MOST_JOBS = 1

    def __init__(self, work):
        """Makes a workspace of this crate and the sources that it includes. gate_races is that of this tree."""
        self.rust = work / "rust"
        for crate in ("orders", "percpu-gate", "freeze-queue", "blkq"):
            shutil.copytree(RUST / crate, self.rust / crate)
        for file in ("Cargo.toml", "Cargo.lock"):
            shutil.copy(RUST / file, self.rust)
        shutil.copytree(ROOT / "examples", work / "examples")
        workspace, crate = self.rust / "Cargo.toml", self.rust / "orders/Cargo.toml"
        workspace.write_text(re.sub(r"members = .*", 'members = ["orders"]', workspace.read_text()))
        crate.write_text(crate.read_text().replace('path = "../gate-races"', f'path = "{RUST}/gate-races"'))

    def as_it_is(self, chosen):
        return ((f"{test}.rs", "it fails" if self.finds(test) else None) for test in TESTS)

    def found_by(self, mistake):
        with mistake.planted(self.rust):
            tests = sorted(TESTS, key=lambda test: test != mistake.kind)
            return next((f"by the test {it}" for it in tests if self.finds(it)), None)

    def run(self, *words):
        how = by_cargo(self.rust, RUST / "target/wrong", ORDERS_RACES="100")
        command = ["timeout", "300", "cargo", "test", "-q", "-p", "orders", *words]
        return subprocess.run(command, capture_output=True, text=True, check=False, **how)

    def finds(self, test):
        """Whether a test finds what is wrong. Rust that doesn't compile is no mistake."""
        built = self.run("--test", test, "--no-run")
        if built.returncode != 0:
            raise Bad(built.stderr)
        return self.run("--test", test).returncode != 0

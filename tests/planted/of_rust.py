"""Plants mistakes in rust/freeze-queue and rust/percpu-gate. A test of the crate has to find each: by a wrong answer, by code that compiles and
should not, by an order of three threads' steps that fails, by a report of the thread sanitizer, or by hanging, as after a lost wake."""

import pathlib
import shutil
import subprocess

from sources.mistakes import Bad
from running import Tests, by_cargo

ROOT = pathlib.Path(__file__).resolve().parents[2]
HOST = "x86_64-unknown-linux-gnu"
# The tests of each crate, the quickest first.
OF_QUEUE = ["life", "errors", "owned", "lanes", "biased", "slots", "waking", "many", "attacks", "values", "updates", "panics", "futures", "pool", "freezes", "waits", "moments", "in_flight", "frozen_by", "removal", "wakers",
            "thread_ends", "refused_fence", "storm", "stats", "drawn_sizes"]
OF_GATE = ["life", "again", "values", "attacks", "drawn_sizes"]
REST = ["refused_memory", "guarded", "hammer", "model"]
TESTS = {"freeze-queue": OF_QUEUE + REST, "percpu-gate": OF_GATE + REST}
ORDERS = {"freeze-queue": "whole", "percpu-gate": "whole_gate"}
SANITIZER = "-Zsanitizer=thread -Cunsafe-allow-abi-mismatch=sanitizer --cfg freeze_queue_tsan"


COMPILER = "the compiler"


def crate_of(mistake):
    return mistake.file.partition("/")[0]


class Kind:
    MOST_JOBS = 1

    def __init__(self, work):
        self.work, self.tests = work, Tests(40)
        shutil.copytree(ROOT / "rust", work / "rust", symlinks=True, ignore=shutil.ignore_patterns("target"))
        (work / "docs").symlink_to(ROOT / "docs")

    def as_it_is(self, chosen):
        return ((crate, self.first(crate)) for crate in sorted({crate_of(it) for it in chosen}))

    def found_by(self, mistake):
        """What finds a mistake that is put into its file. Rust that doesn't compile is no mistake."""
        with mistake.planted(self.work / "rust"):
            by = self.first(crate_of(mistake))
        if by == COMPILER:
            raise Bad("it doesn't compile")
        return by

    def how(self, **more):
        rounds = {"FREEZE_QUEUE_ROUNDS": "50000", "FREEZE_QUEUE_CALLS": "200000", "CARGO_PROFILE_DEV_OPT_LEVEL": "0"}
        return by_cargo(self.work / "rust", self.work / "target", **rounds, **more)

    def fails(self, seconds, words, **more):
        """Whether cargo fails by these words, or has no end."""
        command = ["timeout", str(seconds), "cargo", *words]
        return subprocess.run(command, capture_output=True, check=False, **self.how(**more)).returncode != 0

    def first(self, crate):
        """The first that finds what is wrong in a crate of the copy: a test, the documentation, or the thread sanitizer."""
        of_crate = ["test", "-q", "-p", crate]
        if self.fails(900, ["check", "-q", "-p", crate]):
            return COMPILER
        for test in TESTS[crate]:
            if self.fails(900, [*of_crate, "--test", test, "--no-run"]):
                return f"{test}, which doesn't compile"
            if self.tests.fails((crate, test), ["cargo", *of_crate, "--test", test], **self.how()) is not None:
                return test
        if self.fails(600, [*of_crate, "--lib"]):
            return "a test of the file"
        if self.fails(900, ["test", "-q", "-p", "orders", "--test", ORDERS[crate]]):
            return "the orders of all steps"
        if self.fails(600, [*of_crate, "--doc"], RUSTC_BOOTSTRAP="1"):
            return "the documentation"
        words = ["+nightly", *of_crate, "--target", HOST, "--test", "guarded"]
        suppressed = f"suppressions={ROOT}/rust/tests/tsan.suppressions"
        return "the thread sanitizer" if self.fails(300, words, RUSTFLAGS=SANITIZER, TSAN_OPTIONS=suppressed) else None

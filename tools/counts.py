"""Prints each check of a test as a line of TAP, with the reasons of a failure in comments after it, and the plan at the end.
tests/counted.bash does the same for bash, and tests/run runs such tests."""

import os
import pathlib
import re
import sys

HOME = pathlib.Path(__file__).resolve().parent.parent


class Counts:
    """Counts checks, and how many failed."""

    def __init__(self):
        self.checks = self.failed = 0

    def hold(self, name, faults):
        """Counts a check by its faults, none of which is there if it passed. Whether it did."""
        faults = list(faults)
        self.checks, self.failed = self.checks + 1, self.failed + bool(faults)
        print(f"{'not ' if faults else ''}ok {self.checks} - {in_one_line(name)}", flush=True)
        comment(*faults)
        return not faults

    def check(self, name, is_so, more=""):
        """Counts a check, with more of why it failed. Whether it passed."""
        return self.hold(name, [] if is_so else [more])

    def equal(self, name, found, wanted):
        return self.check(name, found == wanted, f"found {str(found)[:300]!r}, wanted {str(wanted)[:300]!r}")

    def skip(self, why):
        """Counts a check that isn't made, since something is missing: why, and how to get it."""
        self.checks += 1
        print(f"ok {self.checks} # SKIP {why}", flush=True)

    def add(self, name, said):
        """Adds the checks that another test printed. Whether it printed all that it planned."""
        made, plan = 0, None
        for line in said.splitlines():
            if found := re.match(r"(not )?ok (\d+) (- |# SKIP )(.*)", line):
                made += 1
                if found[3] == "# SKIP ":
                    self.skip(found[4])
                else:
                    self.check(f"{name}: {found[4]}", not found[1])
            elif found := re.match(r"1\.\.(\d+)", line):
                plan = int(found[1])
            else:
                comment(line)
        return plan == made

    def end(self):
        """Prints the plan. The status: 1 if a check failed."""
        print(f"1..{self.checks}", flush=True)
        return 1 if self.failed else 0


def comment(*texts):
    """Prints texts that aren't checks."""
    for line in "\n".join(map(str, texts)).splitlines():
        print(f"# {line}".rstrip(), flush=True)


def skip_all(why):
    """Ends a test that made no check, since something is missing: why, and how to get it."""
    print(f"1..0 # SKIP {why}", flush=True)
    sys.exit(0)


def in_one_line(name):
    """A check's name, in which # begins no directive."""
    return str(name).replace("\\", "\\\\").replace("#", "\\#").replace("\n", " ").replace("\r", " ")


def program_of(name):
    """The program of this name that a test runs over: BLKQ, GATE_RACES or PLAY_CALLS in the environment names it, else it is cargo's."""
    return HOME / os.environ.get(name.upper(), f"rust/target/release/{name}")

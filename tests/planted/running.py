"""Runs the tests of a copy, and notices those that hang."""

import os
import subprocess
import time

NO_END = "no end: "


class Tests:
    """Tests to run on one copy after another, and the seconds that each took when it first passed."""

    def __init__(self, least):
        self.least, self.took = least, {}

    def fails(self, test, command, **how):
        """Returns how a test fails ('' or NO_END), or None if it passes. A test hangs if it takes longer than `least` seconds plus ten times
        what it took when it passed."""
        seconds, began = self.least + 10 * self.took.get(test, 30), time.monotonic()
        done = subprocess.run(["timeout", str(seconds), *command], capture_output=True, check=False, **how)
        if done.returncode:
            return NO_END if done.returncode == 124 else ""
        self.took.setdefault(test, time.monotonic() - began)
        return None


def by_cargo(folder, target, **more):
    """How cargo is run in a folder: its environment."""
    told = {"CARGO_NET_OFFLINE": "true", "CARGO_TARGET_DIR": str(target), "CARGO_PROFILE_DEV_DEBUG": "false", "RUST_BACKTRACE": "0"}
    return {"cwd": folder, "env": os.environ | told | more}

"""Runs the kit's prover on copies of a crate, over the libraries that are proved in the repository."""

import os
import shutil
import signal
import tempfile

PARTS = ("src", "specs", "proofs")


class Ran:
    """What a check said, and whether the crate is proved."""

    def __init__(self, status, said):
        self.said, self.is_proved = said, status == 0
        last = said.rstrip("\n").rpartition("\n")[2]
        # Without that last line the crate didn't reach the prover.
        self.is_read = last.startswith(("holes=", "only="))


class Prover:
    """Checks copies of one crate, each over what the ones before have proved."""

    def __init__(self, kit, crate, room):
        self.kit, self.crate, self.kept = kit, crate, f"{room}/kept"
        was = f"{crate.folder}/out/incremental"
        if os.path.isdir(was):
            shutil.copytree(was, self.kept)

    def check(self, texts, only, jobs):
        """Checks the crate with these texts in place of its own: all of it, or only some functions."""
        with tempfile.TemporaryDirectory(prefix="wrong-bodies-") as copy:
            for part in PARTS:
                if os.path.isdir(f"{self.crate.folder}/{part}"):
                    shutil.copytree(f"{self.crate.folder}/{part}", f"{copy}/{part}")
            for path, text in texts.changed.items():
                with open(f"{copy}/{path}", "w", encoding="utf-8") as it:
                    it.write(text)
            ran = self.run(copy, only, jobs)
            if "` has no function `" in ran.stdout:
                ran = self.run(copy, (), jobs)
            if ran.returncode == -signal.SIGKILL and jobs > 1:
                ran = self.run(copy, only, 1)
        return Ran(ran.returncode, ran.stdout)

    def run(self, copy, only, jobs):
        flags = ["--allow-holes", "--incremental", self.kept]
        for name in sorted(only):
            flags += ["--only", name]
        return self.kit.check(self.crate, copy, jobs, flags)

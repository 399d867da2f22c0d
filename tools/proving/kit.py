"""Calls the kit's prover, and locks the folders of crates.

rt has no command that builds a library of statements only, or that checks a copy of a crate over libraries elsewhere. So this
calls the prover `rattle`, with flags that its help describes, on the files of the kit in PLACES. If a kit lacks one of them, a
message names the kit and the file. `rt ci` needs none of these tools.
"""

import fcntl
import functools
import os
import re
import shutil
import subprocess
import sys

# What is read of the kit, below its folder.
PLACES = {
    "prover": "bin/rattle",
    "linker": "bin/rattle-link",
    "libraries": "rlibs/std.rlib/format",
    "logic": "rattle/logic/antt-project.json",
    "built logic": "logic_built",
    "toolchain": "toolchain",
    "C of os": "c/libos_c.a",
    "C of libc": "c/liblibc_c.a",
}
FLAGS = {
    "check": ("--crate-name", "--extern", "-L", "--antt-project", "--logic-built", "--jobs", "--links", "--crate-type", "--only"),
    "build": ("--statements", "--incremental", "--toolchain", "--backend"),
}
TARGET = "x86_64-unknown-linux-gnu"
# Prints each crate below a folder with the stamp by which rt knows that its library is current.
STAMPS = """
import functools, sys
sys.path.insert(0, sys.argv[1])
import rtlib
rtlib.Crate.stamp = functools.cache(rtlib.Crate.stamp)
for it in rtlib.crates_below(sys.argv[2]):
    print(it.name, it.stamp())
"""


@functools.lru_cache(maxsize=None)
def kit():
    """The kit whose rt is on the PATH."""
    if not shutil.which("rt"):
        sys.exit("rt, the command of the Rattle kit, is not on the PATH (docs/RATTLE.md)")
    found = Kit()
    found.require()
    return found


def asked(*words):
    """What a command prints, or nothing if it fails."""
    try:
        return subprocess.run(words, capture_output=True, text=True, errors="replace", check=True).stdout.strip()
    except (OSError, subprocess.CalledProcessError):
        return ""


class Kit:
    def __init__(self):
        self.name = asked("rt", "version")
        self.folder = os.path.dirname(asked("rt", "doc"))
        self.prover = self.at("prover")
        # Its process group ends with this process, however that ends.
        ends, self.held = os.pipe()
        how = {"stdin": ends, "stdout": subprocess.DEVNULL, "stderr": subprocess.DEVNULL}
        self.guard = subprocess.Popen(["sh", "-c", "read _; kill -9 0"], **how, **group(0))
        os.close(ends)

    def at(self, place):
        return f"{self.folder}/{PLACES[place]}"

    def require(self):
        """Ends this program, by a message, if the kit lacks a file or a flag that is used here."""
        lacking = [it for place, it in PLACES.items() if not os.path.exists(self.at(place))]
        if not lacking:
            helps = {verb: asked(self.prover, verb, "--help") for verb in FLAGS}
            lacking = [f"rattle {verb} {flag}" for verb, flags in FLAGS.items() for flag in flags if flag not in helps[verb]]
        if lacking:
            sys.exit(f"tools/proving/kit.py: {self.name or 'this kit'} has no {', no '.join(lacking)}")

    def identity(self):
        """The kit's name, and its logic's sum."""
        return self.name

    def logic(self):
        """The sum of the kit's logic alone, which other kits share; or the kit's whole name if it shows no such sum."""
        found = re.search(r"\blogic ([0-9a-f]+)$", self.name)
        return found[1] if found else self.name

    def stamps(self, crates):
        """The stamps of rt for the crates in a folder, by name; none if this kit's rt can't be asked."""
        said = asked(sys.executable, "-B", "-c", STAMPS, f"{self.folder}/bin", crates)
        return dict(line.split() for line in said.splitlines())

    def sources_of(self, library):
        """The folder of one of the kit's libraries, or None if the kit has no sources of it."""
        folder = f"{self.folder}/rattle/{library}"
        return folder if os.path.isdir(f"{folder}/src") else None

    def format_of(self, library):
        """The file that has a sum of all files of one of the kit's libraries."""
        return f"{self.folder}/rlibs/{library}.rlib/format"

    def started(self, words, folder, **how):
        """A process that ends when this one does."""
        return subprocess.Popen(words, cwd=folder, stdin=subprocess.DEVNULL, **how, **group(self.guard.pid))

    def words(self, crate, jobs):
        """The words by which the prover finds a crate and the libraries below it."""
        words = ["--crate-name", crate.name, "src/main.rt" if crate.is_program else "src/lib.rt"]
        for name in crate.of_kit:
            words += ["--extern", f"{name}={self.folder}/rlibs/{name}.rlib"]
        words += ["-L", f"dependency={self.folder}/rlibs"]
        for dep in crate.deps:
            words += ["--extern", f"{dep.name}={dep.rlib}"]
        for dep in crate.below():
            words += ["-L", f"dependency={os.path.dirname(dep.rlib)}"]
        words += ["--antt-project", self.at("logic"), "--logic-built", self.at("built logic")]
        # The repository declares no C functions.
        words += ["--jobs", str(jobs), "--links", f"{crate.name}="]
        if crate.target:
            words += ["--target", crate.target]
        return [*words, "--crate-type", "staticlib"] if crate.is_static else words

    def check(self, crate, folder, jobs, flags):
        """Checks the copy of a crate that is in a folder, over the repository's libraries below it. The process that ran."""
        words = [self.prover, "check", *self.words(crate, jobs), *flags]
        how = {"stdout": subprocess.PIPE, "stderr": subprocess.STDOUT, "encoding": "utf-8", "errors": "replace"}
        with self.started(words, folder, **how) as process:
            said = process.communicate()[0]
        return subprocess.CompletedProcess(words, process.returncode, said)

    def build(self, crate, made, jobs, out):
        """Proves a crate and builds it: a library of its statements, an archive, or a program. The status; it says all on out."""
        words = [self.prover, "build", *self.words(crate, jobs)]
        if crate.makes_rlib():
            return self.said([*words, "--statements", "-o", crate.rlib], crate, out)
        tools = ["--toolchain", self.at("toolchain")]
        words += [*tools, "--backend", "llvm"]
        if crate.is_static:
            # Its wrong bodies are tried over the proofs that are kept.
            return self.said([*words, "--incremental", "out/incremental", "-o", made], crate, out)
        if status := self.said([*words, "-o", f"{made}.o"], crate, out):
            return status
        link = [self.at("linker"), "--target", TARGET, *tools, "-o", made, f"{made}.o", self.at("C of os"), self.at("C of libc")]
        return self.said(link, crate, out)

    def said(self, words, crate, out):
        out.flush()
        with self.started(words, crate.folder, stdout=out, stderr=subprocess.STDOUT) as process:
            return process.wait()


def group(leader):
    """How a process is started in a process group: its own for 0."""
    if sys.version_info >= (3, 11):
        return {"process_group": leader}
    return {"preexec_fn": functools.partial(os.setpgid, 0, leader)}


def hold(crates, how=fcntl.LOCK_SH):
    """Locks these crates' folders, as rt does, until what this returns is closed: shared, for reading what is there, or for work
    in them."""
    held = [os.open(it, os.O_RDONLY) for it in sorted({os.path.realpath(it.folder) for it in crates})]
    for it in held:
        try:
            fcntl.flock(it, how | fcntl.LOCK_NB)
        except BlockingIOError:
            print("waiting for another command to finish in these crates", file=sys.stderr, flush=True)
            fcntl.flock(it, how)
        except OSError:
            # Some file systems have no locks.
            pass
    return held


def let_go(held):
    for it in held:
        os.close(it)

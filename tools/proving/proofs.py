"""Keeps track of which crates are proved, and of what is built from them: a library in out/rlib of the crate's folder, a program or
an archive in out/.

A library is built from statements only, as rt ci builds it. A check above it then reads the statements and not the proofs,
which are some thirty times as large. It gets the stamp by which rt knows it as current, so the first rt check of a changed crate proves
that crate alone. rt check and rt lib keep the proofs too, so that an edit proves again only what changed.
Libraries that rt has built are used after rt lib has brought them up to date.
"""

import hashlib
import os
import re
import shutil
import subprocess
import sys


class Proofs:
    def __init__(self, kit):
        self.kit = kit
        # The crates whose libraries rt lib has just built or found current.
        self.by_rt = set()

    def read_by(self, crate):
        """A sum of all that a crate's proof reads, once the libraries below it are built."""
        of_kit = [sum_of(self.kit.format_of(it)) for it in crate.of_kit]
        how = crate.is_static, *([crate.target] if crate.target else [])
        found = hashlib.sha256(repr((self.kit.identity(), *how, crate.of_kit, of_kit)).encode())
        found.update(repr(sources_of(crate)).encode())
        # A library's format has a sum of its other files.
        found.update(repr([(it.name, sum_of(f"{it.rlib}/format")) for it in crate.below()]).encode())
        return found.hexdigest()

    def noted(self, crate):
        """The content of the note of a crate that was proved: a sum of what was read, and one of what was built."""
        return f"{self.read_by(crate)} {sum_of(made_of(crate))}"

    def note(self, crate):
        """The file with the sums. A library's stands in the folder that rt empties before it builds the library itself."""
        return f"{os.path.dirname(crate.rlib)}/sums" if crate.makes_rlib() else f"{made_of(crate)}.sums"

    def tell_rt(self, crates):
        """Gives rt's stamps to the libraries that are proved from the sources that are there now, so that rt doesn't build them again."""
        stamps = self.kit.stamps(os.path.dirname(crates[0].folder)) if crates else {}
        for crate in crates:
            if crate.makes_rlib() and crate.name in stamps and text_of(self.note(crate)) and self.has(crate):
                write(stamp_of(crate), stamps[crate.name])

    def has(self, crate):
        """Whether the library, archive or program that is there was proved and built of these sources, over the libraries that
        are there now."""
        if crate in self.by_rt:
            return True
        return os.path.isfile(made_of(crate)) and text_of(self.note(crate)) == self.noted(crate)

    def ask_rt(self, crates):
        """Brings the libraries up to date that rt has built, with all below them. No lock may be held on their folders."""
        of_rt = {it for it in crates if it.makes_rlib() and all(map(self.is_of_rt, [*it.below(), it]))}
        below = {dep for it in of_rt for dep in it.below()}
        for top in of_rt - below:
            print(f"rt lib brings the libraries of {top.name} up to date", file=sys.stderr, flush=True)
            if subprocess.run(["rt", "lib"], cwd=top.folder, capture_output=True, check=False).returncode == 0:
                self.by_rt |= {*top.below(), top}

    def is_of_rt(self, crate):
        return os.path.isfile(stamp_of(crate)) and not os.path.isfile(self.note(crate))

    def prove(self, crate, jobs):
        """Proves and builds a crate from nothing (an archive over the proofs that are kept) and over the libraries below it. The
        prover's output goes to crate.out."""
        if crate.makes_rlib():
            shutil.rmtree(os.path.dirname(crate.rlib), ignore_errors=True)
            os.makedirs(os.path.dirname(crate.rlib))
        write(self.note(crate), "")
        read = self.read_by(crate)
        status = self.kit.build(crate, made_of(crate), jobs, crate.out)
        # No note if something was edited meanwhile.
        if status == 0 and read == self.read_by(crate):
            write(self.note(crate), self.noted(crate))
        return status

    def note_all(self, crates):
        """Notes the libraries and programs that rt ci has just proved and built here, but for those that an earlier note is of: rt ci
        puts back what it found. The names of their crates."""
        there = [it for it in crates if not it.is_static and os.path.isfile(made_of(it)) and not text_of(self.note(it))]
        for crate in there:
            write(self.note(crate), self.noted(crate))
        self.tell_rt(crates)
        return [it.name for it in there]


def made_of(crate):
    """The file that is built of a crate: of a library the one with the sums of its other files."""
    if crate.is_program:
        return f"{crate.folder}/out/{crate.name}"
    return f"{out_of(crate)}/lib{crate.name}.a" if crate.is_static else f"{crate.rlib}/format"


def stamp_of(crate):
    """The file by which rt knows whether a library is current."""
    return f"{os.path.dirname(crate.rlib)}/stamp"


def out_of(crate):
    """The folder in which a crate's archive lies, and in proved.log what the prover said of it."""
    return f"{crate.folder}/out/{crate.target}" if crate.target else f"{crate.folder}/out"


def sources_of(crate):
    """The path and a sum of each file that a proof of the crate reads."""
    return [(os.path.relpath(it, crate.folder), sum_of(it)) for it in crate.files()]


def proved_in(said):
    """The names of the crates that rt ci said to be proved, now or by an earlier run of the same sources."""
    return {*re.findall(r"^rt: (\w+) (?:proved$|is kept: )", said, re.MULTILINE)}


def text_of(path):
    try:
        with open(path, encoding="utf-8", errors="replace") as it:
            return it.read()
    except OSError:
        return ""


def sum_of(path):
    try:
        with open(path, "rb") as it:
            return hashlib.sha256(it.read()).hexdigest()
    except OSError:
        return "none"


def write(path, text):
    with open(path, "w", encoding="utf-8") as it:
        it.write(text)

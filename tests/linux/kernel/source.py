"""Finds a Linux source, and takes whole files, and functions by name, out of it."""

import glob
import os
import re
import shutil
import subprocess
import tempfile
from dataclasses import dataclass

# The parts of a source that are read. Nothing else of an archive is unpacked.
FILES = (
    "Makefile",
    "lib/percpu-refcount.c",
    "include/linux/percpu-refcount.h",
    "include/linux/blkdev.h",
    "block/blk.h",
    "block/blk-core.c",
    "block/blk-merge.c",
    "block/blk-mq.c",
)
ARCHIVES = "/usr/src/linux-source-*.tar.xz"
HELP = "apt-get install linux-source-6.1"


class NoSource(Exception):
    """Why there is no source, or why something can't be taken out of it."""


@dataclass
class Taken:
    """A part that was taken: its text, and its place."""

    file: str
    name: str
    line: int
    text: str


class Source:
    """An unpacked source, or the part of one that is read here."""

    def __init__(self, root):
        self.root, self.taken = root, []
        missing = [it for it in FILES[1:3] if not os.path.isfile(os.path.join(root, it))]
        if missing:
            raise NoSource(f"{root} isn't a Linux source: it has no {missing[0]}")

    def read(self, file):
        try:
            with open(os.path.join(self.root, file), encoding="utf-8", errors="surrogateescape") as it:
                return it.read()
        except OSError as why:
            raise NoSource(f"{file}: {why.strerror}") from why

    def version(self):
        try:
            text = self.read("Makefile")
        except NoSource:
            return "of no version"
        found = [re.search(rf"^{it} = *(\S*)$", text, re.M) for it in ("VERSION", "PATCHLEVEL", "SUBLEVEL")]
        return ".".join(it[1] for it in found if it)

    def whole(self, file):
        """A file as it is."""
        taken = Taken(file, "the whole file", 1, self.read(file))
        self.taken.append(taken)
        return taken.text

    def function(self, file, *names):
        """The function of this name, or the first that is there of several: from the line with its name to the first brace that
        ends a line block. It fails if the braces don't match."""
        lines = self.read(file).split("\n")
        for name in names:
            head = re.compile(rf"^[a-z].*\b{name}\(")
            for at, line in enumerate(lines):
                if head.match(line) and not line.rstrip().endswith(";"):
                    return self.up_to_brace(file, name, lines, at)
        raise NoSource(f"{file} has no function {' or '.join(names)}: this version isn't known")

    def up_to_brace(self, file, name, lines, at):
        end = next((it for it in range(at, len(lines)) if lines[it].startswith("}")), None)
        text = "\n".join(lines[at : end + 1]) if end is not None else ""
        if not text or text.count("{") != text.count("}"):
            raise NoSource(f"{file}: the braces of {name} don't match")
        self.taken.append(Taken(file, name, at + 1, text))
        return f'#line {at + 1} "{file}"\n{text}\n'

    def function_if_there(self, file, *names):
        try:
            return self.function(file, *names)
        except NoSource:
            return ""


def archives():
    """The sources that Debian's packages install, the newest version first."""
    number = lambda path: [int(it) for it in re.findall(r"\d+", os.path.basename(path))]
    return sorted(glob.glob(ARCHIVES), key=number, reverse=True)


def installed(version):
    """The archive of a version, or the newest one; with CI=true apt installs it."""
    def found():
        return [it for it in archives() if version is None or f"linux-source-{version}.tar" in it]

    if not found() and os.environ.get("CI") == "true":
        package = f"linux-source-{version or '6.1'}"
        for words in (("update", "-q"), ("install", "-q", "-y", "--no-install-recommends", package)):
            try:
                subprocess.run(("apt-get", *words), stdin=subprocess.DEVNULL, capture_output=True, check=False, timeout=900)
            except (OSError, subprocess.TimeoutExpired):
                break
    if not found():
        raise NoSource(f"there is no Linux source: give TREE, or {HELP.replace('6.1', version or '6.1')}")
    return found()[0]


def unpacked(archive):
    """The files of an archive that are read here, in a folder that is kept for the next time."""
    kept = os.environ.get("XDG_CACHE_HOME") or os.path.join(os.path.expanduser("~"), ".cache")
    stat = os.stat(archive)
    name = os.path.basename(archive).split(".tar")[0]
    folder = os.path.join(kept, "blkq", f"{name}-{stat.st_size}-{int(stat.st_mtime)}")
    if not os.path.isfile(os.path.join(folder, FILES[-1])):
        os.makedirs(os.path.dirname(folder), exist_ok=True)
        with tempfile.TemporaryDirectory(dir=os.path.dirname(folder)) as room:
            words = ["tar", "-C", room, "--strip-components=1", "-xf", archive, *(f"{name}/{it}" for it in FILES)]
            if subprocess.run(words, capture_output=True, check=False).returncode:
                raise NoSource(f"{archive} can't be unpacked, or lacks one of {' '.join(FILES)}")
            # Another run may have been quicker.
            shutil.copytree(room, folder, dirs_exist_ok=True)
    return folder


def source_of(tree, version=None):
    """The source in a folder or an archive; if none is given, that of an installed package."""
    if tree and os.path.isdir(tree):
        return Source(tree)
    return Source(unpacked(tree or installed(version)))

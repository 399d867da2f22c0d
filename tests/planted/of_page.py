"""Plants mistakes in the page: in docs/try, in its heap, and in how tools/page assembles it. A test of tests/page has to find each."""

import pathlib
import shutil
import sys
import tempfile
import threading

ROOT = pathlib.Path(__file__).resolve().parents[2]
sys.path.insert(0, str(ROOT / "tests/page"))

import as_file
import inputs
from chromium import Chromium
from counts import Counts, program_of
from page_parts import assembly
from parts import PARTS as TRIES
from parts import Setting, tried

PARTS = as_file.PARTS
# How many seconds a test waits for something that a correct page shows sooner.
SECONDS = 20
# The tests to run first for each file of mistakes. The others follow, except those with many inputs.
LOOKING = tuple(name for name in TRIES if name.startswith("looks"))
FIRST = {
    "input": ("typed", "refusals", "by kind", "an old answer"),
    "links": ("linked", "damaged links", "the way back", "typed"),
    "runs": ("runs", "examples", "an old answer", "typed"),
    "drawing": ("tables", "stepping", "keys", "into view", "by kind", "an old answer"),
    "looks": (*LOOKING, "an old answer"),
    "race": ("a race's page",),
}
LONG = ("answers", "greatest")


class Found(Exception):
    """The first try that a page fails."""


class First(Counts):
    def check(self, name, is_so, more=""):
        self.checks += 1
        if not is_so:
            raise Found(f"{name}{f': {more}' if more else ''}"[:200])


def source_of(name):
    return (ROOT / "tools/page_parts" if name.endswith(".py") else PARTS) / name


class Wrong:
    """The page with one file of its parts changed."""

    lock = threading.Lock()

    def __init__(self, programs, source, mistake=None):
        self.programs, self.source, self.mistake, self.kind = programs, source, mistake, mistake.kind if mistake else ""
        self.text = source_of(source).read_text(encoding="utf-8")
        for pair in mistake.pairs if mistake else ():
            self.text = pair.put_into(self.text)

    def read(self, path):
        return self.text if path == str(source_of(self.source)) else pathlib.Path(path).read_text(encoding="utf-8")

    def assembled(self, sums=None):
        module, right = assembly.module_in(as_file.PAGE.read_text(encoding="utf-8"))
        with self.lock:
            kept, assembly.read = assembly.read, self.read
            try:
                return assembly.assembled(module, sums or right)
            finally:
                assembly.read = kept

    def in_browser(self, work):
        page = work / "try.html"
        page.write_text(self.assembled(), encoding="utf-8")
        first = FIRST.get(self.kind, ())
        names = [*first, *(name for name in TRIES if name not in first and (name not in LONG or not self.kind))]
        with Chromium(SECONDS) as it:
            tried(it, First(), Setting(page.as_uri(), self.programs, picture=self.picture(work)), names)

    def picture(self, work):
        """A tools/picture that is made of the changed parts."""
        tools = work / "tools"
        shutil.copytree(ROOT / "tools", tools, ignore=shutil.ignore_patterns("__pycache__"))
        shutil.copytree(ROOT / "tests/machines", work / "tests/machines")
        shutil.copytree(PARTS, work / "docs/try")
        shutil.copytree(ROOT / "examples", work / "examples")
        (work / source_of(self.source).relative_to(ROOT)).write_text(self.text, encoding="utf-8")
        return tools / "picture"

    def as_sources(self, work):
        """What tools/page --check says of a copy with this change, whose page has the sums that the changed one has."""
        copy = as_file.copied(work / "copy")
        (copy / source_of(self.source).relative_to(ROOT)).write_text(self.text, encoding="utf-8")
        as_file.with_new_sums(copy)
        as_file.changed_sources(First(), copy)

    def under_sanitizers(self, work):
        parts = work / "parts"
        parts.mkdir()
        for name in ("heap.c", "heap.h", "wide.c"):
            shutil.copy(PARTS / name, parts / name)
        (parts / self.source).write_text(self.text, encoding="utf-8")
        as_file.heap(First(), parts)

    def way(self):
        if self.kind == "race":
            return self.in_browser
        return {".c": self.under_sanitizers, ".py": self.as_sources}.get(pathlib.Path(self.source).suffix, self.in_browser)

    def found(self):
        """By which try the change is found; None if by none."""
        with tempfile.TemporaryDirectory(prefix="wrong-page-") as work:
            try:
                self.way()(pathlib.Path(work))
            except Found as why:
                return str(why)
        return None


class Kind:
    MOST_JOBS = 8

    def __init__(self, work):
        self.programs = inputs.Programs(program_of("blkq"), program_of("gate_races"))

    def as_it_is(self, chosen):
        """The page with a mistake that changes nothing, for each way of trying one."""
        wrong = [Wrong(self.programs, it.file, it) for it in chosen]
        return ((it, Wrong(self.programs, it).found()) for it in {it.way().__name__: it.source for it in wrong}.values())

    def found_by(self, mistake):
        return Wrong(self.programs, mistake.file, mistake).found()

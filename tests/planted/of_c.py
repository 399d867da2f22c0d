"""Plants mistakes in the waits and the pool, in what freeze_queue.h announces to the thread sanitizer, and in the C code of the library.

A test of c/tests/queue has to find each mistake, by a wrong answer or a report. A test that hangs counts only if no other test fails, since it may
or may not have lost a wake. With STAND_IN in the environment mistakes are tried over a stand-in for the proved library, and nothing is
built, but for mistakes in lanes, whose names begin with lane_: the library of each is built with it, over what cargo has built."""

import os
import pathlib
import shutil
import subprocess

from running import NO_END, Tests

ROOT = pathlib.Path(__file__).resolve().parents[2]
LIBRARY = ROOT / "c"
HERE = LIBRARY / "tests/queue"
OF_C = "freeze_queue.c"  # the C code of the library
APART = ["-include", str(HERE / "dawdle.h")]
THREADS = ["-fsanitize=thread"]
MEMORY = ["-fsanitize=address,undefined", "-fno-sanitize-recover=all"]
# A test, its arguments, and flags for the compiler; the quickest first.
TESTS = [
    ("told", [], []),
    ("scripted", [], []),
    ("scripted_pool", [], []),
    ("scripted_ends", [], []),
    ("scripted_looks", [], []),
    ("unmade", [], []),
    ("in_line", ["30"], []),
    ("orders_pool", [], []),
    ("orders", [], []),
    ("orders", [], ["-DFREEZE_QUEUE_LOOK=700"]),
    ("forked", [], []),
    ("biased", ["300"], []),
    ("misuse", [], []),
    ("mixed_up", [], []),
    ("last_try", [], []),
    ("deadlines", [], []),
    ("cancelled", [], []),
    ("waits", ["300"], []),
    ("pool", ["300", "6"], []),
    ("callers", ["1000"], []),
    ("ends", ["200"], MEMORY),
    ("pool_ends", ["200"], [*MEMORY, *APART]),
    ("updates", ["500"], []),
    ("hammer", ["1000", "4", "3", "1"], APART),
    ("hammer", ["10000", "4", "4", "2"], APART),
    ("pool", ["3000", "6"], APART),
    ("guarded", ["1000", "4"], THREADS),
    ("hammer", ["20000", "4", "4", "2"], THREADS),
    ("pool", ["5000", "6"], THREADS),
    ("ends", ["300"], THREADS),
    ("pool_ends", ["300"], THREADS),
]
# Of mistakes in what of the library is C, which stands on the stand-in for what is proved.
TESTS_OF_C = [
    ("misuse", [], []),
    ("mixed_up", [], []),
    ("callers", ["100"], []),
    ("places", [], []),
    ("drawn", ["20000"], []),
    ("drawn", ["2000"], THREADS),
]
# Of mistakes in lanes, over cargo's build of the library with the same mistake.
TESTS_OF_LANES = [
    ("lane_steps", ["lent"], []),
    ("laned", ["100000", "30", "lent"], []),
    ("laned", ["100000", "300", "lent"], APART),
    ("laned", ["30000", "30", "lent"], MEMORY),
]


def stand_in(folder, flags):
    """The archive of what of the library is C in a folder, over the stand-in for the rest, by these flags of the compiler."""
    archive = folder / f"{len(flags)}_{abs(hash(tuple(flags)))}.a"
    objects = []
    for source in [] if archive.exists() else [folder / OF_C, HERE / "freeze_queue_mock.c"]:
        objects.append(folder / f"{source.stem}.o")
        command = ["cc", "-std=c11", "-O2", "-g", "-w", *flags, f"-I{folder}", "-c", source, "-o", objects[-1]]
        subprocess.run(command, check=True)
    if objects:
        subprocess.run(["ar", "rcs", archive, *objects], check=True)
    return archive


def is_of_lanes(mistake):
    return mistake.name.startswith("lane_")


def made_in(library, build=()):
    """The archive of the queue that is built in a folder."""
    command = ["make", "-s", "-C", library, *build]
    subprocess.run(command, check=True, stdout=subprocess.DEVNULL)
    folder = subprocess.run([*command, "folder"], check=True, capture_output=True, text=True).stdout.strip()
    return pathlib.Path(folder) / "libfreeze_queue.a"


class Kind:
    MOST_JOBS = 1

    def __init__(self, work):
        self.work, self.stand_in, self.tests = work, bool(os.environ.get("STAND_IN")), Tests(15)
        self.archive = self.found_last = None

    def as_it_is(self, chosen):
        """What finds something wrong in the headers and the library as they are."""
        if any(map(is_of_lanes, chosen)):
            yield "lanes", self.first_with_lanes(self.tree("right_with_lanes"), "right")
        if not all(map(is_of_lanes, chosen)):
            yield "the headers", self.first(self.copied("right", self.stand_in), "right", TESTS)
            yield "the library's C", self.first(self.copied("right_with_c", True), "right", TESTS_OF_C)

    def tree(self, name):
        """A copy of the library's folder, beside what cargo builds it from."""
        library = shutil.copytree(LIBRARY, self.work / name / "c", ignore=lambda _, names: {"out", "tests", "examples"} & set(names))
        for other in ("rust", "tools", "VERSION"):
            (library.parent / other).symlink_to(ROOT / other)
        return library

    def first_with_lanes(self, library, name):
        """The first test that finds what is wrong in a copy of the library's folder, which is built."""
        shutil.copy(made_in(library, ["BUILD=erased", "LIBRARIES=freeze_queue"]), library / "include")
        return self.first(library / "include", name, TESTS_OF_LANES)

    def found_by(self, mistake):
        """What finds a mistake that is put into its header, or into what of the library is C."""
        if is_of_lanes(mistake):
            library = self.tree(mistake.name)
            with mistake.planted(library / ("src" if mistake.file == OF_C else "include")):
                return self.first_with_lanes(library, mistake.name)
        is_of_c = mistake.file == OF_C
        folder = self.copied(mistake.name, self.stand_in or is_of_c)
        with mistake.planted(folder):
            return self.first(folder, mistake.name, TESTS_OF_C if is_of_c else TESTS)

    def copied(self, name, with_c):
        """A copy of the headers, and of what of the library is C, which stands on the stand-in then."""
        folder = shutil.copytree(LIBRARY / "include", self.work / name)
        if with_c:
            shutil.copy(LIBRARY / "src" / OF_C, folder)
        return folder

    def library_of(self, folder, flags):
        """The library to which a test is linked that is compiled with the headers of a folder."""
        if (folder / OF_C).exists():
            return stand_in(folder, flags)
        if (folder / "libfreeze_queue.a").exists():
            return folder / "libfreeze_queue.a"
        self.archive = self.archive or made_in(LIBRARY)
        return self.archive

    def fails(self, folder, test, words, flags):
        """How a test fails that is compiled with the headers of a folder, or None."""
        program = folder / "program"
        library = self.library_of(folder, flags)
        command = ["cc", "-std=c11", "-O2", "-g", "-w", *flags, "-DFREEZE_QUEUE_INLINE", f"-I{folder}", HERE / f"{test}.c"]
        subprocess.run([*command, library, "-pthread", "-o", program], check=True)
        return self.tests.fails((test, *words, *map(str, flags)), [program, *words])

    def first(self, folder, name, tests):
        """The first test that finds what is wrong in a folder's headers; a test without an end if no other fails. The test that found the
        mistake before goes first, since mistakes that lie side by side are mostly found by the same one. What the thread sanitizer is told is
        looked at by told, and by what runs under it."""
        endless = None
        for row in sorted(tests, key=lambda row: row != self.found_last):
            test, words, flags = row
            if not name.startswith("tsan") or flags == THREADS or test == "told":
                how = self.fails(folder, test, words, flags)
                told = None if how is None else how + " ".join([test, *words, *flags[:1]])
                if how == "":
                    self.found_last = row
                if how == "" or how == NO_END and endless:
                    return told if how == "" else endless
                endless = endless or told
        return endless

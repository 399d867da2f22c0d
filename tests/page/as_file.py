"""Tests the page as a file: its parts, its size and its links; and its heap under sanitizers."""

import os
import pathlib
import re
import shutil
import subprocess
import sys
import tempfile


ROOT = pathlib.Path(__file__).resolve().parents[2]
PAGE = ROOT / "docs/try.html"
MOST_BYTES = 300_000
PARTS = ROOT / "docs/try"
SANITIZED = "-std=c17 -g -O1 -Wall -Wextra -Werror -fsanitize=address,undefined -fno-sanitize-recover=all".split()
# What tools/page --check reads. A folder `out` is left behind.
READ = ("crates", "tools", "examples", "docs/try", "docs/try.html", "crates.txt")
AROUND = "docs/try or examples/ has changed since: run tools/page --around"


def told_by_check(root):
    """The status of tools/page --check in a tree, and what it prints."""
    done = subprocess.run([root / "tools/page", "--check"], capture_output=True, text=True, check=False)
    return done.returncode, (done.stdout + done.stderr).replace("docs/try.html: ", "").splitlines()


def sources(counts):
    """The page as a file."""
    counts.equal("the page is made of these sources", told_by_check(ROOT), (0, []))
    page = PAGE.read_text(encoding="utf-8")
    counts.check(f"the page has fewer than {MOST_BYTES} bytes", len(page.encode()) < MOST_BYTES)
    addresses = re.findall(r"https?://[^\s\"'`]*", page)
    counts.equal("it names no address but that of SVG", sorted(set(addresses)), ["http://www.w3.org/2000/svg"])
    counts.check("it loads nothing", not re.search(r"\bsrc=|@import|url\(|\bfetch\(|XMLHttpRequest", page))
    links = [it for it in re.findall(r'href="([^"]*)"', page) if not it.startswith("data:")]
    counts.check("its links lead to files", links and all((PAGE.parent / it).is_file() for it in links), links)


def module_changed(name):
    return f"{name} has changed since its module was made: run tools/page"


# A change of one file: the old text, the new one, and what tools/page --check then says.
CHANGES = {
    "a body below": ("crates/line_text/src/fault.rt", "Why::NoDisk => 3,", "Why::NoDisk => 4,", module_changed("crates/line_text")),
    "a contract": ("crates/browser/src/calls.rt", "ensures no_line {", "ensures none {", module_changed("crates/browser")),
    "a comment": ("crates/browser/src/calls.rt", "/// Replays a schedule.", "/// Replays it.", None),
    "the heap": ("docs/try/heap.c", "#define LEAST_GROWTH 16", "#define LEAST_GROWTH 17", module_changed("docs/try/heap.c")),
    "how the module is made": ("tools/page_parts/module.py", "4 << 30", "2 << 30", module_changed("tools/page_parts/module.py")),
    "the style sheet": ("docs/try/page.css", "#ffffff", "#fffffe", AROUND),
    "the worker": ("docs/try/worker.js", "FAULT = -1", "FAULT = -2", AROUND),
    "an example": ("examples/races/removal.races", "One slot", "1 slot", AROUND),
    "the menu": ("docs/try/examples.txt", "in all orders", "in each order", AROUND),
    "the page by hand": ("docs/try.html", "<main>", "<main >", AROUND),
    "a sum by hand": ("docs/try.html", '"crates/line_text": "', '"crates/line_text": "0', module_changed("crates/line_text")),
    "a crate that isn't below": ("crates/in_flight/src/table.rt", "\n", "\n// Another line.\nconst MORE: u32 = 1;\n", None),
}


def copied(copy):
    """A copy of what the check reads."""
    for part in READ:
        source, to = ROOT / part, copy / part
        to.parent.mkdir(parents=True, exist_ok=True)
        if source.is_dir():
            shutil.copytree(source, to, ignore=shutil.ignore_patterns("out", "__pycache__"))
        else:
            shutil.copy(source, to)
    return copy


# Puts the sums of the current sources into the page.
NEW_SUMS = """
import sys
sys.path.insert(0, "tools")
from page_parts.assembly import assembled, module_in
from page_parts.sums import sums_of_module
page = open("docs/try.html", encoding="utf-8").read()
page = assembled(module_in(page)[0], sums_of_module("."))
open("docs/try.html", "w", encoding="utf-8").write(page)
"""


def with_new_sums(copy):
    subprocess.run([sys.executable, "-B", "-c", NEW_SUMS], cwd=copy, check=True)


def changed_sources(counts, copy=None):
    """After each change of a copy the check says what to make anew; after a change of a file that isn't part of the page it says nothing."""
    if not copy:
        with tempfile.TemporaryDirectory(prefix="page-sources-") as name:
            return changed_sources(counts, copied(pathlib.Path(name)))
    counts.equal("the copy is as the sources are", told_by_check(copy), (0, []))
    for what, (file, old, new, said) in CHANGES.items():
        right = (copy / file).read_text(encoding="utf-8")
        (copy / file).write_text(right.replace(old, new, 1), encoding="utf-8")
        counts.check(f"{what}: its text is there", old in right)
        counts.equal(f"a change of {what}", told_by_check(copy), (1, [said]) if said else (0, []))
        (copy / file).write_text(right, encoding="utf-8")
    os.rename(copy / "crates/browser/src/script.rt", copy / "crates/browser/src/other.rt")
    return counts.equal("a file by another name", told_by_check(copy), (1, [module_changed("crates/browser")]))


def heap(counts, parts=PARTS):
    """The heap under sanitizers."""
    if not shutil.which("cc"):
        counts.skip("there is no C compiler for the heap (apt-get install gcc)")
        return
    with tempfile.TemporaryDirectory() as work:
        files = [pathlib.Path(__file__).with_name("heap_test.c"), *(parts / name for name in ("heap.c", "wide.c"))]
        words = ["cc", *SANITIZED, "-D__multi3=product_of", f"-I{parts}", *files, "-o", f"{work}/heap"]
        done = subprocess.run(words, capture_output=True, text=True, check=False)
        if done.returncode == 0:
            # A heap that gives one block again and again has no end.
            done = subprocess.run(["timeout", "3000", f"{work}/heap"], capture_output=True, text=True, errors="replace", check=False)
        is_right = counts.add("the heap", done.stdout) and done.returncode == 0
        counts.check("the heap is right under sanitizers", is_right, done.stderr[-2000:])

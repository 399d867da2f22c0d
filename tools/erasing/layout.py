"""The path of each erased file, its head, and its layout by rustfmt."""

import os
import re
import subprocess
import tempfile

# The crates of each package of rust/, the lowest first. `main` files become programs of their package.
PACKAGES = {
    "percpu-gate": ["percpu_words", "percpu_core", "percpu_gate"],
    "freeze-queue": ["queue_limits", "bias_lanes", "queue_core"],
    "blkq": [
        "wait_queue", "freeze_queue", "line_text", "ram_disk", "script_meaning", "script_overlap", "blk_script", "run_queues",
        "in_flight", "blk_workers", "gate_replay", "counted_io", "blkq_run", "blkq",
    ],
    "gate-races": ["race_world", "race_outcomes", "races_run", "gate_races"],
    "trials": ["uses", "play_calls"],
    "c-memory": ["loose_box", "c_answers"],
    "percpu-gate-c": ["percpu_gate_c"],
    "freeze-queue-c": ["freeze_queue_c"],
}  # fmt: skip
# Packages that need `core` and `alloc` alone.
WITHOUT_STD = {"percpu-gate", "freeze-queue", "c-memory", "percpu-gate-c", "freeze-queue-c"}
# The files of a crate that stand in a package above its own: (package, files, what that package's file says of them).
ABOVE = {
    "percpu_core": (
        "blkq",
        {
            "control_event", "control_standing", "event", "not_enabled", "pass_event", "pass_standing", "replay_fault", "schedule",
            "shared_word", "sizes", "slots", "world",
        },
        "//! The machine of a gate, over the phases, starts and limits that the running gate has too. The package percpu-gate has those.",
    ),
}  # fmt: skip
# Programs of several files, each in a folder of its own.
PROGRAMS = {"play_calls"}
# The first lines of the files among them.
ERASED_LINE = "// Erased from"
STAND_IN_LINE = "// A stand-in for"
# Crates of crates.txt that aren't erased: rust/ has no use for them.
LEFT_OUT = {"bench", "browser", "trials_rows", "trials_calls"}


def package_of(crate, name):
    """The package of a source file."""
    if crate in ABOVE and name in ABOVE[crate][1]:
        return ABOVE[crate][0]
    return next(package for package, crates in PACKAGES.items() if crate in crates)


def place(package, crate, name):
    """The file of rust/ that a source file becomes."""
    if crate in PROGRAMS:
        return f"{package}/src/bin/{crate}/{name}.rs"
    if name == "main":
        return f"{package}/src/bin/{crate}.rs"
    return f"{package}/src/erased/{crate}.rs" if name == "lib" else f"{package}/src/erased/{crate}/{name}.rs"


def placed(s):
    """The files that a source file becomes, each with its text. The lib of a crate in two packages has a part for each."""
    if s.crate not in ABOVE or s.name != "lib":
        return {place(package_of(s.crate, s.name), s.crate, s.name): finished(s)}
    package, files, comment = ABOVE[s.crate]
    lower, upper = [], []
    for line in finished(s).split("\n"):
        module = re.match(r"(?:pub )?(?:mod|use) (\w+)", line)
        (upper if module and module[1] in files else lower).append(line)
    below = f"pub use ::{package_of(s.crate, s.name).replace('-', '_')}::erased::{s.crate}::*;"
    upper = [lower[0], comment, "", *upper, below, ""]
    return {
        place(package_of(s.crate, s.name), s.crate, s.name): "\n".join(lower),
        place(package, s.crate, s.name): "\n".join(upper),
    }


def finished(s):
    """The text of an erased file: its first line, its comment, its imports and the rest."""
    lines = s.render().split("\n")
    at = 0
    while at < len(lines) and (lines[at].startswith("//!") or not lines[at].strip()):
        at += 1
    head, rest = [line for line in lines[:at] if line.strip()], lines[at:]
    if s.import_lines:
        modules = [k for k, line in enumerate(rest) if re.match(r"(pub )?mod \w+;\s*$", line)]
        place = modules[-1] + 1 if modules else 0
        rest[place:place] = [""] * bool(modules) + s.import_lines + [""]
    made = f"{ERASED_LINE} crates/{s.crate}/src/{s.name}.rt by tools/erase: edit that file."
    return "\n".join([made, *head, "", *rest])


def laid_out(texts, rust):
    """These texts as rustfmt lays them out, and what it refuses. It is run once, in a folder of their own."""
    with tempfile.TemporaryDirectory() as room:
        for path, text in texts.items():
            whole = os.path.join(room, path)
            os.makedirs(os.path.dirname(whole), exist_ok=True)
            with open(whole, "w", encoding="utf-8") as file:
                file.write(text)
        # A file's modules are laid out with it.
        tops = [os.path.join(room, path) for path in texts if re.fullmatch(r"[^/]+/src/(erased/\w+|bin/\w+|bin/\w+/main)\.rs", path)]
        command = ["rustfmt", "--edition", "2024", "--quiet", "--config-path", os.path.join(rust, "rustfmt.toml")]
        done = subprocess.run(command + tops, capture_output=True, text=True, check=False)
        refused = done.stderr.replace(room + "/", "").strip()
        return {path: open(os.path.join(room, path), encoding="utf-8").read() for path in texts}, refused

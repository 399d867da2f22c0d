"""The module of the page: what the kit's compiler makes of the proved crate, as WebAssembly with a 64-bit memory.

rattle hands one LLVM module to the clang of its toolchain, for x86-64. A toolchain whose clang keeps that module is handed to it
here. The module is then retargeted, compiled by the kit's own clang with the heap, and linked without imports.
"""

import os
import re
import subprocess
import tempfile

from proving.crates import crates_of
from proving.kit import kit

ROOT = os.path.dirname(os.path.dirname(os.path.dirname(os.path.realpath(__file__))))
SOURCES = f"{ROOT}/docs/try"

CRATE = "browser"
EXPORTS = ("browser_script", "browser_replay", "browser_race", "room", "bound")
C_FILES = ("heap.c", "wasm.c", "wide.c")
MOST_MEMORY = 4 << 30
STACK = 1 << 20

# What rattle writes at the head of a module for wasm64, and into its attributes, in place of what it writes for x86-64.
HEAD = {
    r'^target datalayout = .*': 'target datalayout = "e-m:e-p:64:64-p10:8:8-p20:8:8-i64:64-i128:128-n32:64-S128-ni:1:10:20"',
    r'^target triple = .*': 'target triple = "wasm64-unknown-unknown"',
}
OF_X86 = r'"probe-stack"="[a-z-]+" "stack-probe-size"="[0-9]+" "target-cpu"="x86-64-v2"'
OF_WASM = '"no-builtin-bcmp" "no-builtin-memcmp" "no-builtin-strlen" "target-cpu"="lime1"'
# rattle's flags of clang for wasm64, with its own optimisation level.
FLAGS = """--target=wasm64-unknown-unknown -mcpu=lime1 -mllvm -expand-div-rem-bits=64 -mllvm -expand-fp-convert-bits=64
    -ffunction-sections -fdata-sections -mllvm -trap-unreachable --no-default-config -no-canonical-prefixes -O3 -Werror""".split()

KEEPING = """#!/bin/sh
# Keeps the module that rattle hands over, and compiles it.
for word in "$@"; do
    case $word in
    *.bc | *.ll) [ ! -f "$word" ] || cp "$word" '{kept}' ;;
    esac
done
exec '{clang}' "$@"
"""


class CannotMake(Exception):
    """Why there is no module."""


def ran(words, **how):
    """What a command prints; it has to succeed."""
    how |= {"stdout": subprocess.PIPE, "stderr": subprocess.STDOUT}
    done = subprocess.run(words, text=True, errors="replace", check=False, **how)
    if done.returncode:
        raise CannotMake(f"{os.path.basename(words[0])} failed:\n{done.stdout[-3000:]}")
    return done.stdout


def toolchain_that_keeps(folder, kept):
    """A toolchain like the kit's, whose clang leaves a copy of the module that it is handed."""
    real = kit().at("toolchain")
    os.makedirs(f"{folder}/bin")
    os.symlink(f"{real}/lib", f"{folder}/lib")
    for name in os.listdir(f"{real}/bin"):
        if name != "clang":
            os.symlink(f"{real}/bin/{name}", f"{folder}/bin/{name}")
    with open(f"{folder}/bin/clang", "w", encoding="utf-8") as it:
        it.write(KEEPING.format(kept=kept, clang=f"{real}/bin/clang"))
    os.chmod(f"{folder}/bin/clang", 0o755)
    return folder


def module_of_rattle(work, jobs):
    """The LLVM module of the proved crate, over the proofs that are kept; and the archive that is made of it on the way."""
    crate = next(it for it in crates_of(ROOT) if it.name == CRATE)
    kept, made = f"{work}/module.bc", f"{work}/again.a"
    tools = toolchain_that_keeps(f"{work}/toolchain", kept)
    words = [kit().prover, "build", *kit().words(crate, jobs), "--toolchain", tools, "--backend", "llvm"]
    said = ran([*words, "--incremental", "out/incremental", "-o", made], cwd=crate.folder)
    if not re.search(r"^logic=proved", said, re.MULTILINE):
        raise CannotMake(f"{CRATE} isn't proved:\n{said[-3000:]}")
    if not os.path.isfile(kept):
        raise CannotMake("rattle handed no module to clang")
    return kept


def retargeted(text):
    """The module's text for wasm64. What is left of x86-64 is refused."""
    for old, new in HEAD.items():
        text, count = re.subn(old, lambda _, new=new: new, text, flags=re.MULTILINE)
        if count != 1:
            raise CannotMake(f"the module has {count} lines like {old}")
    text = re.sub(OF_X86, OF_WASM, text)
    if "x86" in text:
        raise CannotMake(f"the module still names x86: {next(it for it in text.splitlines() if 'x86' in it)[:200]}")
    return text


def compiled(work, clang):
    """The object files of the retargeted module and of the heap."""
    objects = [f"{work}/module.o"]
    ran([clang, *FLAGS, "-c", "-x", "ir", f"{work}/wasm.ll", "-o", objects[0]])
    for name in C_FILES:
        objects.append(f"{work}/{name}.o")
        of_c = ["-std=c17", "-Wall", "-Wextra", "-fwrapv", "-ffreestanding", "-nostdinc"]
        ran([clang, *FLAGS, *of_c, "-c", f"{SOURCES}/{name}", "-o", objects[-1]])
    return objects


def made_module(jobs):
    """The bytes of the WebAssembly module. The crate and those below it are proved and built before."""
    with tempfile.TemporaryDirectory(prefix="page-") as work:
        tools = f"{kit().at('toolchain')}/bin"
        module = module_of_rattle(work, jobs)
        as_text = ["--target=x86_64-unknown-linux-gnu", "--no-default-config", "-S", "-emit-llvm", "-Xclang", "-disable-llvm-passes"]
        ran([f"{tools}/clang", *as_text, "-x", "ir", module, "-o", f"{work}/module.ll"])
        with open(f"{work}/module.ll", encoding="utf-8") as it:
            text = retargeted(it.read())
        with open(f"{work}/wasm.ll", "w", encoding="utf-8") as it:
            it.write(text)
        objects = compiled(work, f"{tools}/clang")
        exports = [f"--export={name}" for name in EXPORTS]
        how = ["-flavor", "wasm", "-mwasm64", "--no-entry", "--stack-first", "-z", f"stack-size={STACK}", "--gc-sections", "--strip-all"]
        ran([f"{tools}/ld.lld", *how, f"--max-memory={MOST_MEMORY}", *exports, *objects, "-o", f"{work}/page.wasm"])
        with open(f"{work}/page.wasm", "rb") as it:
            return it.read()

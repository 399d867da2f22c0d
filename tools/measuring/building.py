"""Builds the programs that tools/measure times."""

import glob
import os
import pathlib
import subprocess
import sys

ROOT = pathlib.Path(__file__).resolve().parents[2]
# The program that times the calls from Rattle, if it is proved and built.
BENCH = ROOT / "crates/bench/out/bench"
REGISTRY = "/usr/share/cargo/registry"
PACKAGE = """[workspace]
[package]
name = "measuring"
edition = "2024"
[[bin]]
name = "rust-speed"
path = "{root}/tools/measuring/speed.rs"
[[bin]]
name = "bare-speed"
path = "{root}/tools/measuring/bare.rs"
[features]
{features}
[dependencies]
freeze-queue = {{ path = "{root}/rust/freeze-queue" }}
percpu-gate = {{ path = "{root}/rust/percpu-gate" }}
{others}
"""
OTHERS = {"crossbeam-utils": "0.8", "parking_lot": "0.12", "arc-swap": "1"}


def run(*words, **more):
    return subprocess.run([str(word) for word in words], check=True, cwd=more.pop("cwd", ROOT), **more)


def aligned():
    """What keeps jumps off the borders of 32 bytes, where they cost time on Intel's processors from Skylake to Cascade Lake."""
    option = "-Wa,-mbranches-within-32B-boundaries"
    has_it = subprocess.run(["cc", option, "-c", "-xc", "-", "-o", "/dev/null"], input=b"", capture_output=True, check=False).returncode == 0
    return [option] if has_it else []


def cc(output, source, library, *more):
    """Compiles a C program with one of the libraries. Its own functions begin at a line of the cache, as the libraries' do."""
    run("make", "-s", "-C", "c", stdout=sys.stderr)
    out = run("make", "-s", "-C", "c", "folder", stdout=subprocess.PIPE, text=True).stdout.strip()
    flags = ("-std=c11", "-O2", "-falign-functions=64", "-pthread", "-Ic/include")
    run("cc", *flags, *aligned(), source, *(f"{out}/lib{it}.a" for it in library), *more, "-o", output)


def has_header(name):
    """Whether the compiler finds this header."""
    return not subprocess.run(["cc", "-E", "-xc", "-"], input=f"#include <{name}>".encode(), capture_output=True, check=False).returncode


def sizes(folder):
    wrapped = ",".join(f"--wrap={it}" for it in ("malloc", "calloc", "realloc", "posix_memalign", "free"))
    cc(f"{folder}/sizes", "c/tests/queue/sizes.c", ("freeze_queue", "percpu_gate"), f"-Wl,{wrapped}")
    return f"{folder}/sizes"


def loops(folder):
    """gate-speed and queue-speed from C, rust-speed and bare-speed from Rust, in a folder. The Rust programs have a package of their own
    over the crates of rust/, which stay without dependencies: others' crates come from Debian's folder."""
    has_urcu, has_ck = has_header("urcu/urcu-memb.h"), has_header("ck_brlock.h")
    has_others = all(glob.glob(f"{REGISTRY}/{it}-*") for it in OTHERS)
    for has, what in (
        (has_urcu, "liburcu (apt-get install liburcu-dev)"),
        (has_ck, "ck_brlock (apt-get install libck-dev)"),
        (has_others, "others' locks in Rust (apt-get install librust-crossbeam-utils-dev librust-parking-lot-dev librust-arc-swap-dev)"),
        (BENCH.exists(), "rounds from Rattle (tools/prove_below --with bench)"),
    ):
        if not has:
            print(f"skipped: {what}", file=sys.stderr)
    cc(f"{folder}/gate-speed", "c/tests/speed.c", ["percpu_gate"])
    cc(f"{folder}/queue-speed", "c/tests/queue/speed.c", ["freeze_queue"], *["-DWITH_URCU", "-lurcu-memb"] * has_urcu, *["-DWITH_CK", "-lck"] * has_ck)
    package = pathlib.Path(folder, "package")
    (package / ".cargo").mkdir(parents=True, exist_ok=True)
    (package / ".cargo/config.toml").write_text(f'[source.crates-io]\nreplace-with = "debian"\n[source.debian]\ndirectory = "{REGISTRY}"\n')
    features = 'default = ["others"]\nothers = []' if has_others else "others = []"
    others = "\n".join(f'{name} = "{version}"' for name, version in OTHERS.items()) if has_others else ""
    (package / "Cargo.toml").write_text(PACKAGE.format(root=ROOT, features=features, others=others))
    flags = "-Cllvm-args=-x86-branches-within-32B-boundaries" if aligned() else ""
    words = ("cargo", "build", "-q", "--offline", "--release", "--target-dir", package / "target")
    run(*words, cwd=package, env=os.environ | {"RUSTFLAGS": flags})
    for name in ("rust-speed", "bare-speed"):
        (package / "target/release" / name).rename(pathlib.Path(folder, name))

#!/usr/bin/env python3
"""Builds the programs of the benchmark that can be built here; each takes the same words.

A program that cannot be built is named and left out. The Rust crate is built if INDEXSET_RS names a folder with its
sources and a Cargo.toml.

    bench/build.py speed|rows

proves and builds one of our own: that of bench/run, or the one that bench/durable.py compares with SQLite, which takes
a file and lines of its own.
"""

from __future__ import annotations

import argparse
import os
import pathlib
import shutil
import subprocess
import sys

HERE = pathlib.Path(__file__).resolve().parent
TOP, OUT = HERE.parent, HERE / "out"
sys.dont_write_bytecode = True
sys.path.insert(0, str(TOP / "scripts"))
import lay  # noqa: E402

# Our programs: the folder of their sources, and the libraries that they use.
OURS = {
    "speed": (
        "ours/speed",
        "indexset_core indexset_set indexset_map indexset_events indexset_log indexset_replica indexset_bench",
    ),
    "rows": ("ours/rows", "anyhow sqlite sqlite_trees indexset_journal"),
}


def ran(*words: str, folder: pathlib.Path | None = None) -> bool:
    """Returns whether a command succeeded; prints its output if not."""
    done = subprocess.run(words, cwd=folder, stdout=subprocess.PIPE, stderr=subprocess.STDOUT, text=True)
    if done.returncode:
        print(done.stdout[-2000:])
    return done.returncode == 0


def laid(to: pathlib.Path, name: str) -> pathlib.Path:
    """Copies one of our programs into a folder beside the crates that it uses, and returns its folder. It is not a
    crate of the gate, which reads every file named .rt: its sources are named .rt.in."""
    folder, below = OURS[name]
    lay.lay(to, [it for it in below.split() if it.startswith("indexset_")])
    crate = to / f"crates/indexset_{name}"
    shutil.rmtree(crate / "src", ignore_errors=True)
    shutil.copytree(HERE / folder / "src", crate / "src")
    for source in (crate / "src").glob("*.rt.in"):
        source.rename(source.with_suffix(""))
    with open(to / "crates.txt", "a", encoding="utf-8") as crates:
        crates.write(f"indexset_{name}: {below}\n")
    return crate


def ours(name: str) -> pathlib.Path | str:
    """Builds a program. In out/, `rt` proves what changed since the last run."""
    if not shutil.which("rt"):
        return "needs `rt`"
    crate = laid(OUT, name)
    return crate / f"out/indexset_{name}" if ran("rt", "run", folder=crate) else "did not build"


def speed() -> pathlib.Path | str:
    return ours("speed")


def std() -> pathlib.Path | str:
    if not shutil.which("rustc"):
        return "needs `rustc`"
    made = OUT / "std"
    return (
        made
        if ran("rustc", "-O", "--edition", "2021", "-o", str(made), str(HERE / "rust/main.rs"))
        else "did not build"
    )


def crate() -> pathlib.Path | str:
    source = os.environ.get("INDEXSET_RS")
    if not source or not shutil.which("cargo"):
        return "needs `cargo`, and INDEXSET_RS, the folder of the crate's sources"
    project = OUT / "rust"
    (project / "src").mkdir(parents=True, exist_ok=True)
    shutil.copy(HERE / "rust/main.rs", project / "src/main.rs")
    (project / "Cargo.toml").write_text(
        '[package]\nname = "indexset_rs"\nversion = "0.0.0"\nedition = "2021"\n\n'
        "[features]\nof_the_crate = []\n\n[workspace]\n\n"
        f'[dependencies]\nindexset = {{ path = "{pathlib.Path(source).resolve()}", default-features = false }}\n'
    )
    is_built = ran("cargo", "build", "--release", "--offline", "--features", "of_the_crate", folder=project)
    return project / "target/release/indexset_rs" if is_built else "did not build"


def cpp(name: str, header: str, *words: str) -> pathlib.Path | str:
    """Builds a program of C++ for a library that has a header."""
    if not shutil.which("g++"):
        return "needs `g++`"
    if subprocess.run(["g++", "-E", "-x", "c++", "-include", header, os.devnull], capture_output=True).returncode:
        return f"needs `{header}`"
    made = OUT / name
    is_built = ran("g++", "-O2", "-DNDEBUG", "-std=c++17", "-o", str(made), str(HERE / f"cpp/{name}.cpp"), *words)
    return made if is_built else "did not build"


def pb_ds() -> pathlib.Path | str:
    return cpp("pb_ds", "ext/pb_ds/assoc_container.hpp")


def absl() -> pathlib.Path | str:
    """Builds the program for Abseil, which is in Debian's `libabsl-dev`."""
    return cpp("absl", "absl/container/btree_set.h", "-labsl_throw_delegate", "-labsl_raw_logging_internal")


def program(name: str) -> pathlib.Path | None:
    """Returns a program of the repository, or None if it is not built: `rt run` in its folder builds it."""
    made = TOP / f"crates/indexset_{name}/out/indexset_{name}"
    if not made.exists():
        print(f"indexset_{name} is left out: `rt run` in its folder builds it")
    return made if made.exists() else None


def compilers() -> str:
    """Returns the compilers of the programs, with their versions and flags."""
    asked = {
        "ours": (["rt", "version"], ""),
        "Rust crate and std": (["rustc", "--version"], ", optimised"),
        "pb_ds and absl": (["g++", "--version"], ", `-O2`"),
        "version of absl": (["pkg-config", "--modversion", "absl_btree"], ""),
    }
    found = []
    for name, (words, told) in asked.items():
        if shutil.which(words[0]):
            done = subprocess.run(words, capture_output=True, text=True)
            found += [f"{name}: {done.stdout.splitlines()[0]}{told}"] if done.returncode == 0 else []
    return "; ".join(found)


def built() -> dict[str, pathlib.Path]:
    """Returns the programs by name, ours first."""
    OUT.mkdir(exist_ok=True)
    found: dict[str, pathlib.Path] = {}
    for name, build in (("ours", speed), ("Rust crate", crate), ("std", std), ("pb_ds", pb_ds), ("absl", absl)):
        made = build()
        if isinstance(made, str):
            print(f"{name} is left out: {made}")
        else:
            found[name] = made
    return found


def main() -> None:
    words = argparse.ArgumentParser(description="Proves and builds one of our programs.")
    words.add_argument("name", choices=OURS)
    print(ours(words.parse_args().name))


if __name__ == "__main__":
    main()

#!/usr/bin/env python3
"""Builds the library for C, if it is not up to date, and a wheel of the Python package with it.

    scripts/build_wheel.py [--unproved] [-o FOLDER]

The wheel is written to FOLDER (bindings/python/out/wheel). It says what its proof is, by the toolchain, its logic, the
commit and the sum of the library: the last line of the output, and `indexset.PROOF` once it is installed. With
--unproved the library is one that was built without proofs, in about a minute; the version of the wheel, this line and
`indexset.PROOF` then say `unproved`. Without it, the first build proves the library.

It needs `pip`, and the Python packages setuptools and wheel; no network.
"""

from __future__ import annotations

import argparse
import ctypes
import hashlib
import os
import pathlib
import subprocess
import sys
import tempfile

TOP = pathlib.Path(__file__).resolve().parent.parent
SOURCES = ["crates", "crates.txt", "HANDLES", "bindings"]  # what the wheel is made from


def said(*words: str) -> str:
    """Returns the output of a command, or an empty text if it fails."""
    try:
        run = subprocess.run(words, cwd=TOP, capture_output=True, text=True, check=True)
    except (OSError, subprocess.CalledProcessError):
        return ""
    return run.stdout.strip()


def commit() -> str:
    """Returns the commit of the sources, and whether they differ from it."""
    name = said("git", "rev-parse", "HEAD")
    changed = said("git", "status", "--porcelain", "--", *SOURCES) != ""
    return f"commit {name}{' with changes' if changed else ''}" if name else "no commit"


def proof(library: pathlib.Path) -> str:
    """Returns the identity of the proof of a library."""
    is_proved = ctypes.c_int.in_dll(ctypes.CDLL(str(library)), "indexset_proved").value == 1
    kit, _, logic = said("rt", "version").partition(" logic ")
    total = hashlib.sha256(library.read_bytes()).hexdigest()
    words = [kit or "an unknown toolchain", f"logic {logic or 'unknown'}", commit(), f"sha256 {total}"]
    return ("" if is_proved else "unproved: ") + ", ".join(words)


def build(folder: pathlib.Path, is_unproved: bool) -> int:
    """Builds the library and the wheel. Returns an exit status."""
    where = {name: value for name, value in os.environ.items() if name != "UNPROVED"}
    where |= {"UNPROVED": "1"} if is_unproved else {}
    if subprocess.run(["make", "-s", "-C", str(TOP / "bindings/c")], env=where, stdout=sys.stderr).returncode:
        return 1
    identity = proof(TOP / "bindings/c/out" / ("unproved" if is_unproved else "") / "libindexset.so")
    folder.mkdir(parents=True, exist_ok=True)
    with tempfile.TemporaryDirectory(dir=folder) as room:
        pip = [sys.executable, "-m", "pip", "--disable-pip-version-check", "wheel", "-q", "--no-index", "--no-deps"]
        pip += ["--no-build-isolation", "-w", room, str(TOP / "bindings/python")]
        if subprocess.run(pip, env={**where, "INDEXSET_PROOF": identity}, stdout=sys.stderr).returncode:
            return 1
        made = next(pathlib.Path(room).glob("*.whl"))
        print(f"{made.replace(folder / made.name)}: {identity}")
    return 0


def main() -> int:
    words = argparse.ArgumentParser(description=__doc__, formatter_class=argparse.RawDescriptionHelpFormatter)
    words.add_argument("--unproved", action="store_true", help="with a library that was built without proofs")
    words.add_argument("-o", dest="folder", type=pathlib.Path, default=TOP / "bindings/python/out/wheel")
    given = words.parse_args()
    return build(given.folder.resolve(), given.unproved)


if __name__ == "__main__":
    sys.exit(main())

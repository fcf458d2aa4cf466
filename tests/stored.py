#!/usr/bin/env python3
"""Runs the programs of one file, which scripts/together.py combines into one, on the input stored beside each.

    tests/stored.py PROGRAM..

Each PROGRAM is that one, built by a compiler. The last line is 'N passed, M failed'.
"""

from __future__ import annotations

import argparse
import pathlib
import subprocess
import sys
import tempfile

TOP = pathlib.Path(__file__).resolve().parent.parent
sys.dont_write_bytecode = True
sys.path.insert(0, str(TOP / "scripts"))
import together  # noqa: E402

SECONDS = 120


def differs(command: list[str], crate: pathlib.Path, folder: pathlib.Path) -> str:
    """Returns the difference of a program's output or status from those stored in the folder of its crate."""
    names = ("stdin", "stdout", "args", "status")
    stored = {it: (crate / it).read_bytes() if (crate / it).exists() else b"" for it in names}
    words = [*command, *stored["args"].decode().split()]
    done = subprocess.run(words, input=stored["stdin"], stdout=subprocess.PIPE, cwd=folder, timeout=SECONDS)
    if (done.stdout, done.returncode) == (stored["stdout"], int(stored["status"] or 0)):
        return ""
    return f"{crate.name}: status {done.returncode}, wrote {done.stdout[-2000:]!r}\n"


def main() -> int:
    ask = argparse.ArgumentParser(description="Runs the programs of one file on what is stored beside each.")
    ask.add_argument("programs", nargs="+", type=pathlib.Path, metavar="PROGRAM")
    programs = [it.resolve() for it in ask.parse_args().programs]
    crates = [it for it in sorted((TOP / "crates").iterdir()) if together.is_of_one_file(it)]
    with tempfile.TemporaryDirectory() as room:
        found = [differs([str(it), crate.name], crate, pathlib.Path(room)) for it in programs for crate in crates]
    print("".join(found), end="")
    failed = sum(map(bool, found))
    print(f"{len(found) - failed} passed, {failed} failed")
    return int(failed > 0)


if __name__ == "__main__":
    sys.exit(main())

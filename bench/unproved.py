#!/usr/bin/env python3
"""Builds a program of ours without proofs, so that a change can be timed before it is proved.

    bench/unproved.py PROGRAM [speed|rows]

The crates of this checkout are compiled in a minute, without the checks that `rt try` adds, and optimized as proved
code is. `bench/versions.py` compares two such programs. Nothing is known of their results: they are for timing only.
"""

from __future__ import annotations

import argparse
import pathlib
import sys
import tempfile

import build

sys.dont_write_bytecode = True
sys.path.insert(0, str(build.TOP / "scripts"))
import checked  # noqa: E402


def main() -> None:
    words = argparse.ArgumentParser(description=__doc__, formatter_class=argparse.RawDescriptionHelpFormatter)
    words.add_argument("program", type=pathlib.Path, help="where it is built")
    words.add_argument("name", nargs="?", default="speed", choices=build.OURS, help="which of build.py's (speed)")
    given = words.parse_args()
    with tempfile.TemporaryDirectory() as room:
        checked.program(build.laid(pathlib.Path(room), given.name), given.program.resolve(), is_bare=True)


if __name__ == "__main__":
    main()

"""The places of the built programs of this repository."""

from __future__ import annotations

import os
import pathlib
import sys

TOP = pathlib.Path(__file__).resolve().parent.parent
FOLDER = "INDEXSET_PROGRAMS"


def proved(name: str) -> pathlib.Path | None:
    """Returns the program of a crate where `rt run` leaves it, if it exists and is as new as the sources."""
    program = TOP / "crates" / name / "out" / name
    newest = max(source.stat().st_mtime for source in TOP.glob("crates/*/src/**/*.rt"))
    return program if program.exists() and program.stat().st_mtime >= newest else None


def built(name: str) -> pathlib.Path:
    """Returns the program of a crate: in the folder that INDEXSET_PROGRAMS names, or where `rt run` leaves it."""
    if folder := os.environ.get(FOLDER):
        return pathlib.Path(folder, name).resolve()
    program = proved(name)
    if not program:
        sys.exit(
            f"crates/{name}/out/{name} is not there, or older than the sources: `rt run` in crates/{name} builds it"
        )
    return program

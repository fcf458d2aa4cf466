"""The scripts and the sources in C and C++ of this repository, by language."""

from __future__ import annotations

import os
import pathlib
from collections.abc import Iterator

TOP = pathlib.Path(__file__).resolve().parent.parent
APART = {".git", "crates", "out", "__pycache__"}  # folders without sources, or with generated files
SUFFIXES = {
    ".py": "python", ".sh": "shell", ".js": "javascript",
    ".c": "c", ".h": "c", ".cpp": "c++", ".hpp": "c++",
}  # fmt: skip
INTERPRETERS = {b"#!/usr/bin/env python3": "python", b"#!/usr/bin/env bash": "shell"}


def language(file: pathlib.Path) -> str:
    """Returns the language of a file, by its suffix or its first line; empty for other files."""
    if file.suffix:
        return SUFFIXES.get(file.suffix, "")
    with open(file, "rb") as it:
        return INTERPRETERS.get(it.readline(80).rstrip(), "")


def files() -> Iterator[pathlib.Path]:
    """Yields the files of this repository except its crates, folder by folder."""
    for at, folders, names in os.walk(TOP):
        folders[:] = sorted(it for it in folders if it not in APART)
        yield from (pathlib.Path(at, it) for it in sorted(names))


def of(*languages: str) -> list[pathlib.Path]:
    """Returns the files in the given languages."""
    return [it for it in files() if language(it) in languages]

#!/usr/bin/env python3
"""Copies crates of this repository into a folder, as a repository of their own.

    scripts/lay.py FOLDER [CRATE..]

With no names: those above the line `# Tests` of crates.txt. Each is copied with the libraries that it uses, and with
the input of its program; built files, and the edits that must fail, are not copied.
"""

from __future__ import annotations

import argparse
import pathlib
import shutil

TOP = pathlib.Path(__file__).resolve().parent.parent
TESTS = "# Tests"


def listed(text: str) -> dict[str, str]:
    """Returns the lines of a list of crates, by name."""
    lines = [line for line in text.splitlines() if line and not line.startswith("#")]
    return {line.split(":")[0].split()[0]: line for line in lines}


def every(top: pathlib.Path = TOP) -> list[str]:
    """Returns the names of all crates."""
    return [*listed((top / "crates.txt").read_text(encoding="utf-8"))]


def with_those_below(names: list[str], lines: dict[str, str]) -> list[str]:
    """Returns crates and the libraries of this repository that they use, in the order of the list."""
    wanted: list[str] = []
    left = list(names)
    while left:
        name = left.pop()
        if name not in wanted:
            wanted.append(name)
            left += [it for it in lines[name].split(":")[1].split() if it in lines]
    return [name for name in lines if name in wanted]


def copy(name: str, to: pathlib.Path, top: pathlib.Path = TOP) -> None:
    """Copies a crate into a folder, in place of an earlier copy."""
    crate = to / "crates" / name
    for old in crate.iterdir() if crate.is_dir() else ():
        if old.name != "out":
            shutil.rmtree(old) if old.is_dir() else old.unlink()
    apart = shutil.ignore_patterns("out", "must-fail")
    shutil.copytree(top / "crates" / name, crate, ignore=apart, dirs_exist_ok=True)


def lay(to: pathlib.Path, names: list[str] | None = None, top: pathlib.Path = TOP) -> list[str]:
    """Copies crates into a folder, in place of earlier copies; returns all that it copied."""
    text = (top / "crates.txt").read_text(encoding="utf-8")
    lines = listed(text)
    laid = with_those_below(list(listed(text.partition(TESTS)[0])) if names is None else names, lines)
    to.mkdir(parents=True, exist_ok=True)
    shutil.copy(top / "HANDLES", to)
    (to / "crates.txt").write_text("".join(f"{lines[name]}\n" for name in laid), encoding="utf-8")
    for name in laid:
        copy(name, to, top)
    return laid


def main() -> None:
    ask = argparse.ArgumentParser(
        description="Lays crates of this repository into a folder, as a repository of their own."
    )
    ask.add_argument("folder", type=pathlib.Path)
    ask.add_argument("crates", nargs="*")
    given = ask.parse_args()
    print(f"{len(lay(given.folder, given.crates or None))} crates")


if __name__ == "__main__":
    main()

#!/usr/bin/env python3
"""Copies the crate `indexset` and the crates below it into another repository, with their lines of crates.txt.

    scripts/vendor.py REPOSITORY [CRATE..]      with names: these crates and those below them

A copy from an earlier call is replaced, and so is its line. The files that `rt` built (out/) stay, and `rt` proves
again what differs. The other crates and lines of REPOSITORY are unchanged.
"""

from __future__ import annotations

import argparse
import pathlib
import shutil
import sys

sys.dont_write_bytecode = True
import lay  # noqa: E402

DEFAULT = "indexset"
LICENSE = "LICENSE"


def name_of(line: str) -> str:
    """Returns the crate that a line of crates.txt lists, or an empty string."""
    words = line.partition("#")[0].partition(":")[0].split()
    return words[0] if words else ""


def merged(text: str, lines: dict[str, str]) -> str:
    """Returns a list of crates with these lines: each in the place of the line of its crate, the rest at the end."""
    left = dict(lines)
    kept = [left.pop(name_of(line), line) for line in text.splitlines()]
    return "".join(f"{line}\n" for line in [*kept, *left.values()])


def vendor(repository: pathlib.Path, names: list[str], top: pathlib.Path = lay.TOP) -> list[str]:
    """Copies crates and those below them into a repository; returns the names of all that it copied."""
    lines = lay.listed((top / "crates.txt").read_text(encoding="utf-8"))
    copied = lay.with_those_below(names, lines)
    for name in copied:
        lay.copy(name, repository, top)
        shutil.copy(top / LICENSE, repository / "crates" / name)
    crates = repository / "crates.txt"
    text = crates.read_text(encoding="utf-8") if crates.exists() else ""
    crates.write_text(merged(text, {name: lines[name] for name in copied}), encoding="utf-8")
    return copied


def main() -> int:
    ask = argparse.ArgumentParser(description=__doc__, formatter_class=argparse.RawDescriptionHelpFormatter)
    ask.add_argument(
        "repository", type=pathlib.Path, metavar="REPOSITORY", help="its folder, where crates.txt is or will be"
    )
    ask.add_argument("crates", nargs="*", metavar="CRATE", help=f"default: {DEFAULT}")
    given = ask.parse_args()
    names = given.crates or [DEFAULT]
    if unknown := [it for it in names if it not in lay.every()]:
        ask.error(f"there is no crate {unknown[0]}")
    if not given.repository.is_dir() or given.repository.resolve() == lay.TOP:
        ask.error(f"{given.repository} is no folder of another repository")
    copied = vendor(given.repository, names)
    print(f"copied {', '.join(copied)} and their lines of crates.txt")
    print(f"next: list `{' '.join(names)}` in the line of your crate")
    return 0


if __name__ == "__main__":
    sys.exit(main())

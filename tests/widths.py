#!/usr/bin/env python3
"""Checks that no line of the crates is too wide.

    tests/widths.py

In `specs/` no line has more than 100 columns; in `src/` no comment, clause, ghost item or ghost import has more; in
`proofs/` no comment has more, and no other line more than 200. `rt fmt` lays out code, and keeps the line breaks of
comments, clauses, specs and proofs. The last line is 'N passed, M failed', of files.
"""

from __future__ import annotations

import argparse
import pathlib
import re
import sys
from collections.abc import Iterator

TOP = pathlib.Path(__file__).resolve().parent.parent
WIDEST, WIDEST_OF_PROOFS = 100, 200
COMMENT = {".rt": re.compile(r"\s*//"), ".antt": re.compile(r"\s*--(?:\s|$)")}
CLAUSE = re.compile(r"\s*(?:requires|ensures|ghost)\b")
TEXT = re.compile(r'"(?:[^"\\]|\\.)*"')


def files() -> list[pathlib.Path]:
    """Returns the sources of the crates, with their specs and proofs."""
    forms = ("specs/**/*.antt", "proofs/**/*.antt", "src/**/*.rt")
    return sorted(it for form in forms for it in TOP.glob(f"crates/*/{form}"))


def clause_lines(lines: list[str]) -> set[int]:
    """Returns the numbers of the lines of a source that belong to a clause, a ghost item or a ghost import."""
    found: set[int] = set()
    is_inside, depth = False, 0
    for number, line in enumerate(lines, 1):
        if COMMENT[".rt"].match(line):
            continue
        if not is_inside and CLAUSE.match(line):
            is_inside, depth = True, 0
        if is_inside:
            found.add(number)
            code = TEXT.sub("", line)
            depth += code.count("{") - code.count("}")
            is_inside = depth > 0 or not ("}" in code or code.rstrip().endswith(";"))
    return found


def limits(file: pathlib.Path, lines: list[str]) -> Iterator[tuple[int, str, int]]:
    """Yields the number of each line that has a limit, the line, and its limit."""
    clauses = clause_lines(lines) if file.suffix == ".rt" else set()
    is_of_specs = "specs" in file.relative_to(TOP).parts[2:3]
    for number, line in enumerate(lines, 1):
        if is_of_specs or number in clauses or COMMENT[file.suffix].match(line):
            yield number, line, WIDEST
        elif file.suffix == ".antt":
            yield number, line, WIDEST_OF_PROOFS


def wide_lines(file: pathlib.Path) -> str:
    """Returns a complaint for each line of a file that is too wide."""
    lines = file.read_text(encoding="utf-8").splitlines()
    found = [(number, limit) for number, line, limit in limits(file, lines) if len(line) > limit]
    return "".join(f"{file.relative_to(TOP)}:{number}: wider than {limit} columns\n" for number, limit in found)


def main() -> int:
    ask = argparse.ArgumentParser(description="Checks that no line of the crates is too wide.")
    ask.parse_args()
    complaints = [wide_lines(it) for it in files()]
    print("".join(complaints), end="")
    failed = sum(map(bool, complaints))
    print(f"{len(complaints) - failed} passed, {failed} failed")
    return int(failed > 0)


if __name__ == "__main__":
    sys.exit(main())

#!/usr/bin/env python3
"""Checks that the clauses of long contracts are in groups.

    tests/contracts.py

A contract with five `ensures` or more has each of them in a group, below a comment with its name: `// Result.`,
`// Contents.`, `// Failure.`, `// Memory.` or `// Nodes.`, in this order, and its `requires` above them. A group has a
clause. The last line is 'N passed, M failed', of files.
"""

from __future__ import annotations

import argparse
import itertools
import pathlib
import re
import sys
from collections.abc import Iterator

TOP = pathlib.Path(__file__).resolve().parent.parent
APART = ("indexset_follow", "indexset_keep")  # their contracts have no groups
LONG = 5
GROUPS = ("Result", "Contents", "Failure", "Memory", "Nodes")
WORD = re.compile(rf"\s*(?:(requires|ensures)\b|// ({'|'.join(GROUPS)})\.$)")
COMMENT = re.compile(r"\s*//(?!/)")


def files() -> list[pathlib.Path]:
    """Returns the sources of the crates whose contracts have groups."""
    return sorted(it for it in TOP.glob("crates/*/src/**/*.rt") if it.relative_to(TOP).parts[1] not in APART)


def contracts(lines: list[str]) -> Iterator[tuple[int, list[str]]]:
    """Yields the number of the first line of each contract, and in order its groups and the first words of clauses."""
    start, found, depth = 0, list[str](), 0
    for number, line in enumerate([*lines, "}"], 1):
        if depth == 0 and (word := WORD.match(line)):
            start = start if found else number
            found.append(word[1] or word[2])
        elif depth == 0 and found and line.strip() and not COMMENT.match(line):
            yield start, found
            found = []
        if found and not COMMENT.match(line):
            depth += line.count("{") - line.count("}")


def fault(words: list[str]) -> str:
    """Returns what is wrong with the groups of a contract, or an empty string."""
    groups = [it for it in words if it in GROUPS]
    first = words.index(groups[0]) if groups else len(words)
    if groups != sorted(set(groups), key=GROUPS.index):
        return "groups in another order"
    if "ensures" in words[:first] and (groups or words.count("ensures") >= LONG):
        return "a clause in no group"
    if "requires" in words[first:]:
        return "a condition below a group"
    if any(it in GROUPS and (after == "" or after in GROUPS) for it, after in itertools.pairwise([*words, ""])):
        return "a group without a clause"
    return ""


def faults(file: pathlib.Path) -> str:
    """Returns a complaint for each contract of a file with a fault."""
    found = ((number, fault(words)) for number, words in contracts(file.read_text(encoding="utf-8").splitlines()))
    return "".join(f"{file.relative_to(TOP)}:{number}: {said}\n" for number, said in found if said)


def main() -> int:
    ask = argparse.ArgumentParser(description="Checks that the clauses of long contracts are in groups.")
    ask.parse_args()
    complaints = [faults(it) for it in files()]
    print("".join(complaints), end="")
    failed = sum(map(bool, complaints))
    print(f"{len(complaints) - failed} passed, {failed} failed")
    return int(failed > 0)


if __name__ == "__main__":
    sys.exit(main())

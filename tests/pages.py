#!/usr/bin/env python3
"""Checks that the index of docs/reference names each public function that a caller of `indexset` meets.

The crate `indexset` re-exports modules and types: a module's functions count, with those of the modules within it, and
the public functions of a type's own `impl` blocks, and a trait's. Each must be in the code of the index, those of the
plain set and the plain map in the section of their type. Laws, and the crates below the collections, are elsewhere. The
last line is 'N named, M missing'.
"""

from __future__ import annotations

import argparse
import pathlib
import re
import sys
from collections.abc import Iterator
from dataclasses import dataclass

TOP = pathlib.Path(__file__).resolve().parent.parent
# The page's heading for the calls of a crate, for those that have one.
SECTIONS = {"indexset_set": "## [Set](set.md)", "indexset_map": "## [Map](map.md)"}
BELOW = "indexset_core"


@dataclass(frozen=True, order=True)
class Call:
    """A public function: its crate, the type, trait or module that has it, and its name."""

    crate: str
    owner: str
    name: str


def passed_on() -> Iterator[tuple[str, str]]:
    """Returns the crate and the path of each module and item that `indexset` re-exports."""
    text = (TOP / "crates/indexset/src/lib.rt").read_text(encoding="utf-8")
    for crate, path, names in re.findall(r"pub use (indexset_\w+)::((?:\w+::)*)(\w+|\{[^}]*\});", text):
        for name in re.findall(r"\w+", names):
            yield crate, path + name


def module_files(crate: str, path: str) -> list[pathlib.Path]:
    """Returns the file of a module and those of the modules within it; none for a path that is not a module's."""
    place = TOP / "crates" / crate / "src" / path.replace("::", "/")
    file = place.with_suffix(".rt")
    return [file, *sorted(place.rglob("*.rt"))] if file.exists() else []


def blocks(text: str) -> Iterator[tuple[str, list[str]]]:
    """Yields each item of a file that has functions, its head and its lines; free functions have no head."""
    head: str | None = None
    body: list[str] = []
    for line in text.splitlines():
        if re.match(r"(impl|pub trait)\b", line):
            head, body = line, []
        elif line == "}" and head is not None:
            yield head, body
            head = None
        elif head is not None:
            body.append(line)
        else:
            yield "", [line]


def owner_of(head: str) -> str:
    """Returns the type or trait of a block, or an empty string if it implements a trait."""
    plain = head.replace("->", "")
    while re.search(r"<[^<>]*>", plain):
        plain = re.sub(r"<[^<>]*>", "", plain)
    found = re.match(r"(?:impl|pub trait) (\w+)(?! for)\b(?! for)", plain)
    return found[1] if found else ""


def calls_in(crate: str, file: pathlib.Path) -> Iterator[Call]:
    """Returns the public functions of a file."""
    for head, body in blocks(file.read_text(encoding="utf-8")):
        start = r"pub fn" if not head else r"    (?:final )?fn" if head.startswith("pub") else r"    pub fn"
        owner = owner_of(head) if head else file.stem
        for line in body if owner else []:
            if found := re.match(start + r" (\w+)", line):
                yield Call(crate, owner, found[1])


def calls() -> set[Call]:
    """Returns the public functions that `indexset` re-exports."""
    found: set[Call] = set()
    for crate, path in passed_on():
        files = module_files(crate, path)
        name = path.rsplit("::")[-1]
        if crate == BELOW or "laws" in path.split("::"):
            continue
        for file in files or sorted((TOP / "crates" / crate / "src").rglob("*.rt")):
            found |= {call for call in calls_in(crate, file) if files or call.owner == name}
    return found


def code_of(text: str) -> set[str]:
    """Returns the words in the code of a text."""
    fenced = re.findall(r"^```.*?^```", text, re.M | re.S)
    spans = re.findall(r"`([^`\n]+)`", re.sub(r"^```.*?^```", "", text, flags=re.M | re.S))
    return {word for part in fenced + spans for word in re.findall(r"\w+", part)}


def section(page: str, call: Call) -> str:
    """Returns the part of the page that must have a call: for a free function all of it."""
    heading = SECTIONS.get(call.crate)
    if heading is None or call.owner.islower():
        return page
    after = page.split(heading + "\n", 1)[1]
    return re.split(r"^## ", after, maxsplit=1, flags=re.M)[0]


def main() -> int:
    """Prints each function that the index does not name."""
    parser = argparse.ArgumentParser(description=__doc__, formatter_class=argparse.RawDescriptionHelpFormatter)
    parser.add_argument("--page", type=pathlib.Path, default=TOP / "docs/reference/README.md", help="the index to read")
    page = parser.parse_args().page.read_text(encoding="utf-8")
    found = calls()
    missing = sorted(call for call in found if call.name not in code_of(section(page, call)))
    for call in missing:
        print(f"{call.crate}: {call.owner}::{call.name}")
    print(f"{len(found) - len(missing)} named, {len(missing)} missing")
    return 1 if missing else 0


if __name__ == "__main__":
    sys.exit(main())

#!/usr/bin/env python3
"""Checks the pages: links, pictures, phrases and the version.

    tests/prose.py

A link names a file of the repository, and a heading of that page; what is shown as code for a call of the reference, as
a clause, is a word of that call. A path that is shown as code exists. A picture has colours for light and for dark: an
SVG by its style, any other by a `<picture>` of two files. No page and no comment of a source has a phrase of `PHRASES`.
The version is the one of bindings/python/pyproject.toml, which pkg-config, CMake and Python read. The last line is
'N pages, M faults'.
"""

from __future__ import annotations

import argparse
import pathlib
import re
import sys
from collections.abc import Iterator

TOP = pathlib.Path(__file__).resolve().parent.parent
# Phrases that std, SQLite and PostgreSQL do not use: name the subject and what it does.
PHRASES = re.compile(
    r"\b(that is there|as far as there is room|go(?:es)? on|where there is|alone|whatever|by which|is of this version"
    r"|leads? to|stands?|tells?|told|says? nothing|lacks? its end|none of it|takes? out|let go|hands? back)\b",
    re.I,
)
REFERENCE = TOP / "docs/reference"
DARK = "prefers-color-scheme:dark"
COMMENTS = {  # by the kind of source; a name in backticks may be one of the phrases
    ".py": re.compile(r"(?:#|\"\"\").*"),
    ".rt": re.compile(r"//.*"),
    ".antt": re.compile(r"(?:^|\s)--\s.*"),
    ".h": re.compile(r"(?://|/\*|^ \*).*"),
    ".hpp": re.compile(r"(?://|/\*|^ \*).*"),
    ".c": re.compile(r"(?://|/\*|^ \*).*"),
}
GENERATED = ("docs/reference", "docs/GLOSSARY.md")  # from comments in the sources
PAGES = ["*.md", "docs/**/*.md", "bindings/**/*.md", "crates/*/README.md", "examples/**/*.md", "tests/**/*.md"]


def pages() -> list[pathlib.Path]:
    """Returns the pages for readers."""
    found = {page for it in PAGES for page in TOP.glob(it)}
    return sorted(page for page in found if "out" not in page.relative_to(TOP).parts)


def prose(page: pathlib.Path) -> str:
    """Returns the text of a page without its blocks, whose lines are left empty."""
    text = page.read_text(encoding="utf-8")
    return re.sub(r"^```.*?^```$", lambda block: "\n" * block[0].count("\n"), text, flags=re.M | re.S)


def sections(page: pathlib.Path) -> dict[str, str]:
    """Returns the text below each heading of a page, by its anchor."""
    found: dict[str, str] = {}
    taken: dict[str, int] = {}
    lines, text = prose(page).splitlines(), page.read_text(encoding="utf-8").splitlines()
    heads = [at for at, line in enumerate(lines) if re.match("#+ ", line)]
    for at, end in zip(heads, [*heads[1:], len(lines)]):
        words = re.sub(r"\[([^\]]*)\]\([^)]*\)", r"\1", lines[at].lstrip("#").strip())
        plain = re.sub(r"[^\w\- ]", "", words.lower()).replace(" ", "-")
        taken[plain] = taken.get(plain, -1) + 1
        found[f"{plain}-{taken[plain]}" if taken[plain] else plain] = "\n".join(text[at:end])
    return found


def lost_links(page: pathlib.Path, sections_of: dict[pathlib.Path, dict[str, str]]) -> Iterator[str]:
    """Yields the links of a page to no file or heading, or to a call without the word that they show."""
    for shown, link in re.findall(r"\[([^\[\]]*)\]\(([^)\s]+)\)", prose(page)):
        path, _, anchor = link.partition("#")
        if ":" in path:
            continue
        target = (page.parent / path).resolve() if path else page
        if not target.exists():
            yield f"{page.relative_to(TOP)}: no such file: {link}"
        elif anchor and target.suffix == ".md":
            if target not in sections_of:
                sections_of[target] = sections(target)
            word = re.fullmatch(r"`(\w+)`", shown)
            if anchor not in sections_of[target]:
                yield f"{page.relative_to(TOP)}: no such heading: {link}"
            elif word and REFERENCE in target.parents and not re.search(rf"\b{word[1]}\b", sections_of[target][anchor]):
                yield f"{page.relative_to(TOP)}: no {word[1]} in {link}"


def lost_paths(page: pathlib.Path) -> Iterator[str]:
    """Yields the paths from the top of the repository that a page shows as code, and that do not exist."""
    for path in re.findall(r"`((?:bench|bindings|crates|docs|examples|scripts|tests)/[\w./-]+)`", prose(page)):
        if not (TOP / path).exists() and not {"NAME", "out"} & {*path.split("/")}:
            yield f"{page.relative_to(TOP)}: no such path: {path}"


def lost_pictures(page: pathlib.Path) -> Iterator[str]:
    """The pictures of a page that do not exist, or that have no colours for dark."""
    text = prose(page)
    for path in re.findall(r"!\[[^\]]*\]\(([^)\s]+)\)", text):
        picture = page.parent / path
        if picture.exists() and not (picture.suffix == ".svg" and DARK in picture.read_text(encoding="utf-8")):
            yield f"{page.relative_to(TOP)}: no colours for dark: {path}"
    for whole in re.findall(r"<picture>.*?</picture>", text, re.S):
        if f'<source media="({DARK.replace(":", ": ")})"' not in whole:
            yield f"{page.relative_to(TOP)}: no colours for dark: {whole}"
        for path in re.findall(r'src(?:set)?="([^"]*)"', whole):
            if not (page.parent / path).exists():
                yield f"{page.relative_to(TOP)}: no such file: {path}"


def phrases_of(page: pathlib.Path) -> Iterator[str]:
    """The lines of a page that have a phrase which is not to be written."""
    if str(page.relative_to(TOP)).startswith(GENERATED):
        return
    for number, line in enumerate(prose(page).splitlines(), 1):
        for phrase in PHRASES.findall(re.sub(r"`[^`]*`|<!--.*?-->|\]\([^)]*\)", "", line)):
            yield f"{page.relative_to(TOP)}:{number}: {phrase}"


def phrases_in_sources() -> Iterator[str]:
    """Yields the comments of sources that have one of the phrases."""
    for file in sorted(it for form in COMMENTS for it in TOP.rglob(f"*{form}")):
        if "out" in file.relative_to(TOP).parts:
            continue
        for number, line in enumerate(file.read_text(encoding="utf-8").splitlines(), 1):
            comment = COMMENTS[file.suffix].search(line)
            for phrase in PHRASES.findall(re.sub(r"`[^`]*`", "", comment[0])) if comment else ():
                yield f"{file.relative_to(TOP)}:{number}: {phrase}"


def other_versions() -> Iterator[str]:
    """Yields the places that name another version than pyproject.toml."""
    lines = (TOP / "bindings/python/pyproject.toml").read_text(encoding="utf-8")
    version = re.findall(r'^version = "(.*)"$', lines, re.M)[0]
    major, minor, patch = map(int, version.split("."))
    named = {
        "README.md": rf"^Version {re.escape(version)}\.",
        "CHANGELOG.md": rf"^## \[{re.escape(version)}\]",
        "crates/indexset_store/src/arguments.rt": rf'^const VERSION: &str = "{re.escape(version)}";$',
        "crates/indexset_c/src/lib.rt": rf"^pub const VERSION: u32 = {major * 65536 + minor * 256 + patch};$",
    }
    for name, form in named.items():
        if not re.search(form, (TOP / name).read_text(encoding="utf-8"), re.M):
            yield f"{name}: the version is not {version}"


def main() -> int:
    """Prints each fault."""
    argparse.ArgumentParser(description=__doc__, formatter_class=argparse.RawDescriptionHelpFormatter).parse_args()
    read, sections_of = pages(), dict[pathlib.Path, dict[str, str]]()
    faults = [fault for page in read for fault in lost_links(page, sections_of)]
    faults += [fault for page in read for fault in [*lost_paths(page), *lost_pictures(page), *phrases_of(page)]]
    faults += [*phrases_in_sources(), *other_versions()]
    print(*faults, sep="\n")
    print(f"{len(read)} pages, {len(faults)} faults")
    return 1 if faults else 0


if __name__ == "__main__":
    sys.exit(main())

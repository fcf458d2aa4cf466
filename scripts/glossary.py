"""The text of GLOSSARY.md: the terms, from the comment at the head of the words that indexset re-exports, and each word
that the contracts of collections use, with the comment beside its definition.
"""

from __future__ import annotations

import dataclasses
import pathlib
import re
from collections.abc import Iterable, Iterator

ROOT = pathlib.Path(__file__).resolve().parent.parent
WORDS = ROOT / "crates/indexset/specs/Words.antt"
LONGEST = 80  # of a definition that is shown
STAR = r"\*"
ABOUT = (
    "Written by `scripts/write_docs.py` from the comments in `crates/*/specs`: the terms, and each word that the "
    "contracts of collections use. Other words are explained beside their definitions."
)
ABOUT_WORDS = (
    "A word has the comment beside its definition, or a short definition. `cmp` is the comparison of the element type, "
    "and of pairs that of the keys. A word with a star is passed on by `Rattle.indexset.specs.Words`; any other is "
    "imported from the file above it."
)


@dataclasses.dataclass(frozen=True)
class Code:
    """The clauses of a page of the reference, and the source files that have them."""

    clauses: str
    files: list[pathlib.Path]


@dataclasses.dataclass(frozen=True)
class Word:
    """A word of the contracts, and its comment, or else its short definition."""

    name: str
    says: str


def imported(files: Iterable[pathlib.Path]) -> Iterator[tuple[str, str]]:
    """Returns each word that the sources import, with its file in `specs`."""
    for file in files:
        text = file.read_text(encoding="utf-8")
        for crate, path, names in re.findall(r"use Rattle\.(indexset\w*)\.specs\.(\w+)\.\{(.*?)\}", text, re.S):
            for name in names.split(","):
                yield name.split(" as ")[0].strip(), f"{crate}/specs/{path}.antt"


def used(pages: Iterable[Code]) -> set[tuple[str, str]]:
    """Returns the words in the clauses, each with its file."""
    found: set[tuple[str, str]] = set()
    for page in pages:
        words = set(re.findall(r"[^\W\d]\w*'*", page.clauses))
        found |= {it for it in imported(page.files) if it[0] in words}
    return found


def is_definition(line: str) -> bool:
    """Returns whether a line defines a word: at the margin or in a module, and not a field of a record."""
    return bool(re.match(r"(?:  )?(?:(?:abbrev|unfoldable) )?pub (?!use|mod)", line))


def definition_of(name: str, lines: list[str], at: int) -> str:
    """Returns the first line of a word's definition joined with its continuation lines, or nothing if there is none.
    The word's signature begins at line `at`."""
    indent = len(lines[at]) - len(lines[at].lstrip())
    parts: list[str] = []
    for line in lines[at + 1 :]:
        is_further = len(line) - len(line.lstrip()) > indent
        if parts and not is_further or not line.strip():
            break
        if parts or not is_further and line.strip().startswith(name + " "):
            parts.append(line.strip())
    return " ".join(parts)


def words_of(text: str) -> Iterator[Word]:
    """Returns the words of a specs file."""
    lines = text.splitlines()
    comment: list[str] = []
    for at, line in enumerate(lines):
        text = line.strip()
        if text.startswith("-- "):
            comment.append(text[3:])
            continue
        found = re.match(r"(?:(?:abbrev|unfoldable) )?pub (?:record |opaque )?(\S+)", text)
        if found and is_definition(line):
            definition = definition_of(found[1], lines, at)
            is_short = 0 < len(definition) <= LONGEST
            yield Word(found[1], " ".join(comment) or (f"`{definition}`" if is_short else ""))
        comment = []


def passed_on() -> set[str]:
    """Returns the words that indexset re-exports."""
    lists = re.findall(r"^(?:unfoldable )?pub use [\w.]+\.\{([^}]*)\}", WORDS.read_text(encoding="utf-8"), re.M)
    return {name.strip() for names in lists for name in names.split(",")}


def terms() -> list[str]:
    """Returns the table of terms and the paragraphs after it: a row is one line, and a paragraph is one."""
    head = WORDS.read_text(encoding="utf-8").split("\n\n")[0]
    text = "\n".join(line[3:] for line in head.split("-- Terms:\n--\n")[1].splitlines())
    return re.sub(r"(?<!\n)\n *(?![|\n ])", " ", text).splitlines()


def row(it: Word, star: bool) -> str:
    """Returns a row of the glossary."""
    return f"|`{it.name}`{STAR * star}|{it.says}|"


def text(pages: Iterable[Code], crates: Iterable[str]) -> str:
    """Returns the text of GLOSSARY.md, with the words of these crates."""
    out = [
        "# Glossary", "", ABOUT, "", *terms(), "", "## Each word", "", ABOUT_WORDS, "", "|Word|Meaning|", "|---|---|",
    ]
    words, passed = used(pages), passed_on()
    for crate in crates:
        for file in sorted((ROOT / "crates" / crate / "specs").glob("*.antt")):
            name = f"{crate}/specs/{file.name}"
            found = [it for it in words_of(file.read_text(encoding="utf-8")) if (it.name, name) in words]
            if found:
                out += [f"|**`{name}`**||", *(row(it, it.name in passed) for it in found)]
    return "\n".join([*out, ""])

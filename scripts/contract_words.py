#!/usr/bin/env python3
"""Counts the definitions that the contracts of some calls need, and holds them to limits.

    scripts/contract_words.py [--check | --write | --show CALL]

A contract names words of `crates/*/specs`, whose definitions name more of them. Of each call in `contract_words.txt`
this prints its clauses, all definitions that a reader of its contract meets, and how many the longest chain of them
has. A record is one definition; words of std, types of the code and ghost members of traits are not counted. Below are
the counts of each library: public functions, clauses, clauses that another function repeats letter for letter,
contracts of five `ensures` or more and those of them in groups, and lines of specs.

`--check` fails if a call needs more than its limit, or less: a limit is what the call needs. `--write` lowers the
limits to that, and raises none. `--show` prints the definitions of one call, as `indexset_set BTreeSet::insert`, each
with the length of its longest chain.
"""

from __future__ import annotations

import argparse
import collections
import dataclasses
import functools
import pathlib
import re
import sys
from collections.abc import Iterable, Iterator

sys.dont_write_bytecode = True
import write_docs  # noqa: E402

ROOT = pathlib.Path(__file__).resolve().parent.parent
LONG = 5  # `ensures` of a long contract
LIMITS = ROOT / "scripts/contract_words.txt"
HEAD = "# call | definitions | longest chain; `scripts/contract_words.py --write` lowers them\n"
USE = re.compile(r"use Rattle\.(indexset\w*)\.specs\.([\w.]+)\.\{([^}]*)\}")
NOT_OURS = ("declared.", "contracts.")  # types of the code, and what the toolchain makes of it
START = re.compile(r" *(?:(?:abbrev|unfoldable) )*(?:pub )?(?:(?:record|opaque) )?([^\s():]+) (?=.*:|$|\()")
NO_START = ("use ", "pub use ", "unfoldable pub use ", "mod ", "pub mod ", "module ")
TOKEN = re.compile(r"[^\s(){}\[\],;]+")
CLAUSE = re.compile(r"(requires|ensures)\*?\s+(?:\w+ )?\{")


@dataclasses.dataclass(frozen=True, order=True)
class Word:
    """A word of the specs of a crate: its file, and its name."""

    file: str
    name: str


@dataclasses.dataclass(frozen=True)
class Need:
    """What a reader of a contract meets: its clauses, its definitions, and the length of the longest chain of them."""

    clauses: int
    definitions: int
    chain: int


@dataclasses.dataclass(frozen=True)
class Specs:
    """A file of specs: the text of each definition, and what word each imported name is."""

    bodies: dict[str, str]
    imports: dict[str, Word]
    passed_on: dict[str, Word]


def names_of(text: str) -> dict[str, Word]:
    """Returns the words that a text imports from specs, by the name that each has there."""
    found = {}
    for crate, path, names in USE.findall(text):
        for name in () if path.startswith(NOT_OURS) else names.split(","):
            word, _, other = name.strip().partition(" as ")
            found[other or word] = Word(f"{crate}/specs/{path.replace('.', '/')}.antt", word)
    return found


def definitions(lines: Iterable[str]) -> Iterator[tuple[str, str]]:
    """Returns each definition of a file of specs, with its text: of a record with its fields."""
    name, indent, text = "", 0, list[str]()
    for line in lines:
        of_line = len(line) - len(line.lstrip())
        is_module = line.lstrip().startswith("module ")
        found = None if line.lstrip().startswith(NO_START) else START.match(line)
        is_next = found is not None and found[1] != name and (not name or of_line <= indent)
        if is_module or is_next:
            yield name, "\n".join(text)
            name, indent, text = found[1] if found else "", of_line, []
        text.append(line)
    yield name, "\n".join(text)


@functools.cache
def specs_of(file: str) -> Specs:
    """Returns a file of specs."""
    text = re.sub(r"(?m)^ *--.*$", "", (ROOT / "crates" / file).read_text(encoding="utf-8"))
    passed = "\n".join(it for it in text.splitlines() if "pub use" in it)
    bodies = {name: body for name, body in definitions(text.splitlines()) if name}
    return Specs(bodies, names_of(text), names_of(passed))


def defined(word: Word) -> Word | None:
    """Returns the word with the file that defines it, through those that re-export it; None for a type of the code."""
    if not (ROOT / "crates" / word.file).exists():
        return None
    specs = specs_of(word.file)
    if word.name in specs.bodies:
        return word
    return defined(specs.passed_on[word.name]) if word.name in specs.passed_on else None


def words_in(text: str) -> set[str]:
    """Returns the names in a text: without fields, and without those before `=` or `:`."""
    text = re.sub(r"pub \S+ :", "", text)
    tokens = [*TOKEN.findall(text), ""]
    pairs = zip(tokens, tokens[1:])
    return {token.split(".")[0] for token, after in pairs if after not in ("=", ":") and not token.startswith(".")}


@functools.cache
def needed_by(word: Word) -> frozenset[Word]:
    """Returns the words that the definition of a word names."""
    specs = specs_of(word.file)
    names = words_in(specs.bodies[word.name]) - {word.name}
    local = {Word(word.file, name) for name in names & specs.bodies.keys()}
    further = (defined(specs.imports[name]) for name in names & specs.imports.keys() - specs.bodies.keys())
    return frozenset(local | {it for it in further if it is not None})


@functools.cache
def chain(word: Word) -> int:
    """Returns how many definitions are on the longest chain from a word on."""
    return 1 + max(map(chain, needed_by(word)), default=0)


def reached(words: set[Word]) -> set[Word]:
    """Returns the words with all that their definitions name."""
    found: set[Word] = set()
    ahead = set(words)
    while ahead:
        found |= ahead
        ahead = {it for word in ahead for it in needed_by(word)} - found
    return found


@dataclasses.dataclass(frozen=True)
class Contract:
    """The contract of a public function: its clauses, the words that they name, and whether they are in groups."""

    clauses: list[str]
    words: set[Word]
    is_grouped: bool


def contracts(crate: str) -> dict[str, Contract]:
    """Returns the contracts of the public functions of a crate, by type and name."""
    found = {}
    public = write_docs.public_names([crate])
    for file in write_docs.source_files(crate):
        text = file.read_text(encoding="utf-8")
        imports = names_of(text)
        for call in write_docs.calls_of(text, lambda _: True, public):
            if call.signature:
                said = [line for line in call.clauses if not line.strip().startswith("//")]
                parts = CLAUSE.split("\n".join(said))
                clauses = [" ".join([kind, *text.split()]) for kind, text in zip(parts[1::2], parts[2::2])]
                named = (defined(imports[it]) for it in words_in(" ".join(clauses)) & imports.keys())
                words = {it for it in named if it is not None}
                found[write_docs.name_of(call)] = Contract(clauses, words, len(said) < len(call.clauses))
    return found


def contract_of(call: str) -> Contract:
    """Returns the contract of a call, named by its crate, its type and its name."""
    crate, _, name = call.partition(" ")
    found = contracts(crate).get(name)
    if found is None:
        sys.exit(f"no such call: {call}")
    return found


def need(call: str) -> Need:
    """Returns what a reader of the contract of a call meets."""
    contract = contract_of(call)
    longest = max(map(chain, contract.words), default=0)
    return Need(len(contract.clauses), len(reached(contract.words)), longest)


def limits() -> dict[str, tuple[int, int]]:
    """Returns the limits of each call: its definitions, and the longest chain of them."""
    lines = (line for line in LIMITS.read_text(encoding="utf-8").splitlines() if not line.startswith("#"))
    cells = ([it.strip() for it in line.split("|")] for line in lines)
    return {call: (int(definitions), int(chain)) for call, definitions, chain in cells}


def totals(crate: str) -> str:
    """Returns the counts of a crate."""
    of_crate = contracts(crate)
    said = collections.Counter(clause for it in of_crate.values() for clause in set(it.clauses))
    clauses = sum(len(it.clauses) for it in of_crate.values())
    again = sum(count - 1 for count in said.values())
    long = [it for it in of_crate.values() if sum(text.startswith("ensures") for text in it.clauses) >= LONG]
    grouped = sum(it.is_grouped for it in long)
    specs = (ROOT / "crates" / crate / "specs").rglob("*.antt")
    lines = sum(len(file.read_text(encoding="utf-8").splitlines()) for file in specs)
    counts = f"{len(of_crate)} functions, {clauses} clauses, {again} repeated, {len(long)} long, {grouped} grouped"
    return f"{crate}: {counts}, {lines} lines of specs"


def show(call: str) -> None:
    """Prints the definitions that the contract of a call needs."""
    for length, word in sorted(((chain(it), it) for it in reached(contract_of(call).words)), reverse=True):
        print(f"{length} {word.name} ({word.file})")


def fault(call: str, found: Need, limit: tuple[int, int]) -> str:
    """Returns how a call differs from its limit, or an empty string."""
    is_over = found.definitions > limit[0] or found.chain > limit[1]
    if (found.definitions, found.chain) == limit:
        return ""
    after = "" if is_over else "; run scripts/contract_words.py --write"
    return f"{call}: {found.definitions} definitions, chain {found.chain}; the limit is {limit[0]}, {limit[1]}{after}"


def write(known: dict[str, tuple[int, int]], found: dict[str, Need]) -> None:
    """Lowers the limits to what the calls need."""
    lines = (
        f"{call} | {min(known[call][0], it.definitions)} | {min(known[call][1], it.chain)}\n"
        for call, it in found.items()
    )
    LIMITS.write_text(HEAD + "".join(lines), encoding="utf-8")


def main() -> int:
    ask = argparse.ArgumentParser(description=__doc__, formatter_class=argparse.RawDescriptionHelpFormatter)
    how = ask.add_mutually_exclusive_group()
    how.add_argument("--check", action="store_true", help="print only the calls that differ from their limits")
    how.add_argument("--write", action="store_true", help="lower the limits to what the calls need")
    how.add_argument("--show", metavar="CALL", help="print the definitions of one call")
    given = ask.parse_args()
    if given.show:
        show(given.show)
        return 0
    known = limits()
    found = {call: need(call) for call in known}
    if given.write:
        write(known, found)
    faults = [said for call, it in found.items() if (said := fault(call, it, limits()[call]))]
    print("".join(f"{it}\n" for it in faults), end="")
    if not given.check and not given.write:
        for call, it in found.items():
            print(f"{call}: {it.clauses} clauses, {it.definitions} definitions, chain {it.chain}")
        for crate in write_docs.library_crates():
            print(totals(crate))
    return int(bool(faults) and (given.check or given.write))


if __name__ == "__main__":
    sys.exit(main())

#!/usr/bin/env python3
"""Writes docs/reference/ and docs/GLOSSARY.md from the sources.

docs/reference has each public call of the library crates, a page for each type of the crate `indexset`, and an index,
in which each call has the first sentence of its docs; docs/reference/internals has the same of each inner crate. A call
has a summary, examples, errors, its cost (`costs.txt`) and its clauses, in groups.
GLOSSARY.md has the terms and the words that the contracts of collections use (`glossary.py`).
"""

from __future__ import annotations

import argparse
import dataclasses
import pathlib
import re
import sys
import textwrap
from collections.abc import Callable, Iterable, Iterator

sys.dont_write_bytecode = True
import costs  # noqa: E402
import glossary  # noqa: E402

ROOT = pathlib.Path(__file__).resolve().parent.parent
HIDDEN_GHOSTS = re.compile(r"ghost (use|laws|Value|view|code|invariant)\b")
CLAUSE = re.compile(r"(requires|ensures)\b")
GROUP = re.compile(r"// (Result|Contents|Failure|Memory|Nodes)\.$")  # the comment above some clauses of a contract
# The pages of types: their title, crate, and the folder or file of its sources. Other crates have a page each.
PAGES = {
    "set": ("Set", "indexset_set", ""),
    "map": ("Map", "indexset_map", ""),
    "logged_set": ("Logged set", "indexset_log", "set"),
    "logged_map": ("Logged map", "indexset_log", "map"),
    "multimap": ("Multimap", "indexset_multi", ""),
    "replica": ("Replica", "indexset_replica", ""),
    "events": ("Events", "indexset_events", ""),
    "wire": ("Texts of events", "indexset_wire", ""),
    "base": ("What all stand on: `indexset::base`", "indexset_core", ""),
    "journal": ("Journal", "indexset_journal", ""),
}
COLLECTIONS = ("set", "map", "logged_set", "logged_map", "multimap", "replica")
FOR_C = {"c": ("Calls of the C library", "indexset_c", "")}
USES = {"uses": ("Proved callers", "indexset_uses", "")}  # a program, of which each function is shown
INNER = ("inner", "inner/")  # what a crate of a type has only for the crates above it
INTERNALS = "internals"  # the folder of pages of inner crates


@dataclasses.dataclass(frozen=True)
class Doc:
    """A doc comment: its text before the first heading, its examples, and its parts by their headings."""

    summary: str = ""
    examples: list[str] = dataclasses.field(default_factory=list)
    parts: dict[str, str] = dataclasses.field(default_factory=dict)


@dataclasses.dataclass(frozen=True)
class Call:
    """A call with its clauses; with no signature, the head of a trait, or the ghost members of an owner."""

    owner: str
    doc: Doc
    signature: str = ""
    clauses: list[str] = dataclasses.field(default_factory=list)


def library_crates() -> list[str]:
    """Returns the crates of crates.txt that are neither programs nor tests nor test drivers, in its order."""
    lines = (ROOT / "crates.txt").read_text(encoding="utf-8").splitlines()
    names = [line.split(":")[0].split()[0] for line in lines if line.strip() and not line.startswith("#")]
    names = [it for it in names if not it.startswith("test_")]
    return [it for it in names if (ROOT / "crates" / it / "src/lib.rt").exists()]


def source_files(crate: str) -> list[pathlib.Path]:
    """The source files of a crate, its root first."""
    src = ROOT / "crates" / crate / "src"
    return sorted(src.rglob("*.rt"), key=lambda file: (file.stem != "lib", file.with_suffix("").parts))


def parent_of(file: pathlib.Path, src: pathlib.Path) -> pathlib.Path:
    """The file that declares the module of a file."""
    folder = file.parent
    if folder == src:
        return src / "lib.rt"
    return folder.with_suffix(".rt")


def is_open(file: pathlib.Path, src: pathlib.Path) -> bool:
    """Whether all modules from the root down to this file are public."""
    while file.stem != "lib":
        parent = parent_of(file, src)
        if not parent.exists() or not re.search(rf"^pub mod {file.stem};", parent.read_text(encoding="utf-8"), re.M):
            return False
        file = parent
    return True


def passed_on(file: pathlib.Path, src: pathlib.Path) -> set[str]:
    """Returns the names that the module above re-exports from this file."""
    parent = parent_of(file, src)
    if file.stem == "lib" or not parent.exists():
        return set()
    found = re.search(rf"^pub use {file.stem}::(.*?);", parent.read_text(encoding="utf-8"), re.M | re.S)
    return set(re.findall(r"\w+", found.group(1))) if found else set()


def depth(text: str) -> int:
    """How many brackets a text leaves open."""
    plain = re.sub(r"->|=>", "", re.sub(r"'.'", "", text))
    return sum(map(plain.count, "([{")) - sum(map(plain.count, ")]}"))


def take_head(lines: list[str], at: int) -> list[str]:
    """The lines of an item from its first on, up to its body or its semicolon: of its comments those of groups."""
    is_ghost = lines[at].strip().startswith("ghost ")
    taken: list[str] = []
    nested = 0
    for line in lines[at:]:
        if GROUP.match(line.strip()):
            taken.append(line)
            continue
        text = line.split(" // ")[0].rstrip()
        if not text or text.lstrip().startswith("//"):
            continue
        if nested == 0 and text.strip() in ("{", "{}"):
            break
        nested += depth(text)
        if not is_ghost and nested == 1 and text.endswith("{") and not CLAUSE.match(text.strip()):
            return taken + [text[:-1].rstrip()]
        taken.append(text)
        if nested == 0 and (text.endswith(";") or (is_ghost and text.endswith("}")) or text.endswith("} {}")):
            taken[-1] = text.removesuffix(";")
            break
    return taken


def joined(lines: Iterable[str]) -> str:
    """Lines of a head without clauses, as one line."""
    text = " ".join(line.strip() for line in lines)
    return re.sub(r"(?<=[(<\[]) | (?=[)>\]])", "", re.sub(r",\s*(?=[)>\]])", "", text)).strip()


def head_and_clauses(lines: list[str]) -> tuple[str, list[str]]:
    """The signature on one line, and the clauses, indented as in the source, with a line between groups."""
    starts = (at for at, line in enumerate(lines) if CLAUSE.match(line.strip()) or GROUP.match(line.strip()))
    first = next(starts, len(lines))
    clauses = [re.sub(r"\} \{\}$", "}", line) for line in lines[first:]]
    apart = ("\n" + line if at and GROUP.match(line.strip()) else line for at, line in enumerate(clauses))
    return joined(lines[:first]), textwrap.dedent("\n".join(apart)).splitlines()


FAILS = re.compile(r"(?:Fails|A failed call)\b")


def blocks(text: str) -> Iterator[str]:
    """The paragraphs and the lists of a doc comment: a paragraph is one line, and an item of a list is one."""
    for block in re.split(r"\n\s*\n", text.strip()):
        yield "\n".join(" ".join(item.split()) for item in re.split(r"\n(?=- )", block))


def doc_of(lines: list[str]) -> Doc:
    """Returns a doc comment from its lines. Without a heading `Errors`, that part is the summary's sentences on
    failures."""
    text = "\n".join(lines)
    fenced = re.compile(r"^```(?:rust)?\n(.*?)^```$", re.M | re.S)
    shown = ("\n".join(it for it in code.splitlines() if not it.startswith("# ")) for code in fenced.findall(text))
    summary, *parts = re.split(r"^# ", fenced.sub("", text), flags=re.M)
    named = {name.strip(): "\n\n".join(blocks(said)) for name, _, said in (part.partition("\n") for part in parts)}
    if "Errors" in named:
        return Doc("\n\n".join(blocks(summary)), list(shown), named)
    sentences = [re.split(r"(?<=\.) ", block) for block in blocks(summary)]
    fails = " ".join(it for block in sentences for it in block if FAILS.match(it))
    rest = (" ".join(it for it in block if not FAILS.match(it)) for block in sentences)
    return Doc("\n\n".join(it for it in rest if it), list(shown), {"Errors": fails, **named})


def first_sentence(doc: str) -> str:
    """The first sentence of a doc comment."""
    return re.split(r"(?<=\.)\s", doc, maxsplit=1)[0]


def owner_type(owner: str) -> str:
    """The type that an impl or a trait is of."""
    of_trait = re.search(r" for (?:&(?:'\w+ )?)?(\w+)", owner)
    found = of_trait or re.search(r"^(?:impl(?:<.*?>)?|pub trait) (\w+)", owner)
    return found.group(1) if found else ""


def calls_of(text: str, free: Callable[[str], bool], public: set[str]) -> Iterator[Call]:
    """The calls of a file.

    `free` tests the name of a function without an owner, and `public` has the public types and traits.
    """
    lines = text.splitlines()
    owner = ""
    doc: list[str] = []
    for at, line in enumerate(lines):
        text = line.strip()
        if text.startswith("///"):
            doc.append(re.sub(r"^/// ?", "", text).rstrip())
            continue
        if re.match(r"(impl|pub trait)\b", line):
            owner = joined(take_head(lines, at))
            if owner.startswith("pub trait"):
                yield Call(owner, doc_of(doc))
        elif line == "}":
            owner = ""
        elif is_ghost_member(text) and owner_type(owner) in public:
            yield Call(owner, doc_of(doc), "", textwrap.dedent("\n".join(take_head(lines, at))).splitlines())
        elif is_call(line, owner, free, public):
            yield Call(owner, doc_of(doc), *head_and_clauses(take_head(lines, at)))
        elif text.startswith(("#[", "//")):
            continue
        doc = []


def is_ghost_member(text: str) -> bool:
    """Whether a line begins a ghost member that the contracts use."""
    return text.startswith("ghost ") and not HIDDEN_GHOSTS.match(text)


def is_call(line: str, owner: str, free: Callable[[str], bool], public: set[str]) -> bool:
    """Whether a line begins a function that a caller can name."""
    if not owner:
        function = re.match(r'pub (?:extern "C" )?fn (\w+)', line)
        return function is not None and ('extern "C"' in line or free(function[1]))
    heads = ("pub fn ", "fn ") if owner.startswith("pub trait") else ("pub fn ",)
    return owner_type(owner) in public and line.strip().startswith(heads)


def public_names(crates: list[str]) -> set[str]:
    """The types and traits that some crate declares public."""
    names: set[str] = set()
    for crate in crates:
        for file in source_files(crate):
            names.update(re.findall(r"^pub (?:struct|enum|trait|type) (\w+)", file.read_text(encoding="utf-8"), re.M))
    return names


@dataclasses.dataclass(frozen=True)
class Link:
    """A call in the index: its name, its anchor, and the first sentence of its docs."""

    name: str
    anchor: str
    says: str


@dataclasses.dataclass(frozen=True)
class Page:
    """A page of contracts, with its calls by the type that has them."""

    name: str
    title: str
    lines: list[str] = dataclasses.field(default_factory=list)
    calls: dict[str, list[Link]] = dataclasses.field(default_factory=dict)


def name_of(it: Call) -> str:
    """The name of a call, with that of its type."""
    function = re.search(r"\bfn (\w+)", it.signature)
    owner = owner_type(it.owner)
    return "::".join(word for word in (owner, function[1] if function else "") if word)


def anchor_of(heading: str, taken: dict[str, int]) -> str:
    """The anchor of a heading of a page, where others have come before it."""
    plain = re.sub(r"[^\w\- ]", "", heading.lower()).replace(" ", "-")
    taken[plain] = taken.get(plain, -1) + 1
    return f"{plain}-{taken[plain]}" if taken[plain] else plain


def part_of(heading: str, text: str) -> str:
    """A part of a doc comment, as a page has it: a list begins below the heading."""
    return f"*{heading}:*\n\n{text}" if text.startswith("- ") else f"*{heading}:* {text}"


def shown(it: Call, page: Page, taken: dict[str, int], group: str = "") -> None:
    """Adds a call to a page, with a heading and an anchor; the index has it by its type, or by this group."""
    name = name_of(it)
    page.lines.extend([f"### `{name}`", ""])
    anchor = anchor_of(name, taken)
    owner, _, function = name.rpartition("::")
    page.calls.setdefault(group or owner, []).append(Link(function, anchor, first_sentence(it.doc.summary)))
    examples = ["```rust", *"\n\n".join(it.doc.examples).splitlines(), "```"] if it.doc.examples else []
    parts = {**it.doc.parts}
    cost = costs.line(page.name, owner, function, parts.pop("Complexity", ""))
    texts = [part_of(heading, text) for heading, text in parts.items() if text]
    for said in [[it.doc.summary], examples, *([text] for text in texts), [cost]]:
        page.lines.extend([*said, ""] if any(said) else [])
    head = [it.owner] if it.owner else []
    clauses = textwrap.indent("\n".join(it.clauses), "    ").splitlines()
    page.lines.extend(["```text", *head, it.signature, *clauses, "```", ""])


def add_ghosts(it: Call, page: Page, last: str) -> None:
    """Adds the head of a trait, or ghost members; those of one owner are together."""
    lines = page.lines
    if it.owner not in ("", last):
        lines.extend([f"#### `{it.owner}`", ""])
    if it.doc.summary:
        lines.extend([it.doc.summary, ""])
    if it.clauses and not it.doc.summary and it.owner == last and lines[-2:] == ["```", ""]:
        lines[-2:] = [*it.clauses, "```", ""]
    elif it.clauses:
        lines.extend(["```text", *it.clauses, "```", ""])


def files_of(crate: str, part: str) -> Iterator[pathlib.Path]:
    """Returns the source files of a page: for a part of the crate, those of the folder or the file of that name."""
    src = ROOT / "crates" / crate / "src"
    for file in source_files(crate):
        name = str(file.relative_to(src).with_suffix(""))
        is_in_part = not part or name == part or name.startswith(part + "/")
        if is_in_part and name not in INNER and not name.startswith(INNER):
            yield file


def files_apart(crate: str) -> Iterator[pathlib.Path]:
    """The source files of a crate that are on no page of a type."""
    apart = {file for _, name, part in {**PAGES, **FOR_C}.values() if name == crate for file in files_of(crate, part)}
    return (file for file in source_files(crate) if file not in apart)


def page_of(
    page: Page, crate: str, files: Iterable[pathlib.Path], public: set[str], *, shows_all: bool = False
) -> Page:
    """Fills the page of some files of a crate: of its public modules, or of all."""
    src = ROOT / "crates" / crate / "src"
    taken: dict[str, int] = {}
    for file in files:
        seen, names = shows_all or is_open(file, src), passed_on(file, src)
        found = list(calls_of(file.read_text(encoding="utf-8"), lambda name: seen or name in names, public))
        if found:
            heading = f"`{file.relative_to(ROOT / 'crates')}`"
            anchor_of(heading, taken)
            page.lines.extend([f"## {heading}", ""])
        last = ""
        for it in found:
            if it.signature:
                shown(it, page, taken, file.name if shows_all else "")
            else:
                add_ghosts(it, page, last)
            last = it.owner
    return page


def pages_of_contracts() -> dict[str, Page]:
    """The pages by name, those of types first."""
    crates = library_crates()
    public = public_names(crates)
    outer = [(name, it) for name, it in {**PAGES, **FOR_C}.items() if it[1] in crates]
    found = {}
    for name, (title, crate, part) in outer:
        found[name] = page_of(Page(name, title), crate, files_of(crate, part), public)
    for name, (title, crate, part) in USES.items():
        found[name] = page_of(Page(name, title), crate, files_of(crate, part), public, shows_all=True)
    for crate in crates:
        short = crate.removeprefix("indexset_")
        name = f"{INTERNALS}/{short}"
        page = page_of(Page(name, f"`{crate}`"), crate, files_apart(crate), public)
        if page.lines:
            found[name] = page
    return found


ABOUT = (
    "A `requires` is a condition on the caller; an `ensures` is proved. A long contract has groups, each under its"
    " name; the group `Nodes` is for code that follows the nodes. Of an `impl` of a trait the lines are its ghost"
    " members, which the trait's own contract uses. [The glossary]({up}GLOSSARY.md) has the words."
)


def text_of(page: Page) -> str:
    """The text of a page of contracts."""
    words = ABOUT.format(up="../" * (page.name.count("/") + 1))
    about = f"Written by `scripts/write_docs.py` from the sources; [the index](README.md) has all pages. {words}"
    about_costs = [costs.ABOUT, ""] if costs.has(page.name) else []
    return "\n".join([f"# {page.title}", "", about, "", *about_costs, *page.lines])


def links(file: str, owner: str, calls: list[Link], is_inner: bool) -> list[str]:
    """The lines of an index for the calls of a type: those of a user's type have a line each."""
    shown_owner = f"`{owner}`"
    if is_inner:
        names = ", ".join(f"[`{it.name}`]({file}#{it.anchor})" for it in calls)
        return [f"- {shown_owner}: {names}" if owner else f"- {names}"]
    lines = [f"- [`{it.name}`]({file}#{it.anchor})" + (f": {it.says}" if it.says else "") for it in calls]
    return [f"### {shown_owner}" if owner else "### Functions", "", *lines, ""]


def listed(pages: Iterable[Page], is_inner: bool) -> Iterator[str]:
    """The lines of an index for some pages: of each the calls by type."""
    for page in pages:
        file = page.name.rpartition("/")[2] + ".md"
        yield from (f"## [{page.title}]({file})", "")
        lines = [line for owner, calls in page.calls.items() for line in links(file, owner, calls, is_inner)]
        yield from lines + [""] * (lines[-1:] != [""])


def index(pages: dict[str, Page]) -> str:
    """Returns the text of the index of the user types."""
    shown = [page for name, page in pages.items() if not name.startswith(INTERNALS)]
    about = f"Each public call, written by `scripts/write_docs.py` from the sources. {ABOUT.format(up='../')}"
    names = ", ".join(f"[{page.title}](#{anchor_of(page.title, {})})" for page in shown)
    inner = f"The crates below and beside these types have [pages of their own]({INTERNALS}/README.md)."
    return "\n".join(["# Reference", "", about, "", f"{names}.", "", inner, "", *listed(shown, False)])


def index_of_internals(pages: dict[str, Page]) -> str:
    """The text of the index of the inner crates."""
    shown = [page for name, page in pages.items() if name.startswith(INTERNALS)]
    about = (
        "The calls of the inner crates, written by `scripts/write_docs.py` from the sources."
        " A program needs none of them."
    )
    return "\n".join(["# Internals", "", f"{about} {ABOUT.format(up='../../')}", "", *listed(shown, True)])


def contracts() -> dict[str, str]:
    """The texts of docs/reference, by the name of the file."""
    pages = pages_of_contracts()
    of_pages = [(name, owner, calls) for name, page in pages.items() for owner, calls in page.calls.items()]
    named = {(name, owner, it.name) for name, owner, calls in of_pages for it in calls}
    if strange := costs.unknown(named):
        sys.exit(f"scripts/costs.txt: no such call: {', '.join(strange)}")
    texts = {"README": index(pages), f"{INTERNALS}/README": index_of_internals(pages)}
    texts |= {name: text_of(page) for name, page in pages.items()}
    return {f"reference/{name}.md": text for name, text in texts.items()}


def code_of_collections() -> Iterator[glossary.Code]:
    """The clauses of each collection, with the sources that have them."""
    for name, page in pages_of_contracts().items():
        if name in COLLECTIONS:
            _, crate, part = PAGES[name]
            lines = (line for line in page.lines if not GROUP.match(line.strip()))
            fenced = re.findall(r"^```text\n(.*?)^```$", "\n".join(lines), re.M | re.S)
            yield glossary.Code("\n".join(fenced), list(files_of(crate, part)))


def main() -> None:
    ask = argparse.ArgumentParser(description="Writes docs/reference and docs/GLOSSARY.md from the sources.")
    ask.add_argument("--check", action="store_true", help="write nothing, and fail where a page is out of date")
    given = ask.parse_args()
    folder = ROOT / "docs"
    pages = {**contracts(), "GLOSSARY.md": glossary.text(code_of_collections(), library_crates())}
    written = (str(it.relative_to(folder)) for it in sorted((folder / "reference").rglob("*.md")))
    stale = [it for it in written if it not in pages]
    for name, text in pages.items():
        file = folder / name
        if not given.check:
            file.parent.mkdir(parents=True, exist_ok=True)
            file.write_text(text, encoding="utf-8")
        elif not file.exists() or file.read_text(encoding="utf-8") != text:
            stale.append(name)
    if stale and given.check:
        sys.exit(f"stale: {', '.join(stale)}; run scripts/write_docs.py")
    for name in stale:
        (folder / name).unlink()


if __name__ == "__main__":
    main()

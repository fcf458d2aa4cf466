#!/usr/bin/env python3
"""Runs each example of the documentation, without proofs. The last line is 'N passed, M failed'.

    tests/examples.py [PART..]      with no names: all

Examples in Rust are built with the tests of a crate, and these run too, since each build takes a minute: the parts
`test_units` and, with those that need SQLite, `test_crashes`. `shell` is the blocks of shell, and the checks of blocks
that need no run.

Doc comments: an example is between two lines ``` and is the body of a test, in which a line that starts with `# ` is
not shown. Pages: each block of Rust, and each block of shell with the block of text after it, which must be its output.
A block of Rust with a `use` or a `fn` at the margin is a module, any other the body of a test. A comment before the
block,

    <!-- run with let mut board = BTreeSet::from_iter(alloc, [30, 10])?; -->

is the lines before a body, or the test of a module; `<!-- not run: why -->` leaves the block out;
`<!-- the file PATH -->` asserts that the block is that file. A line `EXPRESSION // TEXT` asserts that `{:?}` prints the
value so. A function of a page that has clauses must be, word for word, in the crate of proved callers or in a program
of one file, and a block with a `main` must be the root of a program of this repository.

If INDEXSET_PROGRAMS names a folder of built programs, `rt try` in a block of shell runs the program from there. That
folder, or else the one where `tests/run` builds programs, is the last on the path of blocks of shell.

A test has `rt` and `alloc`. It has the names of `NAMES`, unless it is in a module that imports its own.
"""

from __future__ import annotations

import argparse
import dataclasses
import json
import os
import pathlib
import re
import shutil
import subprocess
import sys
import tempfile
from collections.abc import Iterator

TOP = pathlib.Path(__file__).resolve().parent.parent
sys.dont_write_bytecode = True
sys.path.insert(0, str(TOP / "scripts"))
import checked  # noqa: E402
import lay  # noqa: E402

# The crates of tests that examples are built with, and the crates whose doc comments they are from.
HOSTS = {
    "test_units": ["core", "spine", "set", "map", "events", "wire", "log", "multi", "replica"],
    "test_crashes": ["journal"],
}
WITH_PAGES = "test_units"  # the one that the blocks of pages are built with
SHELL = "shell"
PROGRAMS = ["example_leaderboard", "indexset_program", "indexset_store"]  # those that the blocks of shell run
UNPROVED = TOP / "out/unproved"  # where tests/run builds programs
PROVED = "indexset_uses"
SECONDS = "240"  # for one test, on a busy machine
PAGES = ["*.md", "docs/*.md", "bindings/**/*.md", "crates/*/README.md", "examples/**/*.md"]
HEAD = "//! The examples of the documentation.\n"
NAMES = """use indexset::base::Text;
use indexset::base::multipair::MultiPair;
use indexset::base::pair::Pair;
use indexset::base::refusal::Refusal;
use indexset::cdc::change::{ChangeEvent, Id};
use indexset::cdc::text::event::{read_event, write_event};
use indexset::concurrent::{map, multimap, set};
use indexset::replica::Replica;
use indexset::base::probe::{ByItem, ByKey};
use indexset::{BTreeMap, BTreeSet};
use std::ops::Bound;
use std::test::Fail;
"""
LISTS = ["anyhow", "bytes", "std_collections", "indexset"]


@dataclasses.dataclass(frozen=True)
class Block:
    """A block of a page, with the text of the comment before it."""

    name: str
    language: str
    lines: list[str]
    given: list[str]
    left_out: str
    file: str


@dataclasses.dataclass
class Sources:
    """Returns the text of the module of examples: its root, its modules, and the number of their tests."""

    root: list[str]
    modules: dict[str, str]
    tests: int = 0


def doc_examples(file: pathlib.Path) -> Iterator[tuple[str, list[str]]]:
    """Returns the examples of a source file, each with the name of its item."""
    doc: list[str] | None = None
    found: list[list[str]] = []
    for line in file.read_text(encoding="utf-8").splitlines():
        text = line.strip()
        if text in ("/// ```", "/// ```rust"):
            if doc is not None:
                found.append(doc)
            doc = [] if doc is None else None
        elif doc is not None:
            doc.append(re.sub(r"^/// ?(# )?", "", text))
        elif item := re.search(r"\b(?:fn|struct|enum|trait|type) (\w+)", text):
            yield from ((item[1], it) for it in found)
            found = []


def page_blocks(page: pathlib.Path) -> list[Block]:
    """Returns the blocks of a page, in order. Each starts and ends with a line ``` at the margin."""
    text = page.read_text(encoding="utf-8")
    name = "_".join(page.relative_to(TOP).with_suffix("").parts).lower()
    found: list[Block] = []
    said_before = r"(?:^<!-- (run with|not run:|the file)((?:(?!-->).)*)-->\n+)?"
    form = re.compile(said_before + r"^```(\w*)\n(.*?)^```$", re.M | re.S)
    for kind, said, language, body in form.findall(text):
        given = said.strip().splitlines() if kind == "run with" else []
        left_out = " ".join(said.split()) if kind == "not run:" else ""
        file = said.strip() if kind == "the file" else ""
        found.append(Block(f"{name}_{len(found) + 1}", language, body.splitlines(), given, left_out, file))
    return found


def asserted(line: str) -> str:
    """Returns a line that shows the value of its expression, as an assertion."""
    says = re.fullmatch(r"( *)(\S.*?);? +// (.*)", line)
    if says is None or says[2].startswith("//"):
        return line
    text = json.dumps(says[3], ensure_ascii=False)
    return f'{says[1]}assert!(rt; format!(in alloc; "{{:?}}", {says[2]})?.as_str() == {text});'


def test_of(name: str, lines: list[str]) -> str:
    """Returns a test with these lines as its body."""
    body = "\n".join(f"    {asserted(it)}".rstrip() for it in lines)
    head = f"#[test]\nfn {name}(rt: HostRuntime) -> Result<(), std::test::Fail> {{\n"
    return f"{head}    let alloc = rt.alloc();\n{body}\n    Ok(())\n}}\n"


def add_rust(block: Block, sources: Sources) -> None:
    """Adds a block of Rust to the module of examples."""
    sources.tests += 1
    if not any(re.match(r"(pub )?(use|fn) ", it) for it in block.lines):
        sources.root.append(test_of(block.name, block.given + block.lines))
        return
    names = "" if any(it.startswith("use ") for it in block.lines) else NAMES
    text = "\n".join([f"//! {block.name}", names, *block.lines, "", test_of("runs", block.given)])
    sources.modules[block.name] = text
    sources.root.insert(1, f"mod {block.name};\n")


def written(host: str, blocks: list[Block]) -> Sources:
    """Returns the module of the examples of a crate of tests."""
    sources = Sources([HEAD, NAMES], {})
    for crate in HOSTS[host]:
        src = TOP / f"crates/indexset_{crate}/src"
        for file in sorted(src.rglob("*.rt")):
            place = "_".join(file.relative_to(src).with_suffix("").parts)
            for item, lines in doc_examples(file):
                sources.tests += 1
                name = f"{crate}_{place}_{item}_{sources.tests}".lower()
                sources.root.append(test_of(name, lines))
    for block in blocks if host == WITH_PAGES else []:
        if block.language == "rust":
            add_rust(block, sources)
    return sources


def unproved(blocks: list[Block]) -> list[str]:
    """Returns the functions with clauses that neither the crate of proved callers nor a program has word for word."""
    files = [*(TOP / "crates" / PROVED / "src").rglob("*.rt"), *TOP.glob("crates/*/src/main.rt")]
    proved = "\n".join(file.read_text(encoding="utf-8") for file in files)
    found = []
    for block in blocks:
        shown = "\n".join(block.lines) + "\n" if block.language == "rust" else ""
        for item in re.findall(r"^(?:pub )?fn .*?^}$", shown, re.M | re.S):
            if re.search(r"^ +(requires|ensures)\b", item, re.M) and item not in proved:
                found.append(f"{block.name}: not proved as it stands: {item.splitlines()[0]}")
    return found


def no_file(blocks: list[Block]) -> list[str]:
    """Returns the blocks that differ from the file that their comment names."""
    shown = [it for it in blocks if it.file]
    lines = {it.file: (TOP / it.file).read_text(encoding="utf-8").splitlines() for it in shown}
    return [f"{it.name}: not as {it.file} is" for it in shown if it.lines != lines[it.file]]


def no_names(blocks: list[Block]) -> list[str]:
    """Returns the imports that a page shows in a block of text, and that tests do not have."""
    shown = [(it.name, line) for it in blocks if it.language == "text" for line in it.lines if line.startswith("use ")]
    return [f"{name}: tests do not have it: {line}" for name, line in shown if line not in NAMES.splitlines()]


def no_program(blocks: list[Block]) -> list[str]:
    """Returns the blocks with a `main` that are not a program of this repository."""
    programs = [file.read_text(encoding="utf-8") for file in TOP.glob("crates/*/src/main.rt")]
    shown = [it for it in blocks if it.language == "rust" and any(line.startswith("fn main(") for line in it.lines)]
    return [f"{it.name}: no program of this repository" for it in shown if "\n".join(it.lines) + "\n" not in programs]


# Replaces `rt` in the blocks of shell.
BUILT = """#!/bin/sh
program="{folder}/$(basename "$PWD")"
if test "$*" = try && test -x "$program"; then exec "$program"; fi
exec {rt} "$@"
"""


def shell_environment(room: pathlib.Path) -> dict[str, str]:
    """Returns the environment of the blocks of shell."""
    folder = os.environ.get("INDEXSET_PROGRAMS")
    paths = f"{os.environ['PATH']}:{pathlib.Path(folder or UNPROVED).resolve()}"
    if not folder:
        return {**os.environ, "PATH": paths}
    command = room / "bin/rt"
    command.parent.mkdir()
    command.write_text(BUILT.format(folder=pathlib.Path(folder).resolve(), rt=shutil.which("rt")), encoding="utf-8")
    command.chmod(0o755)
    return {**os.environ, "PATH": f"{command.parent}:{paths}"}


def shell_faults(blocks: list[Block], room: str) -> tuple[int, list[str]]:
    """Returns the number of blocks of shell that print the block of text after them, and the output of the others."""
    environment = shell_environment(pathlib.Path(room))
    passed, faults = 0, []
    for block, after in zip(blocks, blocks[1:] + blocks[-1:]):
        if block.language != "sh":
            continue
        command = "\n".join(block.lines)
        done = subprocess.run(["bash", "-c", command], cwd=room, env=environment, capture_output=True, text=True)
        if after.language == "text" and done.stdout.splitlines() == after.lines:
            passed += 1
        else:
            faults.append(f"{block.name}: {done.stdout}{done.stderr[-2000:]}")
    return passed, faults


def add_libraries(lists: pathlib.Path, crate: str) -> None:
    """Adds the libraries that examples use to the line of a crate."""
    text = lists.read_text(encoding="utf-8")
    wanted = [*LISTS, *(f"indexset_{it}" for it in HOSTS[crate])]
    line = next(it for it in text.splitlines() if it.startswith(f"{crate}:"))
    more = " ".join(it for it in wanted if it not in line.split())
    lists.write_text(text.replace(line, f"{line} {more}"), encoding="utf-8")


def run_tests(host: str, sources: Sources, room: pathlib.Path) -> tuple[int, list[str]]:
    """Runs the tests of a crate with the examples as a module of it. Returns the number of passed ones, and the
    faults."""
    src = room / f"crates/{host}/src"
    with open(src / "lib.rt", "a", encoding="utf-8") as root:
        root.write("#[cfg(test)]\nmod examples;\n")
    (src / "examples").mkdir()
    (src / "examples.rt").write_text("\n".join(sources.root), encoding="utf-8")
    for name, text in sources.modules.items():
        (src / f"examples/{name}.rt").write_text(text, encoding="utf-8")
    add_libraries(room / "crates.txt", host)
    run = checked.tried(src.parent, ["--test", "--seconds", SECONDS])
    said = run.communicate()[0]
    results = re.findall(r"(?m)^test (\S+) \.\.\. (.*)$", said)
    passed = [name for name, result in results if result == "ok"]
    examples = sum(name.startswith("examples::") for name in passed)
    if run.returncode or examples != sources.tests or len(passed) != len(results):
        return len(passed), [f"{host}: {examples} of {sources.tests} examples passed\n{said[-9000:]}"]
    return len(passed), []


def main() -> int:
    parser = argparse.ArgumentParser(description="Runs each example of the documentation, without proofs.")
    parser.add_argument("parts", nargs="*", metavar="PART", help=f"{', '.join(HOSTS)} or {SHELL} (default: all)")
    parts = parser.parse_args().parts or [*HOSTS, SHELL]
    pages = sorted({page for it in PAGES for page in TOP.glob(it)})
    every = [block for page in pages for block in page_blocks(page)]
    blocks = [it for it in every if not it.left_out]
    passed, faults = 0, list[str]()
    for part in parts:
        with tempfile.TemporaryDirectory() as room:
            lay.lay(pathlib.Path(room), lay.every())
            ran = (
                shell_faults(blocks, room)
                if part == SHELL
                else run_tests(part, written(part, blocks), pathlib.Path(room))
            )
        passed += ran[0]
        faults += ran[1]
    if SHELL in parts:
        faults += unproved(every) + no_program(every) + no_file(every) + no_names(every)
        print(*(f"{it.name} is not run: {it.left_out}" for it in every if it.left_out), sep="\n")
    print(*faults, sep="\n")
    print(f"{passed} passed, {len(faults)} failed")
    return int(bool(faults))


if __name__ == "__main__":
    sys.exit(main())

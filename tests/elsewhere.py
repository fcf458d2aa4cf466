#!/usr/bin/env python3
"""Tests scripts/vendor.py and scripts/unproved.py, in a repository with a program of its own.

The program is built without proofs, and runs. The last line is 'N passed, M failed'.
"""

from __future__ import annotations

import pathlib
import subprocess
import sys
import tempfile

TOP = pathlib.Path(__file__).resolve().parent.parent
sys.dont_write_bytecode = True
sys.path.insert(0, str(TOP / "scripts"))
import testing  # noqa: E402
import vendor  # noqa: E402

LISTED = "# mine\nindexset_core: of_an_older_version\nvotes: anyhow bytes indexset indexset_map # a program\n"
PROGRAM = """\
//! Counts votes. Each line is a name; the names are printed by votes.
#![tactic(auto)]

use anyhow::Result;
use bytes::ByteStr;
use indexset::{BTreeMap, BTreeSet};

fn main(rt: HostRuntime) -> Result<()> {
    let mut votes = BTreeMap::new(rt.alloc())?;
    for line in rt.lines(rt.alloc()) {
        let name = ByteStr::copy_from_str(rt.alloc(), line?.as_str())?;
        let count = votes.entry(name).or_insert(0_u64)?;
        *count = count.saturating_add(1);
    }
    let mut ranking = BTreeSet::new(rt.alloc())?;
    for (name, count) in &votes {
        ranking.insert((*count, name.clone()?))?;
    }
    for (count, name) in ranking.iter().rev() {
        println!(rt; "{name} {count}, above {}", ranking.rank((count, name)))?;
    }
    Ok(())
}
"""
STDIN, STDOUT = "Ben\nAnn\nBen\nZoe\nBen\nAnn\n", "Ben 3, above 2\nAnn 2, above 1\nZoe 1, above 0\n"


def made(room: str) -> pathlib.Path:
    """Makes a repository with a program, and with an older copy of one of the crates."""
    repository = pathlib.Path(room, "mine")
    old = repository / "crates/indexset_core"
    for file, text in (("src/gone.rt", ""), ("out/kept", "")):
        (old / file).parent.mkdir(parents=True)
        (old / file).write_text(text, encoding="utf-8")
    source = repository / "crates/votes/src"
    source.mkdir(parents=True)
    (source / "main.rt").write_text(PROGRAM, encoding="utf-8")
    (repository / "crates.txt").write_text(LISTED, encoding="utf-8")
    return repository


def called(tool: str, *words: str | pathlib.Path) -> subprocess.CompletedProcess[str]:
    """Runs a tool, and returns the run."""
    return subprocess.run([TOP / "scripts" / tool, *words], capture_output=True, text=True)


def copies_beside_what_is_there() -> None:
    with tempfile.TemporaryDirectory() as room:
        repository = made(room)
        done = called("vendor.py", repository)
        assert done.returncode == 0, done.stderr
        lines = (repository / "crates.txt").read_text(encoding="utf-8").splitlines()
        ours = (TOP / "crates.txt").read_text(encoding="utf-8").splitlines()
        assert [lines[0], lines[2]] == [LISTED.splitlines()[0], LISTED.splitlines()[2]], lines
        assert lines[1] in ours and set(lines[3:]) < set(ours) and len(lines) == len(set(lines)), lines
        core = repository / "crates/indexset_core"
        assert not (core / "src/gone.rt").exists() and (core / "out/kept").exists() and (core / "LICENSE").exists()
        assert not [*repository.glob("crates/*/must-fail")]
        first = (repository / "crates.txt").read_bytes()
        assert called("vendor.py", repository).returncode == 0
        assert (repository / "crates.txt").read_bytes() == first


def names_what_it_cannot_copy() -> None:
    with tempfile.TemporaryDirectory() as room:
        wrong: list[list[str]] = [[room, "no_such_crate"], [f"{room}/none"], [str(TOP)], []]
        for words in wrong:
            done = called("vendor.py", *words)
            assert done.returncode == 2 and "error: " in done.stderr, (words, done.stderr)
        assert called("unproved.py", room).returncode == 2
        assert called("unproved.py", "--library", room).returncode == 2


def an_unproved_program_runs_and_says_so() -> None:
    with tempfile.TemporaryDirectory() as room:
        repository = made(room)
        vendor.vendor(repository, [vendor.DEFAULT])
        done = called("unproved.py", repository / "crates/votes")
        assert done.returncode == 0 and "unproved" in done.stdout, done.stdout + done.stderr
        program = repository / "crates/votes/out/unproved/votes"
        ran = subprocess.run([program], input=STDIN, capture_output=True, text=True)
        assert (ran.returncode, ran.stdout) == (0, STDOUT), ran
        assert ran.stderr.startswith("votes: unproved"), ran.stderr
        symbols = subprocess.run(["nm", program], capture_output=True, text=True, check=True).stdout
        assert " unproved\n" in symbols


TESTS = (copies_beside_what_is_there, names_what_it_cannot_copy, an_unproved_program_runs_and_says_so)


if __name__ == "__main__":
    sys.exit(testing.run("Tests scripts/vendor.py and scripts/unproved.py.", {it.__name__: it for it in TESTS}))

#!/usr/bin/env python3
"""Tests scripts/mutation_tests.py on a made-up crate, whose prover derives its output from the words of a body.

The last line is 'N passed, M failed'.
"""

from __future__ import annotations

import contextlib
import io
import pathlib
import re
import sys
import tempfile
import types
from typing import cast
from unittest import mock

TOP = pathlib.Path(__file__).resolve().parent.parent
sys.dont_write_bytecode = True
sys.path[:0] = [str(TOP / "scripts"), str(TOP / "tests")]
import kit  # noqa: E402
import mutation_tests  # noqa: E402
import testing  # noqa: E402

SOURCE = """
fn first() -> u64
    ensures { result ≡ 1 }
{
    right_first
}

impl<T: Ord> Probe<T> for Near<'_, T>
where
    T: Ord,
{
    fn place(&mut self) -> u64 {
        right_place
    }
}

impl<T> Heap<T, Vec<T>> {
    pub fn last(&self) -> u64
        ensures { result ≡ 2 }
    {
        right_last + first()
    }
}
"""
NAMES = {"first": "made::heap::first", "place": "made::heap::NearProbe::place", "last": "made::Heap+T+Vec+T::last"}
# The prover's output for a function whose body has a word.
SAYS = {
    "wrong": "note: src/heap.rt:1:1: it is not proved that it holds (`returns`)\n"
    "fn {0}: no proof: expected answers in {1}",
    "stale": "./proofs/{1}/Answers.antt:1:1: error: `returns`: it has no field `count`\nfn {0}: not proved",
    "lemma": "./proofs/{1}/Answers.antt:1:1: error: `returns`: the two types differ\nfn {0}: not proved",
    "beside": "./proofs/{1}/Answers.antt:1:1: error: `returns`: x\n"
    "fn {0}: not proved; it calls `made::heap::first`, which is not proved",
    "right": "fn {0}: proved",
}


class Prover:
    """A prover that derives the output for a function from its body, and records what it was asked."""

    def __init__(self) -> None:
        self.asked: list[list[str]] = []

    def check(self, built: object, at: pathlib.Path, kept: pathlib.Path, flags: list[str], jobs: int) -> kit.Checked:
        words = flags[1::2]
        self.asked.append(words)
        text = (at / "src/heap.rt").read_text(encoding="utf-8")
        unknown = [it for it in words if not any(f"::{name}".endswith(f"::{it}") for name in NAMES.values())]
        if unknown:
            return kit.Checked(f"rattle: error: `made` has no function `{unknown[0]}`: help: write it\n", 2, 1.0)
        if "unread" in text:
            return kit.Checked("src/heap.rt:1:1: error[unknown-name]: cannot find value `unread`\n", 1, 1.0)
        said = [self.said(name, text) for name in NAMES.values()]
        return kit.Checked("\n".join(said), 1 if any("not" in it or "no proof" in it for it in said) else 0, 1.0)

    def said(self, name: str, text: str) -> str:
        found = re.search(rf"(\w+)_{name.split('::')[-1]}", text)
        word = found[1] if found else "right"
        if name == NAMES["last"] and word == "right" and "wrong_first" in text:
            return f"fn {name}: no proof: it calls `made::heap::first`, which is not proved"
        return SAYS[word].format(name, "/".join(name.split("::")[1:]))


def tried(changes: dict[str, str]) -> tuple[mutation_tests.Tally, str, Prover]:
    """Returns the results of edits that replace one word of the source by another, with the output."""
    prover, said = Prover(), io.StringIO()
    with tempfile.TemporaryDirectory() as room:
        folder = pathlib.Path(room)
        (folder / "src").mkdir()
        (folder / "src/heap.rt").write_text(SOURCE, encoding="utf-8")
        (folder / "must-fail").mkdir()
        for old, new in changes.items():
            text = f"file: src/heap.rt\nold: {old}\nnew: {new}\n"
            (folder / f"must-fail/{new.replace(' ', '_')[:20]}.edit").write_text(text, encoding="utf-8")
        crate = cast(kit.Crate, types.SimpleNamespace(name="made", folder=room))
        fake = mock.patch.multiple(kit, check=prover.check, sources=lambda it: [folder / "src"])
        with fake, contextlib.redirect_stdout(said):
            tally = mutation_tests.Trial(crate, crate, folder, io.StringIO()).run([])
    return tally, said.getvalue(), prover


def expect(changes: dict[str, str], passed: int, why: str = "", checks: int = 0) -> None:
    """Asserts the number of refused edits, and the output for one that is not refused."""
    tally, said, prover = tried(changes)
    assert (tally.passed, tally.failed) == (passed, len(changes) - passed), f"{tally}: {said}"
    assert why in said and bool(why) == bool(said), said
    assert not checks or len(prover.asked) == checks, f"{prover.asked}"


def test_together() -> None:
    expect({"right_first": "wrong_first", "right_place": "lemma_place"}, 2, checks=1)


def test_name_that_the_prover_does_not_know() -> None:
    expect({"right_last": "wrong_last"}, 1, checks=2)
    assert mutation_tests.function_at("src/heap.rt", SOURCE, SOURCE.index("right_last")).word == "Heap::last"


def test_refused_beside_its_callee() -> None:
    expect({"right_first": "wrong_first", "right_last": "beside_last"}, 2)


def test_refused_only_for_its_callee() -> None:
    expect({"right_first": "wrong_first", "right_last + first()": "right_last + first() + 0"}, 1, "still proved")


def test_changes_nothing() -> None:
    expect(
        {"right_first": "right_first + 0", "right_place": "wrong_place"}, 1, "NOT REFUSED: heap::first is still proved"
    )


def test_old_text_is_gone() -> None:
    expect({"left_first": "wrong_first", "right_place": "wrong_place"}, 1, "stands 0 times")


def test_old_text_stands_twice() -> None:
    expect({"T: Ord": "wrong"}, 0, "stands 2 times")


def test_stale_name() -> None:
    expect({"right_first": "stale_first", "right_place": "wrong_place"}, 1, "only because a proof names")


def test_unread() -> None:
    expect({"right_first": "unread_first", "right_place": "wrong_place"}, 1, "cannot read the edited text")


def test_clause() -> None:
    expect({"result ≡ 1": "result ≡ result"}, 0, "it changes a clause")
    expect({"right_first": "wrong_first ensures"}, 0, "it changes a clause")


def test_same_function() -> None:
    expect({"right_first": "wrong_first", "right_fir": "lemma_fir"}, 2, checks=2)


def test_page_counts_the_edits() -> None:
    count = len([*(TOP / "crates").glob("*/must-fail/*.edit")])
    assert f"`scripts/mutation_tests.py`: {count} edits " in (TOP / "docs/GATE.md").read_text(encoding="utf-8"), count


if __name__ == "__main__":
    tests = {name: it for name, it in globals().items() if name.startswith("test_")}
    sys.exit(testing.run("Tests scripts/mutation_tests.py on a made-up crate.", tests))

#!/usr/bin/env python3
"""Tests that programs built by scripts/checked.py stop at each fault.

It builds a crate of tests, and reports for each whether its result is the one that its name states. The last line is 'N
passed, M failed'.
"""

from __future__ import annotations

import argparse
import pathlib
import re
import sys
import tempfile

TOP = pathlib.Path(__file__).resolve().parent.parent
sys.dont_write_bytecode = True
sys.path.insert(0, str(TOP / "scripts"))
import checked  # noqa: E402

CODE = """//! Tests that pass, or stop.
#![tactic(auto)]

fn item(list: &[u8], at: usize) -> u8 {
    list[at]
}

fn next(number: u8) -> u8 {
    number + 1
}

fn half(number: u8, at: u32) -> u8 {
    number >> at
}

fn ratio(number: u8, by: u8) -> u8 {
    number / by
}

fn first(list: &[u8]) -> u8 {
    *list.first().unwrap()
}
"""
TEST = """
#[test]
fn {name}(rt: HostRuntime) -> Result<(), std::test::Fail> {{
    let list: [u8; {length}] = {list};
    assert!(rt; {condition});
    Ok(())
}}
"""
ALL = "item(&list, 1) == 20 && next(254) == 255 && half(6, 1) == 3 && ratio(6, 2) == 3 && first(&list) == 10"
# The assertion of each test, and its list.
PASSES = {"all_within": (ALL, "[10, 20]")}
STOPS = {
    "asserts_what_is_wrong": ("item(&list, 1) == 21", "[10, 20]"),
    "reads_past_the_end": ("item(&list, 2) < 255 || list.len() == 2", "[10, 20]"),
    "overflows": ("next(255) < 255", "[10, 20]"),
    "shifts_too_far": ("half(6, 8) < 255", "[10, 20]"),
    "divides_by_zero": ("ratio(6, 0) < 255", "[10, 20]"),
    "unwraps_nothing": ("first(&list) < 255 || list.len() == 0", "[]"),
}


def written(room: pathlib.Path) -> pathlib.Path:
    """Makes the crate in a folder, and returns the crate's folder."""
    crate = room / "crates/faults"
    (crate / "src").mkdir(parents=True)
    (room / "HANDLES").write_text("Handles allowed: none.\n", encoding="utf-8")
    (room / "crates.txt").write_text("faults:\n", encoding="utf-8")
    tests = [
        TEST.format(name=name, list=items, length=len(re.findall(r"\d+", items)), condition=condition)
        for name, (condition, items) in {**PASSES, **STOPS}.items()
    ]
    (crate / "src/lib.rt").write_text(CODE + "".join(tests), encoding="utf-8")
    return crate


def main() -> int:
    argparse.ArgumentParser(description="Tests that what scripts/checked.py builds stops at each fault.").parse_args()
    with tempfile.TemporaryDirectory() as room:
        said = checked.tried(written(pathlib.Path(room)), ["--test"]).communicate()[0]
    found = {name: result == "ok" for name, result in re.findall(r"(?m)^test (\w+) \.\.\. (.*)$", said)}
    wanted = {**dict.fromkeys(PASSES, True), **dict.fromkeys(STOPS, False)}
    wrong = [name for name in wanted if found.get(name) != wanted[name]]
    print(
        *(f"{name}: {'passed' if found.get(name) else 'did not pass'}" for name in wrong),
        said if wrong else "",
        sep="\n",
    )
    print(f"{len(wanted) - len(wrong)} passed, {len(wrong)} failed")
    return int(bool(wrong))


if __name__ == "__main__":
    sys.exit(main())

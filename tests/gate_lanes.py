#!/usr/bin/env python3
"""Tests the number of processors that scripts/kit.py makes `rt ci` give to a check, on tasks that prove nothing.

It also tests that `rt ci` gives fewer by itself: once it does not, scripts/kit.py need not change it. The last line is
'N passed, M failed'.
"""

from __future__ import annotations

import pathlib
import sys
from typing import Any
from unittest import mock

TOP = pathlib.Path(__file__).resolve().parent.parent
sys.dont_write_bytecode = True
sys.path[:0] = [str(TOP / "scripts"), str(TOP / "tests")]
import kit  # noqa: E402
import testing  # noqa: E402

MEMORY = 1 << 30  # of a check, in bytes


CHAIN: dict[str, list[str]] = {"core": [], "index": ["core"], "set": ["core", "index"]}


def jobs_of(
    crates: dict[str, list[str]], tested: list[str], is_changed: bool = True
) -> tuple[kit.Given, dict[kit.Key, int]]:
    """Returns the results of the tasks of crates, each with its libraries, and the jobs of each, on four processors."""
    rt: Any = kit.command()
    given, jobs = kit.Given(), dict[kit.Key, int]()

    def task(crate: str, kind: str, lines: int) -> kit.Task:
        def call(given: kit.Given, of_task: int) -> bool:
            jobs[crate, kind] = of_task
            return True

        return [(it, "proof") for it in crates[crate]], lines, MEMORY, call

    def main(words: list[str]) -> int:
        tasks = {(it, "proof"): task(it, "proof", 100) for it in crates}
        tasks |= {(it, "tests"): task(it, "tests", 100 * (it in tested)) for it in crates}
        given.update(rt.in_lanes(tasks))
        return 0

    with mock.patch.multiple(rt, main=main, processors=lambda: 4, free=lambda: 64 * MEMORY):
        with mock.patch.object(kit, "command", lambda: rt), mock.patch.dict("os.environ", {"RT_JOBS": ""}):
            assert (kit.ci() if is_changed else rt.main(["ci"])) == 0
    return given, jobs


def test_crate_of_a_chain_gets_all() -> None:
    given, jobs = jobs_of(CHAIN, [])
    assert [jobs[it, "proof"] for it in CHAIN] == [4, 4, 4], f"{jobs}"
    assert len(given) == 6 and all(given.values()), f"{given}"


def test_rt_alone_gives_fewer() -> None:
    jobs = jobs_of(CHAIN, [], is_changed=False)[1]
    assert [jobs[it, "proof"] for it in CHAIN] == [2, 1, 1], f"`rt ci` gives {jobs}"


def test_crates_side_by_side_share() -> None:
    jobs = jobs_of({"core": [], "set": ["core"], "log": ["core"]}, [])[1]
    assert (jobs["core", "proof"], jobs["set", "proof"], jobs["log", "proof"]) == (4, 2, 2), f"{jobs}"


def test_tests_count_where_there_are_some() -> None:
    jobs = jobs_of({"core": []}, ["core"])[1]
    assert jobs["core", "proof"] == 2, f"{jobs}"


if __name__ == "__main__":
    tests = {name: it for name, it in globals().items() if name.startswith("test_")}
    sys.exit(testing.run("Tests which processors scripts/kit.py has `rt ci` give to a check.", tests))

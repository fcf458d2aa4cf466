#!/usr/bin/env python3
"""Checks the scripts and the sources in C and C++ by the rules beside them, and the crates' lines and contracts.

flake8 has its rules in setup.cfg, shellcheck in .shellcheckrc, clang-format and clang-tidy in files of their names. No
line is longer than 120 characters; those of the crates have the limits of tests/widths.py, and their long contracts the
groups of tests/contracts.py. A tool that is not installed is a failure: scripts/needs.py installs it. The last line is
'N passed, M failed'.
"""

from __future__ import annotations

import argparse
import os
import pathlib
import re
import subprocess
import sys
import sysconfig
from collections.abc import Iterator
from concurrent.futures import ThreadPoolExecutor

TOP = pathlib.Path(__file__).resolve().parent.parent
sys.dont_write_bytecode = True
sys.path.insert(0, str(TOP / "scripts"))
sys.path.insert(0, str(TOP / "tests"))
import by_language  # noqa: E402
import contracts  # noqa: E402
import widths  # noqa: E402

WIDEST = 120
COMPLAINT = re.compile(r"\S+:\d+:\d+: ")
FOLDERS = [
    TOP / "bindings/c/include",
    TOP / "bindings/c/tests",
    TOP / "bindings/cpp/include",
    TOP / "bindings/cpp/tests",
    TOP / "bench/cpp",
    pathlib.Path(sysconfig.get_path("include")),
]
# The analyzer takes a minute for a test of templates, which runs under the sanitizers; for C it takes seconds.
TIDY = {".c": ("-std=c11", ()), ".cpp": ("-std=c++20", ("--checks=-clang-analyzer-*",))}

Command = list[str | pathlib.Path]


def tidied(file: pathlib.Path) -> Command:
    """Returns the command that checks a file, and the headers that it includes, by clang-tidy."""
    standard, words = TIDY[file.suffix]
    return ["clang-tidy", "--quiet", *words, file, "--", standard, *(f"-I{it}" for it in FOLDERS)]


def commands() -> Iterator[Command]:
    """Yields the commands, those that take long first."""
    sources = [it for it in by_language.of("c", "c++") if it.suffix in TIDY]
    yield from map(tidied, sorted(sources, key=lambda it: it.suffix, reverse=True))
    yield ["flake8", *by_language.of("python")]
    yield ["shellcheck", "--format=gcc", *by_language.of("shell")]
    yield ["clang-format", "--dry-run", "-Werror", *by_language.of("c", "c++")]


def ran(command: Command) -> str:
    """Returns the complaints of a command, without the lines of the sources, or that it is not installed."""
    try:
        done = subprocess.run(command, cwd=TOP, stdout=subprocess.PIPE, stderr=subprocess.STDOUT, text=True)
    except FileNotFoundError:
        return f"{command[0]} is not installed: scripts/needs.py installs it\n"
    if done.returncode == 0:
        return ""
    said = [line for line in done.stdout.splitlines(keepends=True) if COMPLAINT.match(line)]
    return "".join(said) or done.stdout


def wide_lines() -> str:
    """Returns the lines that are too long."""
    found = ""
    for file in by_language.of("python", "shell", "javascript", "c", "c++"):
        lines = file.read_text(encoding="utf-8").splitlines()
        wide = [number for number, line in enumerate(lines, 1) if len(line) > WIDEST]
        found += "".join(f"{file.relative_to(TOP)}:{it}: longer than {WIDEST} characters\n" for it in wide)
    return found


def main() -> int:
    ask = argparse.ArgumentParser(description="Checks the scripts, the sources in C and C++, widths and contracts.")
    ask.add_argument("--jobs", type=int, default=len(os.sched_getaffinity(0)), help="how many at a time")
    given = ask.parse_args()
    with ThreadPoolExecutor(given.jobs) as pool:
        crates = ["".join(map(widths.wide_lines, widths.files())), "".join(map(contracts.faults, contracts.files()))]
        complaints = [wide_lines(), *crates, *pool.map(ran, commands())]
    print("".join(complaints), end="")
    failed = sum(map(bool, complaints))
    print(f"{len(complaints) - failed} passed, {failed} failed")
    return int(failed > 0)


if __name__ == "__main__":
    sys.exit(main())

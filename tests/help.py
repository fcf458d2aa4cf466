#!/usr/bin/env python3
"""Tests that each script describes itself by `--help`, and rejects an unknown argument.

The scripts in bindings/python load the library, so they are not among these. The last line is 'N passed, M failed'.
"""

from __future__ import annotations

import argparse
import os
import pathlib
import signal
import subprocess
import sys
from concurrent.futures import ThreadPoolExecutor

TOP = pathlib.Path(__file__).resolve().parent.parent
sys.dont_write_bytecode = True
sys.path.insert(0, str(TOP / "scripts"))
import by_language  # noqa: E402

SECONDS = 60
UNKNOWN = "--no-such-argument"
BEGINS = {"python": ["python3"], "shell": ["bash"]}


def runnable() -> list[pathlib.Path]:
    """Returns the scripts that are run, and not only imported."""
    python = [it for it in by_language.of("python") if '__name__ == "__main__"' in it.read_text(encoding="utf-8")]
    apart = TOP / "bindings/python"
    return [it for it in [*by_language.of("shell"), *python] if apart not in it.parents]


def ended(script: pathlib.Path, word: str) -> tuple[int | None, str]:
    """Returns the status of a script run with one argument, and its output; None if it had to be stopped."""
    words = [*BEGINS[by_language.language(script)], str(script), word]
    ran = subprocess.Popen(
        words,
        cwd=TOP,
        stdin=subprocess.DEVNULL,
        stdout=subprocess.PIPE,
        stderr=subprocess.STDOUT,
        text=True,
        start_new_session=True,
    )
    try:
        return ran.wait(SECONDS), ran.communicate()[0]
    except subprocess.TimeoutExpired:
        os.killpg(ran.pid, signal.SIGKILL)
        return None, ran.communicate()[0]


def wrong(script: pathlib.Path) -> str:
    """Returns the fault in the arguments of a script, or an empty string."""
    status, said = ended(script, "--help")
    if status != 0 or not said:
        return f"{script.relative_to(TOP)} --help ends with {status}: {said[-300:]}\n"
    status, said = ended(script, UNKNOWN)
    if not status or "Traceback" in said:
        return f"{script.relative_to(TOP)} {UNKNOWN} ends with {status}: {said[-300:]}\n"
    return ""


def main() -> int:
    argparse.ArgumentParser(description="Tests the arguments of each script.").parse_args()
    found = runnable()
    with ThreadPoolExecutor(len(os.sched_getaffinity(0))) as pool:
        complaints = [it for it in pool.map(wrong, found) if it]
    print("".join(complaints), end="")
    print(f"{len(found) - len(complaints)} passed, {len(complaints)} failed")
    return int(bool(complaints))


if __name__ == "__main__":
    sys.exit(main())

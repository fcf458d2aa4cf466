#!/usr/bin/env python3
"""Tests scripts/gate_minutes.py on processes with the name of the prover.

The last line is 'N passed, M failed'.
"""

from __future__ import annotations

import pathlib
import shutil
import subprocess
import sys
import tempfile

TOP = pathlib.Path(__file__).resolve().parent.parent
sys.dont_write_bytecode = True
sys.path[:0] = [str(TOP / "scripts"), str(TOP / "tests")]
import kit  # noqa: E402
import testing  # noqa: E402

SECONDS = 3


def named(room: str, crate: str) -> list[str]:
    """Returns a command that looks like the prover at work on a crate."""
    folder = pathlib.Path(room, crate)
    folder.mkdir()
    prover = shutil.copy(shutil.which("bash") or "", folder / kit.PROVER)
    return [str(prover), "-c", f"sleep {SECONDS}; true", "check", "--crate-name", crate]


def test_counts_its_own_processes_alone() -> None:
    with tempfile.TemporaryDirectory() as room:
        other = subprocess.Popen(named(room, "other"))
        table = pathlib.Path(room, "table")
        done = subprocess.run([sys.executable, TOP / "scripts/gate_minutes.py", table, *named(room, "own")])
        other.kill()
        other.wait()
        text = table.read_text(encoding="utf-8")
    assert done.returncode == 0, f"it ended with {done.returncode}"
    assert "`own`" in text and "`other`" not in text, text


def test_ends_as_the_command_does() -> None:
    with tempfile.TemporaryDirectory() as room:
        words = [sys.executable, "-c", "import sys; sys.exit(7)"]
        done = subprocess.run([sys.executable, TOP / "scripts/gate_minutes.py", f"{room}/table", *words])
    assert done.returncode == 7, f"it ended with {done.returncode}"


if __name__ == "__main__":
    tests = {name: it for name, it in globals().items() if name.startswith("test_")}
    sys.exit(testing.run("Tests scripts/gate_minutes.py on processes with the name of the prover.", tests))

#!/usr/bin/env python3
"""Draws docs/kill.svg: a leader that is killed, the rows of its file, and its replies after a restart.

All lines are from a run, which this script makes: it needs the built `indexset_store`.
"""

from __future__ import annotations

import contextlib
import pathlib
import signal
import sqlite3
import subprocess
import sys
import tempfile

sys.dont_write_bytecode = True
import drawing  # noqa: E402
from drawing import Shapes, box, code, paint, title  # noqa: E402
from programs import built  # noqa: E402

BEFORE = ("#1 put 5 50", "#2 put 3 30", "#3 put 9 90")
AFTER = ("sum", "#4 put 7 70")
LINE, LEFT, TOP_OF, WIDE, HIGH = 19, 14, 62, 930, 374
COLUMNS = ((12, 250, "a leader, --keep map.db"), (280, 350, "the rows of map.db"), (648, 270, "started again"))

Lines = list[tuple[str, str]]  # (each with its colour)


def talk(path: pathlib.Path, commands: tuple[str, ...], is_killed: bool) -> Lines:
    """Returns the commands and replies, in order; at the end the program is killed, or its input ends."""
    said: Lines = []
    words = [str(built("indexset_store")), "--keep", str(path), "--lead"]
    with subprocess.Popen(words, stdin=subprocess.PIPE, stdout=subprocess.PIPE, text=True, bufsize=1) as run:
        assert run.stdin and run.stdout
        for command in commands:
            said.append((f"> {command}", "sent"))
            print(command, file=run.stdin)
            while True:
                answer = run.stdout.readline().rstrip()
                said.append((answer, "ink"))
                if not answer or answer.startswith(("next ", "sum ")):
                    break
        if is_killed:
            run.send_signal(signal.SIGKILL)
            said.append(("kill -9", "lost"))
        run.stdin.close()
    return said


def rows(path: pathlib.Path) -> Lines:
    """Returns the stored rows, as SQLite itself reads them."""
    with contextlib.closing(sqlite3.connect(path)) as base:
        found = base.execute("SELECT number, line FROM kept ORDER BY number")
        return [(f"{number}\N{NO-BREAK SPACE} {line}", "ink") for number, line in found]


def panel(x: int, wide: int, head: str, lines: Lines) -> Shapes:
    shapes = title(x, 28, head) + box(x, 40, wide, HIGH - 52, paint("card", "soft"), 'rx="6"')
    for at, (line, colour) in enumerate(lines):
        shapes += code(x + LEFT, TOP_OF + LINE * at, line, colour=colour)
    return shapes


def draw() -> str:
    with tempfile.TemporaryDirectory() as room:
        path = pathlib.Path(room, "map.db")
        before = talk(path, BEFORE, is_killed=True)
        kept = rows(path)
        again = talk(path, AFTER, is_killed=False)
    panels = [panel(*column, lines) for column, lines in zip(COLUMNS, (before, kept, again))]
    return drawing.svg(WIDE, HIGH, sum(panels, Shapes()), size=14)


if __name__ == "__main__":
    drawing.main("Draws docs/kill.svg; it runs the built `indexset_store`.", "kill.svg", draw)

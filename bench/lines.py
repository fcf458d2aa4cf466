"""The tables of the two programs: lines of input, and events from a leader to a follower."""

from __future__ import annotations

import pathlib
import random
import subprocess
import tempfile
import time
from collections.abc import Callable
from typing import IO

import build
from tables import table

LINES, COMMANDS, KEYS = 2_000_000, 500_000, [1_000, 100_000, 1_000_000]


def given(text: bytes) -> IO[bytes]:
    """Returns a file with a text, to be read from its start."""
    file = tempfile.TemporaryFile()
    file.write(text)
    file.seek(0)
    return file


def seconds(program: pathlib.Path, text: bytes, *words: str) -> float:
    with given(text) as lines:
        start = time.monotonic()
        subprocess.run([program, *words], stdin=lines, stdout=subprocess.DEVNULL, check=True)
        return time.monotonic() - start


def piped(store: pathlib.Path, text: bytes) -> float:
    """Returns the time of a leader and a follower, the first's output being the second's input."""
    with given(text) as lines:
        start = time.monotonic()
        one = subprocess.Popen([store, "--lead"], stdin=lines, stdout=subprocess.PIPE)
        other = subprocess.Popen([store, "--quiet"], stdin=one.stdout, stdout=subprocess.DEVNULL)
        assert one.stdout
        one.stdout.close()
        if one.wait() or other.wait():
            raise SystemExit("the programs did not end well")
        return time.monotonic() - start


def commands(keys: int) -> bytes:
    """Returns puts of all keys in random order, followed by puts and cuts."""
    draw = random.Random(1)
    lines = [b"put %d 1\n" % key for key in draw.sample(range(keys), keys)]
    for at in range(COMMANDS):
        key = draw.randrange(keys)
        lines.append(b"put %d %d\n" % (key, at) if draw.random() < 0.6 else b"cut %d\n" % key)
    return b"".join(lines)


def events_of(store: pathlib.Path, text: bytes) -> bytes:
    with given(text) as lines:
        told = subprocess.run([store, "--lead"], stdin=lines, stdout=subprocess.PIPE, check=True).stdout
    return b"".join(line for line in told.splitlines(True) if line[:1].isdigit())


def least(times: int, call: Callable[[], float]) -> float:
    return min(call() for _ in range(times))


def of_each(program: pathlib.Path, times: int) -> list[list[str]]:
    """Returns the table of the cost of a line, by kind."""
    rows: list[list[str]] = []
    for line in ("len", "x", "add 7", "has 18446744073709551616"):
        text = f"{line}\n".encode() * LINES
        spent = least(times, lambda: seconds(program, text))
        rows.append([f"a line `{line}`", f"{spent / LINES * 1e9:.0f} ns"])
    return rows


def paces(store: pathlib.Path, keys: int, times: int) -> dict[str, str]:
    """Returns the table of the number of events, and the number per second that are printed, followed, and both."""
    text = commands(keys)
    events = events_of(store, text)
    count = events.count(b"\n")
    spent = {
        "printed by a leader, to nowhere": least(times, lambda: seconds(store, text, "--lead")),
        "followed, from a file": least(times, lambda: seconds(store, events)),
        "the same with `--quiet`": least(times, lambda: seconds(store, events, "--quiet")),
        "printed and followed, through a pipe": least(times, lambda: piped(store, text)),
    }
    return {"events": f"{count:,}", **{name: f"{count / it / 1e6:.2f} million" for name, it in spent.items()}}


def of_lines(times: int) -> str | None:
    """Returns the tables; None if the programs are not built: `rt run` in their folders builds them."""
    program, store = build.program("program"), build.program("store")
    if not program or not store:
        return None
    found = [paces(store, keys, times) for keys in KEYS]
    rows = [[name, *(it[name] for it in found)] for name in found[0]]
    return "\n".join(
        [
            f"`indexset_program`, over {LINES:,} lines:\n",
            table(["what", "time"], of_each(program, times)),
            "`indexset_store`, in nodes of 256 pairs: events a second of all keys put in no order,"
            f" and of {COMMANDS:,} puts and cuts.\n",
            table(["events a second", *(f"{keys:,} keys" for keys in KEYS)], rows),
        ]
    )

#!/usr/bin/env python3
"""Keeps commands `put KEY VALUE` in a SQLite file in WAL mode, to compare its times with `indexset_store --keep`.

    rows_by_pipe.py FILE

All commands available on its input get a row each, and one for a checksum, by one commit; then each gets a reply, of as
many bytes as the program's. It holds the pairs in a dict, without an order.
"""

from __future__ import annotations

import argparse
import os
import sqlite3
import sys

TABLE = "CREATE TABLE kept (number INTEGER PRIMARY KEY, line TEXT NOT NULL) STRICT"
SEAL = "seal 11149498871045915152"


def opened(file: str, mode: str) -> sqlite3.Connection:
    """Opens an empty file, each commit of which is on the disk when it returns."""
    kept = sqlite3.connect(file, isolation_level=None)
    kept.execute(f"PRAGMA journal_mode={mode}")
    kept.execute("PRAGMA synchronous=FULL")
    kept.execute(TABLE)
    return kept


def keep(kept: sqlite3.Connection, rows: list[tuple[int, str]]) -> None:
    kept.execute("BEGIN")
    kept.executemany("INSERT INTO kept VALUES (?, ?)", rows)
    kept.execute("COMMIT")


def main() -> int:
    ask = argparse.ArgumentParser(description="Keeps commands of its input in a SQLite file in WAL mode.")
    ask.add_argument("file", help="the file, which is not there yet")
    kept = opened(ask.parse_args().file, "WAL")
    held: dict[int, int] = {}
    number, events, rest = 0, 0, b""
    while came := os.read(0, 1 << 16):
        *lines, rest = (rest + came).split(b"\n")
        rows, answers = list[tuple[int, str]](), list[str]()
        for line in lines:
            _, key, value = line.split(b" ")
            held[int(key)] = int(value)
            pair = f"{int(key)}:{int(value)}"
            rows.append((number, f"{events} insert {pair} {pair} 117"))
            answers.append(f"new\n{rows[-1][1]}\nnext {events + 1}\n")
            number, events = number + 1, events + 1
        if rows:
            keep(kept, [*rows, (number, SEAL)])
            number += 1
            sys.stdout.write("".join(answers))
            sys.stdout.flush()
    return 0


if __name__ == "__main__":
    sys.exit(main())

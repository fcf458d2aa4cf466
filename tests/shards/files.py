"""The files of leaders: whether they keep the published events, and the damage that may happen to them."""

from __future__ import annotations

import collections
import contextlib
import os
import pathlib
import random
import sqlite3

from engine import Engine
from kept import SECONDS, remove

FATES = ("stays", "stays", "stays", "is gone", "has a byte turned", "is cut", "has a line changed")


def number_of_event(event: bytes) -> int:
    return int(event.split(b" ", 1)[0])


def events_in(file: pathlib.Path) -> list[bytes]:
    """Returns the events that a file keeps. If a program still has it, this waits."""
    with contextlib.closing(sqlite3.connect(f"file:{file}?mode=ro", SECONDS, uri=True)) as base:
        lines = [line for (line,) in base.execute("SELECT CAST(line AS BLOB) FROM kept ORDER BY number")]
    return [line for line in lines if line[:1].isdigit()]


class Witness:
    """The published events of each shard, and the content of files: an event has one number, and one line."""

    def __init__(self, engine: Engine) -> None:
        self.engine = engine
        self.told: dict[str, dict[int, bytes]] = collections.defaultdict(dict)
        self.at: dict[str, int] = {}
        self.next: collections.Counter[str] = collections.Counter()
        self.kept: list[tuple[str, bytes]] = []
        self.trimmed = 0  # (times that entries were trimmed before they were read)
        self.wrong: list[str] = []

    def read_told(self) -> None:
        for shard in {shard for table in self.engine.tables().values() for _, shard in table}:
            while entries := self.engine.after(f"events:{shard}", self.at.get(shard, 0), 100):
                for it in entries:
                    is_next = self.at.get(shard, 0) == int(it.fields[b"after"])
                    self.trimmed += shard in self.at and not is_next
                    self.at[shard] = it.number
                    self.take(shard, [line for line in it.lines() if line[:1].isdigit()], is_next)

    def take(self, shard: str, events: list[bytes], is_next: bool) -> None:
        """Takes the events of an entry, which continue from the end of the one before, if that was read."""
        told = self.told[shard]
        awaited = self.next[shard] if is_next or not events else number_of_event(events[0])
        for number, event in enumerate(events, awaited):
            if number_of_event(event) != number or number in told:
                self.wrong.append(f"{shard}: {event.decode()} is told where {number} is next")
            told[number] = event
        self.next[shard] = awaited + len(events)

    def read_kept(self, shard: str, file: pathlib.Path) -> None:
        with contextlib.suppress(sqlite3.DatabaseError):  # (a damaged file)
            self.kept += [(shard, event) for event in (events_in(file) if file.exists() else [])]

    def compare(self) -> int:
        """Compares the kept events with the published ones, and returns their number."""
        self.read_told()
        compared = 0
        for shard, event in self.kept:
            number = number_of_event(event)
            told = self.told[shard].get(number)
            compared += told is not None
            if (told or event) != event or number >= self.next[shard]:
                self.wrong.append(f"{shard}: {event.decode()} was kept, and is told in another way, or not")
        return compared


def befall(file: pathlib.Path, fate: str, chance: random.Random) -> None:
    """Damages or removes a file whose program has ended, or leaves it unchanged."""
    parts = [part for part in (file, pathlib.Path(f"{file}-wal")) if part.exists() and part.stat().st_size > 0]
    if fate == "is gone":
        remove(file)
    elif fate == "has a line changed" and parts:
        change_line(file, chance)
    elif fate in ("has a byte turned", "is cut") and parts:
        part = chance.choice(parts)
        place = chance.randrange(part.stat().st_size)
        if fate == "is cut":
            os.truncate(part, place)
        else:
            text = bytearray(part.read_bytes())
            text[place] ^= 1 << chance.randrange(8)
            part.write_bytes(text)


def change_line(file: pathlib.Path, chance: random.Random) -> None:
    """Changes one of the kept lines, which only its checksum shows."""
    with contextlib.suppress(sqlite3.DatabaseError), contextlib.closing(sqlite3.connect(file)) as base:
        (last,) = base.execute("SELECT count(*) FROM kept").fetchone()
        base.execute("UPDATE kept SET line = 'done 1 0' WHERE number = ?", [chance.randrange(last + 1)])
        base.commit()

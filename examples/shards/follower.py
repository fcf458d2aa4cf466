"""A follower of a shard, from its newest snapshot on."""

from __future__ import annotations

from engine import MOST, Engine
from programs import built
from resp import Entry
from store import Store

COUNT = 100  # entries at a time


class Passed(Exception):
    """All snapshots are after the number to be shown."""


class NotFounded(Exception):
    """The shard has no snapshot yet."""


class Unfit(Exception):
    """The state does not match that of the engine."""


def snapshot_until(engine: Engine, shard: str, until: int) -> Entry:
    """Returns the newest snapshot that covers no command after a number."""
    name = f"snapshots:{shard}"
    kept = engine.entries("XREVRANGE", name, f"{until}-1", "-", "COUNT", 1)
    if not kept:
        raise Passed if engine.call("EXISTS", name) == 1 and engine.last(name) > until else NotFounded
    return kept[0]


class Follower:
    """A shard after the last command that it covers."""

    def __init__(self, engine: Engine, shard: str, until: int = MOST) -> None:
        self.engine, self.shard = engine, shard
        snapshot = snapshot_until(engine, shard, until)
        self.store = Store(built("indexset_store"))
        self.begin(snapshot)

    def begin(self, snapshot: Entry) -> None:
        self.hand(snapshot.lines())
        self.at = snapshot.number

    def hand(self, lines: list[bytes]) -> None:
        """Hands over lines, which must apply: events, some of which it may have, or a snapshot."""
        for answer in self.store.each(lines):
            if answer.split(b" ", 1)[0] not in (b"next", b"had", b"held"):
                raise Unfit(f"shard {self.shard}: {answer.decode()}")

    def catch_up(self, until: int = MOST, wait: int = 0) -> None:
        """Takes the available events of commands up to a number."""
        while self.at < until:
            entries = self.engine.after(f"events:{self.shard}", self.at, COUNT, wait)
            if entries and int(entries[0].fields[b"after"]) > self.at:
                self.begin(snapshot_until(self.engine, self.shard, until))  # (its next event was trimmed away)
                continue
            entries = [it for it in entries if it.number <= until]
            if not entries:
                return
            self.hand([line for it in entries for line in it.lines()])
            self.at = entries[-1].number

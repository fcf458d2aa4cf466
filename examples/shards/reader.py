"""A reader of all shards, at one cut of their streams."""

from __future__ import annotations

import bisect
import itertools
import time

from engine import Engine, spans
from follower import Follower, NotFounded, Passed

Pairs = list[bytes]


def pairs_of(line: bytes) -> Pairs:
    return [] if line == b"none" else line.split(b" ")


class Reader:
    """The map after a command: a follower for each shard, and the number of pairs below each."""

    def __init__(self, engine: Engine) -> None:
        self.engine, self.at = engine, 0
        self.followers: dict[str, Follower] = {}
        self.shown: list[Follower] = []
        self.lows, self.below = [0], [0]

    def show(self, number: int, seconds: float = 60) -> None:
        """Shows the map after the command of a number, for whose events it waits. Raises `Passed` if a shard has no
        snapshot that old."""
        table = spans(self.engine.table(number))
        names = [it.shard for it in table]
        for name in self.followers.keys() - names:
            self.followers.pop(name).store.kill()
        self.shown = [self.reach(name, number, time.monotonic() + seconds) for name in names]
        counts = [int(it.store.one(b"len")) for it in self.shown]
        self.lows, self.below = [it.first for it in table], [0, *itertools.accumulate(counts)]
        self.at = number

    def reach(self, name: str, number: int, end: float) -> Follower:
        """Returns the follower of a shard, up to a command."""
        while time.monotonic() < end:
            try:
                found = self.followers.get(name) or Follower(self.engine, name, number)
                self.followers[name] = found
                found.catch_up(number)
                if found.at > number:
                    raise Passed
                if found.at == number:
                    return found
            except NotFounded:
                pass
            time.sleep(0.005)
        raise TimeoutError(f"shard {name} does not reach {number}")

    def count(self) -> int:
        return self.below[-1]

    def owner(self, key: int) -> int:
        """Returns the place of the shard of a key."""
        return bisect.bisect_right(self.lows, key) - 1

    def rank(self, key: int) -> int:
        """Returns the number of keys below one: those of the shards below, and those in its own."""
        place = self.owner(key)
        return self.below[place] + int(self.shown[place].store.one(b"rank %d" % key))

    def get(self, key: int) -> Pairs:
        return pairs_of(self.shown[self.owner(key)].store.one(b"get %d" % key))

    def page(self, position: int, size: int) -> Pairs:
        """Returns the pairs from a position on, from as many shards as contain them."""
        found: Pairs = []
        for place in range(max(bisect.bisect_right(self.below, position) - 1, 0), len(self.shown)):
            if len(found) == size:
                break
            start = max(position - self.below[place], 0)
            found += pairs_of(self.shown[place].store.one(b"page %d %d" % (start, size - len(found))))
        return found

    def at_position(self, position: int) -> Pairs:
        return self.page(position, 1)

    def range(self, first: int, last: int) -> Pairs:
        """Returns the pairs whose keys are from one to another, both included."""
        asked = self.shown[self.owner(first) : self.owner(last) + 1]
        return [pair for it in asked for pair in pairs_of(it.store.one(b"range %d %d" % (first, last)))]

    def bytes_held(self) -> int:
        """Returns the size in bytes of the snapshots of all shards."""
        return sum(len(line) + 1 for it in self.shown for line in it.store.snapshot())

    def close(self) -> None:
        for it in self.followers.values():
            it.store.kill()

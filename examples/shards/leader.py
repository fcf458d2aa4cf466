#!/usr/bin/env python3
"""A shard's leader, or one on standby. usage: leader.py PORT SHARD FOLDER

It continues from its file in the folder, and follows the shard's events until it has the shard's lease. Then it leads:
it carries out the commands after those that the events cover. For those that its file already has, as after a kill
between the two, it publishes the kept events. So a start, a restart after a kill and a promotion are the same. Two
leaders at once, as after the lease of a slow leader expires, publish the same events of the same commands under the
same names, of which the engine accepts each once.

Now and then it gives the engine a snapshot, and trims both streams up to the one before. It removes its file at the end
of the shard, and if the file does not fit.
"""

from __future__ import annotations

import argparse
import json
import os
import pathlib
import sys
import time

HERE = pathlib.Path(__file__).resolve().parent
sys.dont_write_bytecode = True
sys.path[:0] = [str(HERE.parent.parent / "scripts"), str(HERE.parent / "common")]
from engine import Engine, entry, nodes_of, snapshot_of  # noqa: E402
from follower import Unfit  # noqa: E402
from kept import Kept  # noqa: E402
from lease import Lease  # noqa: E402
from resp import Entry, Word, listed, text_of  # noqa: E402
from store import Ended  # noqa: E402

COUNT = 5  # entries at a time
WAIT = 100  # milliseconds in which entries may arrive
EVERY = int(os.environ.get("SNAPSHOT_EVERY", "1000000"))  # commands of all shards


class Leader:
    """A shard from the commands that its events do not cover: those up to `at` are published."""

    def __init__(self, engine: Engine, kept: Kept) -> None:
        self.engine, self.shard, self.store, self.kept = engine, kept.shard, kept.store, kept
        self.snapshot_at = engine.last(f"snapshots:{self.shard}")
        self.at = kept.told()
        self.store.lead()
        say(f"{self.shard} leads behind {self.at}, and tells {sum(it > self.at for it in kept.ahead)} from the file")

    def take(self, entries: list[Entry]) -> bool:
        """Takes entries of commands, and publishes their events; returns whether the shard continues."""
        writes: list[list[Word]] = []
        parts = [self.kept.parted(it.lines()) for it in entries]
        for it, (kept, _), events in zip(entries, parts, self.store.events(*[left for _, left in parts])):
            if b"give" in it.fields:
                writes += self.gifts(json.loads(it.fields[b"give"]))
            text = b"\n".join(with_one_number(kept + events))
            writes.append(entry(f"events:{self.shard}", it.number, lines=text, after=self.at))
            self.at = it.number
        self.engine.together(writes)
        return b"give" not in entries[-1].fields

    def gifts(self, takers: list[tuple[str, int, int]]) -> list[list[Word]]:
        """Returns the initial nodes of other shards, each with the pairs of some keys."""
        texts = [b"\n".join(nodes_of(self.store.one(b"range %d %d" % (first, last)))) for _, first, last in takers]
        return [["HSET", f"gifts:{shard}", f"{first:020}", text] for (shard, first, _), text in zip(takers, texts)]

    def keep(self) -> None:
        """Stores a snapshot, and trims the streams up to the one before."""
        name, text = self.shard, b"\n".join(self.store.snapshot())
        self.engine.together([
            ["XADD", f"snapshots:{name}", "MAXLEN", 2, f"{self.at}-1", "lines", text],
            ["XTRIM", f"commands:{name}", "MINID", f"{self.at}-0"],
            ["XTRIM", f"events:{name}", "MINID", f"{self.snapshot_at + 1}-0"],
        ])  # fmt: skip
        self.snapshot_at = self.at

    def lead(self, lease: Lease) -> None:
        """Runs until the shard or the lease ends."""
        while lease.is_held():
            entries = self.engine.after(f"commands:{self.shard}", self.at, COUNT, WAIT)
            if entries and not self.take(entries):
                return
            if self.at - self.snapshot_at >= EVERY and self.at >= self.kept.at:
                self.keep()


def with_one_number(lines: list[bytes]) -> list[bytes]:
    """Returns events, and the last of the lines with the numbers of their commands."""
    numbers = [line for line in lines if line.startswith(b"done")]
    return [line for line in lines if not line.startswith(b"done")] + numbers[-1:]


def say(text: str) -> None:
    print(text, flush=True)


def is_founded(engine: Engine, shard: str) -> bool:
    """Returns whether the shard has a snapshot. Makes it once all givers have given their nodes."""
    if engine.call("EXISTS", f"snapshots:{shard}") == 1:
        return True
    words = list(map(text_of, listed(engine.call("HGETALL", f"gifts:{shard}"))))
    given = dict(zip(words[::2], words[1::2]))
    at, givers = int(given.pop(b"at", b"0")), int(given.pop(b"givers", b"1"))
    if len(given) < givers:
        return False
    nodes = [node for _, text in sorted(given.items()) for node in text.split(b"\n") if node]
    founded: list[Word] = ["XADD", f"snapshots:{shard}", f"{at}-1", "lines", b"\n".join(snapshot_of(nodes, at))]
    engine.together([founded, ["DEL", f"gifts:{shard}"]])
    return True


def has_ended(engine: Engine, shard: str) -> bool:
    """Returns whether the events cover the shard's end."""
    last = engine.entries("XREVRANGE", f"commands:{shard}", "+", "-", "COUNT", 1)
    return bool(last) and b"give" in last[0].fields and engine.last(f"events:{shard}") == last[0].number


def serve(engine: Engine, kept: Kept, lease: Lease) -> None:
    """Follows, and then leads, until the shard or the lease ends."""
    while not has_ended(engine, kept.shard):
        kept.catch_up(wait=WAIT)
        if lease.is_held():
            return Leader(engine, kept).lead(lease)


def main() -> None:
    ask = argparse.ArgumentParser(description="The leader of a shard, or one that stands by.")
    ask.add_argument("port", type=int, help="of the engine")
    ask.add_argument("shard")
    ask.add_argument("folder", type=pathlib.Path, help="of its file")
    given = ask.parse_args()
    engine, shard = Engine(given.port), given.shard
    while not is_founded(engine, shard):
        time.sleep(0.02)
    kept, lease = Kept(engine, shard, given.folder), Lease(engine, shard)
    say(f"{shard} begins with {'its file' if kept.is_own else 'a snapshot'} behind {kept.at}")
    try:
        serve(engine, kept, lease)
        if not has_ended(engine, shard):
            sys.exit(1)  # (the lease has expired)
        kept.drop()
    except Unfit as error:
        say(f"{shard} drops its file: {error}")
        kept.drop()
        sys.exit(1)


if __name__ == "__main__":
    try:
        main()
    except Ended:
        sys.exit(1)  # (its program has ended)

#!/usr/bin/env python3
"""The router: it numbers commands, and writes each to the stream of its shard. usage: router.py PORT LOW..

Its input is batches: `from N`, the number of the first command, then commands, and an empty line. Its reply is
`next M`, once the batch is in the streams; if N is below the number that it expects, the batch was already there.
`split KEY` or `merge KEY` as the only command of a batch makes two shards of the one with the key, or one of the two
that meet at it. Its only state is the table and the next number, which it reads from the engine when it starts; LOW..
are the least keys of the initial shards.

An entry goes to each shard with each batch, so the number of an entry is a cut through all streams.
"""

from __future__ import annotations

import argparse
import bisect
import json
import pathlib
import sys
from collections.abc import Iterator

sys.dont_write_bytecode = True
sys.path[:0] = [str(pathlib.Path(__file__).resolve().parent.parent / "common")]
from engine import Engine, Span, Table, entry, found, spans  # noqa: E402
from resp import Word  # noqa: E402

Writes = list[list[Word]]


class Router:
    """The table, and the number of the next command."""

    def __init__(self, engine: Engine) -> None:
        self.engine = engine
        self.table = engine.table()
        self.next = 1 + max(engine.last(f"commands:{shard}") for _, shard in self.table)

    def take(self, first: int, lines: list[bytes]) -> int:
        """Writes a batch, unless it is present, and returns the next number."""
        if first > self.next:
            sys.exit(f"command {self.next} is missing")
        if first == self.next and lines:
            word, _, key = lines[0].partition(b" ")
            if word in (b"split", b"merge"):
                self.refit(int(key), is_split=word == b"split")
            else:
                self.route(lines)
        return self.next

    def route(self, lines: list[bytes]) -> None:
        lows, parts = [low for low, _ in self.table], [list[bytes]() for _ in self.table]
        for number, line in enumerate(lines, self.next):
            key = int(line.split(b" ", 2)[1])
            parts[bisect.bisect_right(lows, key) - 1].append(b"#%d %b" % (number, line))
        last = self.next + len(lines) - 1
        shards = [shard for _, shard in self.table]
        self.engine.together([entry(f"commands:{it}", last, lines=b"\n".join(part)) for it, part in zip(shards, parts)])
        self.next = last + 1

    def refit(self, key: int, is_split: bool) -> None:
        """Ends shards, which give their pairs to new ones; none if the key does not fit. It takes one number, and one
        write."""
        number, old = self.next, spans(self.table)
        ends = divided(old, key) if is_split else meeting(old, key)
        lows = [ends[0].first, *([key] if is_split else [])] if ends else []
        new = {low: f"{number}.{place}" for place, low in enumerate(lows)}
        table: Table = sorted([(it.first, it.shard) for it in old if it not in ends] + list(new.items()))
        takers = [it for it in spans(table) if it.shard in new.values()]
        writes: Writes = [["HSET", "tables", number, json.dumps(table)]]
        writes += [["HSET", f"gifts:{it.shard}", "at", number, "givers", len(ends)] for it in takers]
        writes += [entry(f"commands:{shard}", number, lines=b"") for _, shard in table]
        writes += [entry(f"commands:{it.shard}", number, lines=b"", give=json.dumps(given(it, takers))) for it in ends]
        self.engine.together(writes)
        self.table, self.next = table, number + 1


def divided(old: list[Span], key: int) -> list[Span]:
    """Returns the shard that has keys on both sides of one."""
    return [it for it in old if it.first < key <= it.last]


def meeting(old: list[Span], key: int) -> list[Span]:
    """Returns the two shards of which the second begins at a key."""
    found = [it for it in old if it.first == key or it.last + 1 == key]
    return found if len(found) == 2 else []


def given(giver: Span, takers: list[Span]) -> list[tuple[str, int, int]]:
    """Returns the shards to which a shard gives its pairs, with their keys."""
    return [(it.shard, max(it.first, giver.first), min(it.last, giver.last)) for it in takers]


def batches() -> Iterator[tuple[int, list[bytes]]]:
    """Yields the batches of the input, each with the number of its first command. A truncated one is skipped."""
    lines: list[bytes] = []
    for line in sys.stdin.buffer:
        if line != b"\n":
            lines.append(line.rstrip(b"\n"))
            continue
        yield int(lines[0].removeprefix(b"from ")), lines[1:]
        lines = []


def main() -> None:
    ask = argparse.ArgumentParser(description="The router of a map over several shards.")
    ask.add_argument("port", type=int, help="of the engine")
    ask.add_argument("lows", type=int, nargs="*", help="the least keys of the first shards")
    given = ask.parse_args()
    engine = Engine(given.port)
    if engine.call("EXISTS", "tables") == 0:
        engine.together(found(given.lows))
    router = Router(engine)
    for first, lines in batches():
        print(f"next {router.take(first, lines)}", flush=True)


if __name__ == "__main__":
    main()

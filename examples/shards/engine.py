"""Shared by router, leaders and readers: the engine, by whose streams they communicate.

    commands:S   the commands of shard S, with their numbers; an entry is named by the number of the last command of
                 its batch, and has `lines`, or at the shard's end `give`: which shards take its pairs
    events:S     their events, and a line `done` with the last number: an entry has the name of the commands' entry,
                 and `after`, the name of the one before
    snapshots:S  the last two snapshots, each named by the last command that it covers
    gifts:S      the nodes that a shard begins with, by giver
    tables       by the number from which on it holds, the least key and the name of each shard

Commands are numbered in one sequence over all shards, from 1 on. The name of every write depends only on its content,
so the engine rejects repeated writes.
"""

from __future__ import annotations

import dataclasses
import hashlib
import json
import time
from collections.abc import Callable, Sequence
from typing import TypeVar

from resp import Entry, Redis, Refused, Reply, Word, listed, text_of

T = TypeVar("T")
Table = list[tuple[int, str]]

MOST = 2**64 - 1
SECONDS = 60  # in which an engine must return
NODE = 256  # pairs


@dataclasses.dataclass(frozen=True)
class Span:
    """A shard with its least and its greatest key."""

    first: int
    last: int
    shard: str


def spans(table: Table) -> list[Span]:
    ends = [low - 1 for low, _ in table[1:]] + [MOST]
    return [Span(low, end, shard) for (low, shard), end in zip(table, ends)]


def snapshot_of(nodes: Sequence[bytes], number: int = 0) -> list[bytes]:
    """Returns the snapshot of some nodes after the command of a number, and before the first event."""
    lines = [b"start 0 %d" % number if number else b"start 0", *nodes]
    told = hashlib.sha256(b"".join(line + b"\n" for line in lines)).digest()
    return [*lines, b"end %d %d" % (len(nodes), int.from_bytes(told[:8], "big"))]


def nodes_of(pairs: bytes) -> list[bytes]:
    """Returns the nodes of the pairs of a line."""
    words = pairs.split(b" ") if pairs != b"none" else []
    return [b"node " + b" ".join(words[at : at + NODE]) for at in range(0, len(words), NODE)]


class Engine:
    """The engine. A call is repeated until there is a reply, as after a kill of the engine."""

    def __init__(self, port: int, host: str = "127.0.0.1") -> None:
        self.port, self.host = port, host
        self.server: Redis | None = None

    def patiently(self, call: Callable[[Redis], T]) -> T:
        for _ in range(SECONDS * 50):
            try:
                self.server = self.server or Redis(self.port, self.host)
                return call(self.server)
            except OSError:
                self.server = None
                time.sleep(0.02)
        raise SystemExit("the engine does not come back")

    def call(self, *words: Word) -> Reply:
        return self.patiently(lambda server: server.call(*words))

    def entries(self, *words: Word) -> list[Entry]:
        return self.patiently(lambda server: server.entries(*words))

    def after(self, stream: str, number: int, count: int, wait: int = 0) -> list[Entry]:
        """Returns the entries of a stream after one, and waits some milliseconds for them if asked to."""
        block: list[Word] = ["BLOCK", wait] if wait else []
        return self.entries("XREAD", "COUNT", count, *block, "STREAMS", stream, f"{number}-0")

    def last(self, stream: str) -> int:
        """Returns the number of the last entry of a stream, 0 if there is none."""
        return max((entry.number for entry in self.entries("XREVRANGE", stream, "+", "-", "COUNT", 1)), default=0)

    def memory(self, name: str) -> int:
        """Returns the bytes of the engine's memory that a stream takes."""
        found = self.call("MEMORY", "USAGE", name, "SAMPLES", 0)
        return found if isinstance(found, int) else 0

    def together(self, commands: list[list[Word]]) -> None:
        """Carries out all of these writes or none. Those that were carried out before are rejected by their names."""
        whole: list[list[Word]] = [["MULTI"], *commands, ["EXEC"]]
        for reply in listed(self.patiently(lambda server: server.replies(whole))[-1]):
            if isinstance(reply, Refused) and "equal or smaller" not in reply.why:
                raise SystemExit(reply.why)

    def tables(self) -> dict[int, Table]:
        """Returns the tables by the number from which on each holds."""
        words = list(map(text_of, listed(self.call("HGETALL", "tables"))))
        return {int(at): [(low, shard) for low, shard in json.loads(text)] for at, text in zip(words[::2], words[1::2])}

    def table(self, number: int = MOST) -> Table:
        """Returns the table that holds at a number."""
        tables = self.tables()
        return tables[max(at for at in tables if at <= number)]


def entry(stream: str, number: int, **fields: Word) -> list[Word]:
    """Returns the command that adds an entry."""
    return ["XADD", stream, f"{number}-0", *(word for field in fields.items() for word in field)]


def found(lows: list[int]) -> list[list[Word]]:
    """Returns the writes that make empty shards, which begin at these keys."""
    table = [(low, f"0.{place}") for place, low in enumerate(lows)]
    empty = b"\n".join(snapshot_of([]))
    snapshots: list[list[Word]] = [["XADD", f"snapshots:{shard}", "0-1", "lines", empty] for _, shard in table]
    return [*snapshots, ["HSETNX", "tables", 0, json.dumps(table)]]

"""The file of a map that is kept, as Python's SQLite reads a copy of it, and a model of its lines.

All of it is written from docs/protocol.md: the nodes after the events, and the sum of a snapshot.
"""

from __future__ import annotations

import bisect
import dataclasses
import hashlib
import pathlib
import shutil
import sqlite3
from collections.abc import Iterable

from seals import seal_of

WORDS = ("create", "drop", "insert", "remove", "split", "merge")

Pair = tuple[int, int]


class Wrong(Exception):
    """The content of a file differs from the output."""


def pair(text: str) -> Pair:
    key, value = text.split(":")
    return int(key), int(value)


def is_event(line: str) -> bool:
    words = line.split(" ")
    return len(words) > 2 and words[0].isdigit() and words[1] in WORDS


def number_of(event: str) -> int:
    return int(event.split(" ")[0])


def sum_of(lines: Iterable[str]) -> int:
    """Returns the first 64 bits of the SHA-256 of lines, each with its end."""
    text = "".join(f"{line}\n" for line in lines)
    return int.from_bytes(hashlib.sha256(text.encode()).digest()[:8], "big")


class Model:
    """The nodes after some lines."""

    def __init__(self, lines: Iterable[str] = ()) -> None:
        self.nodes: list[list[Pair]] = []
        self.next = self.done = 0
        for line in lines:
            self.take(line)

    def copy(self) -> Model:
        other = Model()
        other.nodes, other.next, other.done = [list(node) for node in self.nodes], self.next, self.done
        return other

    def place(self, name: Pair) -> int:
        at = bisect.bisect_left(self.nodes, name[0], key=lambda node: node[-1][0])
        if at == len(self.nodes) or self.nodes[at][-1] != name:
            raise Wrong(f"no node has the name {name}")
        return at

    def take(self, line: str) -> None:
        match line.split(" "):
            case ["start", number, *done]:
                self.nodes, self.next, self.done = [], int(number), int(done[0]) if done else 0
            case ["node", *pairs]:
                self.nodes.append([pair(it) for it in pairs])
            case ["end", count]:  # (without a sum)
                if len(self.nodes) != int(count):
                    raise Wrong(f"the snapshot at {self.next} is not what its end says")
            case ["done", done, end]:
                if int(end) > self.next:
                    raise Wrong(f"{line} is kept before event {self.next}")
                self.done = max(self.done, int(done))
            case [number, *event] if is_event(line):
                if int(number) != self.next:
                    raise Wrong(f"event {number} is kept where {self.next} is due")
                self.next += 1
                self.apply(event)
            case _:
                raise Wrong(f"what is this: {line}")

    def apply(self, event: list[str]) -> None:
        match event:
            case ["create", name]:
                bisect.insort(self.nodes, [pair(name)])
            case ["drop", name]:
                if self.nodes.pop(self.place(pair(name))) != [pair(name)]:
                    raise Wrong(f"{name} is not alone in the node that is dropped")
            case ["insert", name, it, index]:
                self.nodes[self.place(pair(name))].insert(int(index), pair(it))
            case ["remove", name, it, index]:
                if self.nodes[self.place(pair(name))].pop(int(index)) != pair(it):
                    raise Wrong(f"{it} is not where its removal says")
            case ["split", name, count]:
                at = self.place(pair(name))
                node = self.nodes[at]
                self.nodes[at : at + 1] = [node[: int(count)], node[int(count) :]]
            case ["merge", name, other]:
                at = self.place(pair(name))
                if self.place(pair(other)) != at + 1:
                    raise Wrong(f"{other} is not next to {name}")
                self.nodes[at : at + 2] = [self.nodes[at] + self.nodes[at + 1]]
            case _:
                raise Wrong(f"no event: {event}")

    def rows(self) -> list[str]:
        return [" ".join(f"{key}:{value}" for key, value in node) for node in self.nodes]

    def snapshot(self) -> list[str]:
        start = f"start {self.next} {self.done}" if self.done else f"start {self.next}"
        lines = [start, *(f"node {row}" for row in self.rows())]
        return [*lines, f"end {len(self.nodes)} {sum_of(lines)}"]

    def shown(self) -> list[str]:
        """Returns the replies of the program to `nodes` and `sum`."""
        done = f" {self.done}" if self.done else ""
        return [*self.rows(), f"next {self.next}", self.snapshot()[-1].replace("end", f"sum {self.next}") + done]

    def pairs(self) -> dict[int, int]:
        return {key: value for node in self.nodes for key, value in node}

    def is_same(self, other: Model) -> bool:
        return (self.nodes, self.next, self.done) == (other.nodes, other.next, other.done)


def unsealed(lines: list[str]) -> list[str]:
    """Returns the lines without their checksums, each of which must be that of the lines before it; the last line is
    one."""
    seal, group, found = 0, list[str](), list[str]()
    for line in lines:
        if line.startswith("seal "):
            seal, group = seal_of(seal, group), []
            if line != f"seal {seal}":
                raise Wrong(f"{line} is kept, and {seal} is right")
        else:
            group.append(line)
            found.append(line)
    if group:
        raise Wrong(f"{len(group)} lines are kept with no seal")
    return found


@dataclasses.dataclass
class Found:
    """The content of a file."""

    lines: list[str]  # without the checksums
    seals: int
    model: Model

    def last_start(self) -> int:
        """The number of the last snapshot, or 0."""
        starts = [line for line in self.lines if line.startswith("start ")]
        return int(starts[-1].split(" ")[1]) if starts else 0

    def events(self) -> list[str]:
        """Returns the events after the last snapshot."""
        at = max((i for i, line in enumerate(self.lines) if line.startswith("end ")), default=-1)
        return [line for line in self.lines[at + 1 :] if is_event(line)]

    def marks(self) -> list[tuple[int, int]]:
        """Returns, for each `done` after the last snapshot, the number of the event after it, and its number."""
        at = max((i for i, line in enumerate(self.lines) if line.startswith("end ")), default=-1)
        words = [line.split(" ") for line in self.lines[at + 1 :] if line.startswith("done ")]
        return [(int(it[2]), int(it[1])) for it in words]


def rows_of(file: pathlib.Path) -> list[tuple[int, str]]:
    """Returns the rows of a file that SQLite finds intact."""
    with sqlite3.connect(file) as found:
        if found.execute("PRAGMA integrity_check").fetchall() != [("ok",)]:
            raise Wrong("SQLite finds the file damaged")
        has_table = found.execute("SELECT count(*) FROM sqlite_schema WHERE name = 'kept'").fetchone()[0]
        rows = found.execute("SELECT number, line FROM kept ORDER BY number").fetchall() if has_table else []
    found.close()
    return rows


def found_in(file: pathlib.Path, room: pathlib.Path | None = None) -> Found:
    """Returns the content of a copy of a file, and of the file beside it: nothing if there is none. The copy is made in
    a folder, or beside the file."""
    copy = (room or file.parent) / f"copy-of-{file.name}"
    shutil.rmtree(copy, ignore_errors=True)
    copy.mkdir()
    for it in file.parent.glob(f"{file.name}*"):
        shutil.copy(it, copy)
    rows = rows_of(copy / file.name) if (copy / file.name).exists() else []
    if [number for number, _ in rows] != list(range(len(rows))):
        raise Wrong("the numbers of rows have a gap")
    lines = [line for _, line in rows]
    bare = unsealed(lines)
    return Found(bare, len(lines) - len(bare), Model(bare))

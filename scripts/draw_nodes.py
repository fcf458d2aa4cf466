#!/usr/bin/env python3
"""Draws docs/nodes.svg: a set as nodes and index, and a change with its events and a replica."""

from __future__ import annotations

import sys
from collections.abc import Sequence

sys.dont_write_bytecode = True
import drawing  # noqa: E402
from drawing import Number, Shapes, arrow, box, code, paint, text, title  # noqa: E402

CELL, HIGH, GAP = 32, 28, 18
WIDE, TALL = 860, 412


def cell(x: Number, y: Number, words: int, fill: str, width: int = CELL) -> Shapes:
    return box(x, y, width, HIGH, paint(fill, "soft")) + text(x + width / 2, y + 19, words, "middle")


def lefts(x: int, lists: list[list[int]]) -> list[int]:
    """Returns the left edges of the nodes of a row."""
    return [x + sum(CELL * len(it) + GAP for it in lists[:at]) for at in range(len(lists))]


def nodes(x: int, y: int, lists: list[list[int]], new: Sequence[int] = ()) -> Shapes:
    """Draws a row of nodes from x on."""
    out: Shapes = []
    for left, items in zip(lefts(x, lists), lists):
        for at, item in enumerate(items):
            out += cell(left + CELL * at, y, item, "new" if item in new else "node")
        out += box(left, y, CELL * len(items), HIGH, paint(line="ink"), 'fill="none" stroke-width="2"')
    return out


def two_levels(x: int, y: int) -> Shapes:
    """Draws a list of nodes with its index, a look-up by position and one by key."""
    lists = [[2, 5, 7], [11, 13], [17, 19, 23, 29]]
    edges = lefts(x, lists)
    out = title(x, y, "A set: one ascending list, partitioned into nodes") + nodes(x, y + 80, lists)
    for left, items, (sum_of, total) in zip(edges, lists, [("length", 3), ("3 + 2", 5), ("length", 4)]):
        out += text(left + CELL * len(items) / 2, y + 18, sum_of, "middle", "soft")
        out += cell(left, y + 24, total, "index", CELL * len(items))
    side = edges[-1] + CELL * 4 + 24
    out += text(side, y + 35, "the index, a Fenwick tree: a cell is the length of its node,", colour="soft")
    out += text(side, y + 51, "every second one with that of the node before, and so on", colour="soft")
    out += text(side, y + 99, "the nodes: each within the node size, none empty", colour="soft")
    middle = edges[1] + CELL * 1.5
    out += arrow(edges[1] + CELL, y + 52, middle, y + 79)
    out += arrow(middle, y + 137, middle, y + 109) + code(middle + 12, y + 151, "get_index(4)", "end")
    found = edges[2] + CELL * 1.5
    out += arrow(found, y + 137, found, y + 109) + code(found - 30, y + 151, "contains(&19)")
    out += text(side, y + 135, "a position is found through the index; a key among", colour="soft")
    out += text(side, y + 151, "the nodes' last items, and then in one node", colour="soft")
    return out


def a_set_that_changes(x: int, y: int) -> Shapes:
    """A put into a full node."""
    out = text(x, y + 26, "the set, node size 4", colour="soft")
    out += nodes(x, y + 36, [[0, 2, 4, 6]])
    out += arrow(x + 64, y + 66, x + 64, y + 121) + code(x + 74, y + 97, "put_cdc(3)")
    return out + nodes(x, y + 122, [[0, 2], [3, 4, 6]], [3])


def an_event(x: int, y: int, number: int, words: Sequence[str], arrow_to: tuple[int, int]) -> Shapes:
    """An event with its number, and an arrow from it."""
    out = box(x, y, 236, 44, paint("back", "ink"), 'rx="6"')
    out += title(x + 12, y + 27, number)
    out += text(x + 34, y + 19, words[0])
    out += text(x + 34, y + 36, words[1])
    return out + arrow(x + 238, y + 22, *arrow_to)


def a_replica(x: int, y: int) -> Shapes:
    """The nodes of a replica, before the events and after each."""
    out = text(x, y + 26, "the replica, after each event", colour="soft")
    out += nodes(x, y + 36, [[0, 2, 4, 6]])
    out += nodes(x, y + 79, [[0, 2], [4, 6]])
    return out + nodes(x, y + 122, [[0, 2], [3, 4, 6]], [3])


def a_change(x: int, y: int) -> Shapes:
    """Draws a put into a full node, its two events, and a replica that applies them."""
    middle, right = x + 262, x + 562
    out = title(x, y, "A logged set: a change, its events, a replica") + a_set_that_changes(x, y)
    out += text(middle, y + 26, "numbered events, in order", colour="soft")
    split = ("split the node that ends in 6,", "after its first 2 items")
    insert = ("insert 3 into the node", "that ends in 6, at index 0")
    out += an_event(middle, y + 36, 7, split, (right - 8, y + 93))
    out += an_event(middle, y + 92, 8, insert, (right - 8, y + 136))
    out += arrow(x + 164, y + 92, middle - 6, y + 92)
    return out + a_replica(right, y)


def draw() -> str:
    return drawing.svg(WIDE, TALL, two_levels(24, 30) + a_change(24, 238))


if __name__ == "__main__":
    drawing.main("Draws docs/nodes.svg.", "nodes.svg", draw)

"""Lists of nodes, the effect of one event on them, and the events of a change of them.

`put_events`, `removal_events` are the event table; `with_put`, `with_removal` define the node of an item, and which
nodes are split or merged. Neither uses the other, and `replay` uses none of them: it finds a node by its last item.
"""

from __future__ import annotations

from bisect import bisect_left
from collections.abc import Iterable, Sequence
from dataclasses import dataclass

from definitions import equal_to, is_ascending, joined, put, rank, without
from items import BadWord, Item, Spelling, order, read_natural

Node = list[Item]
Nodes = list[Node]
KINDS = ("create", "drop", "insert", "remove", "split", "merge")


@dataclass(frozen=True)
class Event:
    """An event without its number: the last item of its node, and its other parts."""

    kind: str
    last: Item
    item: Item | None = None
    index: int = 0

    def item_count(self) -> int:
        """Returns the number of its items."""
        return 1 if self.item is None else 2

    def write(self, number: int, spelling: Spelling) -> str:
        """Returns the text of the event with its number."""
        words = [str(number), self.kind, spelling.write(self.last)]
        if self.item is not None:
            words.append(spelling.write(self.item))
        if self.kind in ("insert", "remove", "split"):
            words.append(str(self.index))
        return " ".join(words)


Events = list[tuple[int, Event]]


def read_event(words: Sequence[str], spelling: Spelling) -> tuple[int, Event]:
    """Returns the event of its words, and its number."""
    number, kind, *rest = words
    last = spelling.take(rest)
    item = spelling.take(rest) if kind in ("insert", "remove", "merge") else None
    index = read_natural(rest.pop(0)) if kind in ("insert", "remove", "split") else 0
    if kind not in KINDS or rest:
        raise BadWord(" ".join(words))
    return read_natural(number), Event(kind, last, item, index)


def is_node_list(nodes: Sequence[Node]) -> bool:
    """Returns whether these are nodes with items, whose concatenation is ascending."""
    return all(nodes) and is_ascending(joined(nodes))


def end_of(node: Node) -> tuple[int, int]:
    """Returns what the order compares of the last item of a node."""
    return order(node[-1])


def ends_below(nodes: Sequence[Node], item: Item) -> int:
    """Returns the number of nodes of a node list that end below an item."""
    return bisect_left(nodes, order(item), key=end_of)


def node_named(nodes: Sequence[Node], last: Item) -> int | None:
    """Returns the place of the node whose last item equals this one, if any."""
    place = ends_below(nodes, last)
    return place if place < len(nodes) and end_of(nodes[place]) == order(last) else None


def with_node(nodes: Sequence[Node], node: Node) -> Nodes:
    """Returns the nodes with one more, after all that end below its last item."""
    place = ends_below(nodes, node[-1])
    return [*nodes[:place], node, *nodes[place:]]


def edited(node: Node, event: Event) -> Nodes | None:
    """Returns the nodes that an event makes of the one that it names."""
    i, rest = event.index, len(node) - event.index
    if event.kind == "insert" and event.item is not None and rest >= 0:
        return [[*node[:i], event.item, *node[i:]]]
    if event.kind == "remove" and event.item is not None and rest > 0 and len(node) > 1:
        return [[*node[:i], *node[i + 1 :]]] if order(node[i]) == order(event.item) else None
    if event.kind == "split" and i > 0 and rest > 0:
        return [node[:i], node[i:]]
    return [] if event.kind == "drop" else None


def step(nodes: Nodes, event: Event) -> Nodes | None:
    """Returns the nodes after an event, or none if it does not apply."""
    if event.kind == "create":
        after: Nodes | None = with_node(nodes, [event.last])
    elif (place := node_named(nodes, event.last)) is None:
        after = None
    elif event.kind == "merge":
        follows = event.item is not None and node_named(nodes, event.item) == place + 1
        after = [*nodes[:place], joined(nodes[place : place + 2]), *nodes[place + 2 :]] if follows else None
    else:
        parts = edited(nodes[place], event)
        after = None if parts is None else [*nodes[:place], *parts, *nodes[place + 1 :]]
    return after if after is not None and is_node_list(after) else None


def replay(nodes: Nodes, events: Iterable[Event]) -> Nodes | None:
    """Returns the nodes after several events."""
    after: Nodes | None = nodes
    for event in events:
        if after is None:
            return None
        after = step(after, event)
    return after


def target_of(nodes: Sequence[Node], item: Item) -> int:
    """Returns the first node whose last item is not below this one, else the last node."""
    return min(ends_below(nodes, item), len(nodes) - 1)


def put_events(nodes: Sequence[Node], size: int, item: Item) -> list[Event]:
    """Returns the events of a put."""
    if not nodes:
        return [Event("create", item)]
    node, cut = nodes[target_of(nodes, item)], []
    if len(node) >= size:
        half = len(node) // 2
        cut = [Event("split", node[-1], None, half)]
        node = node[:half] if order(item) <= order(node[half - 1]) else node[half:]
    return [*cut, *placed(node, item)]


def placed(node: Node, item: Item) -> list[Event]:
    """Returns the events of a put into a node with free places."""
    old, index = equal_to(node, item), rank(node, item)
    if old is None:
        return [Event("insert", node[-1], item, index)]
    if len(node) == 1:
        return [Event("drop", old), Event("create", item)]
    last = node[-2] if index == len(node) - 1 else node[-1]
    return [Event("remove", node[-1], old, index), Event("insert", last, item, index)]


def removal_events(nodes: Sequence[Node], size: int, item: Item) -> list[Event]:
    """Returns the events of the removal of an item that is equal to this one."""
    place = ends_below(nodes, item)
    if place == len(nodes) or equal_to(nodes[place], item) is None:
        return []
    node = nodes[place]
    old = node[rank(node, item)]
    if len(node) == 1:
        return [Event("drop", old)]
    left = without(node, item)
    events = [Event("remove", node[-1], old, rank(node, item))]
    for one, other in ((place, place + 1), (place - 1, place)):
        pair = [left if i == place else nodes[i] for i in (one, other) if 0 <= i < len(nodes)]
        if len(pair) == 2 and len(joined(pair)) <= size // 2:
            return [*events, Event("merge", pair[0][-1], pair[1][-1])]
    return events


def with_put(nodes: Sequence[Node], size: int, item: Item) -> Nodes:
    """Returns the nodes after a put."""
    if not nodes:
        return [[item]]
    place = target_of(nodes, item)
    node = nodes[place]
    parts = [node]
    if len(node) >= size:
        parts = [node[: len(node) // 2], node[len(node) // 2 :]]
    goes = 1 if len(parts) == 2 and order(item) > order(parts[0][-1]) else 0
    parts[goes] = put(parts[goes], item)
    return [*nodes[:place], *parts, *nodes[place + 1 :]]


def with_removal(nodes: Sequence[Node], size: int, item: Item) -> Nodes:
    """Returns the nodes after a removal: an emptied node is removed, and a small one is merged with a small
    neighbour."""
    if not nodes:
        return []
    changed = target_of(nodes, item)
    after = [*nodes[:changed], without(nodes[changed], item), *nodes[changed + 1 :]]
    if len(after[changed]) in (0, len(nodes[changed])):
        return [node for node in after if node]
    most = size // 2
    if changed + 1 < len(after) and len(after[changed]) + len(after[changed + 1]) <= most:
        return join_at(after, changed)
    if changed > 0 and len(after[changed - 1]) + len(after[changed]) <= most:
        return join_at(after, changed - 1)
    return after


def join_at(nodes: Nodes, place: int) -> Nodes:
    """Returns the nodes with the one at the place and the next merged."""
    return [*nodes[:place], nodes[place] + nodes[place + 1], *nodes[place + 2 :]]

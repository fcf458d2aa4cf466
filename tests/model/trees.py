"""A logged tree and a replica: their nodes, their event numbers, and what they refuse.

A change of a tree edits the nodes by the rules of nodes, returns the events of the event table, and fails unless the
events, replayed on the nodes before it, give the nodes after it. A replica applies an event by its definition alone.
"""

from __future__ import annotations

from collections.abc import Iterable, Sequence
from dataclasses import dataclass, field

import definitions
from definitions import Bound, equal_to, in_range, is_ascending, joined
from items import LARGEST, Item, order
from language import Refused
from nodes import Event, Events, Node, Nodes, is_node_list, node_named, put_events, removal_events, replay, step
from nodes import target_of, with_node, with_put, with_removal

NO_SIZE = LARGEST


@dataclass
class Tree:
    """A tree of nodes of at most `size` items, whose next event has the number `next`.

    `clones` is the number of clones of items that its events may still make, or none for any number.
    """

    size: int
    next: int = 0
    nodes: Nodes = field(default_factory=list)
    clones: int | None = None

    @property
    def items(self) -> list[Item]:
        """Returns the contents."""
        return joined(self.nodes)

    def change(self, nodes: Nodes, items: Sequence[Item], events: list[Event]) -> Events:
        """Sets the nodes after a change, and returns its events with their numbers."""
        assert replay(self.nodes, events) == nodes and joined(nodes) == items and len(events) <= 3
        assert is_node_list(nodes) and max(map(len, nodes), default=0) <= self.size
        if self.next + len(events) > LARGEST:
            raise Refused("Numbers")
        self.take_clones(sum(event.item_count() for event in events))
        numbered = list(enumerate(events, self.next))
        self.nodes, self.next = nodes, self.next + len(events)
        return numbered

    def take_clones(self, count: int) -> None:
        """Makes clones of items, one after another, up to the first that fails."""
        if self.clones is None:
            return
        is_refused = self.clones < count
        self.clones = max(self.clones - count, 0)
        if is_refused:
            raise Refused("Memory")

    def put(self, item: Item) -> tuple[Item | None, Events]:
        """Puts an item; returns the equal one that it replaces, and the events."""
        old = equal_to(self.items, item)
        events = put_events(self.nodes, self.size, item)
        after = with_put(self.nodes, self.size, item)
        return old, self.change(after, definitions.put(self.items, item), events)

    def put_checked(self, item: Item) -> Events | None:
        """Puts an item unless an equal one is present; returns the events."""
        return None if equal_to(self.items, item) else self.put(item)[1]

    def remove(self, item: Item) -> tuple[Item | None, Events]:
        """Removes the item that is equal to this one; returns it, and the events."""
        old = equal_to(self.items, item)
        events = removal_events(self.nodes, self.size, item)
        after = with_removal(self.nodes, self.size, item)
        return old, self.change(after, definitions.without(self.items, item), events)

    def remove_range(self, start: Bound, end: Bound) -> None:
        """Removes the items of a range from each node, and emptied nodes."""
        out = {order(it) for it in in_range(self.items, start, end)}
        nodes = [[it for it in node if order(it) not in out] for node in self.nodes]
        self.nodes = [node for node in nodes if node]

    def attach(self, node: Node) -> None:
        """Inserts a whole node."""
        self.nodes = attached(self.nodes, node, self.size)

    def place_of(self, item: Item) -> tuple[bool, int, int]:
        """Returns whether an item is present, and the node and the position of it or of its insertion."""
        if not self.nodes:
            return False, 0, 0
        place = target_of(self.nodes, item)
        node = self.nodes[place]
        return equal_to(node, item) is not None, place, definitions.rank(node, item)


def refusal_of_node(node: Sequence[Item], size: int) -> str | None:
    """Returns the reason why a node may not be in any tree of this node size, if any."""
    if not node:
        return "Empty"
    if len(node) > size:
        return "TooLarge"
    return None if is_ascending(node) else "Unsorted"


def fits(nodes: Sequence[Node], node: Node) -> bool:
    """Returns whether a node lies before, between or after these as a whole."""
    return is_node_list(with_node(nodes, node))


def attached(nodes: Nodes, node: Node, size: int) -> Nodes:
    """Returns the nodes with a whole node, which must fit."""
    cause = refusal_of_node(node, size) or (None if fits(nodes, node) else "Overlaps")
    if cause is not None:
        raise Refused(cause)
    return with_node(nodes, node)


def refusal_of_nodes(nodes: Iterable[Node], size: int) -> str | None:
    """Returns the reason why these are not the nodes of a tree: the fault of the first that may not follow the
    others."""
    before: list[Item] = []
    for node in nodes:
        cause = refusal_of_node(node, size)
        if cause is not None or not is_ascending([*before, *node]):
            return cause or "Overlaps"
        before = node
    return None


@dataclass
class Replica:
    """A replica of nodes, which expects the event `next`."""

    next: int = 0
    nodes: Nodes = field(default_factory=list)

    @property
    def items(self) -> list[Item]:
        """Returns the contents."""
        return joined(self.nodes)

    def attach(self, node: Node) -> None:
        """Inserts a whole node."""
        self.nodes = attached(self.nodes, node, NO_SIZE)

    def refusal(self, number: int, event: Event) -> str | None:
        """Returns the first reason why an event is refused, in the order of the checks, if any."""
        if number != self.next:
            return "Gap"
        if number == LARGEST:
            return "Numbers"
        if event.kind == "create":
            return None if fits(self.nodes, [event.last]) else "OutOfOrder"
        place = node_named(self.nodes, event.last)
        if place is None:
            return "NoSuchNode"
        return self.refusal_at(place, event)

    def refusal_at(self, place: int, event: Event) -> str | None:
        """Returns the reason why an event of this node is refused, if any."""
        node, i = self.nodes[place], event.index
        match event.kind:
            case "insert":
                if i > len(node):
                    return "IndexOutside"
                return "OutOfOrder" if step(self.nodes, event) is None else None
            case "remove":
                if i >= len(node):
                    return "IndexOutside"
                if event.item is None or order(node[i]) != order(event.item):
                    return "ValueDiffers"
                return "WouldBeEmpty" if len(node) == 1 else None
            case "split":
                return None if 0 < i < len(node) else "BadSplit"
            case "merge":
                other = None if event.item is None else node_named(self.nodes, event.item)
                if other is None:
                    return "NoSuchNode"
                return None if other == place + 1 else "NotNeighbours"
            case _:
                return None

    def apply(self, number: int, event: Event) -> None:
        """Applies the expected event."""
        cause, after = self.refusal(number, event), step(self.nodes, event)
        if cause is not None:
            assert after is None or cause in ("Gap", "Numbers")
            raise Refused(cause)
        assert after is not None
        self.nodes, self.next = after, self.next + 1

    def offer(self, number: int, event: Event) -> str:
        """Applies the event if it is the expected one, and returns what became of it."""
        if number != self.next:
            return "Duplicate" if number < self.next else "Gap"
        self.apply(number, event)
        return "Applied"

    def follow(self, events: Sequence[tuple[int, Event]], places: Iterable[int]) -> None:
        """Offers the events at these places in turn."""
        for place in places:
            self.offer(*events[place])


def replica_of(nodes: Nodes, next: int) -> Replica:
    """Makes a replica of a snapshot."""
    cause = refusal_of_nodes(nodes, NO_SIZE)
    if cause is not None:
        raise Refused(cause)
    return Replica(next, nodes)

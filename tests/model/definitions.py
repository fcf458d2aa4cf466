"""The definitions of the calls, as functions of ascending lists: no node, and no step of the library's search."""

from __future__ import annotations

from bisect import bisect_left, bisect_right
from collections.abc import Iterable, Sequence
from dataclasses import dataclass
from itertools import chain
from operator import lt

from items import BadWord, Item, order, read_natural


def is_ascending(items: Sequence[Item]) -> bool:
    """Returns whether each item is below the next."""
    orders = list(map(order, items))
    return all(map(lt, orders, orders[1:]))


def rank(items: Sequence[Item], item: Item) -> int:
    """Returns the number of items below this one."""
    return bisect_left(items, order(item), key=order)


def up_to(items: Sequence[Item], item: Item) -> int:
    """Returns the number of items not above this one."""
    return bisect_right(items, order(item), key=order)


def equal_to(items: Sequence[Item], item: Item) -> Item | None:
    """Returns the item that is equal to this one, if any."""
    place = rank(items, item)
    return items[place] if place < up_to(items, item) else None


def put(items: Sequence[Item], item: Item) -> list[Item]:
    """Returns the items below an item, the item, and those above it."""
    return [*items[: rank(items, item)], item, *items[up_to(items, item) :]]


def keep(items: Sequence[Item], item: Item) -> list[Item]:
    """Returns the items with this one, unless an equal one is present."""
    return list(items) if equal_to(items, item) else put(items, item)


def without(items: Sequence[Item], item: Item) -> list[Item]:
    """Returns the items that are not equal to this one."""
    return [*items[: rank(items, item)], *items[up_to(items, item) :]]


def joined(nodes: Iterable[Sequence[Item]]) -> list[Item]:
    """Returns the concatenation of nodes."""
    return list(chain.from_iterable(nodes))


@dataclass(frozen=True)
class Bound:
    """An end of a range of keys or of positions; without a value it is no bound."""

    value: int | None = None
    is_included: bool = False

    def is_below(self, place: int) -> bool:
        """Returns whether a place is within a range that starts here."""
        return self.value is None or self.value < place or (self.is_included and self.value == place)

    def is_above(self, place: int) -> bool:
        """Returns whether a place is within a range that ends here."""
        return self.value is None or place < self.value or (self.is_included and self.value == place)


def read_bound(word: str) -> Bound:
    """Returns the bound of a word: `[3` or `3]` includes 3, `(3` or `3)` excludes it, and `..` is no bound.

    The order does not read a tag, as in `[3:a`."""
    if word == "..":
        return Bound()
    key = word.strip("[]()").partition(":")[0]
    if word.startswith("[") != word.endswith("]"):
        return Bound(read_natural(key), True)
    if word.startswith("(") != word.endswith(")"):
        return Bound(read_natural(key), False)
    raise BadWord(word)


def bounds_are_ordered(start: Bound, end: Bound) -> bool:
    """Returns whether a range by these keys is permitted."""
    if start.value is None or end.value is None:
        return True
    if start.value == end.value:
        return start.is_included or end.is_included
    return start.value < end.value


def in_range(items: Iterable[Item], start: Bound, end: Bound) -> list[Item]:
    """Returns the items whose keys satisfy both bounds."""
    return [it for it in items if start.is_below(it.key) and end.is_above(it.key)]


def in_positions(items: Sequence[Item], start: Bound, end: Bound) -> list[Item]:
    """Returns the items whose positions satisfy both bounds."""
    return [it for i, it in enumerate(items) if start.is_below(i) and end.is_above(i)]


def difference(left: Iterable[Item], right: Iterable[Item]) -> list[Item]:
    """Returns the items on the left that have no equal one on the right."""
    others = {order(it) for it in right}
    return [it for it in left if order(it) not in others]


def intersection(left: Iterable[Item], right: Iterable[Item]) -> list[Item]:
    """Returns the items on the left that have an equal one on the right."""
    others = {order(it) for it in right}
    return [it for it in left if order(it) in others]


def union(left: Sequence[Item], right: Sequence[Item]) -> list[Item]:
    """Returns the items on the left, and those on the right that have no equal one there."""
    return sorted([*left, *difference(right, left)], key=order)


def symmetric_difference(left: Sequence[Item], right: Sequence[Item]) -> list[Item]:
    """Returns the items of either side that have no equal one on the other."""
    return sorted([*difference(left, right), *difference(right, left)], key=order)


def digits(number: int) -> int:
    """Returns the bit length of a number: 0 for 0."""
    return number.bit_length()

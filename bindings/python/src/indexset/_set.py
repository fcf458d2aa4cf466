"""An ordered set with access by position."""
from __future__ import annotations

from array import array
from collections.abc import MutableSet, Set
from itertools import chain, filterfalse
from typing import Any, Callable, Generic, Iterable, Literal, Optional, SupportsIndex, TypeVar, Union, overload

from ._kinds import items_of
from ._backend import Numbers, keep
from ._sorted import OWN_INITS, Sorted

T = TypeVar("T")
S = TypeVar("S")


class SortedSet(Sorted[T], MutableSet[T], Generic[T]):
    """A sorted set, with the calls of `sortedcontainers.SortedSet`.

    Its items are of any kind that has an order; items with equal values are one item, as in a `set`. `keys` names the
    kind: "int64", "uint64", "float64", "str", "bytes", "any" (None, bool, int, float, str, bytes and tuples of these,
    in the order of FoundationDB's tuples: integers before floats) or "object" (compared by Python's own `<`). Without
    `keys` the kind follows from the items: 64-bit ints, floats, strs or bytes, if all items are of exactly one of these
    types, keep that kind until other items are added; all other items, those of subclasses included, are compared by
    `<`. `key` is a function whose results order the items. Raises TypeError, OverflowError or, for NaN, ValueError if
    an item does not fit the kind.

    Cost: with n items, a call on one item or one position is O(log n), and with the kind "object" makes that many
    comparisons; `in` asks a hash table. Iteration, a slice or a batch is linear in its length. After many numbers were
    added at once, a change of one is O(log n) amortized.

    Several threads may read a set at the same time; the caller synchronizes changes. An iterator raises RuntimeError
    after a change.

    >>> SortedSet([3, 1, 2, 1]), SortedSet(["b", "a"]), SortedSet([(1, "b"), (1, "a")])
    (SortedSet([1, 2, 3]), SortedSet(['a', 'b']), SortedSet([(1, 'a'), (1, 'b')]))
    >>> SortedSet([0.5, -1], keys="float64"), SortedSet([1, 2, 3], key=lambda number: -number)[0]
    (SortedSet([-1.0, 0.5], keys='float64'), 3)
    >>> numbers = SortedSet([10, 20, 30])
    >>> numbers.bisect_left(20), numbers.bisect_right(20), numbers.index(20), 20 in numbers, "20" in numbers
    (1, 2, 1, True, False)
    >>> list(numbers.irange(15.5)), list(numbers.islice(0, 2, reverse=True)), numbers[-2:]
    ([20, 30], [20, 10], [20, 30])
    """

    __slots__ = ("__weakref__",)
    __hash__ = None  # type: ignore[assignment]

    @overload
    def __init__(
        self: SortedSet[int], iterable: Optional[Iterable[int]] = ..., *, keys: Literal["int64", "uint64"]
    ) -> None:
        ...

    @overload
    def __init__(
        self: SortedSet[float], iterable: Optional[Iterable[float]] = ..., *, keys: Literal["float64"]
    ) -> None:
        ...

    @overload
    def __init__(self: SortedSet[str], iterable: Optional[Iterable[str]] = ..., *, keys: Literal["str"]) -> None:
        ...

    @overload
    def __init__(self: SortedSet[bytes], iterable: Optional[Iterable[bytes]] = ..., *, keys: Literal["bytes"]) -> None:
        ...

    @overload
    def __init__(
        self,
        iterable: Optional[Iterable[T]] = ...,
        key: Optional[Callable[[T], object]] = ...,
        *,
        keys: Optional[str] = ...,
    ) -> None:
        ...

    def __init__(
        self,
        iterable: Optional[Iterable[object]] = None,
        key: Optional[Callable[..., object]] = None,
        *,
        keys: Optional[str] = None,
    ) -> None:
        self._begin(keys, key)
        if iterable is not None:
            self._fill(iterable)

    # ---- one item

    def _add(self, value: T) -> None:
        members = self._members
        if value in members:
            return
        order = self._fitting([value])
        (value,) = order.own([value])
        try:
            members.add(value)
            order.add(value)
        except BaseException:
            members.discard(value)
            raise
        self._become(order)

    def _discard(self, value: object) -> bool:
        if value not in self._members:
            return False
        self._settled().discard(value)
        self._members.discard(value)
        return True

    def remove(self, value: object) -> None:
        """Removes an item. Raises KeyError if it is absent, TypeError if it has no hash.

        >>> numbers = SortedSet([1, 2]); numbers.remove(2); numbers
        SortedSet([1])
        """
        if not self._discard(value):
            raise KeyError(value)

    def count(self, value: object) -> int:
        """Returns the number of items equal to a value: 0 or 1. Raises TypeError if it has no hash.

        >>> SortedSet([1, 2]).count(2), SortedSet([1, 2]).count(3)
        (1, 0)
        """
        return int(value in self)

    def pop(self, index: SupportsIndex = -1) -> T:
        """Removes the item at a position, by default the last, and returns it. Raises IndexError if there is none.

        >>> numbers = SortedSet([1, 2, 3]); numbers.pop(), numbers.pop(0)
        (3, 1)
        """
        value = super().pop(index)
        self._members.discard(value)
        return value

    def clear(self) -> None:
        """Removes all items.

        >>> numbers = SortedSet([1]); numbers.clear(); numbers
        SortedSet([])
        """
        self._order.clear()
        self._members.clear()

    # ---- many at once

    def update(self, *iterables: Iterable[T]) -> SortedSet[T]:
        """Adds the items of each iterable, and returns the set. Many items are added by one call of the library. Raises
        TypeError, OverflowError or ValueError if an item does not fit; the set is then as it was before that iterable.

        >>> SortedSet([1]).update([5, 3], [4])
        SortedSet([1, 3, 4, 5])
        """
        for iterable in iterables:
            self._fill(iterable)
        return self

    def _filled(self, given: list[T]) -> None:
        members = self._members
        if members:
            keep(given, members, False)
        found = set(given)
        fresh = given if len(found) == len(given) else list(dict.fromkeys(given))
        self._fill_distinct(fresh, found)

    def _fill_distinct(self, fresh: list[T], found: set[T]) -> None:
        """Adds absent items, which are distinct. The set of them is not used afterwards."""
        members = self._members
        order = self._gathered(self._order, fresh)
        if order is None:
            order = self._fitting(fresh)
            fresh = order.own(fresh)
            found = set(fresh)
            take = order.take
        else:
            take = len  # (they are already present)
        if members:
            try:
                members.update(found)
                take(fresh)
            except BaseException:
                members.difference_update(found)
                raise
        else:
            take(fresh)
            self._members = found
        self._become(order)

    def ranks(self, values: Iterable[object]) -> array[int]:
        """Returns the number of items below each value. Numbers take one call of the library. Raises TypeError if a
        value cannot be compared with the items.

        >>> SortedSet([10, 20, 30]).ranks([5, 25]).tolist()
        [0, 2]
        """
        given = items_of(values)
        try:
            found: array[int] = self._order.ranks(given)
            return found
        except (AttributeError, TypeError, OverflowError):
            return array("Q", map(self.bisect_left, given))

    def at_all(self, positions: Iterable[int]) -> list[T]:
        """Returns the item at each position. Numbers take one call of the library. Raises IndexError if a position has
        none.

        >>> SortedSet([10, 20, 30]).at_all([2, 0])
        [30, 10]
        """
        order = self._order
        if isinstance(order, Numbers):
            return order.at_all(positions)
        return [order[position] for position in positions]

    # ---- set operations

    def _from_iterable(self, it: Iterable[S]) -> SortedSet[S]:
        made: SortedSet[S] = self._made(items_of(it))
        return made

    def union(self, *iterables: Iterable[S]) -> SortedSet[Union[T, S]]:
        """Returns a set of the items of this set and of each iterable. Raises TypeError, OverflowError or ValueError if
        an item does not fit.

        >>> SortedSet([1, 2]) | [5]
        SortedSet([1, 2, 5])
        """
        made: SortedSet[Any] = self.copy()
        return made.update(*iterables)

    def intersection(self, *iterables: Iterable[object]) -> SortedSet[T]:
        """Returns a set of the items that each iterable has too. Raises TypeError if an item has no hash.

        >>> SortedSet([1, 2, 3]) & [3, 4, 1]
        SortedSet([1, 3])
        """
        return self._kept(self._members.intersection(*map(_asked, iterables)))

    def _kept(self, found: set[T]) -> SortedSet[T]:
        """Returns a set of the items that are in another, which is not used afterwards."""
        made, kept = self._empty(), list(self)
        keep(kept, found, True)
        made._fill_distinct(kept, found)
        return made  # type: ignore[no-any-return]

    def intersection_update(self, *iterables: Iterable[object]) -> SortedSet[T]:
        """Keeps the items that each iterable has too, and returns the set. Raises TypeError if an item has no hash.

        >>> SortedSet([1, 2, 3]).intersection_update([3, 4, 1])
        SortedSet([1, 3])
        """
        return self._take_over(self.intersection(*iterables))

    def difference(self, *iterables: Iterable[object]) -> SortedSet[T]:
        """Returns a set of the items that no iterable has. Raises TypeError if an item has no hash.

        >>> SortedSet([1, 2, 3]) - [2]
        SortedSet([1, 3])
        """
        return self._kept(self._members.difference(*map(_asked, iterables)))

    def difference_update(self, *iterables: Iterable[object]) -> SortedSet[T]:
        """Removes the items that an iterable has, and returns the set. Raises TypeError if an item has no hash.

        >>> SortedSet([1, 2, 3]).difference_update([2], [5])
        SortedSet([1, 3])
        """
        others = set(chain.from_iterable(iterables))
        if len(others) * 4 > len(self):
            return self._take_over(self.difference(others))
        for value in others:
            self._discard(value)
        return self

    def symmetric_difference(self, iterable: Iterable[S]) -> SortedSet[Union[T, S]]:
        """Returns a set of the items that are in exactly one of the two. Raises TypeError, OverflowError or ValueError
        if an item does not fit.

        >>> SortedSet([1, 2]) ^ [2, 3]
        SortedSet([1, 3])
        """
        given: Any = iterable if isinstance(iterable, SortedSet) else dict.fromkeys(iterable)
        others: set[Any] = given._members if isinstance(given, SortedSet) else set(given)
        kept: list[Any] = list(self)
        more: list[Any] = list(given)
        keep(kept, others, False)
        keep(more, self._members, False)
        kept += more
        made: SortedSet[Any] = self._empty()
        made._fill_distinct(kept, self._members ^ others)
        return made

    def symmetric_difference_update(self, iterable: Iterable[T]) -> SortedSet[T]:
        """Keeps the items that are in exactly one of the two, and returns the set. Raises TypeError, OverflowError or
        ValueError if an item does not fit; the set is then unchanged.

        >>> SortedSet([1, 2]).symmetric_difference_update([2, 3])
        SortedSet([1, 3])
        """
        return self._take_over(self.symmetric_difference(iterable))

    def _take_over(self, made: SortedSet[T]) -> SortedSet[T]:
        """Takes over the items of a set that is not used afterwards."""
        self._order.changed()
        self._order, self._members = made._order, made._members
        return self

    def issubset(self, iterable: Iterable[object]) -> bool:
        """Returns whether an iterable has each item. Raises TypeError if an item has no hash.

        >>> SortedSet([1, 2]).issubset([3, 2, 1])
        True
        """
        other = _asked(iterable)
        return len(self) <= len(other) and all(map(other.__contains__, self))

    def issuperset(self, iterable: Iterable[object]) -> bool:
        """Returns whether the set has each item of an iterable. Raises TypeError if an item has no hash.

        >>> SortedSet([1, 2]).issuperset([2])
        True
        """
        return all(map(self.__contains__, iterable))

    def isdisjoint(self, iterable: Iterable[object]) -> bool:
        """Returns whether the set has no item of an iterable. Raises TypeError if an item has no hash.

        >>> SortedSet([1, 2]).isdisjoint([3])
        True
        """
        return not any(map(self.__contains__, iterable))

    __or__ = __ror__ = union
    __ior__ = update
    __and__ = __rand__ = intersection
    __iand__ = intersection_update
    __sub__ = difference
    __isub__ = difference_update
    __xor__ = __rxor__ = symmetric_difference
    __ixor__ = symmetric_difference_update

    def __rsub__(self, other: Iterable[S]) -> SortedSet[S]:
        made: SortedSet[S] = self._made(list(filterfalse(self._members.__contains__, other)))
        return made

    def __eq__(self, other: object) -> bool:
        if not isinstance(other, Set):
            return NotImplemented
        return len(self) == len(other) and self.issubset(other)


OWN_INITS.add(SortedSet.__init__)


def _asked(iterable: Iterable[Any]) -> Any:
    """Returns a collection with fast membership tests, of the same items."""
    if isinstance(iterable, SortedSet):
        return iterable._members
    return iterable if isinstance(iterable, (Set, dict)) else set(iterable)

"""Ordered lists, in which items may repeat."""
from __future__ import annotations

from collections.abc import MutableSequence, Sequence
from operator import eq, ge, gt, le, lt, ne
from typing import Any, Callable, Generic, Iterable, Literal, Optional, TypeVar, overload

from ._backend import Numbers
from ._kinds import items_of, known
from ._orders import Run, begun, empty_order, repeating
from ._sorted import OWN_INITS, Sorted

T = TypeVar("T")
S = TypeVar("S", bound="SortedList[Any]")


class SortedList(Sorted[T], MutableSequence[T], Generic[T]):
    """A sorted list, with the calls of `sortedcontainers.SortedList`. Items may repeat; equal items are in insertion
    order.

    `keys` names the kind of the items and `key` is a function whose results order them, as for `SortedSet`; with `key`
    the list is a `SortedKeyList`.

    Cost: with n items, a call on one item or one position is O(log n); a search for a value also takes time linear in
    the number of items with its sort key, unless the items are numbers without `key`. Iteration, a slice or a batch is
    linear in its length. After many numbers were added at once, a change of one is O(log n) amortized. A removal
    from repeated numbers may raise MemoryError; nothing changes then.

    Several threads may read a list at the same time; the caller synchronizes changes. An iterator raises RuntimeError
    after a change.

    >>> numbers = SortedList([3, 1, 2, 1]); numbers
    SortedList([1, 1, 2, 3])
    >>> numbers.count(1), numbers[-1], numbers.bisect_right(1), numbers.index(2), list(numbers.irange(2, 9))
    (2, 3, 2, 2, [2, 3])
    >>> SortedList(["pear", "fig"], key=len)
    SortedKeyList(['fig', 'pear'], key=<built-in function len>)
    """

    __slots__ = ("__weakref__",)
    __hash__ = None  # type: ignore[assignment]
    _repeats = True

    def __new__(
        cls,
        iterable: Optional[Iterable[object]] = None,
        key: Optional[Callable[..., object]] = None,
        *,
        keys: Optional[str] = None,
    ) -> SortedList[T]:
        if key is None or issubclass(cls, SortedKeyList):
            return super().__new__(cls)
        if cls is not SortedList:
            raise TypeError("a subclass with `key` is one of SortedKeyList")
        return super().__new__(SortedKeyList)

    @overload
    def __init__(
        self: SortedList[int], iterable: Optional[Iterable[int]] = ..., *, keys: Literal["int64", "uint64"]
    ) -> None:
        ...

    @overload
    def __init__(
        self: SortedList[float], iterable: Optional[Iterable[float]] = ..., *, keys: Literal["float64"]
    ) -> None:
        ...

    @overload
    def __init__(self: SortedList[str], iterable: Optional[Iterable[str]] = ..., *, keys: Literal["str"]) -> None:
        ...

    @overload
    def __init__(self: SortedList[bytes], iterable: Optional[Iterable[bytes]] = ..., *, keys: Literal["bytes"]) -> None:
        ...

    @overload
    def __init__(
        self,
        iterable: Optional[Iterable[T]] = ...,
        key: Optional[Callable[[T], object]] = ...,
        *,
        keys: Optional[str] = ...,
    ) -> None:
        ...

    def __init__(
        self,
        iterable: Optional[Iterable[object]] = None,
        key: Optional[Callable[..., object]] = None,
        *,
        keys: Optional[str] = None,
    ) -> None:
        items = None if iterable is None else items_of(iterable)
        order = begun(items, keys, key, True) if items else None
        if order is not None:
            known(keys)
            self._named, self._order, self._members = keys, order, None
            return
        self._begin(keys, key)
        if items:
            self._added(items)

    # ---- one item

    def _add(self, value: T) -> None:
        order = self._order
        if isinstance(order, Run) and order.is_due and order.find(value) >= 0:
            order = order.settled(True)
        else:
            order = self._fitting([value])
        if isinstance(order, Numbers) and value in order:
            order = repeating(order)
        order.add(value)
        self._become(order)

    def _discard(self, value: object) -> bool:
        order = self._order
        if not len(order):
            return False
        if isinstance(order, Run) and order.is_due:
            if order.find(value) < 0:
                return False
            order = self._settled()
        found: bool = order.discard(value)
        return found

    def remove(self, value: object) -> None:
        """Removes the first item that equals a value. Raises ValueError if there is none.

        >>> numbers = SortedList([2, 1, 2]); numbers.remove(2); numbers
        SortedList([1, 2])
        """
        if not self._discard(value):
            raise ValueError(f"{value!r} is not there")

    def count(self, value: object) -> int:
        """Returns the number of items equal to a value. O(log n), and linear in the number of items with its sort key
        unless the items are numbers without `key`.

        >>> SortedList([1, 2, 1]).count(1)
        2
        """
        order = self._order
        if not len(order):
            return 0
        count: int = int(value in order) if isinstance(order, Numbers) else order.count(value)
        return count

    def clear(self) -> None:
        """Removes all items.

        >>> numbers = SortedList([1]); numbers.clear(); numbers
        SortedList([])
        """
        self._order.clear()
        self._order = empty_order(self.kind, self.key, True)

    # ---- many at once

    def update(self, iterable: Iterable[T]) -> None:
        """Adds items. Raises TypeError, OverflowError or ValueError if an item does not fit; the list is then
        unchanged.

        >>> numbers = SortedList([2]); numbers.update([3, 1]); numbers
        SortedList([1, 2, 3])
        """
        self._fill(iterable)

    def _filled(self, given: list[T]) -> None:
        gathered = self._gathered(self._order, given)
        if gathered is None:
            self._added(given)
        else:
            self._become(gathered)

    def _added(self, given: list[T]) -> None:
        """Adds items to the order."""
        order = self._fitting(given)
        if isinstance(order, Numbers) and self._repeat(given, order):
            order = repeating(order)
        order.take(given)
        self._become(order)

    @staticmethod
    def _repeat(items: list[T], order: Numbers) -> bool:
        """Returns whether some of the items are equal, or already present."""
        found = set(items)
        return len(found) < len(items) or (len(order) > 0 and any(item in order for item in found))

    def __add__(self: S, other: Iterable[T]) -> S:
        """Returns a list of the items of both."""
        items = self._order.chunk(0, len(self))
        items.extend(other)
        made: S = self._made(items)
        return made

    __radd__ = __add__

    def __iadd__(self: S, other: Iterable[T]) -> S:
        """Adds items, as `update`."""
        self.update(list(other))
        return self

    def __mul__(self: S, count: int) -> S:
        """Returns a list of each item, repeated `count` times."""
        made: S = self._made(self._order.chunk(0, len(self)) * count)
        return made

    __rmul__ = __mul__

    def __imul__(self: S, count: int) -> S:
        """Repeats each item `count` times."""
        made = list(self) * count
        self.clear()
        self.update(made)
        return self

    # ---- calls that a sorted list does not support

    def __setitem__(self, index: object, value: object) -> None:
        """Raises NotImplementedError: the order determines the position of an item."""
        raise NotImplementedError("use `del items[index]` and `items.add(value)`")

    def append(self, value: T) -> None:
        """Raises NotImplementedError: use `add`.

        >>> SortedList().append(1)
        Traceback (most recent call last):
        NotImplementedError: use `items.add(value)`
        """
        raise NotImplementedError("use `items.add(value)`")

    def extend(self, values: Iterable[T]) -> None:
        """Raises NotImplementedError: use `update`.

        >>> SortedList().extend([1])
        Traceback (most recent call last):
        NotImplementedError: use `items.update(values)`
        """
        raise NotImplementedError("use `items.update(values)`")

    def insert(self, index: int, value: T) -> None:
        """Raises NotImplementedError: use `add`.

        >>> SortedList().insert(0, 1)
        Traceback (most recent call last):
        NotImplementedError: use `items.add(value)`
        """
        raise NotImplementedError("use `items.add(value)`")

    def reverse(self) -> None:
        """Raises NotImplementedError: use `reversed`.

        >>> SortedList().reverse()
        Traceback (most recent call last):
        NotImplementedError: use `reversed(items)`
        """
        raise NotImplementedError("use `reversed(items)`")

    # ---- comparisons of lists

    def _beside(self, other: Any, compare: Callable[[Any, Any], bool]) -> bool:
        if not isinstance(other, Sequence):
            return NotImplemented
        if compare in (eq, ne) and len(self) != len(other):
            return compare is ne
        return compare(list(self), list(other))

    def __eq__(self, other: object) -> bool:
        return self._beside(other, eq)

    def __ne__(self, other: object) -> bool:
        return self._beside(other, ne)

    def __lt__(self, other: object) -> bool:
        return self._beside(other, lt)

    def __le__(self, other: object) -> bool:
        return self._beside(other, le)

    def __gt__(self, other: object) -> bool:
        return self._beside(other, gt)

    def __ge__(self, other: object) -> bool:
        return self._beside(other, ge)


class SortedKeyList(SortedList[T], Generic[T]):
    """A `SortedList` that is ordered by the results of a function of its items; without a function, by the items. The
    cost is that of a `SortedList`. `SortedListWithKey`, the name of this class before version 2 of `sortedcontainers`,
    is the same class.

    >>> words = SortedKeyList(["pear", "fig", "apple"], key=len); words
    SortedKeyList(['fig', 'pear', 'apple'], key=<built-in function len>)
    >>> words.bisect_key_left(4), list(words.irange_key(4, 4)), words.bisect("plum")
    (1, ['pear'], 2)
    """

    __slots__ = ()

    def __init__(
        self,
        iterable: Optional[Iterable[object]] = None,
        key: Optional[Callable[..., object]] = None,
        *,
        keys: Optional[str] = None,
    ) -> None:
        items: Any = iterable
        super().__init__(items, _itself if key is None else key, keys=keys)


def _itself(value: T) -> T:
    return value


OWN_INITS.update((SortedList.__init__, SortedKeyList.__init__))

SortedListWithKey = SortedKeyList

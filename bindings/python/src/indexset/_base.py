"""Base classes of the ctypes backend: the classes that the compiled module `_speedups` has too."""
from __future__ import annotations

from typing import Any, Dict, Generic, Iterator, SupportsIndex, TypeVar, Union, overload

K = TypeVar("K")
V = TypeVar("V")
T = TypeVar("T")

_set: Any = dict.__setitem__
_delete: Any = dict.__delitem__


class IndexedBase(Generic[T]):
    """A collection over an order: its calls on one item go straight to the order."""

    __slots__ = ("_order", "_members")

    _order: Any
    # The items as a set, or None if they may repeat.
    _members: Any

    def __len__(self) -> int:
        members = self._members
        return len(self._order if members is None else members)

    def __contains__(self, value: object) -> bool:
        """Returns whether an item equals a value."""
        members = self._members
        found: bool = len(self._order) > 0 and self._order.holds(value) if members is None else value in members
        return found

    def __iter__(self) -> Iterator[T]:
        """Iterates over the items in order. Raises RuntimeError after a change."""
        walk: Iterator[T] = self._order.walk(0, len(self), False)
        return walk

    @overload
    def __getitem__(self, position: SupportsIndex) -> T:
        ...

    @overload
    def __getitem__(self, position: slice) -> list[T]:
        ...

    def __getitem__(self, position: Union[SupportsIndex, slice]) -> Union[T, list[T]]:
        """Returns the item at a position, or the list of those at a slice. Raises IndexError if there is none."""
        if isinstance(position, slice):
            return self._slice(position)
        item: T = self._order[position]
        return item

    def _slice(self, position: slice) -> list[T]:
        raise NotImplementedError

    def add(self, value: T) -> None:
        """Adds an item; a set keeps an equal item that is present. O(log n). Raises TypeError, OverflowError or
        ValueError if the item does not fit; nothing changes then.

        >>> from indexset import SortedSet
        >>> numbers = SortedSet([3, 1]); numbers.add(2); numbers
        SortedSet([1, 2, 3])
        """
        members = self._members
        if members is not None and value in members:
            return
        if not self._order.add_own(value):
            self._add(value)
        elif members is not None:
            members.add(value)

    def _add(self, value: T) -> None:
        raise NotImplementedError

    def discard(self, value: object) -> None:
        """Removes an item that equals a value, if any. Raises TypeError if the value has no hash and the items are a
        set.

        >>> from indexset import SortedSet
        >>> numbers = SortedSet([1, 2]); numbers.discard(2); numbers.discard(5); numbers
        SortedSet([1])
        """
        self._discard(value)

    def _discard(self, value: object) -> bool:
        raise NotImplementedError

    def bisect_left(self, value: object) -> int:
        """Returns the number of items below a value. Raises TypeError if it cannot be compared with them, ValueError if
        it is NaN.

        >>> from indexset import SortedSet
        >>> SortedSet([10, 20]).bisect_left(20)
        1
        """
        position: int = self._order.bisect(value, False)
        return position

    def bisect_right(self, value: object) -> int:
        """Returns the number of items not above a value. Raises TypeError if it cannot be compared with them,
        ValueError if it is NaN.

        >>> from indexset import SortedSet
        >>> SortedSet([10, 20]).bisect_right(20)
        2
        """
        position: int = self._order.bisect(value, True)
        return position

    bisect = bisect_right


class DictBase(Dict[K, V], Generic[K, V]):
    """A dict with an order of its keys: a change of one key goes straight to the dict and to the order."""

    __slots__ = ("_order",)

    _order: Any

    def __setitem__(self, key: K, value: V) -> None:
        if key not in self and self._order.add_own(key) is None:
            self._order_keys([key])
        _set(self, key, value)

    def _order_keys(self, keys: list[Any]) -> None:
        raise NotImplementedError

    def __delitem__(self, key: object) -> None:
        if key not in self:
            raise KeyError(key)
        self._order.discard(key)
        _delete(self, key)

    def __iter__(self) -> Iterator[K]:
        walk: Iterator[K] = self._order.walk(0, len(self), False)
        return walk

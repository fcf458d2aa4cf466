"""Views of an ordered dictionary, which can be indexed."""
from __future__ import annotations

from collections.abc import ItemsView, KeysView, Sequence, ValuesView
from operator import itemgetter
from typing import TYPE_CHECKING, Any, Iterable, Iterator, Optional, SupportsIndex, Tuple, TypeVar, Union, overload

from ._set import SortedSet

K = TypeVar("K")
V = TypeVar("V")
T = TypeVar("T")


class SortedKeysView(KeysView[K], Sequence[K]):
    """The keys of a dictionary, in order. Access by position is O(log n).

    >>> from indexset import SortedDict
    >>> keys = SortedDict({2: "b", 1: "a"}).keys(); keys[-1], keys & {1, 5}
    (2, SortedSet([1]))
    """

    __slots__ = ()

    if TYPE_CHECKING:
        _mapping: Any

    @classmethod
    def _from_iterable(cls, it: Iterable[Any]) -> Any:
        return SortedSet(it)

    @overload
    def __getitem__(self, index: SupportsIndex) -> K:
        ...

    @overload
    def __getitem__(self, index: slice) -> list[K]:
        ...

    def __getitem__(self, index: Union[SupportsIndex, slice]) -> Union[K, list[K]]:
        """Returns the key at a position, or those at a slice. Raises IndexError if a position has none."""
        if isinstance(index, slice):
            first, past, step = index.indices(len(self))
            keys: list[K] = self._mapping._order.chunk(first, past) if step == 1 else list(self)[index]
            return keys
        key: K = self._mapping._order[index]
        return key

    def __delitem__(self, index: Union[SupportsIndex, slice]) -> None:
        """Removes the key at a position, or those at a slice, from the dictionary. Raises IndexError if a position has
        none."""
        for key in self[index] if isinstance(index, slice) else [self[index]]:
            del self._mapping[key]

    def __reversed__(self) -> Iterator[K]:
        """Iterates over the keys from the last to the first."""
        walk: Iterator[K] = reversed(self._mapping)
        return walk

    def count(self, value: object) -> int:
        """Returns the number of keys equal to a value: 0 or 1. Raises TypeError if it has no hash.

        >>> from indexset import SortedDict
        >>> SortedDict({1: "a"}).keys().count(1)
        1
        """
        return int(value in self._mapping)

    def index(self, value: object, start: Optional[int] = None, stop: Optional[int] = None) -> int:
        """Returns the position of a key, from `start` and before `stop`. Raises ValueError if there is none, TypeError
        if the key has no hash.

        >>> from indexset import SortedDict
        >>> SortedDict({2: "b", 1: "a"}).keys().index(2)
        1
        """
        position: int = self._mapping.index(value, start, stop)
        return position


class SortedValuesView(ValuesView[V], Sequence[V]):
    """The values of a dictionary, in the order of their keys. Access by position is O(log n).

    >>> from indexset import SortedDict
    >>> SortedDict({2: "b", 1: "a"}).values()[0]
    'a'
    """

    __slots__ = ()

    if TYPE_CHECKING:
        _mapping: Any

    def __iter__(self) -> Iterator[V]:
        """Iterates over the values in the order of their keys. Raises RuntimeError after a change of the keys."""
        return map(self._mapping.__getitem__, self._mapping)

    def __reversed__(self) -> Iterator[V]:
        """Iterates over the values from that of the last key to that of the first."""
        return map(self._mapping.__getitem__, reversed(self._mapping))

    @overload
    def __getitem__(self, index: SupportsIndex) -> V:
        ...

    @overload
    def __getitem__(self, index: slice) -> list[V]:
        ...

    def __getitem__(self, index: Union[SupportsIndex, slice]) -> Union[V, list[V]]:
        """Returns the value at a position, or those at a slice. Raises IndexError if a position has none."""
        if isinstance(index, slice):
            return list(map(self._mapping.__getitem__, self._mapping.keys()[index]))
        value: V = self._mapping.peekitem(index)[1]
        return value


class SortedItemsView(ItemsView[K, V], Sequence[Tuple[K, V]]):
    """The keys of a dictionary with their values, in order. Access by position is O(log n).

    >>> from indexset import SortedDict
    >>> SortedDict({2: "b", 1: "a"}).items()[0]
    (1, 'a')
    """

    __slots__ = ()

    if TYPE_CHECKING:
        _mapping: Any

    @classmethod
    def _from_iterable(cls, it: Iterable[Any]) -> Any:
        return SortedSet(it)

    def __iter__(self) -> Iterator[tuple[K, V]]:
        """Iterates over the keys in order, with their values. Raises RuntimeError after a change of the keys."""
        # Neither iterator continues after a change, so each pair was in the dictionary.
        return zip(self._mapping, map(self._mapping.__getitem__, self._mapping))

    def __reversed__(self) -> Iterator[tuple[K, V]]:
        """Iterates over the keys from the last to the first, with their values."""
        return zip(reversed(self._mapping), map(self._mapping.__getitem__, reversed(self._mapping)))

    @overload
    def __getitem__(self, index: SupportsIndex) -> tuple[K, V]:
        ...

    @overload
    def __getitem__(self, index: slice) -> list[tuple[K, V]]:
        ...

    def __getitem__(self, index: Union[SupportsIndex, slice]) -> Union[tuple[K, V], list[tuple[K, V]]]:
        """Returns the key and the value at a position, or the pairs at a slice. Raises IndexError if a position has
        none."""
        if isinstance(index, slice):
            keys = self._mapping.keys()[index]
            return list(zip(keys, map(self._mapping.__getitem__, keys)))
        pair: tuple[K, V] = self._mapping.peekitem(index)
        return pair


class _Positions(Sequence[T]):
    """The access by position of a view of a logged dictionary or a replica, by a part of the pair at each."""

    __slots__ = ()

    if TYPE_CHECKING:
        _mapping: Any

    @staticmethod
    def _part(pair: tuple[Any, Any]) -> Any:
        raise NotImplementedError

    @overload
    def __getitem__(self, index: SupportsIndex) -> T:
        ...

    @overload
    def __getitem__(self, index: slice) -> list[T]:
        ...

    def __getitem__(self, index: Union[SupportsIndex, slice]) -> Union[T, list[T]]:
        if isinstance(index, slice):
            return [self._part(pair) for pair in self._mapping._slice(index)]
        part: T = self._part(self._mapping.peekitem(index))
        return part

    def __iter__(self) -> Iterator[T]:
        return map(self._part, self._mapping.irange())

    def __reversed__(self) -> Iterator[T]:
        return map(self._part, self._mapping.islice(reverse=True))


class NodedKeysView(_Positions[K], KeysView[K], Sequence[K]):
    """The keys of a `LoggedDict` or a `Replica`, in order, as they are at each call. Access by position is O(log n)."""

    __slots__ = ()

    _part = staticmethod(itemgetter(0))

    def count(self, value: object) -> int:
        """Returns the number of keys equal to a value: 0 or 1. Raises TypeError if it has no hash.

        >>> from indexset import SortedDict
        >>> SortedDict({1: "a"}).keys().count(1)
        1
        """
        return int(value in self._mapping)

    def index(self, value: object, start: Optional[int] = None, stop: Optional[int] = None) -> int:
        """Returns the position of a key, from `start` and before `stop`. Raises ValueError if there is none, TypeError
        if the key has no hash.

        >>> from indexset import SortedDict
        >>> SortedDict({2: "b", 1: "a"}).keys().index(2)
        1
        """
        position: int = self._mapping.index(value, start, stop)
        return position


class NodedValuesView(_Positions[V], ValuesView[V], Sequence[V]):
    """The values of a `LoggedDict` or a `Replica`, in the order of their keys, as they are at each call."""

    __slots__ = ()

    _part = staticmethod(itemgetter(1))


class NodedItemsView(_Positions[Tuple[K, V]], ItemsView[K, V], Sequence[Tuple[K, V]]):
    """The keys of a `LoggedDict` or a `Replica` in order, with their values, as they are at each call. Access by
    position is O(log n)."""

    __slots__ = ()

    @staticmethod
    def _part(pair: tuple[Any, Any]) -> Any:
        return pair

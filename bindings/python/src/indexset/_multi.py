"""An ordered dictionary whose keys may have several values."""
from __future__ import annotations

import math
from typing import Any, Generic, Iterable, Iterator, Literal, Optional, TypeVar, Union, overload

from ._kinds import NUMBERS, OBJECT, known
from ._library import position
from ._orders import kind_of
from ._pairs import NumberPairs, ObjectPairs

K = TypeVar("K")
V = TypeVar("V")
C = TypeVar("C", bound="SortedMultiDict[Any, Any]")
Whole = Literal["int64", "uint64"]


class SortedMultiDict(Generic[K, V]):
    """A sorted multimap: a key has several values, which are distinct and in insertion order.

    `keys` and `values` name their kinds, as for `SortedSet`. The library's multimap keeps numbers. Without names the
    kinds follow from the pairs, and numbers stay in the multimap until other keys or values are added.

    Cost: with n pairs, a call on one position is O(log n); a call on one key too, and also linear in the number of its
    values, except for `bisect_left` and `bisect_right`. Several threads may read a dictionary at the same time; the
    caller synchronizes changes.

    >>> tags = SortedMultiDict([(2, 30), (1, 10), (2, 20)]); tags
    SortedMultiDict([(1, 10), (2, 30), (2, 20)])
    >>> tags[2], tags.count(2), (2, 20) in tags, tags.remove(2, 30), tags[2]
    ([30, 20], 2, True, None, [20])
    >>> tags.peekitem(0), tags.bisect_left(2)
    ((1, 10), 1)
    >>> SortedMultiDict([("b", "x"), ("a", "y"), ("b", "w")])
    SortedMultiDict([('a', 'y'), ('b', 'x'), ('b', 'w')])
    """

    __slots__ = ("_pairs", "_named", "__weakref__")
    __hash__ = None  # type: ignore[assignment]

    @overload
    def __init__(
        self: SortedMultiDict[int, int], pairs: Iterable[tuple[int, int]] = ..., *, keys: Whole, values: Whole
    ) -> None:
        ...

    @overload
    def __init__(
        self, pairs: Iterable[tuple[K, V]] = ..., *, keys: Optional[str] = ..., values: Optional[str] = ...
    ) -> None:
        ...

    def __init__(
        self, pairs: Iterable[tuple[object, object]] = (), *, keys: Optional[str] = None, values: Optional[str] = None
    ) -> None:
        known(keys)
        known(values)
        self._named = keys, values
        self._pairs = self._of(keys or "int64", values or "int64")
        given: Any = pairs
        self.update(given)

    @staticmethod
    def _of(keys: str, values: str) -> Union[NumberPairs, ObjectPairs]:
        return NumberPairs(keys, values) if keys in NUMBERS and values in NUMBERS else ObjectPairs(keys, values)

    def _fit(self, key: Any, value: Any) -> None:
        """Finds the kinds for a new pair, if they have no names."""
        now = self._pairs.kinds
        wanted = [
            kind if name is not None else kind_of([item]) for name, kind, item in zip(self._named, now, (key, value))
        ]
        if len(self):
            wanted = [old if old == new or old == OBJECT else OBJECT for old, new in zip(now, wanted)]
        if tuple(wanted) != now:
            self._move(self._of(*wanted))

    def _move(self, made: Union[NumberPairs, ObjectPairs]) -> None:
        """Moves the pairs into an empty collection of them."""
        for pair in self.items():
            made.add(*pair)
        self._pairs = made

    @property
    def kinds(self) -> tuple[str, str]:
        """The names of the kinds of the keys and of the values.

        >>> SortedMultiDict([("a", 1)]).kinds
        ('str', 'int64')
        """
        return self._pairs.kinds

    def __len__(self) -> int:
        """Returns the number of pairs."""
        return len(self._pairs)

    # ---- pairs

    def add(self, key: K, value: V) -> bool:
        """Adds a value to those of a key, as the last. Returns False if the key has the value. Raises TypeError,
        OverflowError or ValueError if the key or the value does not fit.

        >>> tags = SortedMultiDict(); tags.add(1, 5), tags.add(1, 5)
        (True, False)
        """
        if None in self._named:
            if self._pairs.contains(key, value):
                return False
            self._fit(key, value)
        if isinstance(self._pairs, NumberPairs) and (_is_negative_zero(key) or _is_negative_zero(value)):
            self._move(ObjectPairs(*self._pairs.kinds))
        return self._pairs.add(key, value)

    def update(self, pairs: Iterable[tuple[K, V]]) -> None:
        """Adds each pair. Raises TypeError, OverflowError or ValueError at a pair that does not fit, after adding those
        before it.

        >>> tags = SortedMultiDict([(1, 5)]); tags.update([(1, 4), (0, 3)]); tags
        SortedMultiDict([(0, 3), (1, 5), (1, 4)])
        """
        for key, value in pairs:
            self.add(key, value)

    def remove(self, key: object, value: object) -> None:
        """Removes a value of a key. Raises KeyError if the key does not have the value, TypeError if the key has no
        hash.

        >>> tags = SortedMultiDict([(1, 5), (1, 4)]); tags.remove(1, 5); tags
        SortedMultiDict([(1, 4)])
        """
        if not self.discard(key, value):
            raise KeyError((key, value))

    def discard(self, key: object, value: object) -> bool:
        """Removes a value of a key. Returns whether the key had the value. Raises TypeError if the key has no hash.

        >>> SortedMultiDict([(1, 5)]).discard(1, 6)
        False
        """
        return self._pairs.discard(key, value)

    def pop(self, key: object) -> V:
        """Removes the first value of a key and returns it. Raises KeyError if the key is absent, TypeError if it has no
        hash.

        >>> SortedMultiDict([(1, 5), (1, 4)]).pop(1)
        5
        """
        value: V = self._pairs.pop(key)
        return value

    def popitem(self, index: int = -1) -> tuple[K, V]:
        """Removes the pair at a position, by default the last, and returns it. Raises KeyError if the dictionary is
        empty, IndexError if there is no such position.

        >>> SortedMultiDict([(1, 5), (1, 4), (2, 3)]).popitem(1)
        (1, 4)
        """
        if not len(self):
            raise KeyError("popitem(): dictionary is empty")
        return self._pairs.pop_at(position(index, len(self)))

    def clear(self) -> None:
        """Removes all pairs.

        >>> tags = SortedMultiDict([(1, 5)]); tags.clear(); tags
        SortedMultiDict([])
        """
        self._pairs.clear()

    # ---- reads

    def __contains__(self, pair: object) -> bool:
        """Returns whether a pair of a key and a value is present."""
        return isinstance(pair, tuple) and len(pair) == 2 and self._pairs.contains(*pair)

    def has_key(self, key: object) -> bool:
        """Returns whether a key is present. Raises TypeError if it has no hash.

        >>> SortedMultiDict([(1, 5)]).has_key(1), SortedMultiDict([(1, 5)]).has_key(2)
        (True, False)
        """
        return self._pairs.count(key) > 0

    def count(self, key: object) -> int:
        """Returns the number of values of a key. Raises TypeError if the key has no hash.

        >>> SortedMultiDict([(1, 5), (1, 4)]).count(1)
        2
        """
        return self._pairs.count(key)

    def get(self, key: object) -> list[V]:
        """Returns the values of a key, in insertion order; an empty list if the key is absent. Raises TypeError if the
        key has no hash.

        >>> SortedMultiDict([(1, 5), (1, 4)]).get(1), SortedMultiDict().get(1)
        ([5, 4], [])
        """
        return self._pairs.get(key)

    def __getitem__(self, key: object) -> list[V]:
        """Returns the values of a key. Raises KeyError if the key is absent."""
        values = self.get(key)
        if not values:
            raise KeyError(key)
        return values

    def first(self) -> tuple[K, V]:
        """Returns the least key with its first value. Raises IndexError if there is none.

        >>> SortedMultiDict([(1, 5), (2, 4)]).first()
        (1, 5)
        """
        return self._end(False)

    def last(self) -> tuple[K, V]:
        """Returns the greatest key with its last value. Raises IndexError if there is none.

        >>> SortedMultiDict([(1, 5), (2, 4)]).last()
        (2, 4)
        """
        return self._end(True)

    def _end(self, last: bool) -> tuple[K, V]:
        pair = self._pairs.end(last)
        if pair is None:
            raise IndexError("dictionary is empty")
        return pair

    # ---- positions

    def peekitem(self, index: int = -1) -> tuple[K, V]:
        """Returns the pair at a position, by default the last. Raises IndexError if there is none. O(log n).

        >>> SortedMultiDict([(1, 5), (1, 4), (2, 3)]).peekitem(1)
        (1, 4)
        """
        return self._pairs.at(position(index, len(self)))

    def bisect_left(self, key: object) -> int:
        """Returns the number of pairs with keys below a key: the position of the key's first value, if any. Raises
        TypeError if the key cannot be compared with the keys.

        >>> tags = SortedMultiDict([(1, 5), (3, 4), (3, 3)]); tags.bisect_left(3), tags.bisect_right(3)
        (1, 3)
        """
        return self._pairs.bisect(key, False)

    def bisect_right(self, key: object) -> int:
        """Returns the number of pairs with keys not above a key. Raises TypeError if it cannot be compared with the
        keys.

        >>> SortedMultiDict([(1, 5), (1, 4), (2, 3)]).bisect_right(1)
        2
        """
        return self._pairs.bisect(key, True)

    bisect = bisect_right

    def islice(
        self, start: Optional[int] = None, stop: Optional[int] = None, reverse: bool = False
    ) -> Iterator[tuple[K, V]]:
        """Iterates over the pairs at the positions from `start` and before `stop`, as they are at the call. O(log n),
        and linear in their number.

        >>> list(SortedMultiDict([(1, 5), (1, 4), (2, 3)]).islice(1))
        [(1, 4), (2, 3)]
        """
        first, past, _ = slice(start, stop).indices(len(self))
        pairs = self._pairs.chunk(first, past)
        return reversed(list(pairs)) if reverse else pairs

    def irange(self, minimum: object = None, maximum: object = None) -> Iterator[tuple[K, V]]:
        """Iterates over the pairs of the keys between two values, both included, as they are at the call. Raises
        TypeError if a value cannot be compared with the keys.

        >>> list(SortedMultiDict([(1, 10), (3, 30), (3, 31), (5, 50)]).irange(2, 4))
        [(3, 30), (3, 31)]
        """
        return self._pairs.range(minimum, maximum)

    def items(self) -> Iterator[tuple[K, V]]:
        """Iterates over all pairs, in order, as they are at the call.

        >>> list(SortedMultiDict([(2, 4), (1, 5)]).items())
        [(1, 5), (2, 4)]
        """
        return self.irange()

    __iter__ = items

    # ---- the object

    def copy(self: C) -> C:
        """Returns a dictionary of the same pairs and, of a subclass, the same attributes. Linear in the number of
        pairs. Raises MemoryError if memory runs out.

        >>> SortedMultiDict([(2, 4), (1, 5)]).copy()
        SortedMultiDict([(1, 5), (2, 4)])
        """
        made: C = _restored(type(self), list(self.items()), *self._named)
        if hasattr(self, "__dict__"):
            made.__dict__.update(self.__dict__)
        return made

    def __copy__(self: C) -> C:
        """Returns a copy, with the attributes of a subclass."""
        return self.copy()

    def __eq__(self, other: object) -> bool:
        if not isinstance(other, SortedMultiDict):
            return NotImplemented
        return len(self) == len(other) and list(self.items()) == list(other.items())

    def __repr__(self) -> str:
        kinds = "".join(f", {name}={kind!r}" for name, kind in zip(("keys", "values"), self._named) if kind is not None)
        return f"{type(self).__name__}({list(self.items())}{kinds})"

    def __reduce__(self) -> tuple[object, ...]:
        state = getattr(self, "__dict__", None) or None
        return _restored, (type(self), list(self.items()), *self._named), state


def _is_negative_zero(item: object) -> bool:
    return type(item) is float and not item and math.copysign(1, item) < 0


def _restored(cls: Any, pairs: list[Any], keys: Optional[str], values: Optional[str]) -> Any:
    made = cls.__new__(cls)
    SortedMultiDict.__init__(made, pairs, keys=keys, values=values)
    return made

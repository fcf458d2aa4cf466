"""The base of a sorted set and a sorted list: items at positions, and iteration over them."""
from __future__ import annotations

from array import array
from collections.abc import Sequence
from importlib import import_module
from operator import index as as_index
from reprlib import recursive_repr
from typing import Any, Callable, Generic, Iterable, Iterator, Optional, SupportsIndex, TypeVar, Union, overload

from ._kinds import items_of, known
from ._backend import IndexedBase, Numbers
from ._orders import Compared, KeyFunction, Order, Repeated, Run, duplicate, empty_order, fitted, gathered, settled
from ._ctypes import ARRAYS

T = TypeVar("T")
S = TypeVar("S", bound="Sorted[Any]")
# The methods `__init__` of the package's own classes.
OWN_INITS: set[Any] = set()
# If one item or more of this many is removed, the order is rebuilt from the others.
_PART = 8


class Sorted(IndexedBase[T], Sequence[T], Generic[T]):
    """Items in order, each at a position. A subclass determines which items it takes."""

    __slots__ = ("_named",)

    _repeats = False
    _named: Optional[str]

    def _begin(self, kind: Optional[str], key: KeyFunction) -> None:
        """Becomes empty."""
        known(kind)
        self._named = kind
        self._order = empty_order(kind or "int64", key, self._repeats)
        self._members = None if self._repeats else set()

    @property
    def kind(self) -> str:
        """The name of the kind of the items, or of the results of `key`: "int64", "uint64", "float64", "str", "bytes",
        "any", or "object" if Python's own `<` compares them.

        >>> from indexset import SortedSet
        >>> SortedSet([1]).kind, SortedSet([(1,)]).kind, SortedSet(["ab"], key=len).kind
        ('int64', 'object', 'int64')
        """
        kind: str = self._order.kind
        return kind

    @property
    def key(self) -> Optional[Callable[[T], object]]:
        """The function whose results order the items, or None if the items order themselves.

        >>> from indexset import SortedSet
        >>> SortedSet(key=len).key, SortedSet().key
        (<built-in function len>, None)
        """
        return getattr(self._order, "key", None)

    def _fitting(self, items: list[Any]) -> Any:
        """Returns the order for the items once others are added: without a named kind it may be another than now."""
        return settled(self._order if self._named else fitted(self._order, items, self.key, self._repeats), items)

    def _gathered(self, order: Order, items: list[Any]) -> Optional[Order]:
        """Returns a run of the items of an order and of others, if these are many and fit."""
        return gathered(order, items, self._named, self.key, self._repeats)

    def _settled(self) -> Any:
        """Returns the order of the items, ready for changes."""
        order = self._order
        if isinstance(order, Run) and order.is_due:
            self._become(order.settled())
        return self._order

    def _become(self, order: Order) -> None:
        """Replaces the order by another, which has its items and possibly more."""
        if order is not self._order:
            self._order.changed()
            self._order = order

    # ---- positions

    def _slice(self, position: slice) -> list[T]:
        first, past, step = position.indices(len(self))
        if step == 1:
            chunk: list[T] = self._order.chunk(first, past)
            return chunk
        at = range(first, past, step)
        if not at:
            return []
        found: list[T] = self._order.chunk(min(at[0], at[-1]), max(at[0], at[-1]) + 1)
        return found[::step]

    def __delitem__(self, position: Union[SupportsIndex, slice]) -> None:
        """Removes the item at a position, or those at a slice. Raises IndexError if a position has none."""
        if not isinstance(position, slice):
            self.pop(position)
            return
        at = range(*position.indices(len(self)))
        if at and abs(at.step) == 1:
            self._cut(min(at[0], at[-1]), max(at[0], at[-1]) + 1)
            return
        for one in sorted(at, reverse=True):
            self.pop(one)

    def _cut(self, first: int, past: int) -> None:
        """Removes the items at the positions from `first` and before `past`, all at once if they are many."""
        if past - first == len(self):
            self.clear()
            return
        order, left = self._order, None
        if not isinstance(order, (Compared, Run)) and (past - first) * _PART >= len(self):
            rest = order.chunk(0, first) + order.chunk(past, len(self))
            left = self._gathered(empty_order(order.kind, self.key, self._repeats), rest)
        if left is None and not isinstance(order, (Compared, Run)):
            for at in range(past - 1, first - 1, -1):
                self.pop(at)
            return
        self._forget(first, past)
        if left is None:
            order.cut(first, past)
        else:
            self._become(left)

    def _forget(self, first: int, past: int) -> None:
        """Removes the items at positions from the set of items, if there is one."""
        members = self._members
        if members is not None and 2 * (past - first) < len(self):
            members.difference_update(self._order.chunk(first, past))
        elif members is not None:
            self._members = set(self._order.chunk(0, first) + self._order.chunk(past, len(self)))

    def pop(self, index: SupportsIndex = -1) -> T:
        """Removes the item at a position, by default the last, and returns it. Raises IndexError if there is none.
        O(log n).

        >>> from indexset import SortedList
        >>> numbers = SortedList([3, 1, 2]); numbers.pop(), numbers.pop(0)
        (3, 1)
        """
        if isinstance(self._order, Run):
            self._order[as_index(index)]
        item: T = self._settled().pop(index)
        return item

    def index(self, value: object, start: Optional[int] = None, stop: Optional[int] = None) -> int:
        """Returns the first position of a value, from `start` and before `stop`. Raises ValueError if there is none.
        O(log n), and linear in the number of items with its sort key.

        >>> from indexset import SortedList
        >>> SortedList([3, 1, 3]).index(3), SortedList([3, 1, 3]).index(3, 2)
        (1, 2)
        """
        first, past = 0, len(self)
        if start is not None or stop is not None:
            first, past, _ = slice(start, stop).indices(past)
        position = self._find(value, first)
        if not first <= position < past:
            raise ValueError(f"{value!r} is not there")
        return position

    def _find(self, value: object, first: int) -> int:
        """Returns the first position of a value, from a position on, or -1."""
        order = self._order
        found: int = order.find(value) if len(order) else -1
        if not 0 <= found < first or isinstance(order, Numbers):
            return found
        if isinstance(order, Repeated) and order.key is None:
            return first if first < order.bisect(value, True) else -1
        found = order.find_from(value, first)
        return found

    def bisect_key_left(self, key: object) -> int:
        """Returns the number of items with sort keys below a key. Raises TypeError if it cannot be compared with them.

        >>> from indexset import SortedKeyList
        >>> SortedKeyList(["a", "bb", "cc"], key=len).bisect_key_left(2)
        1
        """
        order = self._order
        position: int = order.place(key, False) if len(order) else 0
        return position

    def bisect_key_right(self, key: object) -> int:
        """Returns the number of items with sort keys not above a key. Raises TypeError if it cannot be compared with
        them.

        >>> from indexset import SortedKeyList
        >>> SortedKeyList(["a", "bb", "cc"], key=len).bisect_key_right(2)
        3
        """
        order = self._order
        position: int = order.place(key, True) if len(order) else 0
        return position

    bisect_key = bisect_key_right

    # ---- iteration

    def __reversed__(self) -> Iterator[T]:
        """Iterates over the items from the last to the first."""
        return self.islice(reverse=True)

    def islice(self, start: Optional[int] = None, stop: Optional[int] = None, reverse: bool = False) -> Iterator[T]:
        """Iterates over the items at the positions from `start` and before `stop`. The iterator raises RuntimeError
        after a change.

        >>> from indexset import SortedSet
        >>> list(SortedSet([1, 2, 3]).islice(1)), list(SortedSet([1, 2, 3]).islice(0, 2, reverse=True))
        ([2, 3], [2, 1])
        """
        first, past, _ = slice(start, stop).indices(len(self))
        walk: Iterator[T] = self._order.walk(first, past, reverse)
        return walk

    def irange(
        self,
        minimum: object = None,
        maximum: object = None,
        inclusive: tuple[bool, bool] = (True, True),
        reverse: bool = False,
    ) -> Iterator[T]:
        """Iterates over the items between two values, each included or not; None is no bound. Raises TypeError if a
        value cannot be compared with the items. The iterator raises RuntimeError after a change.

        >>> from indexset import SortedSet
        >>> list(SortedSet([1, 2, 3]).irange(2)), list(SortedSet([1, 2, 3]).irange(1, 3, (False, False)))
        ([2, 3], [2])
        """
        first = 0 if minimum is None else self._order.bisect(minimum, not inclusive[0])
        past = len(self) if maximum is None else self._order.bisect(maximum, inclusive[1])
        walk: Iterator[T] = self._order.walk(first, past, reverse)
        return walk

    def irange_key(
        self,
        min_key: object = None,
        max_key: object = None,
        inclusive: tuple[bool, bool] = (True, True),
        reverse: bool = False,
    ) -> Iterator[T]:
        """Iterates over the items with sort keys between two keys, each included or not; None is no bound. Raises
        TypeError if a key cannot be compared with the sort keys. The iterator raises RuntimeError after a change.

        >>> from indexset import SortedKeyList
        >>> list(SortedKeyList(["a", "bb", "cc", "ddd"], key=len).irange_key(2, 2))
        ['bb', 'cc']
        """
        first, past = 0, len(self)
        if min_key is not None:
            first = self.bisect_key_right(min_key) if not inclusive[0] else self.bisect_key_left(min_key)
        if max_key is not None:
            past = self.bisect_key_right(max_key) if inclusive[1] else self.bisect_key_left(max_key)
        walk: Iterator[T] = self._order.walk(first, past, reverse)
        return walk

    # ---- arrays

    @overload
    def to_array(self: Sorted[int]) -> array[int]:
        ...

    @overload
    def to_array(self: Sorted[float]) -> array[float]:
        ...

    def to_array(self) -> Union[array[int], array[float]]:
        """Returns the items as an array of 64-bit numbers, which has a buffer: `numpy.asarray(items.to_array())` copies
        nothing, and `numpy.asarray(items)` uses it. Raises TypeError if the kind is not one of numbers, or if `key` is
        given.

        >>> from indexset import SortedSet
        >>> SortedSet([3, 1, 2]).to_array(), SortedSet([0.5]).to_array()
        (array('q', [1, 2, 3]), array('d', [0.5]))
        """
        if self.kind not in ARRAYS or self.key is not None:
            raise TypeError(f"items of a kind of numbers that order themselves are needed, not of {self.kind!r}")
        made: Any = array(ARRAYS[self.kind])
        made.frombytes(self._order.numbers())
        return made  # type: ignore[no-any-return]

    def __array__(self, dtype: object = None, copy: object = None) -> object:
        """Returns the items as an array of numpy."""
        numpy: Any = import_module("numpy")
        if self.kind in ARRAYS and self.key is None:
            numbers: Any = self
            return numpy.asarray(numbers.to_array(), dtype=dtype)
        return numpy.array(self._order.chunk(0, len(self)), dtype=dtype)

    # ---- the object

    def _empty(self) -> Any:
        """Returns another collection of the same class, kind and key, without items. Runs the `__init__` of a
        subclass."""
        cls: Any = type(self)
        if cls.__init__ in OWN_INITS:
            made = cls.__new__(cls)
            made._begin(self._named, self.key)
            return made
        words = {name: word for name, word in (("key", self.key), ("keys", self._named)) if word is not None}
        made = cls((), **words)
        made.clear()
        return made

    def _made(self, items: list[Any]) -> Any:
        """Returns another collection with the items of a list that is not used afterwards."""
        made = self._empty()
        made._filled(items)
        return made

    def copy(self: S) -> S:
        """Returns another collection of the same class with the same items. Linear in their number. Raises MemoryError
        if memory runs out.

        >>> from indexset import SortedList
        >>> numbers = SortedList([2, 1]); other = numbers.copy(); other.add(0); numbers, other
        (SortedList([1, 2]), SortedList([0, 1, 2]))
        """
        made: S = self._empty()
        made._order = duplicate(self._order, self._repeats)
        made._members = None if self._members is None else self._members.copy()
        return made

    def __copy__(self: S) -> S:
        """Returns a copy, with the attributes of a subclass."""
        made = self.copy()
        if hasattr(self, "__dict__"):
            made.__dict__.update(self.__dict__)
        return made

    def _fill(self, items: Iterable[Any]) -> None:
        """Adds items."""
        self._filled(items_of(items))

    def _filled(self, given: list[T]) -> None:
        """Adds the items of a list that is not used afterwards."""
        raise NotImplementedError

    def clear(self) -> None:
        """Removes all items.

        >>> from indexset import SortedSet
        >>> numbers = SortedSet([1]); numbers.clear(); numbers
        SortedSet([])
        """
        raise NotImplementedError

    @recursive_repr("...")
    def __repr__(self) -> str:
        key = "" if self.key is None else f", key={self.key!r}"
        kind = "" if self._named is None else f", keys={self._named!r}"
        return f"{type(self).__name__}({list(self)!r}{key}{kind})"

    def __reduce__(self) -> tuple[object, ...]:
        return _restored, (type(self), list(self), self.key, self._named), getattr(self, "__dict__", None) or None


def _restored(cls: Any, items: list[Any], key: KeyFunction, kind: Optional[str]) -> Any:
    made = cls.__new__(cls)
    made._begin(kind, key)
    made._fill(items)
    return made

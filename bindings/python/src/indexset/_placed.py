"""A dictionary of keys in order, with access by position, and iteration over them."""
from __future__ import annotations

from typing import Callable, Generic, Iterator, Optional, SupportsIndex, TypeVar

from ._backend import DictBase

K = TypeVar("K")
V = TypeVar("V")


class Placed(DictBase[K, V], Generic[K, V]):
    """The access by position of a sorted dictionary."""

    __slots__ = ()

    @property
    def kind(self) -> str:
        """The name of the kind of the keys, as in `SortedSet.kind`.

        >>> from indexset import SortedDict
        >>> SortedDict({"a": 1}).kind
        'str'
        """
        kind: str = self._order.kind
        return kind

    @property
    def key(self) -> Optional[Callable[[K], object]]:
        """The function whose results order the keys, or None if the keys order themselves.

        >>> from indexset import SortedDict
        >>> SortedDict(len, {"a": 1}).key
        <built-in function len>
        """
        return getattr(self._order, "key", None)

    # ---- positions

    def peekitem(self, index: SupportsIndex = -1) -> tuple[K, V]:
        """Returns the key and the value at a position, by default the last. Raises IndexError if there is none.

        >>> from indexset import SortedDict
        >>> SortedDict({1: "a", 2: "b"}).peekitem()
        (2, 'b')
        """
        key = self._order[index]
        return key, self[key]

    def index(self, value: object, start: Optional[int] = None, stop: Optional[int] = None) -> int:
        """Returns the position of a key, from `start` and before `stop`. Raises ValueError if there is none, TypeError
        if the key has no hash.

        >>> from indexset import SortedDict
        >>> SortedDict({1: "a", 2: "b"}).index(2)
        1
        """
        first, past, _ = slice(start, stop).indices(len(self))
        if value in self:
            position: int = self._order.find(value)
            if first <= position < past:
                return position
        raise ValueError(f"{value!r} is not there")

    def bisect_left(self, value: object) -> int:
        """Returns the number of keys below a value. Raises TypeError if it cannot be compared with them, ValueError if
        it is NaN.

        >>> from indexset import SortedDict
        >>> SortedDict({10: "a", 20: "b"}).bisect_left(20)
        1
        """
        position: int = self._order.bisect(value, False)
        return position

    def bisect_right(self, value: object) -> int:
        """Returns the number of keys not above a value. Raises TypeError if it cannot be compared with them, ValueError
        if it is NaN.

        >>> from indexset import SortedDict
        >>> SortedDict({10: "a", 20: "b"}).bisect_right(20)
        2
        """
        position: int = self._order.bisect(value, True)
        return position

    bisect = bisect_right

    def bisect_key_left(self, key: object) -> int:
        """Returns the number of keys with sort keys below one. Raises TypeError if it cannot be compared with them.

        >>> from indexset import SortedDict
        >>> SortedDict(len, {"a": 0, "bb": 1, "cc": 2}).bisect_key_left(2)
        1
        """
        order = self._order
        position: int = order.place(key, False) if len(order) else 0
        return position

    def bisect_key_right(self, key: object) -> int:
        """Returns the number of keys with sort keys not above one. Raises TypeError if it cannot be compared with them.

        >>> from indexset import SortedDict
        >>> SortedDict(len, {"a": 0, "bb": 1, "cc": 2}).bisect_key_right(2)
        3
        """
        order = self._order
        position: int = order.place(key, True) if len(order) else 0
        return position

    bisect_key = bisect_key_right

    # ---- iteration

    def __reversed__(self) -> Iterator[K]:
        """Iterates over the keys from the last to the first."""
        walk: Iterator[K] = self._order.walk(0, len(self), True)
        return walk

    def islice(self, start: Optional[int] = None, stop: Optional[int] = None, reverse: bool = False) -> Iterator[K]:
        """Iterates over the keys at the positions from `start` and before `stop`. The iterator raises RuntimeError
        after a key was added or removed.

        >>> from indexset import SortedDict
        >>> list(SortedDict({1: "a", 2: "b", 3: "c"}).islice(1))
        [2, 3]
        """
        first, past, _ = slice(start, stop).indices(len(self))
        walk: Iterator[K] = self._order.walk(first, past, reverse)
        return walk

    def irange(
        self,
        minimum: object = None,
        maximum: object = None,
        inclusive: tuple[bool, bool] = (True, True),
        reverse: bool = False,
    ) -> Iterator[K]:
        """Iterates over the keys between two values, each included or not; None is no bound. Raises TypeError if a
        value cannot be compared with the keys. The iterator raises RuntimeError after a key was added or removed.

        >>> from indexset import SortedDict
        >>> list(SortedDict({1: "a", 2: "b", 3: "c"}).irange(2))
        [2, 3]
        """
        first = 0 if minimum is None else self._order.bisect(minimum, not inclusive[0])
        past = len(self) if maximum is None else self._order.bisect(maximum, inclusive[1])
        walk: Iterator[K] = self._order.walk(first, past, reverse)
        return walk

    def irange_key(
        self,
        min_key: object = None,
        max_key: object = None,
        inclusive: tuple[bool, bool] = (True, True),
        reverse: bool = False,
    ) -> Iterator[K]:
        """Iterates over the keys with sort keys between two, each included or not; None is no bound. Raises TypeError
        if one cannot be compared with the sort keys. The iterator raises RuntimeError after a key was added or removed.

        >>> from indexset import SortedDict
        >>> list(SortedDict(len, {"a": 0, "bb": 1, "cc": 2}).irange_key(2))
        ['bb', 'cc']
        """
        first, past = 0, len(self)
        if min_key is not None:
            first = self.bisect_key_right(min_key) if not inclusive[0] else self.bisect_key_left(min_key)
        if max_key is not None:
            past = self.bisect_key_right(max_key) if inclusive[1] else self.bisect_key_left(max_key)
        walk: Iterator[K] = self._order.walk(first, past, reverse)
        return walk

"""Pairs of a key and a value, in the order of the keys, those of a key in insertion order."""
from __future__ import annotations

from operator import itemgetter
from typing import Any, Iterable, Iterator, Optional

from . import _library as library
from ._kinds import ALL, KINDS, NUMBERS
from ._library import Number, check, lib, memory, place, zeros
from ._orders import order_of

Pair = tuple[Any, Any]


def between(kind: Any, minimum: Any, maximum: Any) -> Optional[tuple[int, int]]:
    """Returns the least and the greatest number of the keys between two values, both included, or None."""
    low = 0 if minimum is None else kind.bound(minimum)[0]
    high = ALL
    if maximum is not None:
        high, exact = kind.bound(maximum)
        high -= not exact
    return (low, high) if low <= ALL and high >= 0 and low <= high else None


def bound(kind: Any, value: Any, right: bool) -> int:
    """Returns the least number of a key that is not below a value, or, to the right, above it; 2**64 or more if there
    is none."""
    number, exact = kind.bound(value)
    return int(number + (right and exact))


class NumberPairs:
    """Pairs of numbers, in a multimap of the library."""

    __slots__ = ("_handle", "_keys", "_values", "kinds")

    def __init__(self, keys: str, values: str) -> None:
        self.kinds = keys, values
        self._keys, self._values = NUMBERS[keys], NUMBERS[values]
        self._handle = library.new("multi")

    def __len__(self) -> int:
        size: int = lib.indexset_multi_len(self._handle)
        return size

    def add(self, key: Any, value: Any) -> bool:
        """Adds a pair after those of its key. Returns whether it was absent."""
        return check(lib.indexset_multi_insert(self._handle, self._keys.code(key), self._values.code(value)))

    def discard(self, key: Any, value: Any) -> bool:
        """Removes a pair. Returns whether it was present."""
        found = self._keys.find(key), self._values.find(value)
        return None not in found and check(lib.indexset_multi_remove(self._handle, *found))

    def pop(self, key: Any) -> Any:
        """Removes the first value of a key and returns it. Raises KeyError if the key is absent."""
        code, out = self._keys.find(key), Number()
        if code is None or not check(lib.indexset_multi_remove_first(self._handle, code, place(out))):
            raise KeyError(key)
        return self._values.decode(out.value)

    def contains(self, key: Any, value: Any) -> bool:
        """Returns whether a pair is present."""
        found = self._keys.find(key), self._values.find(value)
        return None not in found and lib.indexset_multi_contains(self._handle, *found)

    def count(self, key: Any) -> int:
        """Returns the number of values of a key."""
        code = self._keys.find(key)
        count: int = 0 if code is None else lib.indexset_multi_count(self._handle, code)
        return count

    def get(self, key: Any) -> list[Any]:
        """Returns the values of a key."""
        size = self.count(key)
        out = zeros(size)
        if size:
            del out[lib.indexset_multi_get(self._handle, self._keys.find(key), memory(out), size) :]
        return list(map(self._values.decode, out))

    def end(self, last: bool) -> Optional[Pair]:
        """Returns the first or the last pair, or None if there is none."""
        key, value = Number(), Number()
        call = lib.indexset_multi_last if last else lib.indexset_multi_first
        if not call(self._handle, place(key), place(value)):
            return None
        return self._keys.decode(key.value), self._values.decode(value.value)

    def range(self, minimum: Any, maximum: Any) -> Iterator[Pair]:
        """Iterates over the pairs of the keys between two values, as they are at the call."""
        ends = between(self._keys, minimum, maximum)
        if ends is None:
            return iter(())
        keys, values = library.pairs(lib.indexset_multi_range, self._handle, *ends, size=len(self))
        return self._decoded(keys, values)

    def _decoded(self, keys: Iterable[int], values: Iterable[int]) -> Iterator[Pair]:
        return zip(map(self._keys.decode, keys), map(self._values.decode, values))

    def bisect(self, key: Any, right: bool) -> int:
        """Returns the number of pairs with keys below a key, or not above it."""
        size = len(self)
        number = bound(self._keys, key, right) if size else 0
        rank: int = size if number > ALL else lib.indexset_multi_rank(self._handle, number)
        return rank

    def at(self, position: int) -> Pair:
        """Returns the pair at a position. Raises IndexError if there is none."""
        return self._read(lib.indexset_multi_at, position)

    def pop_at(self, position: int) -> Pair:
        """Removes the pair at a position and returns it. Raises IndexError if there is none."""
        return self._read(lib.indexset_multi_remove_at, position)

    def _read(self, call: Any, position: int) -> Pair:
        key, value = Number(), Number()
        if not check(call(self._handle, position, place(key), place(value))):
            raise IndexError("index out of range")
        return self._keys.decode(key.value), self._values.decode(value.value)

    def chunk(self, first: int, past: int) -> Iterator[Pair]:
        """Iterates over the pairs at the positions from `first` and before `past`."""
        size = max(0, past - first)
        return self._decoded(*library.pairs(lib.indexset_multi_range_by_position, self._handle, first, size=size))

    def clear(self) -> None:
        """Removes all pairs."""
        lib.indexset_multi_clear(self._handle)


def stored(kind: str, item: Any) -> Any:
    """Returns a key or a value as it is stored: a number of another type becomes one of Python. Raises TypeError,
    OverflowError or ValueError if it does not fit the kind."""
    if kind in NUMBERS:
        code = NUMBERS[kind].code(item)
        return item if type(item) is (float if kind == "float64" else int) else NUMBERS[kind].decode(code)
    if kind in KINDS:
        KINDS[kind].raw(item)
    return item


class ObjectPairs:
    """Pairs of any keys with an order, and of values with a hash."""

    __slots__ = ("_order", "_values", "kinds")

    def __init__(self, keys: str, values: str) -> None:
        self.kinds = keys, values
        self._order: Any = order_of(keys, itemgetter(0), True)
        # The values of a key, in insertion order.
        self._values: dict[Any, dict[Any, Pair]] = {}

    def __len__(self) -> int:
        return len(self._order)

    def add(self, key: Any, value: Any) -> bool:
        key, value = map(stored, self.kinds, (key, value))
        if value in self._values.get(key, ()):
            return False
        pair = key, value
        self._order.add(pair)
        self._values.setdefault(key, {})[value] = pair
        return True

    def discard(self, key: Any, value: Any) -> bool:
        values = self._values.get(key, {})
        if value not in values:
            return False
        self._order.discard(values.pop(value))
        if not values:
            del self._values[key]
        return True

    def pop(self, key: Any) -> Any:
        value = next(iter(self._values[key]))
        self.discard(key, value)
        return value

    def contains(self, key: Any, value: Any) -> bool:
        return value in self._values.get(key, ())

    def count(self, key: Any) -> int:
        return len(self._values.get(key, ()))

    def get(self, key: Any) -> list[Any]:
        return list(self._values.get(key, ()))

    def end(self, last: bool) -> Optional[Pair]:
        found: Optional[Pair] = self._order[-1 if last else 0] if len(self) else None
        return found

    def range(self, minimum: Any, maximum: Any) -> Iterator[Pair]:
        first = 0 if minimum is None else self._order.place(minimum, False)
        past = len(self) if maximum is None else self._order.place(maximum, True)
        return self.chunk(first, past)

    def bisect(self, key: Any, right: bool) -> int:
        position: int = self._order.place(key, right) if len(self) else 0
        return position

    def at(self, position: int) -> Pair:
        pair: Pair = self._order[position]
        return pair

    def pop_at(self, position: int) -> Pair:
        pair: Pair = self._order.pop(position)
        key, value = pair
        del self._values[key][value]
        if not self._values[key]:
            del self._values[key]
        return pair

    def chunk(self, first: int, past: int) -> Iterator[Pair]:
        return iter(self._order.chunk(first, past))

    def clear(self) -> None:
        self._order.clear()
        self._values.clear()

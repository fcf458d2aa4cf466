"""Orders of numbers in the ctypes backend: a class that the compiled module `_speedups` has too."""
from __future__ import annotations

from array import array
from itertools import chain
from operator import index as as_index
from typing import Any, Generic, Iterable, Iterator, Optional, TypeVar

from . import _library as library
from ._kinds import ALL, NUMBERS, TOP, codes_of, flipped, turned
from ._library import YES, Count, Number, check, lib, memory, place, zeros

BACKEND = "ctypes"

T = TypeVar("T")
_CHUNK = 512


class Ordered(Generic[T]):
    """Items at positions, and the number of changes made to them."""

    __slots__ = ("changes", "_walked", "_out", "_place")

    def __init__(self) -> None:
        self.changes = 0
        # The lists that iterators are in, by their addresses.
        self._walked: dict[int, list[T]] = {}
        # The number that the library writes in a change: changes do not run concurrently.
        self._out = Number()
        self._place = place(self._out)

    def __len__(self) -> int:
        raise NotImplementedError

    def __getitem__(self, index: int) -> T:
        raise NotImplementedError

    def chunk(self, first: int, past: int) -> list[T]:
        """Returns the items at the positions from `first` and before `past`."""
        raise NotImplementedError

    def changed(self) -> None:
        """Counts a change, and ends the lists that iterators are in."""
        self.changes += 1
        if self._walked:
            for part in list(self._walked.values()):
                part.clear()

    def walk(self, first: int, past: int, reverse: bool) -> Iterator[T]:
        """Iterates over the items at these positions. Raises RuntimeError after a change."""
        return chain.from_iterable(self._parts(first, past, reverse))

    def _parts(self, first: int, past: int, reverse: bool) -> Iterator[list[T]]:
        seen, size = self.changes, 1
        while first < past and self.changes == seen:
            size = min(size, past - first)
            start = past - size if reverse else first
            first, past = (first, start) if reverse else (start + size, past)
            if size == 1:
                yield [self[start]]
            else:
                yield from self._part(start, start + size, reverse, seen)
            size = min(size * 8, _CHUNK)
        if self.changes != seen:
            raise RuntimeError("it changed during iteration")

    def _part(self, first: int, past: int, reverse: bool, seen: int) -> Iterator[list[T]]:
        """Yields a list that a change empties."""
        part = self.chunk(first, past)
        if reverse:
            part.reverse()
        self._walked[id(part)] = part
        try:
            if self.changes == seen:
                yield part
        finally:
            del self._walked[id(part)]

    def _position(self, index: int) -> int:
        """Returns a position counted from 0, which may be past the end."""
        at = index if type(index) is int else as_index(index)
        at = at + len(self) if at < 0 else at
        if not 0 <= at <= ALL:
            raise IndexError("index out of range")
        return at


# The type codes of `array` for the numbers of each kind.
ARRAYS = {"int64": "q", "uint64": "Q", "float64": "d"}


def _decode_negative(code: int) -> float:
    number: float = NUMBERS["float64"].decode(code)
    return number or -0.0


class Numbers(Ordered[Any]):
    """Distinct numbers of a kind, in order, in a set of the library."""

    __slots__ = ("_handle", "_kind", "_code", "_find", "_decode", "_own")

    def __init__(self, kind: str) -> None:
        self._begin(NUMBERS[kind])
        self._handle = library.new("set")

    def _begin(self, kind: Any) -> None:
        super().__init__()
        self._kind = kind
        self._code, self._find, self._decode = kind.code, kind.find, kind.decode
        self._own = float if kind.name == "float64" else int

    @property
    def kind(self) -> str:
        """The name of the kind."""
        name: str = self._kind.name
        return name

    def clone(self) -> Numbers:
        """Returns a clone."""
        made = Numbers.__new__(Numbers)
        made._begin(self._kind)
        made._decode = self._decode
        made._handle = library.handle("set")
        check(lib.indexset_set_clone(self._handle, made._handle))
        return made

    def __len__(self) -> int:
        size: int = lib.indexset_set_len(self._handle)
        return size

    def __contains__(self, value: Any) -> bool:
        return self.holds(value)

    def holds(self, value: Any) -> bool:
        """Returns whether a key equals a value."""
        code = self._find(value)
        return code is not None and lib.indexset_set_contains(self._handle, code)

    def __getitem__(self, index: int) -> Any:
        out = Number()
        if not lib.indexset_set_at(self._handle, self._position(index), place(out)):
            raise IndexError("index out of range")
        return self._decode(out.value)

    def add(self, value: Any) -> bool:
        """Adds a key. Returns whether it was absent."""
        return self._put(self._code(value)) and self._noted(value)

    def _noted(self, value: Any) -> bool:
        """Makes the order return -0.0 if that was added, although its code is that of 0.0."""
        if self._own is float and value == 0:
            negative = type(value) is float and str(value) == "-0.0"
            self._decode = _decode_negative if negative else self._kind.decode
        return True

    def _put(self, code: int) -> bool:
        status = lib.indexset_set_insert(self._handle, code)
        if status != library.YES:
            return check(status)
        self.changed()
        return True

    def add_own(self, value: Any) -> Optional[bool]:
        """Adds a key of the kind's own type, and returns whether it was absent; None for another type."""
        if type(value) is not self._own:
            return None
        code = self._find(value)
        return None if code is None else self._put(code) and self._noted(value)

    def discard(self, value: Any) -> bool:
        """Removes a key. Returns whether it was present."""
        code = self._find(value)
        if code is None or not lib.indexset_set_remove(self._handle, code):
            return False
        self.changed()
        return True

    def pop(self, index: int) -> Any:
        """Removes the key at a position and returns it."""
        value = self[index]
        self.discard(value)
        return value

    def bisect(self, value: Any, right: bool) -> int:
        """Returns the number of keys below a value, or not above it."""
        code, exact = (self._find(value), True) if type(value) is self._own else (None, False)
        if code is None:
            size = len(self)
            code, exact = self._kind.bound(value) if size else (0, False)
            if code > ALL:
                return size
        rank: int = lib.indexset_set_rank(self._handle, code)
        if right and exact:
            rank += lib.indexset_set_contains(self._handle, code)
        return rank

    place = bisect

    def find(self, value: Any) -> int:
        """Returns the position of the key that a value equals, or -1."""
        code = self._find(value)
        if code is None or not lib.indexset_set_contains(self._handle, code):
            return -1
        rank: int = lib.indexset_set_rank(self._handle, code)
        return rank

    def are_own(self, values: list[Any]) -> bool:
        """Returns whether all values are of the kind's own type and range."""
        if not set(map(type, values)) <= {self._own} or self._own is float:
            return False
        return not values or (self._find(min(values)) is not None and self._find(max(values)) is not None)

    def own(self, values: list[Any]) -> list[Any]:
        """Returns the keys of values. Raises TypeError, OverflowError or ValueError if one does not fit."""
        if set(map(type, values)) <= {self._own}:
            return values
        return [value if type(value) is self._own else self._decode(self._code(value)) for value in values]

    def take(self, values: Iterable[Any]) -> None:
        """Adds absent keys, or none if one does not fit or memory runs out."""
        values = list(values) if self._own is float else values
        codes = self._codes(values)
        if codes:
            taken = Count()
            status = lib.indexset_set_insert_all(self._handle, memory(codes), len(codes), place(taken))
            self.changed()
            if status != YES:
                for code in codes[: taken.value]:
                    lib.indexset_set_remove(self._handle, code)
            check(status)
            if self._own is float:
                any(map(self._noted, (value for value in values if value == 0)))

    def _codes(self, values: Iterable[Any]) -> array[int]:
        if isinstance(values, (list, tuple, set, frozenset, range)) and self.kind != "float64":
            try:
                signed = self.kind == "int64"
                return flipped(array("q", values).tobytes(), TOP) if signed else array("Q", values)
            except (TypeError, OverflowError):
                pass
        return codes_of(self._kind, values)

    def chunk(self, first: int, past: int) -> list[Any]:
        size = max(0, past - first)
        out = zeros(size)
        del out[lib.indexset_set_range_by_position(self._handle, first, memory(out), size) :]
        return self._decoded(out)

    def _decoded(self, codes: array[int]) -> list[Any]:
        name = self._kind.name
        if name == "float64":
            return list(map(self._decode, codes))
        return codes.tolist() if name == "uint64" else memoryview(turned(codes)).cast("q").tolist()

    def numbers(self) -> bytes:
        """Returns all numbers, contiguous in memory."""
        return array(ARRAYS[self.kind], self.chunk(0, len(self))).tobytes()

    def ranks(self, values: Iterable[Any]) -> array[int]:
        """Returns the number of keys below each key, by one call."""
        codes = self._codes(values)
        out, size = zeros(len(codes)), len(codes)
        lib.indexset_set_ranks(self._handle, memory(codes), size, memory(out), size)
        return out

    def at_all(self, positions: Iterable[int]) -> list[Any]:
        """Returns the keys at positions, by one call."""
        wanted = array("Q", map(self._position, positions))
        out, size = zeros(len(wanted)), len(wanted)
        if lib.indexset_set_at_all(self._handle, memory(wanted), size, memory(out), size) < size:
            raise IndexError("index out of range")
        return self._decoded(out)

    def clear(self) -> None:
        """Removes all keys."""
        self.changed()
        lib.indexset_set_clear(self._handle)

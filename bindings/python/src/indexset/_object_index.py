"""Orders of objects in the ctypes backend: the classes that the compiled module `_speedups` has too."""
from __future__ import annotations

import ctypes
from array import array
from typing import Any, Callable, Optional, TypeVar

from . import _library as library
from ._kinds import ALL, NUMBERS
from ._library import Count, Number, check, lib, memory, place, zeros
from ._ctypes import ARRAYS, Ordered

T = TypeVar("T")
_OWN: dict[str, type] = {"str": str, "bytes": bytes}


class ObjectIndex(Ordered[T]):
    """Objects in an order, each at a place of its own, which the library stores. A subclass finds them by their sort
    keys."""

    __slots__ = ("_objects", "_unused", "key", "__weakref__")

    def __init__(self, key: Optional[Callable[[Any], Any]]) -> None:
        super().__init__()
        self.key = key
        self._objects: list[Any] = []
        self._unused: list[int] = []

    def __contains__(self, value: Any) -> bool:
        return self.holds(value)

    def holds(self, value: Any) -> bool:
        """Returns whether an object equals a value."""
        return self._contains(value)

    def _contains(self, value: Any) -> bool:
        raise NotImplementedError

    def add(self, item: T) -> bool:
        """Adds an object after its equals."""
        return self._add(item)

    def _add(self, item: T) -> bool:
        raise NotImplementedError

    def discard(self, value: Any) -> bool:
        """Removes the first object that equals a value. Returns whether there was one."""
        return self._discard(value)

    def _discard(self, value: Any) -> bool:
        raise NotImplementedError

    def bisect(self, value: Any, right: bool) -> int:
        """Returns the number of objects below a value, or not above it."""
        return self._bisect(value, right)

    def _bisect(self, value: Any, right: bool) -> int:
        raise NotImplementedError

    def pop(self, index: int) -> T:
        """Removes the object at a position and returns it."""
        raise NotImplementedError

    def _settle(self, item: T) -> int:
        """Stores an object, and returns its place."""
        if not self._unused:
            self._objects.append(item)
            return len(self._objects) - 1
        at = self._unused.pop()
        self._objects[at] = item
        return at

    def _vacate(self, at: int) -> T:
        """Frees a place, and returns its object."""
        item: T = self._objects[at]
        self._objects[at] = None
        self._unused.append(at)
        return item

    def _copied(self, other: ObjectIndex[T]) -> None:
        self._objects, self._unused = other._objects.copy(), other._unused.copy()

    def clear(self) -> None:
        """Removes all objects."""
        objects, self._objects, self._unused = self._objects, [], []
        self.changed()
        self._cleared()
        objects.clear()

    def _cleared(self) -> None:
        raise NotImplementedError


class Multi(ObjectIndex[T]):
    """Objects at numbers of 64 bits, the codes of their sort keys: in the order of the codes, those of one code in
    insertion order. A multimap of the library maps codes to places."""

    __slots__ = ("_handle", "_find", "_own", "_kind_name")

    def __init__(self, kind: str, key: Optional[Callable[[Any], Any]]) -> None:
        super().__init__(key)
        self._kind_name = kind
        self._find, self._own = NUMBERS[kind].find, float if kind == "float64" else int
        self._handle = library.new("multi")

    def copied(self, other: Multi[T]) -> None:
        """Becomes a clone of another. It is empty before."""
        made, call = library.new("multi"), lib.indexset_multi_range_by_position
        for code, at in zip(*library.pairs(call, other._handle, 0, size=len(other))):
            check(lib.indexset_multi_push(made, code, at))
        self._handle = made
        self._copied(other)

    def __len__(self) -> int:
        size: int = lib.indexset_multi_len(self._handle)
        return size

    def __getitem__(self, index: int) -> T:
        code, at = Number(), Number()
        if not lib.indexset_multi_at(self._handle, self._position(index), place(code), place(at)):
            raise IndexError("index out of range")
        item: T = self._objects[at.value]
        return item

    def _own_code(self, value: Any) -> Optional[int]:
        """Returns the code of a sort key of the kind's own type and range, or None."""
        code: Optional[int] = self._find(value) if type(value) is self._own else None
        return code

    def holds(self, value: Any) -> bool:
        code = self._own_code(value) if self.key is None else None
        if code is None:
            return self._contains(value)
        found: bool = lib.indexset_multi_contains_key(self._handle, code)
        return found

    def add_own(self, item: T) -> Optional[bool]:
        """Adds an object if its sort key is of the kind's own type; returns None if not."""
        code = self._own_code(item) if self.key is None else None
        if code is None:
            return None
        self.insert(code, item)
        return True

    def discard(self, value: Any) -> bool:
        code = self._own_code(value) if self.key is None else None
        if code is None:
            return self._discard(value)
        if not check(lib.indexset_multi_remove_first(self._handle, code, self._place)):
            return False
        self.changed()
        self._vacate(self._out.value)
        return True

    def bisect(self, value: Any, right: bool) -> int:
        code = self._own_code(value) if self.key is None else None
        return self._bisect(value, right) if code is None else self._rank(code, right)

    def own_span(self, key: Any) -> Optional[tuple[int, int]]:
        """Returns the positions of a sort key of the kind's own type, or None."""
        code = self._own_code(key)
        return None if code is None else (self._rank(code, False), self._rank(code, True))

    def _rank(self, code: int, right: bool) -> int:
        return len(self) if right and code == ALL else self.rank(code + right)

    def rank(self, code: int) -> int:
        """Returns the number of objects at numbers below a number."""
        rank: int = lib.indexset_multi_rank(self._handle, code)
        return rank

    def insert(self, code: int, item: T) -> None:
        """Puts an object at a number, after those already there."""
        at = self._settle(item)
        try:
            check(lib.indexset_multi_push(self._handle, code, at))
        except BaseException:
            self._vacate(at)
            raise
        self.changed()

    def numbers(self) -> bytes:
        """Returns all numbers, contiguous in memory."""
        numbers: Any = self.chunk(0, len(self))
        return array(ARRAYS[self._kind_name], map(float if self._own is float else int, numbers)).tobytes()

    def pop(self, index: int) -> T:
        code = Number()
        if not check(lib.indexset_multi_remove_at(self._handle, self._position(index), place(code), self._place)):
            raise IndexError("index out of range")
        self.changed()
        return self._vacate(self._out.value)

    def chunk(self, first: int, past: int) -> list[T]:
        call, size, objects = lib.indexset_multi_range_by_position, max(0, past - first), self._objects
        return list(map(objects.__getitem__, library.pairs(call, self._handle, first, size=size)[1]))

    def _cleared(self) -> None:
        lib.indexset_multi_clear(self._handle)


class Coded(ObjectIndex[T]):
    """Objects at byte strings, in the order of these. A map of the library maps byte strings to places.

    A subclass encodes an object as a byte string, by the kind of its sort keys.
    """

    __slots__ = ("_handle", "_own", "_once", "added")

    def __init__(self, kind: str, key: Optional[Callable[[Any], Any]], repeats: bool) -> None:
        super().__init__(key)
        self._once = not repeats
        self._own = _OWN.get(kind) if key is None else None
        self.added = 0
        self._handle = library.new("text_map")

    def copied(self, other: Coded[T]) -> None:
        """Becomes a clone of another. It is empty before."""
        made = library.handle("text_map")
        check(lib.indexset_text_map_clone(other._handle, made))
        self._handle, self.added = made, other.added
        self._copied(other)

    def __len__(self) -> int:
        size: int = lib.indexset_text_map_len(self._handle)
        return size

    def __getitem__(self, index: int) -> T:
        out = Number()
        if not lib.indexset_text_map_range_by_position(self._handle, self._position(index), place(out), 1):
            raise IndexError("index out of range")
        item: T = self._objects[out.value]
        return item

    def add_own(self, item: T) -> Optional[bool]:
        """Adds an object if its sort key is of the kind's own type; returns None if not."""
        return self._add(item) if type(item) is self._own else None

    def discard(self, value: Any) -> bool:
        if type(value) is self._own and self._once:
            return self._take_out(self._code_of(value)) is not None
        return self._discard(value)

    def _code_of(self, item: Any) -> bytes:
        """Returns the byte string of an object, if sort keys do not repeat."""
        raise NotImplementedError

    def bisect(self, value: Any, right: bool) -> int:
        if type(value) is not self._own or not self._once:
            return self._bisect(value, right)
        code = self._code_of(value)
        rank = self.rank(code)
        return rank + self.has(code) if right else rank

    def own_span(self, key: Any) -> Optional[tuple[int, int]]:
        """Returns the positions of a sort key of the kind's own type, or None."""
        return None

    def has(self, code: bytes) -> bool:
        """Returns whether an object is at a byte string."""
        found: bool = lib.indexset_text_map_contains(self._handle, code, len(code))
        return found

    def rank(self, code: bytes) -> int:
        """Returns the number of objects below a byte string."""
        rank: int = lib.indexset_text_map_rank(self._handle, code, len(code))
        return rank

    def insert(self, code: bytes, item: T) -> None:
        """Puts an object at an unused byte string."""
        at = self._settle(item)
        status = lib.indexset_text_map_insert(self._handle, code, len(code), at, self._place)
        if status == library.YES:
            self.changed()
            return
        if status == library.NO:
            lib.indexset_text_map_insert(self._handle, code, len(code), self._out.value, place(Number()))
            status = library.HELD
        self._vacate(at)
        check(status)

    def code(self, position: int) -> bytes:
        """Returns the byte string of the object at a position."""
        room, size, out = ctypes.create_string_buffer(64), Count(), Number()
        words = (place(size), place(out))
        if not lib.indexset_text_map_at(self._handle, position, room, 64, *words):
            raise IndexError("index out of range")
        if size.value > 64:
            room = ctypes.create_string_buffer(size.value)
            lib.indexset_text_map_at(self._handle, position, room, size.value, *words)
        return room.raw[: size.value]

    def pop(self, index: int) -> T:
        at = self._take_out(self.code(self._position(index)))
        if at is None:
            raise RuntimeError("it changed meanwhile")
        item: T = at[0]
        return item

    def _take_out(self, code: bytes) -> Optional[tuple[T]]:
        """Removes the object at a byte string and returns it, or None if there is none."""
        if not lib.indexset_text_map_remove(self._handle, code, len(code), self._place):
            return None
        self.changed()
        return (self._vacate(self._out.value),)

    def chunk(self, first: int, past: int) -> list[T]:
        size, objects = max(0, past - first), self._objects
        out = zeros(size)
        del out[lib.indexset_text_map_range_by_position(self._handle, first, memory(out), size) :]
        return list(map(objects.__getitem__, out))

    def _cleared(self) -> None:
        lib.indexset_text_map_clear(self._handle)

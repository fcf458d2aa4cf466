"""Orders of objects by Python's own `<` in the ctypes backend: a class that the module `_speedups` has too."""
from __future__ import annotations

from bisect import bisect_left, bisect_right
from itertools import accumulate, chain
from typing import Any, Callable, Iterable, Optional, TypeVar

from ._object_index import ObjectIndex

T = TypeVar("T")

# The maximum number of objects of a block.
_MOST = 1024
# If one object or more is new for this many present ones, all are sorted; otherwise the new ones are inserted one by
# one.
_PART = 4


def _sort(items: list[Any], key: Any) -> None:
    items.sort(key=key)


class Blocks(ObjectIndex[T]):
    """Objects in blocks, in the order of their sort keys, equal ones in insertion order."""

    __slots__ = ("_blocks", "_keys", "_lasts", "_ends", "_length")

    def __init__(self, kind: str, key: Optional[Callable[[Any], Any]]) -> None:
        super().__init__(key)
        self._become([], [])

    def _become(self, items: list[T], keys: list[Any]) -> None:
        """Replaces all objects by these, which are sorted."""
        parts = range(0, len(items), _MOST // 2)
        self._blocks = [items[at : at + _MOST // 2] for at in parts]
        self._keys = self._blocks if self.key is None else [keys[at : at + _MOST // 2] for at in parts]
        self._lasts = [block[-1] for block in self._keys]
        self._ends: Optional[list[int]] = None
        self._length = len(items)
        self.changed()

    def copied(self, other: Blocks[T]) -> None:
        """Becomes a clone of another. It is empty before."""
        self._become(list(chain.from_iterable(other._blocks)), list(chain.from_iterable(other._keys)))

    def __len__(self) -> int:
        return self._length

    def clear(self) -> None:
        self._become([], [])

    # ---- places: a block, and an index in it

    def _before(self, block: int) -> int:
        if self._ends is None:
            self._ends = list(accumulate(map(len, self._blocks)))
        return self._ends[block - 1] if block else 0

    def _at(self, position: int) -> tuple[int, int]:
        self._before(0)
        block = bisect_right(self._ends or [], position)
        return block, position - self._before(block)

    def _bound(self, key: Any, right: bool) -> tuple[int, int]:
        """Returns the place of a sort key, before its equals or after them."""
        search, changes = bisect_right if right else bisect_left, self.changes
        block = search(self._lasts, key)
        if block < len(self._keys):
            index = search(self._keys[block], key)
        else:
            block, index = max(0, block - 1), len(self._keys[-1]) if self._keys else 0
        self._same(changes)
        return block, index

    def _same(self, changes: int) -> None:
        if changes != self.changes:
            raise RuntimeError("it changed during a comparison")

    def _sort_key(self, item: Any) -> Any:
        return item if self.key is None else self.key(item)

    def place(self, key: Any, right: bool) -> int:
        """Returns the number of sort keys below a key, or not above it."""
        block, index = self._bound(key, right)
        return self._before(block) + index

    def own_span(self, key: Any) -> tuple[int, int]:
        """Returns the positions of a sort key."""
        return self.place(key, False), self.place(key, True)

    def _bisect(self, value: Any, right: bool) -> int:
        return self.place(self._sort_key(value), right) if self._length else 0

    # ---- one object

    def __getitem__(self, index: int) -> T:
        position = self._position(index)
        if position >= self._length:
            raise IndexError("index out of range")
        block, at = self._at(position)
        return self._blocks[block][at]

    def add_own(self, item: T) -> Optional[bool]:
        """Adds an object after its equals; returns None if there are no objects, so that the kind is found first."""
        return self._add(item) if self._length else None

    def _add(self, item: T) -> bool:
        key = self._sort_key(item)
        self._insert(*self._bound(key, True), item, key)
        return True

    def _insert(self, block: int, index: int, item: T, key: Any) -> None:
        if not self._blocks:
            self._become([item], [key])
            return
        self._blocks[block].insert(index, item)
        if self.key is not None:
            self._keys[block].insert(index, key)
        self._length += 1
        if len(self._blocks[block]) > _MOST:
            for blocks in [self._blocks] if self.key is None else [self._blocks, self._keys]:
                blocks.insert(block + 1, blocks[block][_MOST // 2 :])
                del blocks[block][_MOST // 2 :]
            self._lasts.insert(block, self._keys[block][-1])
            block += 1
        self._lasts[block] = self._keys[block][-1]
        self._ends = None
        self.changed()

    def pop(self, index: int) -> T:
        position = self._position(index)
        if position >= self._length:
            raise IndexError("index out of range")
        return self._take_out(*self._at(position))

    def _take_out(self, block: int, index: int) -> T:
        item = self._blocks[block].pop(index)
        gone = [self._keys[block].pop(index)] if self.key is not None else []
        self._length -= 1
        self._ends = None
        if self._blocks[block]:
            self._lasts[block] = self._keys[block][-1]
        else:
            del self._blocks[block], self._lasts[block]
            if self.key is not None:
                del self._keys[block]
        self.changed()
        gone.clear()
        return item

    def find_from(self, value: Any, first: int) -> int:
        """Returns the first position of an object that equals a value, from a position on, or -1."""
        key = self._sort_key(value)
        position, changes = max(first, self.place(key, False)), self.changes
        for item in chain.from_iterable(self.chunk(at, at + 32) for at in range(position, self._length, 32)):
            if item is value or item == value:
                self._same(changes)
                return position
            if key < self._sort_key(item):
                break
            self._same(changes)
            position += 1
        return -1

    def _contains(self, value: Any) -> bool:
        return self.find(value) >= 0

    def find(self, value: Any) -> int:
        """Returns the first position of an object that equals a value, or -1, also if it cannot be compared with the
        others."""
        try:
            return self.find_from(value, 0)
        except (TypeError, OverflowError, ValueError):
            hash(value) if self.key is None else None
        return -1

    def count(self, value: Any) -> int:
        """Returns the number of objects equal to a value."""
        found, position = 0, self.find(value)
        while position >= 0:
            found, position = found + 1, self.find_from(value, position + 1)
        return found

    def _discard(self, value: Any) -> bool:
        position = self.find(value)
        if position >= 0:
            self.pop(position)
        return position >= 0

    # ---- many objects

    def chunk(self, first: int, past: int) -> list[T]:
        past = min(past, self._length)
        if first >= past:
            return []
        block, index = self._at(first)
        found = self._blocks[block][index : index + past - first]
        while len(found) < past - first:
            block += 1
            found += self._blocks[block][: past - first - len(found)]
        return found

    def take(self, items: Iterable[T], sort_keys: Optional[list[Any]] = None) -> None:
        """Adds objects, or none if one does not fit. Their sort keys are made again."""
        given, changes = list(items), self.changes
        _sort(given, self.key)
        if len(given) * _PART < self._length:
            keys = given if self.key is None else list(map(self.key, given))
            places = [self.place(key, True) for key in keys]
            self._same(changes)
            for position, item, key in zip(reversed(places), reversed(given), reversed(keys)):
                at = self._at(position) if position < self._length else (len(self._blocks) - 1, len(self._blocks[-1]))
                self._insert(*at, item, key)
            return
        every = list(chain(chain.from_iterable(self._blocks), given))
        _sort(every, self.key)
        keys = every if self.key is None else list(map(self.key, every))
        self._same(changes)
        self._become(every, keys)

    def cut(self, first: int, past: int) -> None:
        """Removes the objects at the positions from `first` and before `past`."""
        items, keys = (list(chain.from_iterable(blocks)) for blocks in (self._blocks, self._keys))
        self._become(items[:first] + items[past:], keys[:first] + keys[past:])

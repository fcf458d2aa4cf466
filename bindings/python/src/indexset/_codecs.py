"""The encodings of the keys and values of a logged dictionary as numbers of 64 bits."""
from __future__ import annotations

from typing import Any, Optional, Union

from ._kinds import ALL, KINDS, NUMBERS, OBJECT, TOP, DoubleKeys, DoubleValues
from ._orders import Order, order_of
from ._pairs import between, bound

Moves = list[tuple[int, int]]


class Numbered:
    """Numbers of a kind, which are their own codes."""

    __slots__ = ("name", "_kind", "find", "decode")

    def __init__(self, kind: Any) -> None:
        self.name, self._kind = kind.name, kind
        self.find, self.decode = kind.find, kind.decode

    def code(self, value: Any) -> int:
        """Returns the code of a value."""
        code: int = self._kind.code(value)
        return code

    def take(self, value: Any) -> int:
        """Returns the code of a value, which is stored."""
        code = self.code(value)
        if code == TOP and isinstance(self._kind, DoubleKeys) and self._kind.zero is None:
            self._kind.zero = float(value)
        return code

    def drop(self, code: int) -> None:
        """Notes that a value is not stored any more."""
        if code == TOP and isinstance(self._kind, DoubleKeys):
            self._kind.zero = None

    def moves(self, value: Any) -> Moves:
        """Returns the codes that must change before a key is stored, with their new codes."""
        return []

    def moved(self, moves: Moves) -> None:
        """Notes that the codes have changed."""

    def fits(self, value: Any, label: int) -> bool:
        """Returns whether a key that another dictionary stores fits here by its label."""
        return True

    def code_of(self, value: Any, label: int) -> int:
        """Returns the code of such a key."""
        return self.code(value)

    def put(self, value: Any, label: int) -> None:
        """Stores such a key, which was absent."""
        if isinstance(self._kind, DoubleKeys) and not value:
            self._kind.zero = float(value)

    def label(self, value: Any) -> int:
        """Returns the label of a value, which another dictionary needs beside it."""
        return 0

    def range(self, minimum: Any, maximum: Any) -> Optional[tuple[int, int]]:
        """Returns the least and the greatest code between two values, both included, or None."""
        return between(self._kind, minimum, maximum)

    def bound(self, value: Any, right: bool) -> int:
        """Returns the least code that is not below that of a value, or, to the right, above it; 2**64 or more if there
        is none."""
        return bound(self._kind, value, right)

    def clone(self) -> Numbered:
        """Returns a clone."""
        return Numbered(DoubleKeys(self._kind.zero)) if isinstance(self._kind, DoubleKeys) else self


class Objects:
    """Values of any other kind: the code of a value is its place."""

    __slots__ = ("name", "_objects", "_unused")

    def __init__(self, name: str) -> None:
        self.name = name
        self._objects: list[Any] = []
        self._unused: list[int] = []

    def take(self, value: Any) -> int:
        if self.name != OBJECT:
            KINDS[self.name].framed(value)
        if self._unused:
            place = self._unused.pop()
            self._objects[place] = value
        else:
            place = len(self._objects)
            self._objects.append(value)
        return place

    def drop(self, code: int) -> None:
        self._objects[code] = None
        self._unused.append(code)

    def decode(self, code: int) -> Any:
        return self._objects[code]

    def clone(self) -> Objects:
        made = Objects(self.name)
        made._objects, made._unused = self._objects.copy(), self._unused.copy()
        return made


class Labels:
    """Keys of any other kind: the code of a key is a label, between those of its neighbours. If there is none, labels
    around it change first."""

    __slots__ = ("name", "_names", "_labels", "_keys")

    def __init__(self, name: str) -> None:
        self.name = name
        self._names: Order = order_of(name, None, False)
        self._labels: dict[Any, int] = {}
        self._keys: dict[int, Any] = {}

    def find(self, value: Any) -> Optional[int]:
        return self._labels.get(value)

    def decode(self, code: int) -> Any:
        return self._keys[code]

    def label(self, value: Any) -> int:
        return self._labels[value]

    def take(self, value: Any) -> int:
        if value in self._labels:
            return self._labels[value]
        position = self._names.bisect(value, True)
        low, high = self._sides(position)
        middle = (low + high) // 2
        label = min(low + (1 << 32), middle) if position == len(self._names) else middle
        self.put(value, label)
        return label

    def fits(self, value: Any, label: int) -> bool:
        if self.name != OBJECT:
            KINDS[self.name].framed(value)
        low, high = self._sides(self._names.bisect(value, True))
        return value not in self._labels and low < label < high

    def code_of(self, value: Any, label: int) -> int:
        self._names.bisect(value, True)
        return label

    def put(self, value: Any, label: int) -> None:
        self._names.add(value)
        self._labels[value] = label
        self._keys[label] = value

    def drop(self, code: int) -> None:
        value = self._keys.pop(code, None)
        if self._labels.get(value) == code:
            del self._labels[value]
            self._names.discard(value)

    def _sides(self, position: int) -> tuple[int, int]:
        """Returns the labels before and after a position."""
        low = self._labels[self._names[position - 1]] if position else 0
        return low, self._labels[self._names[position]] if position < len(self._names) else ALL + 1

    def moves(self, value: Any) -> Moves:
        label, high = self._sides(self._names.bisect(value, True))
        if high - label > 1:
            return []
        bits, low, first, past = 3, 0, 0, len(self._names)
        while bits < 64 and (bits == 3 or past - first >= (2 / 1.3) ** bits):
            bits += 1
            low = label >> bits << bits
            first, past = self._rank(low), self._rank(low + (1 << bits))
        step = (1 << bits) // (past - first + 1)
        olds = [self._labels[self._names[at]] for at in range(first, past)]
        return [(old, low + step * at) for at, old in enumerate(olds, 1)]

    def _rank(self, label: int) -> int:
        """Returns the number of labels below a label."""
        low, high = 0, len(self._names)
        while low < high:
            middle = (low + high) // 2
            if self._labels[self._names[middle]] < label:
                low = middle + 1
            else:
                high = middle
        return low

    def moved(self, moves: Moves) -> None:
        values = [self._keys.pop(old) for old, _ in moves]
        for value, (_, new) in zip(values, moves):
            self._labels[value] = new
            self._keys[new] = value

    def range(self, minimum: Any, maximum: Any) -> Optional[tuple[int, int]]:
        names = self._names
        first = 0 if minimum is None else names.bisect(minimum, False)
        past = len(names) if maximum is None else names.bisect(maximum, True)
        return (self._labels[names[first]], self._labels[names[past - 1]]) if first < past else None

    def bound(self, value: Any, right: bool) -> int:
        return self._sides(self._names.bisect(value, right))[1]

    def clone(self) -> Labels:
        made = Labels(self.name)
        made._names, made._labels, made._keys = self._names.clone(), self._labels.copy(), self._keys.copy()
        return made


def keys_of(name: str) -> Union[Numbered, Labels]:
    """Returns the encoding of keys of a kind."""
    if name not in NUMBERS:
        return Labels(name)
    return Numbered(DoubleKeys() if name == "float64" else NUMBERS[name])


def values_of(name: str) -> Union[Numbered, Objects]:
    """Returns the encoding of values of a kind."""
    if name not in NUMBERS:
        return Objects(name)
    return Numbered(DoubleValues() if name == "float64" else NUMBERS[name])

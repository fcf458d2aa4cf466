"""Kinds of keys: the encodings of keys that keep their order, as numbers of 64 bits or as bytes.

Equal numbers are equal keys, of any types, as in Python: 1, 1.0, True and numpy's numbers.
"""
from __future__ import annotations

import math
import struct
import sys
from array import array
from numbers import Complex, Real
from operator import index
from typing import Any, Iterable, Optional, Union

from ._tuple import framed_bytes, framed_text, pack

Key = Union[int, float]
Buffer = Union[bytes, "array[int]"]

TOP = 1 << 63
ALL = (1 << 64) - 1

_DOUBLE, _BITS = struct.Struct("<d"), struct.Struct("<Q")


def _plain(value: Any) -> Any:
    """Returns a number of numpy as one of Python, and a complex number without an imaginary part as its real part.
    Raises TypeError if the value has no hash: no key equals it, as in a set."""
    hash(value)
    if hasattr(value, "dtype"):
        value = value.item()
    if isinstance(value, Complex) and not isinstance(value, Real) and not value.imag:
        value = value.real
    return value


def whole(value: Any) -> Optional[int]:
    """Returns the integer that a value equals, or None. Raises TypeError if the value has no hash."""
    if type(value) is int:
        return value
    value = _plain(value)
    try:
        return int(index(value))
    except TypeError:
        pass
    try:
        number = int(value)
    except (TypeError, ValueError, ArithmeticError):
        other = real(value)
        return int(other) if other is not None and other.is_integer() else None
    return number if number == value else None


def real(value: Any) -> Optional[float]:
    """Returns the floating-point number that a value equals, or None. Raises TypeError if the value has no hash."""
    if type(value) is float:
        return value if value == value else None
    value = _plain(value)
    try:
        number = float(value)
    except (TypeError, ValueError, ArithmeticError):
        return None
    return number if number == value else None


class Integers:
    """The 2**64 integers from `least` on."""

    def __init__(self, name: str, least: int) -> None:
        self.name, self._least = name, least

    def code(self, key: Any) -> int:
        """Returns the number of a key."""
        number = whole(key)
        if number is None:
            raise TypeError(f"an integer is needed, not {key!r:.60}")
        if not 0 <= number - self._least <= ALL:
            raise OverflowError(f"{number} is no {self.name} integer")
        return number - self._least

    def find(self, value: Any) -> Optional[int]:
        """Returns the number of the key that a value equals, or None if there is none."""
        number = value if type(value) is int else whole(value)
        if number is None:
            return None
        code = number - self._least
        return code if 0 <= code <= ALL else None

    def bound(self, value: Any) -> tuple[int, bool]:
        """Returns the number of the least key not below a value, 2**64 if there is none, and whether the two are
        equal."""
        number = whole(value)
        exact = number is not None
        if number is None:
            try:
                number = math.ceil(value)
            except OverflowError:
                number = self._least + (ALL + 1 if value > 0 else -1)
            except ValueError:
                raise ValueError("NaN has no place in an order") from None
        code = number - self._least
        return (code, exact) if 0 <= code <= ALL else (0 if code < 0 else ALL + 1, False)

    def decode(self, code: int) -> int:
        """Returns the key of a number."""
        return code + self._least


class Doubles:
    """Floating-point numbers. -0.0 equals 0.0, and NaN is not a key."""

    name = "float64"

    def code(self, key: Any) -> int:
        number = real(key)
        if number is None:
            if not hasattr(key, "__float__"):
                raise TypeError(f"a number is needed, not {key!r:.60}")
            if key != key:
                raise ValueError("NaN has no place in an order")
            raise OverflowError(f"{key!r:.60} is no floating-point number of 64 bits")
        return self._code(number)

    @staticmethod
    def _code(number: float) -> int:
        bits: int = _BITS.unpack(_DOUBLE.pack(number + 0.0))[0]
        return ALL - bits if bits & TOP else bits | TOP

    def find(self, value: Any) -> Optional[int]:
        number = real(value)
        return None if number is None else self._code(number)

    def bound(self, value: Any) -> tuple[int, bool]:
        try:
            number = float(value) if hasattr(value, "__float__") or hasattr(value, "__index__") else None
        except OverflowError:
            number = math.inf if value > 0 else -math.inf
        if number is None:
            raise TypeError(f"a number is needed, not {value!r:.60}")
        if number != number:
            raise ValueError("NaN has no place in an order")
        if number < value:
            number = math.nextafter(number, math.inf)
        return self._code(number), number == value

    def decode(self, code: int) -> float:
        bits = code & ~TOP if code & TOP else ALL - code
        number: float = _DOUBLE.unpack(_BITS.pack(bits))[0]
        return number


class DoubleKeys(Doubles):
    """Floating-point numbers that are distinct keys. Both zeros have one code; the one that was stored is returned."""

    def __init__(self, zero: Optional[float] = None) -> None:
        self.zero = zero

    def decode(self, code: int) -> float:
        return self.zero if code == TOP and self.zero is not None else super().decode(code)


class DoubleValues(Doubles):
    """Floating-point numbers that are only stored: -0.0 has a code of its own."""

    @staticmethod
    def _code(number: float) -> int:
        return Doubles._code(number) if number or math.copysign(1, number) > 0 else TOP - 1


class Texts:
    """Texts, as their bytes in UTF-8, whose order is that of the code points."""

    name = "str"

    def raw(self, key: Any) -> bytes:
        """Returns a key as bytes that keep the order."""
        if not isinstance(key, str):
            raise TypeError(f"a str is needed, not {key!r:.60}")
        return key.encode("utf-8", "surrogatepass")

    def framed(self, key: Any) -> bytes:
        """Returns a key as bytes that keep the order even if other bytes follow, unless the first of these is 0xff."""
        return framed_text(self.raw(key))


class Strings:
    """Byte strings."""

    name = "bytes"

    def raw(self, key: Any) -> bytes:
        if not isinstance(key, bytes):
            raise TypeError(f"bytes are needed, not {key!r:.60}")
        return bytes(key)

    def framed(self, key: Any) -> bytes:
        return framed_bytes(self.raw(key))


class Anything:
    """None, bool, int, float, str, bytes and tuples of these, in the encoding of FoundationDB's tuple layer."""

    name = "any"

    def raw(self, key: Any) -> bytes:
        return pack(key)

    framed = raw


NUMBERS: dict[str, Any] = {
    "int64": Integers("int64", -TOP),
    "uint64": Integers("uint64", 0),
    "float64": Doubles(),
}
BYTES: dict[str, Any] = {"str": Texts(), "bytes": Strings(), "any": Anything()}
KINDS: dict[str, Any] = {**NUMBERS, **BYTES}
# The kind of keys that Python's own `<` compares.
OBJECT = "object"


def known(name: Optional[str]) -> None:
    """Raises ValueError if a name is not that of a kind."""
    if name is not None and name != OBJECT and name not in KINDS:
        raise ValueError(f"keys is one of {', '.join([*KINDS, OBJECT])}, not {name!r}")


# The codes of numpy for items without a buffer of numbers: texts, byte strings, objects, times.
_ITEMS = frozenset("USOMm")
_WHOLE, _REAL = frozenset("bBhHiIlLqQnN?"), frozenset("efd")


def items_of(iterable: Iterable[Any]) -> list[Any]:
    """Returns the items of an iterable. Reads an array of numbers through its buffer. Raises TypeError if an array has
    numbers without an order, characters of C, or more than one dimension."""
    if isinstance(iterable, (list, tuple, set, frozenset, dict, range)):
        return list(iterable)
    kind = getattr(getattr(iterable, "dtype", None), "kind", None)
    if kind in _ITEMS and getattr(iterable, "ndim", 1) == 1:
        return iterable.tolist() if kind in "US" else list(iterable)  # type: ignore[attr-defined, no-any-return]
    try:
        view = memoryview(iterable)  # type: ignore[arg-type]
    except TypeError:
        return list(iterable)
    except ValueError as error:
        raise TypeError(f"an array that cannot be read: {error}") from None
    if view.ndim != 1:
        raise TypeError(f"an array of one dimension is needed, not of {view.ndim}")
    format = view.format.lstrip("@=<>!")
    if format not in _WHOLE and format not in _REAL:
        raise TypeError(f"an array of numbers is needed, not of the format {view.format!r}")
    try:
        return view.tolist()
    except NotImplementedError:
        return [item.item() if hasattr(item, "item") else item for item in iterable]


def codes_of(kind: Any, iterable: Iterable[Any]) -> array[int]:
    """Returns the numbers of many keys of a kind."""
    if type(iterable) in (array, memoryview) or hasattr(iterable, "__array_interface__"):
        view = memoryview(iterable)  # type: ignore[arg-type]
        if view.itemsize == 8 and view.contiguous and view.ndim == 1 and _fits(kind.name, view.format):
            return flipped(view.tobytes(), TOP if kind.name == "int64" else 0)
    return array("Q", map(kind.code, items_of(iterable)))


def _fits(name: str, format: str) -> bool:
    return format in {"int64": ("q", "l"), "uint64": ("Q", "L")}.get(name, ())


# Each byte with its highest bit flipped, and the index of the highest byte of a 64-bit number.
_TURNED, _HIGHEST = bytes(byte ^ 128 for byte in range(256)), 7 if sys.byteorder == "little" else 0


def turned(data: Buffer) -> bytearray:
    """Returns the 64-bit numbers in some bytes, each with its highest bit flipped, by two operations for all of
    them."""
    made = bytearray(data)
    made[_HIGHEST::8] = made[_HIGHEST::8].translate(_TURNED)
    return made


def flipped(data: bytes, mask: int) -> array[int]:
    """Returns the 64-bit numbers in some bytes; with the mask TOP, each with its highest bit flipped."""
    return array("Q", turned(data) if mask else data)

"""Keys as bytes that keep their order: the public encoding of FoundationDB's tuple layer.

The order is that of the bytes: None, byte strings, texts, tuples, integers, floating-point numbers, False and True. A
key is encoded as a tuple of that one element.
"""
from __future__ import annotations

import struct
from typing import Any

_NULL, _BYTES, _TEXT, _NESTED, _ZERO, _DOUBLE, _FALSE, _TRUE = 0, 1, 2, 5, 0x14, 0x21, 0x26, 0x27
_LONG_BELOW, _LONG_ABOVE = 0x0B, 0x1D
_LONGEST = 255
_FLOAT = struct.Struct(">d")
_SIGN = 1 << 63
_ALL = (1 << 64) - 1


def framed_bytes(data: bytes) -> bytes:
    """Returns a byte string as bytes that keep the order even if other bytes follow, unless the first of these is
    0xff."""
    return b"\x01" + data.replace(b"\0", b"\0\xff") + b"\0"


def framed_text(data: bytes) -> bytes:
    """Returns a text in UTF-8 as such bytes."""
    return b"\x02" + data.replace(b"\0", b"\0\xff") + b"\0"


def pack(key: object) -> bytes:
    """Returns the bytes of a key: None, a bool, an integer of up to 255 bytes, a floating-point number other than NaN,
    a text, a byte string or a tuple of these. Raises TypeError, OverflowError or ValueError for other keys.

    >>> pack((b"foo\\x00bar", None, ())).hex()
    '0501666f6f00ff6261720000ff050000'
    """
    return b"\0" if key is None else _packed(key)


def _packed(key: Any) -> bytes:
    if key is None:
        return b"\0\xff"
    if isinstance(key, bool):
        return bytes((_TRUE if key else _FALSE,))
    if isinstance(key, int):
        return _integer(key)
    if isinstance(key, float):
        return _float(key)
    if isinstance(key, str):
        return framed_text(key.encode("utf-8", "surrogatepass"))
    if isinstance(key, bytes):
        return framed_bytes(key)
    if isinstance(key, tuple):
        return b"\x05" + b"".join(map(_packed, key)) + b"\0"
    return _number(key)


def _number(key: Any) -> bytes:
    """Returns the bytes of a number of another type, such as numpy's."""
    if hasattr(key, "__index__"):
        return _integer(key.__index__())
    if hasattr(key, "__float__") and float(key) == key:
        return _float(float(key))
    raise TypeError(f"None, bool, int, float, str, bytes or a tuple of these is needed, not {key!r:.60}")


def _integer(number: int) -> bytes:
    size = (number.bit_length() + 7) // 8
    if size > _LONGEST:
        raise OverflowError(f"an integer of more than {_LONGEST} bytes has no encoding")
    low = number if number >= 0 else number + (1 << 8 * size) - 1
    data = low.to_bytes(size, "big")
    if size <= 8:
        return bytes((_ZERO + size if number >= 0 else _ZERO - size,)) + data
    return (bytes((_LONG_ABOVE, size)) if number >= 0 else bytes((_LONG_BELOW, size ^ 255))) + data


def _float(number: float) -> bytes:
    if number != number:
        raise ValueError("NaN has no place in an order")
    bits = int.from_bytes(_FLOAT.pack(number + 0.0), "big")
    bits = _ALL - bits if bits & _SIGN else bits | _SIGN
    return bytes((_DOUBLE,)) + bits.to_bytes(8, "big")


def unpack(data: bytes) -> object:
    """Returns the key of some bytes. Raises ValueError if they are not the bytes of a key.

    >>> unpack(pack((1, "a", (None, -2.5))))
    (1, 'a', (None, -2.5))
    """
    key, end = _unpacked(data, 0, False)
    if end != len(data):
        raise ValueError(f"{len(data) - end} bytes are left behind a key")
    return key


def _unpacked(data: bytes, at: int, nested: bool) -> tuple[Any, int]:
    """Returns the key that begins at a byte, and its end."""
    if at >= len(data):
        raise ValueError("the bytes end within a key")
    code = data[at]
    if code == _NULL:
        return None, at + 1 + nested
    if code in (_BYTES, _TEXT):
        found, end = _unframed(data, at + 1)
        return (found if code == _BYTES else found.decode("utf-8", "surrogatepass")), end
    if code == _NESTED:
        return _unpacked_tuple(data, at + 1)
    if code in (_FALSE, _TRUE):
        return code == _TRUE, at + 1
    if code == _DOUBLE:
        bits = int.from_bytes(_taken(data, at + 1, 8), "big")
        bits = bits & ~_SIGN if bits & _SIGN else _ALL - bits
        return _FLOAT.unpack(bits.to_bytes(8, "big"))[0], at + 9
    return _unpacked_integer(data, at)


def _taken(data: bytes, at: int, size: int) -> bytes:
    found = data[at : at + size]
    if len(found) != size:
        raise ValueError("the bytes end within a key")
    return found


def _unframed(data: bytes, at: int) -> tuple[bytes, int]:
    end = data.find(b"\0", at)
    while end >= 0 and data[end + 1 : end + 2] == b"\xff":
        end = data.find(b"\0", end + 2)
    if end < 0:
        raise ValueError("the bytes end within a key")
    return data[at:end].replace(b"\0\xff", b"\0"), end + 1


def _unpacked_tuple(data: bytes, at: int) -> tuple[tuple[Any, ...], int]:
    keys = []
    while data[at : at + 1] != b"\0" or data[at + 1 : at + 2] == b"\xff":
        key, at = _unpacked(data, at, True)
        keys.append(key)
    return tuple(keys), at + 1


def _unpacked_integer(data: bytes, at: int) -> tuple[int, int]:
    code, at = data[at], at + 1
    if code in (_LONG_BELOW, _LONG_ABOVE):
        size, at = _taken(data, at, 1)[0] ^ (255 if code == _LONG_BELOW else 0), at + 1
    elif abs(code - _ZERO) <= 8:
        size = abs(code - _ZERO)
    else:
        raise ValueError(f"no key begins with the byte {code}")
    number = int.from_bytes(_taken(data, at, size), "big")
    return (number - (1 << 8 * size) + 1 if code < _ZERO else number), at + size

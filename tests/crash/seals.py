"""The checksums of kept lines, from their definition in docs/durability.md.

Python's own hash of bytes is such a checksum with PYTHONHASHSEED=0, from Python 3.11 on, and is faster. In `tests/run`
kills.py uses it, and damage.py `siphash`.
"""

from __future__ import annotations

import os
import struct
import sys
from collections.abc import Iterable

State = tuple[int, int, int, int]

START: State = (0x736F6D6570736575, 0x646F72616E646F6D, 0x6C7967656E657261, 0x7465646279746573)
LOW = 2**64 - 1
HASH_IS_SIPHASH = os.environ.get("PYTHONHASHSEED") == "0" and sys.hash_info.algorithm == "siphash13"


def rotated(word: int, by: int) -> int:
    return (word << by | word >> 64 - by) & LOW


def mixed(a: int, b: int, c: int, d: int) -> State:
    """Returns the state after a round."""
    a, c = a + b & LOW, c + d & LOW
    b, d = rotated(b, 13) ^ a, rotated(d, 16) ^ c
    a, c = rotated(a, 32) + d & LOW, c + b & LOW
    return a, rotated(b, 17) ^ c, rotated(c, 32), rotated(d, 21) ^ a


def siphash(text: bytes) -> int:
    """Returns SipHash-1-3 with both keys 0."""
    a, b, c, d = START
    whole = len(text) // 8 * 8
    last = int.from_bytes(text[whole:], "little") | (len(text) & 255) << 56
    for (word,) in struct.iter_unpack("<Q", text[:whole] + last.to_bytes(8, "little")):
        a, b, c, d = mixed(a, b, c, d ^ word)
        a ^= word
    a, b, c, d = mixed(*mixed(*mixed(a, b, c ^ 255, d)))
    return a ^ b ^ c ^ d


def seal_of(seal: int, lines: Iterable[str]) -> int:
    """Returns the checksum of lines after another checksum."""
    text = "".join(f"{line}\n" for line in (f"seal {seal}", *lines)).encode()
    return hash(text) & LOW if HASH_IS_SIPHASH else siphash(text)

"""The library's calls by ctypes, and their handles. A call holds the interpreter's lock."""
from __future__ import annotations

import atexit
import ctypes
import gc
import os
import pathlib
import sys
from array import array
from operator import index as as_index
from typing import Any

from ._signatures import CALLS

NO, YES, MEMORY, NONE, HELD, NUMBERS, UNFIT = range(7)
GAP = 11

# A call of a logged map makes at most this many changes.
CHANGES = 3

Number, Count = ctypes.c_uint64, ctypes.c_size_t
place = ctypes.byref


class Event(ctypes.Structure):
    """The library's record of a change."""

    _fields_ = [
        *((name, Number) for name in ("number", "node_key", "node_value", "key", "value")),
        ("index", Count),
        ("kind", ctypes.c_uint32),
    ]


class _Slot(ctypes.Structure):
    _fields_ = [("at", ctypes.c_void_p), ("live", ctypes.c_bool)]


_FOLDER = pathlib.Path(__file__).resolve().parent


def _load() -> Any:
    named = os.environ.get("INDEXSET_LIBRARY")
    built = _FOLDER.parent.parent.parent / "c" / "out" / "libindexset.so"
    beside = _FOLDER / "libindexset.so"
    path = named or str(beside if beside.exists() else built)
    # PyDLL keeps the interpreter's lock; CDLL would release it.
    try:
        return ctypes.PyDLL(path)
    except OSError as error:
        raise ImportError(f"indexset lacks its library: {error}; `make -C bindings/c` makes it") from None


def _declare(loaded: Any) -> None:
    for name, result, words in CALLS:
        function = getattr(loaded, "indexset_" + name)
        function.restype, function.argtypes = result, words


lib: Any = _load()
_declare(lib)

# Whether the contracts of the library were proved before it was compiled.
PROVED = ctypes.c_int.in_dll(lib, "indexset_proved").value != 0


def _proof() -> str:
    file = _FOLDER / "proof.txt"
    if file.exists() and not os.environ.get("INDEXSET_LIBRARY"):
        return file.read_text(encoding="utf-8").strip()
    return "not recorded" if PROVED else "unproved"


# What the wheel says of the proof of its library: the toolchain, its logic, the commit and the sum of the library.
PROOF = _proof()

_slots: dict[int, _Slot] = {}


class Handle(int):
    """The address of a handle of the library, which is freed with this object.

    In a cycle that is collected, the collection of a handle outlives each `__del__` that reads it, in any order of
    these calls: it is freed after the garbage collection, and not at all if the interpreter exits.
    """

    __slots__ = ()

    _free: Any

    def __del__(self) -> None:
        if _collector.runs:
            _collector.waiting.append(self)
        elif not _collector.ended:
            self.end()

    def end(self) -> None:
        """Frees the collection of the handle."""
        self._free(self)
        _slots.pop(self, None)


class _Collector:
    """Whether the garbage collector runs, and the handles that it found."""

    def __init__(self) -> None:
        self.runs = self.ended = False
        self.waiting: list[Handle] = []
        gc.callbacks.append(self.watch)
        atexit.register(self.end)

    def watch(self, phase: str, about: dict[str, Any]) -> None:
        """Frees the waiting handles after a garbage collection, except those that a `__del__` has kept."""
        self.runs = phase == "start"
        if not self.runs and self.waiting:
            waiting, self.waiting = self.waiting, []
            while waiting:
                found = waiting.pop()
                if sys.getrefcount(found) > 2:
                    self.waiting.append(found)
                else:
                    found.end()

    def end(self) -> None:
        """Notes that the interpreter exits."""
        self.ended = True


_collector = _Collector()


def _class_of(what: str) -> type[Handle]:
    free = getattr(lib, f"indexset_{what}_free")
    return type("Handle", (Handle,), {"__slots__": (), "_free": staticmethod(free)})


_CLASSES = {what: _class_of(what) for what in ("set", "text_map", "multi", "log", "replica")}


def handle(what: str) -> Handle:
    """Returns a handle of the named type that owns no collection."""
    slot = _Slot()
    address = ctypes.addressof(slot)
    _slots[address] = slot
    return _CLASSES[what](address)


# From here on the garbage collector tracks the dictionary of handles.
handle("set")


class Spent(OverflowError):
    """The numbers of a collection are exhausted."""


def check(status: int) -> bool:
    """Returns whether a call changed something. Raises the error of any other status."""
    if status == YES:
        return True
    if status == NO:
        return False
    if status == MEMORY:
        raise MemoryError
    if status == NUMBERS:
        raise Spent("too few numbers are left")
    raise RuntimeError(f"the library answered with the status {status}")


def new(what: str, *words: Any) -> Handle:
    """Returns a handle with an empty collection."""
    made = handle(what)
    check(getattr(lib, f"indexset_{what}_new")(made, *words))
    return made


def zeros(size: int) -> array[int]:
    """Returns an array of zeros."""
    return array("Q", bytes(8 * size))


def memory(items: array[int]) -> int:
    """Returns the address of the items of an array. It is valid until the array changes."""
    return items.buffer_info()[0]


def pairs(call: Any, *words: Any, size: int) -> tuple[array[int], array[int]]:
    """Returns the keys and values that a call writes into two arrays of the given size."""
    keys, values = zeros(size), zeros(size)
    if size:
        count = call(*words, memory(keys), size, memory(values), size)
        del keys[count:], values[count:]
    return keys, values


def position(index: int, size: int) -> int:
    """Returns the position, counted from 0, of an index into `size` items. Raises IndexError if there is none."""
    at = as_index(index)
    at = at + size if at < 0 else at
    if not 0 <= at < size:
        raise IndexError("index out of range")
    return at


def version() -> tuple[int, int, int]:
    """Returns the version of the library: major, minor and patch.

    >>> import indexset
    >>> len(indexset.version())
    3
    """
    number = lib.indexset_version()
    return number >> 16, number >> 8 & 255, number & 255

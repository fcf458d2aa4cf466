"""Functions on lists of items in the ctypes backend: functions that the compiled module `_speedups` has too."""
from __future__ import annotations

from itertools import filterfalse
from typing import Any


def are_alike(items: list[Any]) -> bool:
    """Returns whether all items are of exactly one type."""
    return len(set(map(type, items))) < 2


def keep(items: list[Any], members: set[Any], is_in: bool) -> None:
    """Keeps the items of a list that are in a set, or those that are not, and removes the others."""
    items[:] = filter(members.__contains__, items) if is_in else filterfalse(members.__contains__, items)

"""The classes that order keys: of the compiled module `_speedups` if it was built, and otherwise of ctypes."""
from __future__ import annotations

import os
from typing import TYPE_CHECKING, Generic, TypeVar

if TYPE_CHECKING:
    from ._base import DictBase, IndexedBase
    from ._blocks import Blocks
    from ._ctypes import BACKEND, Numbers
    from ._lists import are_alike, keep
    from ._object_index import Coded, Multi, ObjectIndex
else:
    try:
        if os.environ.get("INDEXSET_BACKEND") == "ctypes":
            raise ImportError
        from ._speedups import BACKEND, Blocks, Coded, DictBase, IndexedBase, Multi, Numbers, are_alike, keep

        class ObjectIndex(Generic[TypeVar("T")]):
            """The base of Blocks, Coded and Multi, which each implement in C."""

            __slots__ = ()

    except ImportError:
        from ._base import DictBase, IndexedBase
        from ._blocks import Blocks
        from ._ctypes import BACKEND, Numbers
        from ._lists import are_alike, keep
        from ._object_index import Coded, Multi, ObjectIndex

__all__ = [
    "BACKEND",
    "Blocks",
    "Coded",
    "DictBase",
    "IndexedBase",
    "Multi",
    "Numbers",
    "ObjectIndex",
    "are_alike",
    "keep",
]

"""Ordered sets, lists and dictionaries with access by position, over a proved library.

>>> from indexset import SortedSet
>>> numbers = SortedSet([30, 10, 20])
>>> numbers[0], numbers.bisect_left(25), 20 in numbers
(10, 2, True)

The calls have the names and the behaviour of `sortedcontainers`. Items and keys are of any kind that has an order.
"""
from ._dict import SortedDict
from ._library import PROOF, PROVED, version
from ._list import SortedKeyList, SortedList, SortedListWithKey
from ._log import LoggedDict
from ._multi import SortedMultiDict
from ._backend import BACKEND
from ._nodes import Change
from ._replica import Gap, Refused, Replica
from ._set import SortedSet
from ._tuple import pack, unpack
from ._views import SortedItemsView, SortedKeysView, SortedValuesView

__all__ = [
    "BACKEND",
    "Change",
    "Gap",
    "LoggedDict",
    "PROOF",
    "PROVED",
    "Refused",
    "Replica",
    "SortedDict",
    "SortedItemsView",
    "SortedKeyList",
    "SortedKeysView",
    "SortedList",
    "SortedListWithKey",
    "SortedMultiDict",
    "SortedSet",
    "SortedValuesView",
    "pack",
    "unpack",
    "version",
]

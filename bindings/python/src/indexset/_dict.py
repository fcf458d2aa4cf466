"""An ordered dictionary with access by position."""
from __future__ import annotations

import warnings
from collections.abc import Mapping
from itertools import filterfalse
from reprlib import recursive_repr
from typing import (
    Any,
    Callable,
    Generic,
    Iterable,
    Literal,
    Optional,
    SupportsIndex,
    TypeVar,
    Union,
    overload,
)

from ._kinds import known
from ._backend import DictBase
from ._orders import KeyFunction, Run, duplicate, empty_order, fitted, gathered, settled
from ._placed import Placed
from ._views import SortedItemsView, SortedKeysView, SortedValuesView

K = TypeVar("K")
V = TypeVar("V")
S = TypeVar("S")
U = TypeVar("U")
D = TypeVar("D", bound="SortedDict[Any, Any]")
Entries = Union[Mapping[K, V], Iterable[tuple[K, V]]]


_NOT_GIVEN: Any = object()


class SortedDict(Placed[K, V], Generic[K, V]):
    """A sorted dictionary, with the calls of `sortedcontainers.SortedDict`: a `dict` that finds values, and an order of
    its keys.

    `keys` names the kind of its keys, as for `SortedSet`. A function, or None, before the entries orders the keys by
    its results: `SortedDict(function, entries)`. Raises TypeError, OverflowError or ValueError if a key does not fit.

    Cost: `in`, `[key]` and `get` take the time of a `dict`. With n keys, a call on one position, or that adds or
    removes a key, is O(log n); iteration is linear in its length.

    Several threads may read a dictionary at the same time; the caller synchronizes changes. An iterator raises
    RuntimeError after a key was added or removed.

    >>> ages = SortedDict({30: "c", 10: "a"}); ages[20] = "b"; ages
    SortedDict({10: 'a', 20: 'b', 30: 'c'})
    >>> ages.peekitem(0), ages.bisect_left(25), ages.popitem(), list(ages.irange(15))
    ((10, 'a'), 2, (30, 'c'), [20])
    >>> SortedDict({"pear": 2, "apple": 1}), SortedDict(len, {"pear": 2, "fig": 1})
    (SortedDict({'apple': 1, 'pear': 2}), SortedDict(<built-in function len>, {'fig': 1, 'pear': 2}))
    """

    __slots__ = ("_named", "__weakref__")

    _named: Optional[str]

    @overload
    def __init__(self: SortedDict[int, V], entries: Entries[int, V] = ..., *, keys: Literal["int64", "uint64"]) -> None:
        ...

    @overload
    def __init__(self: SortedDict[float, V], entries: Entries[float, V] = ..., *, keys: Literal["float64"]) -> None:
        ...

    @overload
    def __init__(self: SortedDict[str, V], entries: Entries[str, V] = ..., *, keys: Literal["str"]) -> None:
        ...

    @overload
    def __init__(self: SortedDict[bytes, V], entries: Entries[bytes, V] = ..., *, keys: Literal["bytes"]) -> None:
        ...

    @overload
    def __init__(self: SortedDict[str, V], *, keys: None = ..., **words: V) -> None:
        ...

    @overload
    def __init__(self, entries: Mapping[K, V], /, *, keys: Optional[str] = ...) -> None:
        ...

    @overload
    def __init__(self, entries: Iterable[tuple[K, V]], /, *, keys: Optional[str] = ...) -> None:
        ...

    @overload
    def __init__(
        self,
        key: Optional[Callable[[K], object]],
        entries: Union[Mapping[K, V], Iterable[tuple[K, V]]] = ...,
        /,
        *,
        keys: Optional[str] = ...,
    ) -> None:
        ...

    def __init__(self, *given: object, keys: object = None, **words: object) -> None:
        is_key = bool(given) and (given[0] is None or callable(given[0]))
        named: Any = keys
        others: Any = (given[0] if is_key else None, *given[is_key:])
        self._begin(named, others[0])
        self.update(*others[1:], **words)

    def _begin(self, kind: Optional[str], key: KeyFunction) -> None:
        """Becomes empty."""
        known(kind)
        self._named = kind
        self._order = empty_order(kind or "int64", key, False)

    @classmethod
    @overload
    def fromkeys(cls, iterable: Iterable[S], value: None = None, /) -> SortedDict[S, None]:
        ...

    @classmethod
    @overload
    def fromkeys(cls, iterable: Iterable[S], value: U, /) -> SortedDict[S, U]:
        ...

    @classmethod
    def fromkeys(cls, iterable: Iterable[object], value: object = None, /) -> object:
        """Returns a dictionary that maps each key to a value. Raises TypeError, OverflowError or ValueError if a key
        does not fit.

        >>> SortedDict.fromkeys([2, 1], 0)
        SortedDict({1: 0, 2: 0})
        """
        entries: Any = dict.fromkeys(iterable, value)
        return cls(entries)

    # ---- one key

    @overload
    def setdefault(self: SortedDict[K, Optional[U]], key: K, default: None = None) -> Optional[U]:
        ...

    @overload
    def setdefault(self, key: K, default: V) -> V:
        ...

    def setdefault(self, key: K, default: object = None) -> object:
        """Returns the value of a key; if the key is absent, adds it with the default. Raises TypeError, OverflowError
        or ValueError if the key does not fit.

        >>> ages = SortedDict({1: "a"}); ages.setdefault(1, "b"), ages.setdefault(2, "c"), ages
        ('a', 'c', SortedDict({1: 'a', 2: 'c'}))
        """
        if key in self:
            return self[key]
        value: Any = default
        DictBase.__setitem__(self, key, value)
        return default

    @overload
    def pop(self, key: K) -> V:
        ...

    @overload
    def pop(self, key: K, default: Union[V, U]) -> Union[V, U]:
        ...

    def pop(self, key: K, default: object = _NOT_GIVEN) -> object:
        """Removes a key and returns its value, or the default if the key is absent. Raises KeyError if there is no
        default either, TypeError if the key has no hash.

        >>> ages = SortedDict({1: "a"}); ages.pop(1), ages.pop(1, None)
        ('a', None)
        """
        if key in self:
            pop = super().pop  # (from here on nothing is allocated once the order has changed)
            self._settled().discard(key)
            return pop(key)
        if default is _NOT_GIVEN:
            raise KeyError(key)
        return default

    def _order_keys(self, keys: list[Any]) -> None:
        """Adds keys to the order, and changes its kind if they need another one; adds none if one does not fit."""
        order = gathered(self._order, keys, self._named, self.key, False)
        if order is None:
            order = settled(self._order if self._named else fitted(self._order, keys, self.key, False), keys)
            if len(keys) == 1:
                order.add(keys[0])
            else:
                order.take(keys)
        self._become(order)

    def _become(self, order: Any) -> None:
        """Replaces the order by another, which has its keys and possibly more."""
        if order is not self._order:
            self._order.changed()
            self._order = order

    def _settled(self) -> Any:
        """Returns the order of the keys, ready for changes."""
        order = self._order
        if isinstance(order, Run) and order.is_due:
            self._become(order.settled())
        return self._order

    # ---- many keys

    @overload  # type: ignore[override]
    def update(self, entries: Entries[K, V], /) -> None:
        ...

    @overload
    def update(self: SortedDict[str, V], __entries: Entries[str, V], **words: V) -> None:
        ...

    @overload
    def update(self: SortedDict[str, V], **words: V) -> None:
        ...

    def update(self, *given: object, **words: object) -> None:
        """Sets the value of each key. Raises TypeError, OverflowError or ValueError if a key does not fit; the
        dictionary is then unchanged.

        >>> ages = SortedDict({1: "a"}); ages.update({2: "c", 1: "b"}); ages
        SortedDict({1: 'b', 2: 'c'})
        """
        others: Any = given
        is_dict = len(others) == 1 and type(others[0]) is dict and not words
        entries: Any = others[0] if is_dict and not dict.__len__(self) else dict(*others, **words)
        if not dict.__len__(self):
            self._begin_with(entries)
            return
        fresh = list(filterfalse(self.__contains__, entries))
        if fresh:
            self._order_keys(fresh)
        try:
            super().update(entries)
        except BaseException:
            for key in entries:
                if key not in self:
                    self._settled().discard(key)
            raise

    def _begin_with(self, entries: dict[K, V]) -> None:
        """Sets the value of each key of an empty dictionary."""
        try:
            super().update(entries)
            keys = list(dict.__iter__(self))
            if keys:
                self._order_keys(keys)
            if len(self._order) != dict.__len__(self):
                raise RuntimeError("it changed meanwhile")
        except BaseException:
            super().clear()
            self._order.clear()
            raise

    @overload
    def get_all(self, keys: Iterable[object], default: None = None) -> list[Optional[V]]:
        ...

    @overload
    def get_all(self, keys: Iterable[object], default: U) -> list[Union[V, U]]:
        ...

    def get_all(self, keys: Iterable[object], default: object = None) -> object:
        """Returns the value of each key, or the default if the key is absent. Raises TypeError if a key has no hash.

        >>> SortedDict({1: "a", 2: "b"}).get_all([2, 3, 1])
        ['b', None, 'a']
        """
        get: Any = self.get
        return [get(key, default) for key in keys]

    def clear(self) -> None:
        """Removes all keys.

        >>> ages = SortedDict({1: "a"}); ages.clear(); ages
        SortedDict({})
        """
        self._order.clear()
        super().clear()

    # ---- positions

    def popitem(self, index: SupportsIndex = -1) -> tuple[K, V]:
        """Removes the key and the value at a position, by default the last, and returns them. Raises KeyError if the
        dictionary is empty, IndexError if there is no such position.

        >>> SortedDict({1: "a", 2: "b"}).popitem(0)
        (1, 'a')
        """
        if not self:
            raise KeyError("popitem(): dictionary is empty")
        key = self._order[index]
        pair, pop = (key, self[key]), super().pop
        self._settled().pop(index)
        pop(key)
        return pair

    # ---- views

    def keys(self) -> SortedKeysView[K]:  # type: ignore[override]
        """Returns a view of the keys, which can be indexed.

        >>> SortedDict({1: "a", 2: "b"}).keys()[0]
        1
        """
        return SortedKeysView(self)

    def values(self) -> SortedValuesView[V]:  # type: ignore[override]
        """Returns a view of the values, which can be indexed.

        >>> list(SortedDict({2: "b", 1: "a"}).values())
        ['a', 'b']
        """
        return SortedValuesView(self)

    def items(self) -> SortedItemsView[K, V]:  # type: ignore[override]
        """Returns a view of the keys with their values, which can be indexed.

        >>> SortedDict({2: "b", 1: "a"}).items()[:1]
        [(1, 'a')]
        """
        return SortedItemsView(self)

    @property
    def iloc(self) -> SortedKeysView[K]:
        """The view of the keys, under a name that `sortedcontainers` deprecates. Emits a DeprecationWarning.

        >>> with warnings.catch_warnings():
        ...     warnings.simplefilter("ignore"); SortedDict({1: "a"}).iloc[0]
        1
        """
        warnings.warn("use SortedDict.keys()", DeprecationWarning, stacklevel=2)
        return self.keys()

    # ---- the object

    def copy(self: D) -> D:
        """Returns a dictionary of the same class, keys and values. Linear in their number. Raises MemoryError if memory
        runs out.

        >>> ages = SortedDict({1: "a"}); other = ages.copy(); other[2] = "b"; ages, other
        (SortedDict({1: 'a'}), SortedDict({1: 'a', 2: 'b'}))
        """
        made: D = self._empty()
        made._order = duplicate(self._order, False)
        super(SortedDict, made).update(dict.copy(self))
        return made

    def _empty(self) -> Any:
        """Returns another dictionary of the same class, kind and key, without keys. Runs the `__init__` of a
        subclass."""
        cls: Any = type(self)
        if cls.__init__ is SortedDict.__init__:
            made = cls.__new__(cls)
            made._begin(self._named, self.key)
            return made
        made = cls(*[] if self.key is None else [self.key], **{} if self._named is None else {"keys": self._named})
        made.clear()
        return made

    def __copy__(self: D) -> D:
        """Returns a copy, with the attributes of a subclass."""
        made = self.copy()
        if hasattr(self, "__dict__"):
            made.__dict__.update(self.__dict__)
        return made

    def __or__(self, other: Mapping[S, U]) -> SortedDict[Union[K, S], Union[V, U]]:
        """Returns a dictionary of the keys of both; a value is that of the second, if it has one."""
        if not isinstance(other, Mapping):
            return NotImplemented
        made: SortedDict[Any, Any] = self.copy()
        made.update(other)
        return made

    def __ror__(self, other: Mapping[S, U]) -> SortedDict[Union[K, S], Union[V, U]]:
        if not isinstance(other, Mapping):
            return NotImplemented
        made: SortedDict[Any, Any] = self._empty()
        made.update(other)
        made.update(self)
        return made

    def __ior__(self: D, other: Entries[K, V]) -> D:  # type: ignore[override, misc]
        """Sets the value of each key, as `update`."""
        self.update(other)
        return self

    @recursive_repr("...")
    def __repr__(self) -> str:
        key = "" if self.key is None else f"{self.key!r}, "
        kind = "" if self._named is None else f", keys={self._named!r}"
        entries = ", ".join(f"{key!r}: {value!r}" for key, value in self.items())
        return f"{type(self).__name__}({key}{{{entries}}}{kind})"

    def __reduce__(self) -> tuple[object, ...]:
        state = getattr(self, "__dict__", None) or None
        return _restored, (type(self), self.key, self._named, dict(self.items())), state

    def __reduce_ex__(self, protocol: SupportsIndex) -> tuple[object, ...]:
        return self.__reduce__()


def _restored(cls: Any, key: KeyFunction, kind: Optional[str], entries: dict[Any, Any]) -> Any:
    made = cls.__new__(cls)
    made._begin(kind, key)
    made.update(entries)
    return made

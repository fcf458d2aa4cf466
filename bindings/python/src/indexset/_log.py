"""An ordered dictionary that reports its changes."""
from __future__ import annotations

from collections.abc import MutableMapping
from typing import Any, Callable, Generic, Iterable, Mapping, Optional, TypeVar, Union, overload

from . import _library as library
from ._codecs import Moves
from ._kinds import ALL, NUMBERS
from ._library import Count, Event, Number, check, lib, place
from ._nodes import KINDS, PAIRED, Change, Noded

K = TypeVar("K")
V = TypeVar("V")
U = TypeVar("U")
_NOT_GIVEN: Any = object()
Entries = Union[Mapping[K, V], Iterable[tuple[K, V]]]


class LoggedDict(Noded[K, V], MutableMapping[K, V], Generic[K, V]):
    """A sorted dictionary that passes each change to `tell`.

    `keys` and `values` name the kinds of its keys and values, as for `SortedSet`; without names these are the kinds of
    the first pair. Raises TypeError, OverflowError or ValueError if an item is of another kind. A node holds at most
    `size` pairs, and the first change has the number `next`. A replica with the nodes of `nodes()` that applies the
    changes from the number `next` on has the nodes of the dictionary. A copy and a pickle have the same pairs in nodes
    of their own; they report no changes, and their numbers continue from `next`.

    Cost: with n pairs, a call on one key or one position is O(log n), and a change also linear in the size of a node.
    Keys that are not numbers are also kept in Python. Several threads may read a dictionary at the same time; the
    caller synchronizes changes, and makes none while one is reported.

    >>> told = []
    >>> ages = LoggedDict(told.append, size=2); ages[30] = 3; ages[10] = 1; ages[20] = 2
    >>> ages, [(change.number, change.kind) for change in told]
    (LoggedDict({10: 1, 20: 2, 30: 3}), [(0, 'create'), (1, 'insert'), (2, 'split'), (3, 'insert')])
    >>> ages.nodes(), ages.next
    ([[(10, 1)], [(20, 2), (30, 3)]], 4)
    >>> ages.bisect_left(25), ages.peekitem(0), ages.keys()[-1], ages.items()[1:]
    (2, (10, 1), 30, [(20, 2), (30, 3)])
    >>> LoggedDict(entries={"b": None, "a": "x"}, values="any").nodes()
    [[('a', 'x'), ('b', None)]]
    """

    __slots__ = ("_tell", "_size")

    _get = staticmethod(lib.indexset_log_get)
    _length = staticmethod(lib.indexset_log_len)
    _next = staticmethod(lib.indexset_log_next)
    _range = staticmethod(lib.indexset_log_range)
    _rank = staticmethod(lib.indexset_log_rank)
    _at = staticmethod(lib.indexset_log_at)
    _run = staticmethod(lib.indexset_log_range_by_position)
    _node_count = staticmethod(lib.indexset_log_node_count)
    _node_lengths = staticmethod(lib.indexset_log_node_lengths)

    def __init__(
        self,
        tell: Optional[Callable[[Change], object]] = None,
        entries: Entries[K, V] = (),
        *,
        keys: Optional[str] = None,
        values: Optional[str] = None,
        size: int = 1024,
        next: int = 0,
    ) -> None:
        self._begin(keys, values)
        if not 2 <= size <= ALL:
            raise ValueError(f"a node holds 2 pairs or more, not {size}")
        self._tell, self._size = tell, size
        self._handle = library.new("log", size, NUMBERS["uint64"].code(next))
        self.update(entries)

    def __setitem__(self, key: K, value: V) -> None:
        """Sets the value of a key, and reports the changes."""
        if None in self._named:
            self._settle(key, value)
        changes: list[Change] = []
        fresh = self._keys.find(key) is None
        if fresh:
            self._move(self._keys.moves(key), changes)
        code = self._keys.take(key)
        try:
            written = self._values.take(value)
            try:
                before = self._inserted(code, written, changes)
            except BaseException:
                self._values.drop(written)
                raise
        except BaseException:
            if fresh or not self._has(code):
                self._keys.drop(code)
            raise
        if before is not None:
            self._values.drop(before)
        self._told(changes)

    @overload
    def pop(self, key: K) -> V:
        ...

    @overload
    def pop(self, key: K, default: Union[V, U]) -> Union[V, U]:
        ...

    def pop(self, key: K, default: object = _NOT_GIVEN) -> object:
        """Removes a key, reports the changes and returns its value, or the default if the key is absent. Raises
        KeyError if there is no default either, TypeError if the key has no hash.

        >>> ages = LoggedDict(entries={1: "a"}); ages.pop(1), ages.pop(1, None)
        ('a', None)
        """
        if key in self:
            value = self[key]
            del self[key]
            return value
        if default is _NOT_GIVEN:
            raise KeyError(key)
        return default

    def popitem(self) -> tuple[K, V]:
        """Removes the first key, reports the changes and returns the key and its value. Raises KeyError if the
        dictionary is empty.

        >>> LoggedDict(entries={2: "b", 1: "a"}).popitem()
        (1, 'a')
        """
        if not len(self):
            raise KeyError("popitem(): dictionary is empty")
        pair = self.peekitem(0)
        del self[pair[0]]
        return pair

    def clear(self) -> None:
        """Removes all keys, from the first to the last, and reports the changes.

        >>> told = []; ages = LoggedDict(told.append, {1: "a"}); ages.clear(); ages, told[-1].kind
        (LoggedDict({}), 'drop')
        """
        for key in list(self):
            del self[key]

    @overload
    def setdefault(self: LoggedDict[K, Optional[U]], key: K, default: None = None) -> Optional[U]:
        ...

    @overload
    def setdefault(self, key: K, default: V) -> V:
        ...

    def setdefault(self, key: K, default: object = None) -> object:
        """Returns the value of a key; if the key is absent, adds it with the default and reports the changes. Raises
        TypeError, OverflowError or ValueError if the key or the default does not fit.

        >>> ages = LoggedDict(entries={1: "a"}); ages.setdefault(1, "b"), ages.setdefault(2, "c")
        ('a', 'c')
        """
        if key in self:
            return self[key]
        value: Any = default
        self[key] = value
        return default

    @overload  # type: ignore[override]
    def update(self, entries: Entries[K, V], /) -> None:
        ...

    @overload
    def update(self: LoggedDict[str, V], __entries: Entries[str, V], **words: V) -> None:
        ...

    @overload
    def update(self: LoggedDict[str, V], **words: V) -> None:
        ...

    def update(self, *given: object, **words: object) -> None:
        """Sets the value of each key, and reports the changes. Raises TypeError, OverflowError or ValueError at a key
        or a value that does not fit, after setting those before it.

        >>> ages = LoggedDict(entries={1: "a"}); ages.update({2: "c", 1: "b"}); ages
        LoggedDict({1: 'b', 2: 'c'})
        """
        entries: Any = given
        more: Any = words
        super().update(*entries, **more)

    def __delitem__(self, key: object) -> None:
        """Removes a key, and reports the changes. Raises KeyError if the key is absent."""
        code = self._keys.find(key)
        changes: list[Change] = []
        before = None if code is None else self._removed(code, changes)
        if before is None:
            raise KeyError(key)
        self._keys.drop(code)
        self._values.drop(before)
        self._told(changes)

    def _inserted(self, code: int, written: int, changes: list[Change]) -> Optional[int]:
        """Sets the value of a key, and returns the old value, if any."""
        events, told, before = (Event * library.CHANGES)(), Count(), Number()
        is_new = check(
            lib.indexset_log_insert(
                self._handle, code, written, place(before), place(events), library.CHANGES, place(told)
            )
        )
        changes += [self._change(events[at]) for at in range(told.value)]
        return None if is_new else before.value

    def _removed(self, code: int, changes: list[Change]) -> Optional[int]:
        """Removes a key, and returns its value, if any."""
        events, told, before = (Event * library.CHANGES)(), Count(), Number()
        was_there = check(
            lib.indexset_log_remove(self._handle, code, place(before), place(events), library.CHANGES, place(told))
        )
        changes += [self._change(events[at]) for at in range(told.value)]
        return before.value if was_there else None

    def _move(self, moves: Moves, changes: list[Change]) -> None:
        """Gives keys other labels."""
        if ALL - self.next < 2 * library.CHANGES * (len(moves) + 1) and moves:
            raise OverflowError("too few numbers are left")
        values = [self._removed(old, changes) for old, _ in moves]
        self._keys.moved(moves)
        for (_, new), value in zip(moves, values):
            self._inserted(new, value or 0, changes)

    def _change(self, event: Event) -> Change:
        """Returns the change of a record of the library."""
        key, value = self._keys.decode, self._values.decode
        kind = KINDS[event.kind]
        node = key(event.node_key), value(event.node_value)
        pair = (key(event.key), value(event.value)) if kind in PAIRED else (0, 0)
        label = self._keys.label(pair[0] if kind == "insert" else node[0]) if kind in ("insert", "create") else 0
        return Change(event.number, str(kind), node, pair, event.index, label)

    def _told(self, changes: list[Change]) -> None:
        """Reports changes."""
        if self._tell is not None:
            for change in changes:
                self._tell(change)

    def __reduce__(self) -> tuple[object, ...]:
        words = dict(self.irange()), *self._named, self._size, self.next
        return _restored, (type(self), *words), getattr(self, "__dict__", None) or None


def _restored(cls: Any, entries: Any, keys: Any, values: Any, size: int, next: int) -> Any:
    made = cls.__new__(cls)
    LoggedDict.__init__(made, None, entries, keys=keys, values=values, size=size, next=next)
    return made

"""The base of a logged dictionary and a replica: changes, and pairs that are read in order."""
from __future__ import annotations

from collections.abc import Mapping
from typing import Any, Generic, Iterable, Iterator, NamedTuple, Optional, TypeVar, Union, overload

from . import _library as library
from ._codecs import keys_of, values_of
from ._kinds import ALL, known
from ._library import Number, memory, place, zeros
from ._orders import kind_of
from ._views import NodedItemsView, NodedKeysView, NodedValuesView

K = TypeVar("K")
V = TypeVar("V")
U = TypeVar("U")
C = TypeVar("C", bound="Noded[Any, Any]")

KINDS = (None, "insert", "remove", "create", "drop", "split", "merge")
PAIRED = ("insert", "remove", "merge")


class Change(NamedTuple):
    """A change of a node. A node is a run of pairs in order; its name is its last pair before the change.

    `kind` is "insert" or "remove", of the pair at the index; "create", of a node of one pair, or "drop"; "split", into
    the pairs before the index and the rest; or "merge", with the next node, whose last pair is the pair. Unused fields
    are 0.

    `label` is the order label of a new key that is not a 64-bit number: a number between those of its neighbours. If
    there is no number between two labels, some keys are first removed and inserted under other labels, which are
    changes too.

    >>> Change(0, "create", (5, 50), (0, 0), 0).kind
    'create'
    """

    number: int
    kind: str
    node: tuple[object, object]
    pair: tuple[object, object]
    index: int  # type: ignore[assignment]
    label: int = 0


class Noded(Mapping[K, V], Generic[K, V]):
    """Pairs in nodes, owned by a handle of the library. A subclass names the library's calls."""

    __slots__ = ("_handle", "_keys", "_values", "_named", "__weakref__")
    __hash__ = None  # type: ignore[assignment]

    _handle: Any
    _get: Any
    _length: Any
    _next: Any
    _range: Any
    _rank: Any
    _at: Any
    _run: Any
    _node_count: Any
    _node_lengths: Any

    def _begin(self, keys: Optional[str], values: Optional[str]) -> None:
        """Sets the names of the kinds; a kind without a name follows from the first pair."""
        known(keys)
        known(values)
        self._named: list[Optional[str]] = [keys, values]
        self._keys: Any = keys_of(keys or "int64")
        self._values: Any = values_of(values or "int64")

    def _settle(self, key: Any, value: Any) -> None:
        """Finds the kinds without names, for a first pair."""
        keys, values = self._named
        if keys is None:
            self._keys = keys_of(kind_of([key]))
        if values is None:
            self._values = values_of(kind_of([value]))
        self._named = [self._keys.name, self._values.name]

    @property
    def kinds(self) -> tuple[str, str]:
        """The names of the kinds of the keys and of the values, as in `SortedSet.kind`.

        >>> from indexset import LoggedDict
        >>> LoggedDict(entries={"a": 1}).kinds
        ('str', 'int64')
        """
        return self._keys.name, self._values.name

    # ---- reads

    def __getitem__(self, key: object) -> V:
        """Returns the value of a key. Raises KeyError if the key is absent, TypeError if it has no hash."""
        code, out = self._keys.find(key), Number()
        if code is None or not self._get(self._handle, code, place(out)):
            raise KeyError(key)
        value: V = self._values.decode(out.value)
        return value

    @overload
    def get(self, key: object, default: None = None) -> Optional[V]:
        ...

    @overload
    def get(self, key: object, default: Union[V, U]) -> Union[V, U]:
        ...

    def get(self, key: object, default: object = None) -> object:
        """Returns the value of a key, or the default if the key is absent. Raises TypeError if the key has no hash.

        >>> from indexset import LoggedDict
        >>> ages = LoggedDict(entries={1: "a"}); ages.get(1), ages.get(2), ages.get(2, "b")
        ('a', None, 'b')
        """
        try:
            return self[key]
        except KeyError:
            return default

    def __contains__(self, key: object) -> bool:
        """Returns whether a key is present. Raises TypeError if it has no hash."""
        code = self._keys.find(key)
        return code is not None and self._has(code)

    def _has(self, code: int) -> bool:
        found: bool = self._get(self._handle, code, place(Number()))
        return found

    def __len__(self) -> int:
        """Returns the number of keys."""
        size: int = self._length(self._handle)
        return size

    @property
    def next(self) -> int:
        """The number of the next change.

        >>> from indexset import LoggedDict
        >>> LoggedDict(next=7).next
        7
        """
        number: int = self._next(self._handle)
        return number

    def irange(self, minimum: object = None, maximum: object = None) -> Iterator[tuple[K, V]]:
        """Iterates over the keys between two values, both included, with their values, as they are at the call. Raises
        TypeError if a value cannot be compared with the keys.

        >>> from indexset import LoggedDict
        >>> list(LoggedDict(entries={1: 10, 3: 30, 5: 50}).irange(2, 5))
        [(3, 30), (5, 50)]
        """
        ends = self._keys.range(minimum, maximum)
        if ends is None:
            return iter(())
        return iter(self._decoded(*library.pairs(self._range, self._handle, *ends, size=len(self))))

    def _decoded(self, keys: Iterable[int], values: Iterable[int]) -> list[tuple[K, V]]:
        return [(self._keys.decode(key), self._values.decode(value)) for key, value in zip(keys, values)]

    def __iter__(self) -> Iterator[K]:
        """Iterates over the keys in order, as they are at the call."""
        return (key for key, _ in self.irange())

    # ---- positions

    def peekitem(self, index: int = -1) -> tuple[K, V]:
        """Returns the key and the value at a position, by default the last. Raises IndexError if there is none. O(log
        n).

        >>> from indexset import LoggedDict
        >>> LoggedDict(entries={2: "b", 1: "a"}).peekitem()
        (2, 'b')
        """
        key, value = Number(), Number()
        if not self._at(self._handle, library.position(index, len(self)), place(key), place(value)):
            raise IndexError("index out of range")
        return self._keys.decode(key.value), self._values.decode(value.value)

    def index(self, value: object, start: Optional[int] = None, stop: Optional[int] = None) -> int:
        """Returns the position of a key, from `start` and before `stop`. Raises ValueError if there is none, TypeError
        if the key has no hash.

        >>> from indexset import LoggedDict
        >>> LoggedDict(entries={2: "b", 1: "a"}).index(2)
        1
        """
        first, past, _ = slice(start, stop).indices(len(self))
        if value in self:
            position: int = self._rank(self._handle, self._keys.find(value))
            if first <= position < past:
                return position
        raise ValueError(f"{value!r} is not there")

    def bisect_left(self, value: object) -> int:
        """Returns the number of keys below a value. Raises TypeError if it cannot be compared with them. O(log n).

        >>> from indexset import LoggedDict
        >>> ages = LoggedDict(entries={10: "a", 30: "b"}); ages.bisect_left(30), ages.bisect_right(30)
        (1, 2)
        """
        return self._bisect(value, False)

    def bisect_right(self, value: object) -> int:
        """Returns the number of keys not above a value. Raises TypeError if it cannot be compared with them. O(log n).

        >>> from indexset import LoggedDict
        >>> LoggedDict(entries={10: "a", 30: "b"}).bisect_right(10)
        1
        """
        return self._bisect(value, True)

    bisect = bisect_right

    def _bisect(self, value: object, right: bool) -> int:
        size = len(self)
        code = self._keys.bound(value, right) if size else 0
        rank: int = size if code > ALL else self._rank(self._handle, code)
        return rank

    def islice(
        self, start: Optional[int] = None, stop: Optional[int] = None, reverse: bool = False
    ) -> Iterator[tuple[K, V]]:
        """Iterates over the keys at the positions from `start` and before `stop`, with their values, as they are at the
        call. O(log n), and linear in their number.

        >>> from indexset import LoggedDict
        >>> list(LoggedDict(entries={1: 10, 3: 30, 5: 50}).islice(1, reverse=True))
        [(5, 50), (3, 30)]
        """
        pairs = self._chunk(*slice(start, stop).indices(len(self))[:2])
        return reversed(pairs) if reverse else iter(pairs)

    def _chunk(self, first: int, past: int) -> list[tuple[K, V]]:
        size = max(0, past - first)
        return self._decoded(*library.pairs(self._run, self._handle, first, size=size))

    def _slice(self, index: slice) -> list[tuple[K, V]]:
        """Returns the pairs at a slice."""
        at = range(*index.indices(len(self)))
        first, last = (at[0], at[-1]) if at else (0, -1)
        return self._chunk(min(first, last), max(first, last) + 1)[:: at.step] if at else []

    def keys(self) -> NodedKeysView[K]:
        """Returns a view of the keys, which can be indexed.

        >>> from indexset import LoggedDict
        >>> LoggedDict(entries={2: "b", 1: "a"}).keys()[0]
        1
        """
        return NodedKeysView(self)

    def values(self) -> NodedValuesView[V]:
        """Returns a view of the values in the order of their keys, which can be indexed.

        >>> from indexset import LoggedDict
        >>> LoggedDict(entries={2: "b", 1: "a"}).values()[0]
        'a'
        """
        return NodedValuesView(self)

    def items(self) -> NodedItemsView[K, V]:
        """Returns a view of the keys with their values, which can be indexed.

        >>> from indexset import LoggedDict
        >>> LoggedDict(entries={2: "b", 1: "a"}).items()[-1:]
        [(2, 'b')]
        """
        return NodedItemsView(self)

    # ---- nodes

    def nodes(self) -> list[list[tuple[K, V]]]:
        """Returns the nodes, each as a list of its keys with their values. Linear in the number of pairs.

        >>> from indexset import LoggedDict
        >>> LoggedDict(entries={1: "a", 2: "b", 3: "c"}, size=2).nodes()
        [[(1, 'a')], [(2, 'b'), (3, 'c')]]
        """
        pairs, count = self.irange(), self._node_count(self._handle)
        lengths = zeros(count)
        if count:
            self._node_lengths(self._handle, memory(lengths), count)
        return [[next(pairs) for _ in range(length)] for length in lengths]

    # ---- the object

    def copy(self: C) -> C:
        """Returns a copy with the same pairs and, of a subclass, the same attributes. Linear in the number of pairs.
        Raises MemoryError if memory runs out.

        >>> from indexset import LoggedDict
        >>> LoggedDict(entries={2: "b", 1: "a"}).copy()
        LoggedDict({1: 'a', 2: 'b'})
        """
        reduced: Any = self.__reduce__()
        make, words, attributes = reduced
        made: C = make(*words)
        if attributes:
            made.__dict__.update(attributes)
        return made

    def __copy__(self: C) -> C:
        """Returns a copy, with the attributes of a subclass."""
        return self.copy()

    def __reduce__(self) -> tuple[object, ...]:
        raise NotImplementedError

    def __repr__(self) -> str:
        return f"{type(self).__name__}({dict(self.irange())})"

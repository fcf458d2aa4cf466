"""A replica of a logged dictionary, which follows it by its changes."""
from __future__ import annotations

from typing import Any, Generic, Iterable, Optional, TypeVar

from . import _library as library
from ._codecs import Numbered
from ._kinds import NUMBERS
from ._library import Count, Event, Number, check, lib, place
from ._log import LoggedDict
from ._nodes import KINDS, PAIRED, Change, Noded

K = TypeVar("K")
V = TypeVar("V")

_REASONS = {
    library.UNFIT: "a key, a value or a number in it is of another kind",
    library.GAP: "changes before it are missing",
    12: "no node has the last key that it names",
    13: "its index is outside the node",
    14: "another key stands at its index",
    15: "it would remove the only pair of a node",
    16: "the keys would not be in order afterwards",
    17: "it would split off an empty part",
    18: "the second node that it names does not follow the first",
}
_OF_ANOTHER_KIND = (TypeError, OverflowError, ValueError)
NO_SUCH_NODE, VALUE_DIFFERS, OUT_OF_ORDER, NOT_NEIGHBOURS = 12, 14, 16, 18


class Refused(ValueError):
    """A change that a replica did not apply. `change` is the change, `taken` the number of changes before it in the
    call that were processed, and `status` the status of the library.

    >>> replica = Replica(keys="int64", values="int64")
    >>> try:
    ...     replica.apply(Change(0, "insert", (1, 2), (3, 4), 0))
    ... except Refused as error:
    ...     print(error)
    change 0 is refused: no node has the last key that it names
    """

    def __init__(self, status: int, taken: int, change: Change) -> None:
        super().__init__(f"change {change.number} is refused: {_REASONS[status]}")
        self.status, self.taken, self.change = status, taken, change

    def __reduce__(self) -> tuple[object, ...]:
        return type(self), (self.status, self.taken, self.change)


class Gap(Refused):
    """A change with a number above that of the next change: changes before it are missing.

    >>> try:
    ...     Replica().apply(Change(7, "create", (1, 2), (0, 0), 0))
    ... except Gap as error:
    ...     print(error)
    change 7 is refused: changes before it are missing
    """


class Replica(Noded[K, V], Generic[K, V]):
    """A dictionary that follows a `LoggedDict` by its changes: it has the same nodes once it has applied them.

    `of` is the dictionary of which it starts as a copy. Without one it starts empty, and its next change has the number
    `next`; `keys` and `values` then name the kinds of the dictionary that it follows, or follow from the first pair. A
    copy and a pickle have the same nodes and the same next change.

    Cost: with n pairs, a call on one key or one position is O(log n), and a change also linear in the size of a node.
    Several threads may read a replica at the same time; the caller synchronizes changes.

    >>> told = []
    >>> ages = LoggedDict(told.append, size=2); ages[30] = 3; ages[10] = 1
    >>> late = Replica(ages); ages[20] = 2
    >>> replica = Replica(); replica.apply_all(told), late.apply_all(told)
    (4, 4)
    >>> replica, late.nodes() == ages.nodes(), replica.apply(told[0])
    (Replica({10: 1, 20: 2, 30: 3}), True, False)
    >>> replica.bisect_left(25), replica.peekitem(0), replica.index(20), list(replica.islice(1))
    (2, (10, 1), 1, [(20, 2), (30, 3)])
    """

    __slots__ = ()

    _get = staticmethod(lib.indexset_replica_get)
    _length = staticmethod(lib.indexset_replica_len)
    _next = staticmethod(lib.indexset_replica_next)
    _range = staticmethod(lib.indexset_replica_range)
    _rank = staticmethod(lib.indexset_replica_rank)
    _at = staticmethod(lib.indexset_replica_at)
    _run = staticmethod(lib.indexset_replica_range_by_position)
    _node_count = staticmethod(lib.indexset_replica_node_count)
    _node_lengths = staticmethod(lib.indexset_replica_node_lengths)

    def __init__(
        self,
        of: Optional[LoggedDict[K, V]] = None,
        *,
        keys: Optional[str] = None,
        values: Optional[str] = None,
        next: int = 0,
    ) -> None:
        self._begin(keys, values)
        if of is None:
            self._handle = library.new("replica", NUMBERS["uint64"].code(next))
            return
        self._named, self._keys, self._values = list(of._named), of._keys.clone(), of._values.clone()
        self._handle = library.handle("replica")
        check(lib.indexset_replica_from_log(self._handle, of._handle))

    def apply(self, change: Change) -> bool:
        """Applies a change. Returns True, or False if its number is below that of the next change, so that it was
        applied before. Raises Gap if the number is above that, Refused if the change does not fit the nodes or the
        kinds; nothing changes then.

        >>> told = []; ages = LoggedDict(told.append, {1: "a"}); replica = Replica()
        >>> replica.apply(told[0]), replica.apply(told[0]), replica
        (True, False, Replica({1: 'a'}))
        """
        return self._apply(change, 0)

    def apply_all(self, changes: Iterable[Change]) -> int:
        """Applies changes, first to last, and skips those that were applied before. Returns the number of changes.
        Raises Gap or Refused at the first change that does not apply; its `taken` is the number of changes before it,
        which are applied. Numbers take one call of the library.

        >>> told = []; ages = LoggedDict(told.append, {1: "a", 2: "b"}); replica = Replica()
        >>> replica.apply_all(told), replica
        (2, Replica({1: 'a', 2: 'b'}))
        """
        every = list(changes)
        if every and None not in self._named and self._is_numbered():
            self._apply_numbers(every)
        else:
            for taken, change in enumerate(every):
                self._apply(change, taken)
        return len(every)

    def _is_numbered(self) -> bool:
        return isinstance(self._keys, Numbered) and isinstance(self._values, Numbered)

    def _apply_numbers(self, every: list[Change]) -> None:
        events, taken = (Event * len(every))(), Count()
        first, (written, error) = self.next, self._written(every, events)
        status = lib.indexset_replica_apply_all(self._handle, place(events), written, place(taken))
        if self._keys.name == "float64":
            self._put_keys(change for change in every[: taken.value] if change.number >= first)
        if status not in (library.NO, library.YES):
            self._refuse(status, taken.value, every[min(taken.value, len(every) - 1)])
        if error is not None:
            raise Refused(library.UNFIT, written, every[written]) from error

    def _put_keys(self, changes: Iterable[Change]) -> None:
        """Stores the keys of changes that were applied."""
        for change in changes:
            if change.kind in ("create", "insert"):
                self._keys.put((change.node if change.kind == "create" else change.pair)[0], 0)

    def _written(self, every: list[Change], events: Any) -> tuple[int, Optional[Exception]]:
        """Returns the number of changes that become records of the library, and the error of the first that does
        not."""
        for at, change in enumerate(every):
            try:
                self._write(change, events[at])
            except _OF_ANOTHER_KIND as error:
                return at, error
        return len(every), None

    def _write(self, change: Change, event: Event) -> None:
        """Writes the library's record of a change of numbers. Raises ValueError if its kind is unknown."""
        self._begin_event(change, event)
        (key, value), code, code_of_value = change.node, self._keys.code, self._values.code
        event.node_key, event.node_value = code(key), code_of_value(value)
        if change.kind in PAIRED:
            key, value = change.pair
            event.key, event.value = code(key), code_of_value(value)

    @staticmethod
    def _begin_event(change: Change, event: Event) -> None:
        if change.kind not in KINDS[1:]:
            raise ValueError(f"no kind of change is {change.kind!r}")
        count = NUMBERS["uint64"].code
        event.kind = KINDS.index(change.kind)
        event.number, event.index = count(change.number), count(change.index)

    def _apply(self, change: Change, taken: int) -> bool:
        """Applies a change, after `taken` others of a call."""
        begun = self._named, self._keys, self._values
        try:
            return self._applied(change, taken)
        except (Refused, library.Spent):
            raise
        except _OF_ANOTHER_KIND as error:
            self._named, self._keys, self._values = begun
            raise Refused(library.UNFIT, taken, change) from error

    def _applied(self, change: Change, taken: int) -> bool:
        """Applies a change, and leaves errors of kinds to the caller."""
        event = Event()
        self._begin_event(change, event)
        if change.number != self.next:
            if change.number > self.next:
                raise Gap(library.GAP, taken, change)
            return False
        if None in self._named:
            self._settle(*change.node)
        if change.kind in ("create", "insert"):
            self._add(change, event, taken)
        else:
            self._make(change, event, taken)
        return True

    def _add(self, change: Change, event: Event, taken: int) -> None:
        """Applies a change that adds a pair."""
        key, value = change.node if change.kind == "create" else change.pair
        if not self._keys.fits(key, change.label):
            raise Refused(OUT_OF_ORDER, taken, change)
        code, written = self._keys.code_of(key, change.label), self._values.take(value)
        event.key, event.value, event.node_key, event.node_value = code, written, code, written
        try:
            if change.kind == "insert":
                event.node_key, event.node_value = self._node(change, taken), 0
            self._make_event(event, change, taken)
        except BaseException:
            self._values.drop(written)
            raise
        self._keys.put(key, change.label)

    def _make(self, change: Change, event: Event, taken: int) -> None:
        """Applies a change that adds none."""
        event.node_key, gone = self._node(change, taken), None
        if change.kind in PAIRED:
            gone = self._keys.find(change.pair[0])
            if gone is None:
                raise Refused(VALUE_DIFFERS if change.kind == "remove" else NOT_NEIGHBOURS, taken, change)
            event.key = gone
        if change.kind not in ("remove", "drop"):
            self._make_event(event, change, taken)
            return
        gone, before = event.node_key if gone is None else gone, Number()
        had = self._get(self._handle, gone, place(before))
        self._make_event(event, change, taken)
        self._keys.drop(gone)
        if had:
            self._values.drop(before.value)

    def _node(self, change: Change, taken: int) -> int:
        """Returns the code of the key that names a node."""
        code: Optional[int] = self._keys.find(change.node[0])
        if code is None:
            self._keys.code_of(change.node[0], 0)
            raise Refused(NO_SUCH_NODE, taken, change)
        return code

    def _make_event(self, event: Event, change: Change, taken: int) -> None:
        status = lib.indexset_replica_apply(self._handle, place(event))
        if status != library.YES:
            self._refuse(status, taken, change)

    @staticmethod
    def _refuse(status: int, taken: int, change: Change) -> None:
        """Raises the error of a status, for a change."""
        if status == library.GAP:
            raise Gap(status, taken, change)
        if status in _REASONS:
            raise Refused(status, taken, change)
        check(status)

    def __reduce__(self) -> tuple[object, ...]:
        label = self._keys.label
        nodes = [[(key, value, label(key)) for key, value in node] for node in self.nodes()]
        words = type(self), nodes, *self._named, self.next
        return _restored, words, getattr(self, "__dict__", None) or None


def _restored(cls: Any, nodes: list[Any], keys: Any, values: Any, next: int) -> Any:
    made = cls.__new__(cls)
    number = next - sum(map(len, nodes))
    Replica.__init__(made, keys=keys, values=values, next=number)
    for node in nodes:
        before = None
        for index, (key, value, label) in enumerate(node):
            kind, pair = ("create", (0, 0)) if before is None else ("insert", (key, value))
            made.apply(Change(number, kind, before or (key, value), pair, index, label))
            before, number = (key, value), number + 1
    return made

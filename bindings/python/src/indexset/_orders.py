"""Orders of objects: by byte codes in the library, or by Python's own `<`."""
from __future__ import annotations

from itertools import product
from typing import TYPE_CHECKING, Any, Callable, Iterable, Iterator, Optional, TypeVar, Union

from ._kinds import ALL, BYTES, NUMBERS, OBJECT, TOP, real, whole
from ._backend import BACKEND, Blocks, Coded, Multi, Numbers, ObjectIndex, are_alike

T = TypeVar("T")
KeyFunction = Optional[Callable[[Any], Any]]
Order = Union[Numbers, "Keyed[Any]"]

# Above each number that follows a code, and below the byte 0xff that escapes a zero byte within a text.
_PAST = b"\xfe"

_UNFIT = (TypeError, OverflowError, ValueError)


def forms(key: Any) -> list[Any]:
    """Returns the keys that equal a key and have a code of their own: numbers of each type, also within tuples."""
    if isinstance(key, tuple):
        return list(product(*map(forms, key)))
    if key is None or isinstance(key, (str, bytes)):
        return [key]
    number, float_number = whole(key), real(key)
    found: list[Any] = [] if number is None else [number]
    found += [] if float_number is None else [float_number]
    return found + [bool(number)] * (number in (0, 1)) or [key]


class Keyed(ObjectIndex[T]):
    """Objects in the order of their sort keys, equal ones in insertion order. A subclass also keeps the order in the
    library."""

    __slots__ = ()

    kind: str

    def sort_key(self, item: Any) -> Any:
        """Returns the sort key of an item."""
        return item if self.key is None else self.key(item)

    def place(self, key: Any, right: bool) -> int:
        """Returns the number of sort keys below a key, or not above it."""
        return self._placed(key, right)

    def _placed(self, key: Any, right: bool) -> int:
        raise NotImplementedError

    def matches(self, item: Any) -> Iterator[int]:
        """Returns the positions with the sort key of an item."""
        raise NotImplementedError

    def clone(self) -> Keyed[T]:
        """Returns a clone."""
        raise NotImplementedError

    def own(self, items: list[T]) -> list[T]:
        """Returns the items as they are stored: unchanged."""
        return items

    def _bisect(self, value: Any, right: bool) -> int:
        return self.place(self.sort_key(value), right) if len(self) else 0

    def find(self, value: Any) -> int:
        """Returns the first position of an item that equals a value, or -1."""
        try:
            return self.find_from(value, 0)
        except _UNFIT:
            hash(value) if self.key is None else None
        return -1

    def find_from(self, value: Any, first: int) -> int:
        """Returns the first position of an item that equals a value, from a position on, or -1."""
        for position in self.matches(value):
            if position >= first:
                item = self[position]
                if item is value or item == value:
                    return position
        return -1

    # For the compiled module: searches by sort keys that are not of the kind's own type.
    _found, _found_from = find, find_from

    def _contains(self, value: Any) -> bool:
        return self.find(value) >= 0

    def count(self, value: Any) -> int:
        """Returns the number of items equal to a value."""
        try:
            return sum(self[position] == value for position in self.matches(value))
        except _UNFIT:
            return 0

    def _discard(self, value: Any) -> bool:
        position = self.find(value)
        if position >= 0:
            self.pop(position)
        return position >= 0

    def take(self, items: Iterable[T]) -> None:
        """Adds items, or none if one does not fit or memory runs out."""
        taken: list[T] = []
        is_there = True  # whether the last one of these was added
        try:
            for item in self._sorted(items):
                taken.append(item)
                is_there = False
                self.add(item)
                is_there = True
        except BaseException:
            for item in reversed(taken if is_there else taken[:-1]):
                self._drop(item)
            raise

    def _sorted(self, items: Iterable[T]) -> list[T]:
        """Returns the items in order, if they can be sorted: adding them is then faster."""
        found = list(items)
        try:
            return found if self.kind == "any" else sorted(found, key=self.sort_key)
        except TypeError:
            return found

    def _drop(self, item: T) -> None:
        """Removes this very item."""
        for position in self.matches(item):
            if self[position] is item:
                self.pop(position)
                return


class Spanned(Keyed[T]):
    """Objects whose sort keys are all of the own type of a kind."""

    __slots__ = ()

    def _span(self, key: Any) -> tuple[int, int]:
        """Returns the positions of a sort key."""
        raise NotImplementedError

    def _placed(self, key: Any, right: bool) -> int:
        return self._span(key)[right]

    def matches(self, item: Any) -> Iterator[int]:
        return iter(range(*self._span(self.sort_key(item))))

    def count(self, value: Any) -> int:
        if self.key is not None:
            return super().count(value)
        try:
            first, past = self._span(value)
        except _UNFIT:
            return 0
        return past - first if first < past and self[first] == value else 0


class Repeated(Multi[T], Spanned[T]):
    """Objects whose sort keys are numbers of a kind. Those with equal sort keys differ only in their positions, so only
    a call that compares objects costs more for them."""

    __slots__ = ("kind", "_kind")

    def __init__(self, kind: str, key: KeyFunction) -> None:
        super().__init__(kind, key)
        self.kind, self._kind = kind, NUMBERS[kind]

    def clone(self) -> Repeated[T]:
        made = Repeated[T](self.kind, self.key)
        made.copied(self)
        return made

    def _add(self, item: T) -> bool:
        self.insert(self._kind.code(self.sort_key(item)), item)
        return True

    def _span(self, key: Any) -> tuple[int, int]:
        span = self.own_span(key)
        return _number_span(self, self.rank, key) if span is None else span

    def _drop(self, item: T) -> None:
        """Removes this very item, which is the last with its sort key, or near it."""
        first, past = self._span(self.sort_key(item))
        for position in range(past - 1, first - 1, -1):
            if self[position] is item:
                self.pop(position)
                return


def _number_span(order: Union[Repeated[Any], Run[Any]], below: Callable[[int], int], key: Any) -> tuple[int, int]:
    """Returns the positions of a sort key that is a number of another type; `below` counts the codes below one."""
    code, exact = NUMBERS[order.kind].bound(key)
    first = below(code) if code <= ALL else len(order)
    if not exact:
        return first, first
    return first, below(code + 1) if code < ALL else len(order)


class Run(Blocks[T], Spanned[T]):
    """Objects that were added at once, with sort keys of the own type of a kind. Numbers move into another order once
    they are due: after one change for some present ones."""

    __slots__ = ("kind", "_repeats")

    if TYPE_CHECKING:  # (only in the compiled module)
        is_due: bool

        def are_distinct(self) -> bool:
            ...

        def are_own(self, items: list[Any]) -> bool:
            ...

        def below(self, code: int) -> int:
            ...

        def fill(self, items: list[Any], keys: Optional[list[Any]] = None) -> bool:
            ...

        def settle(self, order: Order) -> bool:
            ...

    count = Spanned.count

    def __init__(self, kind: str, key: KeyFunction, repeats: bool) -> None:
        super().__init__(kind, key)
        self.kind, self._repeats = kind, repeats

    def takes(self, items: list[Any]) -> bool:
        """Returns whether items can be added."""
        return not self.is_due and self.are_own(items)

    def clone(self) -> Run[T]:
        made = Run[T](self.kind, self.key, self._repeats)
        made.copied(self)
        return made

    def _span(self, key: Any) -> tuple[int, int]:
        span = self.own_span(key)
        if span is not None:
            return span
        if self.kind in NUMBERS:
            return _number_span(self, self.below, key)
        raw: bytes = BYTES[self.kind].raw(key)
        return self.own_span(raw if self.kind == "bytes" else raw.decode("utf-8", "surrogatepass"))

    def settled(self, repeats: bool = False) -> Order:
        """Returns an order with the same items that takes others, also equal ones."""
        if self.kind not in NUMBERS:
            made: Order = Encoded[Any](self.kind, self.key, self._repeats or self.key is not None)
        elif self.key is None and not repeats and (not self._repeats or self.are_distinct()):
            made = Numbers(self.kind)
        else:
            made = Repeated[Any](self.kind, self.key)
        if not self.settle(made):
            made = order_of(self.kind, self.key, self._repeats)
            made.take(self.chunk(0, len(self)))
        return made


class Encoded(Coded[T], Keyed[T]):
    """Objects whose sort keys are of another kind: the library orders their codes. If sort keys may repeat, a number
    after the code keeps them distinct."""

    __slots__ = ("kind", "_kind", "_encode", "_repeats")

    def __init__(self, kind: str, key: KeyFunction, repeats: bool) -> None:
        super().__init__(kind, key, repeats)
        self.kind, self._kind, self._repeats = kind, BYTES[kind], repeats
        self._encode = self._kind.framed if repeats else self._kind.raw

    def clone(self) -> Encoded[T]:
        made = Encoded[T](self.kind, self.key, self._repeats)
        made.copied(self)
        return made

    def _add(self, item: T) -> bool:
        code = self._encode(item if self.key is None else self.key(item))
        if self._repeats:
            code += self.added.to_bytes(8, "big")
            self.added += 1
        self.insert(code, item)
        return True

    def _code_of(self, item: Any) -> bytes:
        code: bytes = self._encode(item)
        return code

    def _span(self, key: Any) -> tuple[int, int]:
        """Returns the positions of the sort keys with the code of a key."""
        span = self.own_span(key)
        if span is not None:
            return span
        code = self._encode(key)
        first = self.rank(code)
        return first, self.rank(code + _PAST) if self._repeats else first + self.has(code)

    def _spans(self, key: Any) -> list[tuple[int, int]]:
        """Returns the positions of each key that equals a key."""
        return [self._span(form) for form in (forms(key) if self.kind == "any" else (key,))]

    def _placed(self, key: Any, right: bool) -> int:
        first, past = self._span(key)
        if first == past and self.kind == "any":
            first, past = next((span for span in self._spans(key) if span[0] < span[1]), (first, past))
        return past if right else first

    def matches(self, item: Any) -> Iterator[int]:
        key = self.sort_key(item)
        for first, past in self._spans(key):
            yield from range(first, past)


class Compared(Blocks[T], Keyed[T]):
    """Objects whose sort keys are compared by `<`."""

    __slots__ = ("kind",)

    def __init__(self, key: KeyFunction) -> None:
        super().__init__(OBJECT, key)
        self.kind = OBJECT

    def clone(self) -> Compared[T]:
        made = Compared[T](self.key)
        made.copied(self)
        return made

    def matches(self, item: Any) -> Iterator[int]:
        return iter(range(*self.own_span(self.sort_key(item))))


def order_of(kind: str, key: KeyFunction, repeats: bool) -> Order:
    """Returns an empty order for items of a kind. Numbers at first do not repeat, even if they may."""
    if kind == OBJECT:
        return Compared[Any](key)
    if kind in NUMBERS:
        return Numbers(kind) if key is None else Repeated[Any](kind, key)
    return Encoded[Any](kind, key, repeats or key is not None)


def empty_order(kind: str, key: KeyFunction, repeats: bool) -> Order:
    """Returns an empty order for the items of a collection: texts and byte strings are in blocks, which are as fast as
    the library's map from byte strings and keep no copy of each."""
    return Run(kind, key, repeats) if BACKEND == "extension" and kind in _TEXTS else order_of(kind, key, repeats)


def repeating(order: Numbers) -> Order:
    """Returns an order of the same numbers in which they may repeat."""
    made = Repeated[Any](order.kind, None)
    made.take(order.chunk(0, len(order)))
    return made


_EXACT: dict[Any, str] = {int: "int64", float: "float64", str: "str", bytes: "bytes"}
_TEXTS = frozenset(["str", "bytes"])
_OWN = _TEXTS.union(NUMBERS)
# If one item or more is new for this many present ones, all are sorted at once.
_PART = 4


def own_kind(keys: Iterable[Any]) -> str:
    """Returns the kind of the type of the first sort key."""
    return _EXACT.get(type(next(iter(keys), None)), OBJECT)


def kind_of(keys: list[Any]) -> str:
    """Returns the kind for sort keys without a named kind, which orders them as Python does. Subclasses of int, float,
    str and bytes may have another order, and are returned as they are."""
    kind = _EXACT.get(type(keys[0]), OBJECT)
    if kind == OBJECT or not are_alike(keys):
        return OBJECT
    if kind == "int64" and not (-TOP <= min(keys) and max(keys) < TOP):
        return OBJECT
    return kind


def found_kind(items: list[Any], key: KeyFunction) -> str:
    """Returns the kind for items without a named kind; calls the function for the first one only if its result is an
    object."""
    if key is None:
        return kind_of(items)
    return OBJECT if own_kind([key(items[0])]) == OBJECT else kind_of(list(map(key, items)))


def settled(order: Order, items: list[Any]) -> Order:
    """Returns an order that takes these items: another one if the order is a run that does not."""
    return order.settled() if isinstance(order, Run) and not order.takes(items) else order


def fitted(order: Order, items: list[Any], key: KeyFunction, repeats: bool) -> Order:
    """Returns the order, whose kind has no name, or another with its items if its kind does not take the new ones. An
    empty order gets a new kind."""
    if not items or (order.kind == OBJECT and len(order)) or (isinstance(order, Numbers) and order.are_own(items)):
        return order
    kind = found_kind(items, key)
    if kind == order.kind:
        return order
    if not len(order):
        return empty_order(kind, key, repeats)
    made = order_of(OBJECT, key, repeats)
    made.take(order.chunk(0, len(order)))
    return made


def gathered(order: Order, items: list[Any], named: Optional[str], key: KeyFunction, repeats: bool) -> Optional[Order]:
    """Returns a run of the items of an order and of new ones, if these are many and all are of a kind's own type. Their
    list may be empty afterwards."""
    if BACKEND != "extension" or not items or len(items) * _PART < len(order):
        return None
    kind = named or own_kind([items[0] if key is None else key(items[0])])
    if kind not in _OWN or (len(order) and order.kind != kind):
        return None
    made, before = Run[Any](kind, key, repeats), len(order)
    return made if made.fill(order.chunk(0, before) + items if before else items) else None


def begun(items: list[Any], named: Optional[str], key: KeyFunction, repeats: bool) -> Optional[Order]:
    """Returns an order of items, if they are a run or objects that `<` compares."""
    keys = items if key is None else list(map(key, items))
    kind = named or own_kind(keys)
    if BACKEND == "extension" and kind in _OWN:
        run: Run[Any] = Run(kind, key, repeats)
        if run.fill(items, keys):
            return run
    if (named or kind_of(keys)) != OBJECT:
        return None
    made: Compared[Any] = Compared(key)
    made.take(items, keys)
    return made


def duplicate(order: Order, repeats: bool) -> Order:
    """Returns an order of the same items: a run of them if that is faster than a clone."""
    if BACKEND == "extension" and isinstance(order, (Repeated, Encoded)) and order.key is None and order.kind in _OWN:
        made = Run[Any](order.kind, None, repeats)
        if made.fill(order.chunk(0, len(order))):
            return made
    return order.clone()

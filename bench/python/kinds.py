"""CPU nanoseconds per item of the Python package compared with `sortedcontainers`, by kind of item: collections that
are built from many items, calls on one item, and operations by blocks; and the bytes per item of a collection, without
its items. Each row of both is measured in turn, the minimum of some runs, without garbage collection.

After `bindings/test.sh`:  PYTHONPATH=bindings/python/out python3 bench/python/kinds.py 1000 100000 1000000
"""

from __future__ import annotations

import argparse
import ctypes
import gc
import importlib
import pickle
import random
import time
from collections.abc import Callable, Iterator
from datetime import datetime, timedelta
from decimal import Decimal
from functools import partial
from types import ModuleType
from typing import Any, NamedTuple

ENOUGH = 3.0  # seconds that a row of both may take
SOME = 20000  # of the calls on one item


class Thing:
    """An object of a user's class."""

    __slots__ = ("number",)

    def __init__(self, number: int) -> None:
        self.number = number

    def __lt__(self, other: Thing) -> bool:
        return self.number < other.number


FIRST = datetime(2020, 1, 1)
# Makes an item of each kind from a number below 2**40.
KINDS: dict[str, Callable[[int], Any]] = {
    "int": int,
    "float": float,
    "str": lambda number: f"key {number}",
    "bytes": lambda number: b"key %d" % number,
    "tuple": lambda number: (number >> 20, f"{number}"),
    "Decimal": lambda number: Decimal(number) / 8,
    "datetime": lambda number: FIRST + timedelta(milliseconds=number),
    "int and float": lambda number: number if number % 2 else number + 0.5,
    "own class": Thing,
}


class Items:
    """Returns items of a kind: in order, and in another one."""

    def __init__(self, kind: str, count: int) -> None:
        rng = random.Random(count)
        numbers = sorted({rng.getrandbits(40) for _ in range(count)})
        order = list(range(len(numbers)))
        rng.shuffle(order)
        # Made in a random order: neighbours in memory are not neighbours in the order.
        made: list[Any] = [None] * len(order)
        for at in order:
            made[at] = KINDS[kind](numbers[at])
        self.ordered = sorted(made)
        self.drawn = [self.ordered[at] for at in order]
        self.half = self.drawn[: len(order) // 2]
        self.some = rng.sample(self.drawn, min(SOME, len(order)))
        self.positions = [rng.randrange(len(order)) for _ in self.some]
        self.repeated = sorted(self.ordered[: (len(order) + 9) // 10] * 10)
        for item in self.drawn:
            hash(item)


class Row(NamedTuple):
    name: str
    make: Callable[[], Any]  # makes the argument of the call
    call: Callable[[Any], object]
    operations: int


def each(name: str, made: Any, items: list[Any]) -> None:
    call = getattr(made, name)
    for item in items:
        call(item)


def contains(items: list[Any], made: Any) -> None:
    for item in items:
        item in made


def at(positions: list[int], made: Any) -> None:
    for position in positions:
        made[position]


def cut(made: Any) -> None:
    del made[100:-100]


def put(items: list[Any], made: Any) -> None:
    for item in items:
        made[item] = item
    next(iter(made), None)


def drop(items: list[Any], made: Any) -> None:
    for item in items:
        del made[item]
    next(iter(made), None)


def of_list(lib: ModuleType, it: Items) -> Iterator[Row]:
    count, some, make = len(it.ordered), len(it.some), lib.SortedList
    held = make(it.drawn)
    same = lambda: held  # noqa: E731
    fresh = lambda: make(it.drawn)  # noqa: E731
    yield Row("list: of sorted", lambda: None, lambda _: make(it.ordered), count)
    yield Row("list: of sorted, then add", lambda: None, lambda _: make(it.ordered).add(it.drawn[0]), count)
    yield Row("list: of random", lambda: None, lambda _: make(it.drawn), count)
    yield Row("list: of repeats", lambda: None, lambda _: make(it.repeated), len(it.repeated))
    yield Row(
        "list: update", lambda: make(it.half), lambda made: made.update(it.drawn[len(it.half) :]), count - len(it.half)
    )
    yield Row("list: add", lambda: make(it.half), lambda made: each("add", made, it.some), some)
    yield Row("list: in", same, partial(contains, it.some), some)
    yield Row("list: [i]", same, partial(at, it.positions), some)
    yield Row("list: bisect", same, lambda made: each("bisect_left", made, it.some), some)
    yield Row("list: index", same, lambda made: each("index", made, it.some), some)
    yield Row("list: list()", same, list, count)
    yield Row("list: remove", fresh, lambda made: each("remove", made, it.some), some)
    yield Row("list: del [100:-100]", fresh, cut, count)
    yield Row("list: copy", same, lambda made: made.copy(), count)
    yield Row("list: + itself", same, lambda made: made + made, count)
    yield Row("list: * 2", same, lambda made: made * 2, count)
    yield Row("list: loads", lambda: pickle.dumps(held, 4), pickle.loads, count)


def of_set(lib: ModuleType, it: Items) -> Iterator[Row]:
    count, some, make = len(it.ordered), len(it.some), lib.SortedSet
    held, other = make(it.drawn), make(it.half)
    same = lambda: held  # noqa: E731
    yield Row("set: of sorted", lambda: None, lambda _: make(it.ordered), count)
    yield Row("set: of random", lambda: None, lambda _: make(it.drawn), count)
    yield Row(
        "set: update", lambda: make(it.half), lambda made: made.update(it.drawn[len(it.half) :]), count - len(it.half)
    )
    yield Row("set: add", lambda: make(it.half), lambda made: each("add", made, it.some), some)
    yield Row("set: discard", lambda: make(it.drawn), lambda made: each("discard", made, it.some), some)
    yield Row("set: &", same, lambda made: made & other, count)
    yield Row("set: |", same, lambda made: made | other, count)
    yield Row("set: -", same, lambda made: made - other, count)
    yield Row("set: ^", same, lambda made: made ^ other, count)
    yield Row("set: del [100:-100]", lambda: make(it.drawn), cut, count)
    yield Row("set: copy", same, lambda made: made.copy(), count)
    yield Row("set: loads", lambda: pickle.dumps(held, 4), pickle.loads, count)


def of_dict(lib: ModuleType, it: Items) -> Iterator[Row]:
    count, some, make = len(it.ordered), len(it.some), lib.SortedDict
    ordered, drawn, half = (dict.fromkeys(items) for items in (it.ordered, it.drawn, it.half))
    held = make(drawn)
    yield Row("dict: of sorted", lambda: None, lambda _: make(ordered), count)
    yield Row("dict: of random", lambda: None, lambda _: make(drawn), count)
    yield Row("dict: d[k] = v", lambda: make(half), partial(put, it.some), some)
    yield Row("dict: del d[k]", lambda: make(drawn), partial(drop, it.some), some)
    yield Row("dict: copy", lambda: held, lambda made: made.copy(), count)
    yield Row("dict: loads", lambda: pickle.dumps(held, 4), pickle.loads, count)


def of_key(lib: ModuleType, it: Items) -> Iterator[Row]:
    """Yields the rows of items that a function orders: here the identity."""
    count, some, make = len(it.ordered), len(it.some), partial(lib.SortedKeyList, key=itself)
    held = make(it.drawn)
    same = lambda: held  # noqa: E731
    yield Row("key list: of random", lambda: None, lambda _: make(it.drawn), count)
    yield Row("key list: add", lambda: make(it.half), lambda made: each("add", made, it.some), some)
    yield Row("key list: in", same, partial(contains, it.some), some)
    yield Row("key list: bisect_key", same, lambda made: each("bisect_key", made, it.some), some)
    yield Row("key list: remove", lambda: make(it.drawn), lambda made: each("remove", made, it.some), some)


def itself(item: Any) -> Any:
    return item


PARTS = {"list": of_list, "set": of_set, "dict": of_dict, "key": of_key}
MADE = {
    "list: of random": ("SortedList", "drawn"),
    "list: of repeats": ("SortedList", "repeated"),
    "set: of random": ("SortedSet", "drawn"),
    "dict: of random": ("SortedDict", "drawn"),
    "list: each added": ("SortedList", ""),
}


def cost(row: Row) -> float:
    given = row.make()
    start = time.thread_time()
    kept = row.call(given)
    spent = time.thread_time() - start
    del kept, given
    return spent / row.operations * 1e9


def compare(libs: tuple[ModuleType, ModuleType], kind: str, count: int, parts: list[str]) -> None:
    ours, peer = libs
    it = Items(kind, count)
    for part in parts:
        for both in zip(PARTS[part](ours, it), PARTS[part](peer, it)):
            found: list[list[float]] = [[], []]
            start = time.thread_time()
            for turn in range(40):
                for i in (0, 1) if turn % 2 else (1, 0):
                    found[i].append(cost(both[i]))
                if time.thread_time() - start > ENOUGH and turn > 0:
                    break
            print(f"{count}\t{kind}\t{both[0].name}\t{min(found[0]):.1f}\t{min(found[1]):.1f}", flush=True)


class Heap(ctypes.Structure):
    """The result of `mallinfo2` of glibc: the bytes in use are `uordblks` and, for large blocks, `hblkhd`."""

    _fields_ = [
        (name, ctypes.c_size_t)
        for name in "arena ordblks smblks hblks hblkhd usmblks fsmblks uordblks fordblks keepcost".split()
    ]


def in_use() -> int:
    ask = ctypes.CDLL(None).mallinfo2
    ask.restype = Heap
    heap = ask()
    return int(heap.uordblks + heap.hblkhd)


def weigh(lib: ModuleType, cls: str, items: Any, one_by_one: bool) -> float:
    """Returns the heap bytes per item of a collection."""
    make = getattr(lib, cls)
    before = in_use()
    held = make() if one_by_one else make(items)
    each("add" if one_by_one else "__len__", held, items if one_by_one else [])
    return (in_use() - before) / len(held)


def weights(libs: tuple[ModuleType, ModuleType], kind: str, count: int) -> None:
    """Prints the bytes per item of both, without the items themselves."""
    it = Items(kind, count)
    for name, (cls, of) in MADE.items():
        items: Any = getattr(it, of or "drawn")
        items = dict.fromkeys(items) if cls == "SortedDict" else items
        sizes = [weigh(lib, cls, items, not of) for lib in libs]
        print(f"{count}\t{kind}\t{name}, bytes\t{sizes[0]:.1f}\t{sizes[1]:.1f}", flush=True)


def main() -> None:
    words = argparse.ArgumentParser(description=__doc__, formatter_class=argparse.RawDescriptionHelpFormatter)
    words.add_argument("counts", type=int, nargs="+")
    words.add_argument("--kinds", nargs="+", default=list(KINDS), choices=list(KINDS))
    words.add_argument("--parts", nargs="+", default=list(PARTS), choices=[*PARTS, "bytes"])
    given = words.parse_args()
    libs = importlib.import_module("indexset"), importlib.import_module("sortedcontainers")
    gc.disable()
    print(f"items\tkind\trow\t{libs[0].BACKEND}\tsortedcontainers")
    for count in given.counts:
        for kind in given.kinds:
            compare(libs, kind, count, [part for part in given.parts if part != "bytes"])
            if "bytes" in given.parts:
                weights(libs, kind, count)


if __name__ == "__main__":
    main()

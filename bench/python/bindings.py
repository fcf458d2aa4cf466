"""CPU nanoseconds per operation of the Python package compared with `sortedcontainers`, in random order: the minimum of
some runs, including the loop over the operations, without the release of their results. Each row of both is measured in
turn, in each second run the other one first, with the same keys, and without garbage collection.

After `bindings/test.sh`:  PYTHONPATH=bindings/python/out python3 bench/python/bindings.py 1000 100000 1000000
With INDEXSET_BACKEND=ctypes it uses ctypes.
"""
from __future__ import annotations

import argparse
import gc
import importlib
import random
import time
from collections import deque
from collections.abc import Callable, Iterable, Iterator, Sequence
from functools import partial
from types import ModuleType
from typing import Any, NamedTuple

SLICE = 100
TURNS, ENOUGH = 4, 2.0  # how often reads are repeated, those that end soon more often, and up to how many seconds


class Row(NamedTuple):
    name: str
    call: Callable[[], object]  # all its operations
    operations: int  # their number
    reads: bool = True  # whether it changes nothing, so that it can be repeated


class Keys:
    """Keys, the same ones in another order, and positions, with the texts of both."""

    def __init__(self, count: int) -> None:
        rng = random.Random(count)
        self.keys = list({rng.getrandbits(63) - (1 << 62) for _ in range(count)})
        self.drawn = rng.sample(self.keys, len(self.keys))
        self.positions = [rng.randrange(count) for _ in self.keys]
        self.texts, self.sought = ([f"key {key}" for key in items] for items in (self.keys, self.drawn))
        # A string keeps its hash: neither side computes it.
        each(hash, self.texts)
        each(hash, self.sought)
        self.some = min(count, 10000)


Rows = Callable[[ModuleType, Keys], Iterator[Row]]


def cost(call: Callable[[], object]) -> float:
    start = time.thread_time()
    kept = call()
    spent = time.thread_time() - start
    del kept
    return spent


def in_turn(rows: Sequence[Row], backwards: bool) -> list[float]:
    """Returns the minimum cost of each of some rows, which are measured in turn."""
    costs: list[list[float]] = [[] for _ in rows]
    for turn in range(20 * TURNS if rows[0].reads else 1):
        for i in sorted(range(len(rows)), reverse=backwards):
            costs[i].append(cost(rows[i].call))
        spent = sum(sum(it) for it in costs)
        if spent > ENOUGH or (turn + 1 >= TURNS and spent > 0.01):
            break
    return [min(it) for it in costs]


# ---- loops over an operation


def each(call: Callable[[Any], object], items: Iterable[object]) -> None:
    for item in items:
        call(item)


def contains(held: Any, items: Iterable[object]) -> None:
    for item in items:
        item in held


def at(held: Any, items: Iterable[object]) -> None:
    for item in items:
        held[item]


def slices(held: Any, items: Iterable[int]) -> None:
    for item in items:
        held[item : item + SLICE]


# These two read the order at the end.


def set_at(held: Any, items: Iterable[object]) -> None:
    for item in items:
        held[item] = item
    next(iter(held))


def delete(held: Any, items: Iterable[object]) -> None:
    for item in items:
        del held[item]
    next(iter(held), None)


def first(held: Any, items: Iterable[object]) -> None:
    for _ in items:
        next(iter(held))


def ranges(held: Any, items: Iterable[object]) -> None:
    for item in items:
        next(held.irange(item))


def walk(held: Iterable[object]) -> None:
    for _ in held:
        pass


def drain(iterable: Iterable[object]) -> None:
    deque(iterable, 0)


# ---- rows


def of_set(lib: ModuleType, of: Keys) -> Iterator[Row]:
    """Yields the rows of a set."""
    held, count, some = lib.SortedSet(), len(of.keys), of.positions[: of.some]
    yield Row("add", partial(each, held.add, of.keys), count, False)
    yield Row("in", partial(contains, held, of.drawn), count)
    yield Row("bisect_left", partial(each, held.bisect_left, of.drawn), count)
    yield Row("[position]", partial(at, held, of.positions), count)
    yield Row("a slice of 100", partial(slices, held, some), of.some)
    yield Row("next(iter)", partial(first, held, some), of.some)
    yield Row("next(irange)", partial(ranges, held, of.drawn[: of.some]), of.some)
    yield Row("iterate", partial(walk, held), count)
    yield Row("list", partial(list, held), count)
    yield Row("index", partial(each, held.index, of.drawn), count)
    yield Row("ranks", partial(getattr(held, "ranks", partial(each, held.bisect_left)), of.drawn), count)
    yield Row("copy", held.copy, count)
    yield Row("update", partial(lib.SortedSet, of.keys), count)
    yield Row("remove", partial(each, held.remove, of.drawn), count, False)


def of_dict(lib: ModuleType, of: Keys) -> Iterator[Row]:
    held, count = lib.SortedDict(), len(of.keys)
    yield Row("d[k] = v", partial(set_at, held, of.keys), count, False)
    yield Row("d[k]", partial(at, held, of.drawn), count)
    yield Row("k in d", partial(contains, held, of.drawn), count)
    yield Row("peekitem", partial(each, held.peekitem, of.positions), count)
    yield Row("items", lambda: drain(held.items()), count)
    yield Row("del d[k]", partial(delete, held, of.drawn), count, False)


def of_text(lib: ModuleType, of: Keys) -> Iterator[Row]:
    held, count = lib.SortedDict(), len(of.keys)
    yield Row("text: d[k] = v", partial(set_at, held, of.texts), count, False)
    yield Row("text: get", partial(each, held.get, of.sought), count)
    yield Row("text: bisect_left", partial(each, held.bisect_left, of.sought), count)
    yield Row("text: list", partial(list, held), count)
    yield Row("text: del d[k]", partial(delete, held, of.sought), count, False)


def of_a_list(
    held: Any, name: str, added: Sequence[int], sought: Sequence[int], positions: Sequence[int]
) -> Iterator[Row]:
    """Yields the rows of a list, which is empty at first."""
    count = len(added)
    yield Row(f"{name}: add", partial(each, held.add, added), count, False)
    yield Row(f"{name}: in", partial(contains, held, sought), count)
    yield Row(f"{name}: [position]", partial(at, held, positions), count)
    yield Row(f"{name}: bisect_left", partial(each, held.bisect_left, sought), count)
    yield Row(f"{name}: list", partial(list, held), count)
    yield Row(f"{name}: remove", partial(each, held.remove, sought), count, False)


def of_list(lib: ModuleType, of: Keys) -> Iterator[Row]:
    yield from of_a_list(lib.SortedList(), "list", of.keys, of.drawn, of.positions)


def of_repeats(lib: ModuleType, of: Keys) -> Iterator[Row]:
    """Yields the rows of a list in which each number occurs ten times."""
    rng, often = random.Random(len(of.keys)), list(of.keys[: len(of.keys) // 10]) * 10
    added, sought = rng.sample(often, len(often)), rng.sample(often, len(often))
    yield from of_a_list(lib.SortedList(), "list of repeats", added, sought, of.positions[: len(often)])


def of_plain(lib: ModuleType, of: Keys) -> Iterator[Row]:
    """Yields the row of a dict, for comparison."""
    yield Row("in, of a dict", partial(contains, dict.fromkeys(of.keys), of.drawn), len(of.keys))


def compare(rows: Rows, libraries: tuple[ModuleType, ModuleType], count: int, times: int) -> None:
    """Prints each row, with the minimum nanoseconds per operation of some runs."""
    found: dict[str, list[list[float]]] = {}
    for turn in range(times):
        of = Keys(count)
        for both in zip(*(rows(lib, of) for lib in libraries)):
            spent = [it / both[0].operations * 1e9 for it in in_turn(both, turn % 2 == 1)]
            found.setdefault(both[0].name, []).append(spent)
        gc.collect()
    for name, figures in found.items():
        ours, peer = (min(it) for it in zip(*figures))
        ours, peer = (min(ours, peer),) * 2 if rows is of_plain else (ours, peer)
        print(f"{count}\t{name}\t{ours:.0f}\t{peer:.0f}", flush=True)


def main() -> None:
    words = argparse.ArgumentParser(description=__doc__, formatter_class=argparse.RawDescriptionHelpFormatter)
    words.add_argument("counts", type=int, nargs="+")
    words.add_argument("--times", type=int, help="how many runs; more where there are few keys")
    given = words.parse_args()
    ours, peer = map(importlib.import_module, ("indexset", "sortedcontainers"))
    gc.disable()
    print(f"keys\trow\t{ours.BACKEND}\tsortedcontainers")
    for count in given.counts:
        for rows in (of_set, of_dict, of_text, of_list, of_repeats, of_plain):
            times = given.times or (21 if count < 10000 else 5 if count < 1000000 else 2)
            compare(rows, (ours, peer), count, times)


if __name__ == "__main__":
    main()

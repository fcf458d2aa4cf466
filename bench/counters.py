"""The tables of the cost of calls by counters: of the processor if `perf stat` can read them, otherwise of cachegrind,
which simulates them."""

from __future__ import annotations

import itertools
import os
import pathlib
import shutil
import subprocess
import tempfile
from collections.abc import Callable
from concurrent.futures import ThreadPoolExecutor

from tables import Programs, shown, table

ONCE = ["append, all above", "retain, every second"]  # of as many elements as there are keys, each an operation
# The same holds for these.
WHOLE = [
    "iterate", "iterate from both ends", "map, iterate", "clone", "equality", "from", "from, ascending",
    "from_unsorted",
]
SPLIT = "split in the middle"  # one operation
CHANGES = ["insert", "remove", "pop_last", "pop_first", "map, insert", "texts, insert", "texts, remove"]
LOOK_UPS = [
    "contains", "contains, absent", "element at a position", "rank", "range of 100", "map, get", "map, get_mut",
    "texts, get", "first",
]
ROWS = [*LOOK_UPS, *CHANGES, *WHOLE, *ONCE, SPLIT]
COUNT = 100_000  # calls of a run, as many as a program prepares; changes of at most as many elements as there are keys
WHAT = "instructions/misses of the first level/of the last level/mispredicted branches"
# Each counter is the sum of events.
OF_PERF = [["instructions:u"], ["L1-dcache-load-misses:u"], ["LLC-load-misses:u"], ["branch-misses:u"]]
OF_CACHEGRIND = [["Ir"], ["D1mr", "D1mw"], ["DLmr", "DLmw"], ["Bcm", "Bim"]]

Counts = dict[str, int]  # by event
Counter = Callable[[list[str]], Counts]  # of the words of a command


def by_perf(command: list[str]) -> Counts:
    """Returns the mean of five runs; nothing if `perf` may not count."""
    events = ",".join(event for events in OF_PERF for event in events)
    done = subprocess.run(
        ["perf", "stat", "-r", "5", "-x", ";", "-e", events, *command], capture_output=True, text=True
    )
    cells = [line.split(";") for line in done.stderr.splitlines()]
    return {cell[2]: int(cell[0]) for cell in cells if len(cell) > 2 and cell[0].isdigit()}


def by_cachegrind(command: list[str]) -> Counts:
    with tempfile.NamedTemporaryFile("r") as out:
        words = [
            "valgrind", "--tool=cachegrind", "--cache-sim=yes", "--branch-sim=yes", f"--cachegrind-out-file={out.name}",
        ]
        subprocess.run([*words, *command], check=True, capture_output=True)
        lines = dict(
            line.split(": ", 1)
            for line in pathlib.Path(out.name).read_text().splitlines()
            if line.startswith(("events: ", "summary: "))
        )
    return {event: int(count) for event, count in zip(lines["events"].split(), lines["summary"].split())}


def has_counters() -> bool:
    return bool(shutil.which("perf")) and "instructions:u" in by_perf(["true"])


def words(program: pathlib.Path, row: str, keys: int, count: int) -> list[str]:
    return [str(program), "calls", str(keys), row, str(count)]


def has_row(program: pathlib.Path, row: str) -> bool:
    """Returns whether a program can run a single row, and has the row."""
    return subprocess.run(words(program, row, 1000, 0), capture_output=True, text=True).stdout.startswith("called\n")


def counts(row: str, keys: int) -> tuple[int, int]:
    """Returns the number of calls of a row, and the number of their operations."""
    if row == SPLIT:
        return 1, 1
    if row in [*WHOLE, *ONCE]:
        times = 1 if row in ONCE else max(COUNT // keys, 1)
        return times, times * keys
    count = min(COUNT, keys) if row in CHANGES else COUNT
    return count, count


def cell(counter: Counter, counted: list[list[str]], program: pathlib.Path, row: str, keys: int) -> str:
    """Returns the counts of one call: the difference between a run with calls and one without them."""
    if not has_row(program, row):
        return "–"
    count, operations = counts(row, keys)
    some, none = (counter(words(program, row, keys, it)) for it in (count, 0))
    each = [
        sum(some[it] - none[it] for it in events) / operations if set(events) <= some.keys() & none.keys() else None
        for events in counted
    ]
    return "/".join(shown(it if it is None else max(it, 0)) for it in each)


def of_counters(programs: Programs, keys: list[int]) -> str | None:
    """Returns a table for each number of keys; None if nothing can count."""
    is_real = has_counters()
    if not is_real and not shutil.which("valgrind"):
        print("counters need `perf stat` with counters, or `valgrind`")
        return None
    counter, counted = (by_perf, OF_PERF) if is_real else (by_cachegrind, OF_CACHEGRIND)
    able = {name: program for name, program in programs.items() if any(has_row(program, row) for row in ROWS)}
    for name in programs.keys() - able.keys():
        print(f"{name} is left out: its program runs no row alone")
    by = "`perf stat`" if is_real else "cachegrind"
    parts = [f"A call by {by}: {WHAT}.\n"]
    # Other load does not change what cachegrind counts.
    with ThreadPoolExecutor(1 if is_real else os.cpu_count()) as pool:
        for k in keys:
            cells = pool.map(lambda it: cell(counter, counted, it[1], it[0], k), itertools.product(ROWS, able.values()))
            lines = [[row, *itertools.islice(cells, len(able))] for row in ROWS]
            parts.append(f"### {k:,} keys, counters\n\n" + table(["call", *able], lines))
    return "\n".join(parts)

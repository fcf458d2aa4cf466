#!/usr/bin/env python3
"""Times the rows of the logged family of two versions of `ours`, each program in turn on one processor.

    bench/versions.py BEFORE AFTER [--minutes 5] [--processor 3] [--most 1.1]

BEFORE and AFTER are programs that bench/build.py built from two commits, or both by bench/unproved.py. It prints each
row's median over all rounds, for nodes of a `Vec` at 1,000 to 1,000,000 keys, if both programs have it, and the
difference of the second, the slowest first.
"""

from __future__ import annotations

import argparse
import statistics
import subprocess
import time

from tables import Rows, read, shown, table

KEYS = "1000,10000,100000,1000000"


def timed(program: str, keys: int, processor: int) -> Rows:
    words = ["taskset", "-c", str(processor), program, "logged", str(keys), "Vec"]
    return read(subprocess.run(words, check=True, capture_output=True, text=True).stdout)


def rounds(programs: list[str], keys: int, seconds: float, processor: int) -> list[list[Rows]]:
    """Returns the rows of each program, round by round, at least once, until the time is over."""
    runs: list[list[Rows]] = [[] for _ in programs]
    end = time.monotonic() + seconds
    while not runs[0] or time.monotonic() < end:
        for it, program in zip(runs, programs):
            it.append(timed(program, keys, processor))
    return runs


def compared(keys: int, runs: list[list[Rows]]) -> list[tuple[float, list[str]]]:
    lines = []
    for row in (it for it in runs[0][0] if it in runs[1][0]):
        before, after = (statistics.median(it[row] for it in found) for found in runs)
        ratio = after / before if before else 1.0
        lines.append((ratio, [f"{keys:,}", row, shown(before), shown(after), f"{ratio:.2f}"]))
    return lines


def main() -> None:
    words = argparse.ArgumentParser(description=__doc__, formatter_class=argparse.RawDescriptionHelpFormatter)
    words.add_argument("before")
    words.add_argument("after")
    words.add_argument("--keys", default=KEYS)
    words.add_argument("--minutes", type=float, default=5)
    words.add_argument("--processor", type=int, default=3)
    words.add_argument("--most", type=float, default=1.1)
    given = words.parse_args()
    lines: list[tuple[float, list[str]]] = []
    sizes = [int(it) for it in given.keys.split(",")]
    for keys in sizes:
        runs = rounds([given.before, given.after], keys, given.minutes * 60 / len(sizes), given.processor)
        print(f"{keys:,} keys: {len(runs[0])} rounds", flush=True)
        lines += compared(keys, runs)
    lines.sort(key=lambda it: -it[0])
    print(table(["keys", "row", "before", "after", "ratio"], [it for _, it in lines]))
    print(f"{sum(ratio > given.most for ratio, _ in lines)} of {len(lines)} rows above {given.most}")


if __name__ == "__main__":
    main()

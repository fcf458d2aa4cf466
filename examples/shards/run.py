#!/usr/bin/env python3
"""A map over several shards, on loopback: it takes commands, a split and a merge, is read, and measured.

usage: run.py [--shards N..] [--commands N]. It runs once for each N, and prints the figures as a table. The last line
is 'N passed, M failed'.
"""

from __future__ import annotations

import argparse
import pathlib
import random
import signal
import sys
import tempfile
import time

HERE = pathlib.Path(__file__).resolve().parent
sys.dont_write_bytecode = True
sys.path[:0] = [str(HERE.parent.parent / "scripts"), str(HERE.parent / "common")]
from cluster import KEYS, Cluster, commands  # noqa: E402
from followers import apply, installed  # noqa: E402
from reader import Reader  # noqa: E402

BATCH = 1000
Figures = dict[str, str]


def measured(cluster: Cluster, lines: list[bytes]) -> tuple[Reader, Figures]:
    """Sends commands, and then a split and a merge; returns the time of each until a reader shows it."""
    reader, start = Reader(cluster.engine), time.perf_counter()
    for at in range(0, len(lines), BATCH):
        cluster.send(lines[at : at + BATCH])
    routed = time.perf_counter() - start
    cluster.until_shown(reader, cluster.head())
    shown = time.perf_counter() - start
    memory = sum(
        cluster.engine.memory(f"{stream}:{shard}")
        for stream in ("commands", "events")
        for _, shard in cluster.engine.table()
    )
    figures = {
        "commands a second, routed": f"{len(lines) / routed:,.0f}",
        "commands a second, shown by a reader": f"{len(lines) / shown:,.0f}",
        "bytes a command, in both streams": f"{memory / len(lines):.1f}",
        "bytes a command, in the leader's file": f"{file_bytes(cluster) / len(lines):.1f}",
        "bytes a pair, in a snapshot": f"{reader.bytes_held() / reader.count():.1f}",
    }
    key = cluster.middle(reader)
    for word in ("split", "merge"):
        start = time.perf_counter()
        cluster.send([b"%b %d" % (word.encode(), key)])
        figures[f"ms of the router, for a {word}"] = f"{1000 * (time.perf_counter() - start):.1f}"
        cluster.mend()
        cluster.until_shown(reader, cluster.head())
        figures[f"seconds until a {word} is shown"] = f"{time.perf_counter() - start:.1f}"
    return reader, figures


def file_bytes(cluster: Cluster) -> int:
    """Returns the size in bytes of the files of the leaders on one machine, with their logs."""
    return sum(file.stat().st_size for file in pathlib.Path(cluster.machine(0)).glob("*.db*"))


def compared(reader: Reader, lines: list[bytes]) -> bool:
    """Returns whether a reader shows the content of a plain map."""
    pairs: dict[int, int] = {}
    for line in lines:
        apply(pairs, line)
    whole = [b"%d:%d" % pair for pair in sorted(pairs.items())]
    return reader.count() == len(whole) and reader.page(0, len(whole)) == whole == reader.range(0, KEYS)


def ran(shards: int, lines: list[bytes]) -> tuple[bool, Figures]:
    """Runs a map over a number of shards; returns whether the reads are right, and the figures."""
    with tempfile.TemporaryDirectory() as folder:
        cluster = Cluster(folder, [KEYS * at // shards for at in range(shards)])
        try:
            cluster.start()
            reader, figures = measured(cluster, lines)
            is_right = compared(reader, lines)
            reader.close()
        finally:
            cluster.stop()
    return is_right, figures


def main() -> int:
    ask = argparse.ArgumentParser(description="Runs a map over several shards on loopback.")
    ask.add_argument("--shards", type=int, nargs="+", default=[3])
    ask.add_argument("--commands", type=int, default=100_000)
    given = ask.parse_args()
    installed("redis-server")
    lines = commands(given.commands, random.Random(1))
    signal.signal(signal.SIGTERM, lambda *_: sys.exit(1))
    runs = [ran(shards, lines) for shards in given.shards]
    print(f"|Shards|{'|'.join(map(str, given.shards))}|", f"|{'---|' * (1 + len(runs))}", sep="\n")
    for name in runs[0][1]:
        print(f"|{name}|{'|'.join(figures[name] for _, figures in runs)}|")
    passed = sum(is_right for is_right, _ in runs)
    print(f"{passed} passed, {len(runs) - passed} failed")
    return int(passed < len(runs))


if __name__ == "__main__":
    sys.exit(main())

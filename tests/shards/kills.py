#!/usr/bin/env python3
"""Kills every part of a map over several shards, by a seed, while commands are sent, and compares it with a plain map.

usage: kills.py [SEED] [COMMANDS]. The engine, the router, a leader, one on standby, a leader's program, a reader and a
reader's follower are killed at random batches, and engine and leader together; a leader is restarted on its machine,
with its file, on a new one, or with a damaged file. Shards are split and merged while one of their leaders is down. At
cuts, some of them while later commands are being sent, and in the end, it compares the number of pairs, ranks,
positions, pages over the borders, and all pairs; and each event that a file kept with the one that was published under
its number. It ends with a table, and the last line is 'N passed, M failed'.

It needs redis-server and the built `indexset_store`.
"""

from __future__ import annotations

import argparse
import bisect
import collections
import contextlib
import os
import pathlib
import random
import re
import signal
import sys
import tempfile
import threading
import time

TOP = pathlib.Path(__file__).resolve().parent.parent.parent
sys.dont_write_bytecode = True
sys.path[:0] = [str(TOP / "scripts"), str(TOP / "examples/common"), str(TOP / "examples/shards")]
from cluster import KEYS, Cluster, children, commands, end  # noqa: E402
from files import FATES, Witness, befall  # noqa: E402
from follower import Passed  # noqa: E402
from followers import apply, installed  # noqa: E402
from kept import read_behind  # noqa: E402
from reader import Reader  # noqa: E402

SHARDS = 3
BATCH = 400
KILL = 0.15  # of the batches
LEADERS = ("leader", "leader that stands by", "program of a leader")
TOGETHER = "engine and leader"
PARTS = ("engine", "router", *LEADERS, TOGETHER, "reader", "follower of a reader")
CUTS = 12  # comparisons before the end
WIDTH = 900  # keys of a range
REFITS = ("split", "split", "merge", "split", "merge")
SAID = ("begins with its file", "begins with a snapshot", "tells [1-9]", "drops its file")


class Drill:
    """The parts, a plain map for comparison, and the results."""

    def __init__(self, cluster: Cluster, chance: random.Random) -> None:
        self.cluster, self.chance = cluster, chance
        self.reader, self.witness = Reader(cluster.engine), Witness(cluster.engine)
        self.pairs: dict[int, int] = {}
        self.counts: collections.Counter[str] = collections.Counter()
        self.wrong: list[str] = []

    def send(self, is_killed: bool = False) -> None:
        lines = commands(BATCH, self.chance)
        for line in lines:
            apply(self.pairs, line)
        self.cluster.send(lines, is_killed)
        self.counts["commands"] += len(lines)

    def kill(self) -> None:
        """Kills a part. Leaders are restarted by `mend`, other parts at once."""
        part = self.chance.choice(PARTS)
        self.counts[f"killed: {part}"] += 1
        match part:
            case "engine":
                killer = threading.Thread(target=self.restart_engine, args=[self.chance.random() / 50])
                killer.start()
                self.send()
                killer.join()
            case "router":
                self.send(is_killed=True)
            case _ if part in LEADERS:
                self.kill_leader(part, *self.leading())
            case _ if part == TOGETHER:
                self.kill_together()
            case "reader":
                self.reader.close()
                self.reader = Reader(self.cluster.engine)
            case _ if self.reader.followers:
                name = self.chance.choice(sorted(self.reader.followers))
                self.reader.followers.pop(name).store.kill()

    def restart_engine(self, seconds: float) -> None:
        time.sleep(seconds)
        end([self.cluster.server])
        self.cluster.start_server()

    def leading(self) -> tuple[str, int]:
        """Returns a shard, and which of its leaders leads, or the first one."""
        _, shard = self.chance.choice(self.cluster.engine.table())
        owner = self.cluster.engine.call("GET", f"lease:{shard}")
        numbers = [b"%d" % it.pid for it in self.cluster.leaders[shard]]
        number = owner.split(b" ")[-1] if isinstance(owner, bytes) else b""
        self.counts["killed while it led"] += number in numbers
        return shard, numbers.index(number) if number in numbers else 0

    def kill_together(self) -> None:
        """Makes the engine reject writes, so that a leader then keeps events that are not published, and kills both."""
        shard, place = self.leading()
        leader = self.cluster.leaders[shard][place]
        leader.send_signal(signal.SIGSTOP)
        self.send()
        self.cluster.engine.call("CLIENT", "PAUSE", 10_000, "WRITE")
        leader.send_signal(signal.SIGCONT)
        time.sleep(0.3)
        end([leader])
        self.restart_engine(0)
        self.meet_fate(shard, pathlib.Path(self.cluster.machine(place), f"{shard}.db"))

    def kill_leader(self, part: str, shard: str, place: int) -> None:
        """Kills a shard's leader, so that the one on standby is promoted, or the one on standby, or the leader's
        program."""
        if part == "leader that stands by":
            place = 1 - place
        killed = self.cluster.leaders[shard][place]
        if part == "program of a leader":
            for child in children(killed.pid):
                with contextlib.suppress(ProcessLookupError):
                    os.kill(child, signal.SIGKILL)
            return
        end([killed])
        self.meet_fate(shard, pathlib.Path(self.cluster.machine(place), f"{shard}.db"))

    def meet_fate(self, shard: str, file: pathlib.Path) -> None:
        """Damages or removes the file of a killed leader before its restart, or leaves it. If it is left, the leader
        may be restarted while its program has not ended."""
        fate = self.chance.choice(FATES)
        self.counts[f"file: {fate}"] += 1
        if fate != "stays" or self.chance.random() < 0.7:
            self.witness.read_kept(shard, file)
            self.counts["file: ahead of what is told"] += (
                read_behind(file, self.cluster.engine.last(f"events:{shard}")) != {}
            )
        befall(file, fate, self.chance)

    def refit(self, word: str) -> None:
        """Splits the fullest shard in its middle, or merges two shards, while commands are being sent."""
        lows = [low for low, _ in self.cluster.engine.table()]
        if word == "split":
            self.cluster.until_shown(self.reader, self.cluster.head())
        key = self.cluster.middle(self.reader) if word == "split" else self.chance.choice(lows[1:])
        for parts in self.cluster.leaders.values():
            end(parts[1:])
        self.cluster.send([b"%b %d" % (word.encode(), key)])
        self.counts[f"{word}s"] += 1

    def cut(self) -> None:
        """Compares the map after a command, while later ones are being sent."""
        number, pairs = self.cluster.head(), dict(self.pairs)
        for _ in range(3):
            self.send()
        try:
            self.cluster.until_shown(self.reader, number)
            self.compare(pairs, 40)
        except Passed:
            self.counts["cuts that were passed"] += 1

    def compare(self, pairs: dict[int, int], times: int) -> None:
        """Compares what the reader shows with a plain map."""
        keys, reader, before = sorted(pairs), self.reader, len(self.wrong)
        whole = [b"%d:%d" % (key, pairs[key]) for key in keys]
        self.check("count", reader.count() == len(keys))
        for _ in range(times):
            key, position = self.chance.randrange(KEYS + 10), self.chance.randrange(len(keys) + 2)
            self.check("rank", reader.rank(key) == bisect.bisect_left(keys, key))
            self.check("position", reader.at_position(position) == whole[position : position + 1])
            low, high = bisect.bisect_left(keys, key), bisect.bisect_right(keys, key + WIDTH)
            self.check("range", reader.range(key, key + WIDTH) == whole[low:high])
        for border in reader.below[1:-1]:
            for size in (1, 7, 50, 333):
                start = max(0, border - size // 2 - 1)
                self.check("page over a border", reader.page(start, size) == whole[start : start + size])
        self.check("all pairs", reader.page(0, len(keys)) == whole)
        self.counts["comparisons"] += 1
        print(
            f"after {reader.at}: {len(reader.shown)} shards, {len(keys)} pairs, {len(self.wrong) - before} wrong",
            flush=True,
        )

    def check(self, name: str, is_right: bool) -> None:
        self.counts["checks"] += 1
        if not is_right:
            self.wrong.append(f"{name} after {self.reader.at}")

    def run(self, batches: int) -> None:
        cuts = {batches * place // CUTS for place in range(1, CUTS)}
        refits = dict(zip((batches * place // (len(REFITS) + 1) for place in range(1, len(REFITS) + 1)), REFITS))
        for step in range(batches):
            self.send()
            if self.chance.random() < KILL:
                self.kill()
            if step in refits:
                self.refit(refits[step])
            self.cluster.mend()
            self.witness.read_told()
            if step in cuts:
                self.cut()
        self.cluster.until_shown(self.reader, self.cluster.head())
        self.compare(self.pairs, 200)
        self.compare_files()

    def compare_files(self) -> None:
        """Compares the content of the files with the published events, after those of ended shards are removed."""
        for _ in range(600):
            self.cluster.mend()
            if self.cluster.have_ended():
                break
            time.sleep(0.1)
        lead = {shard for _, shard in self.cluster.engine.table()}
        for parts in self.cluster.leaders.values():
            end(parts)
        files = list(pathlib.Path(self.cluster.folder).glob("machine*/*.db"))
        self.check("files of shards that lead", {it.stem for it in files} == lead)
        for file in files:
            self.witness.read_kept(file.stem, file)
        self.counts["kept events compared"] = self.witness.compare()
        self.counts["told events"] = sum(map(len, self.witness.told.values()))
        self.counts["told events trimmed before they were seen"] = self.witness.trimmed
        self.wrong += self.witness.wrong
        self.check("events of files", not self.witness.wrong)


def table(drill: Drill, seconds: float) -> None:
    said = pathlib.Path(drill.cluster.folder, "log").read_text(encoding="utf-8")
    rows: dict[str, float] = dict(sorted(drill.counts.items()))
    rows.update({f"leader {words}": len(re.findall(words, said)) for words in SAID})
    rows["told from a file"] = sum(map(int, re.findall(r"tells (\d+) from", said)))
    rows["shards in the end"] = len(drill.reader.shown)
    rows["events"] = sum(it.store.next() for it in drill.reader.shown)
    rows["wrong"] = len(drill.wrong)
    rows["seconds"] = seconds
    for name, value in rows.items():
        print(f"{name:44}{value:12,.0f}")


def main() -> int:
    ask = argparse.ArgumentParser(description="Kills every part of a map over several shards.")
    ask.add_argument("seed", type=int, nargs="?", default=1)
    ask.add_argument("commands", type=int, nargs="?", default=200_000)
    given = ask.parse_args()
    installed("redis-server")
    chance, start = random.Random(given.seed), time.perf_counter()
    signal.signal(signal.SIGTERM, lambda *_: sys.exit(1))
    with tempfile.TemporaryDirectory() as folder:
        cluster = Cluster(folder, [KEYS * at // SHARDS for at in range(SHARDS)], every=given.commands // 10)
        try:
            cluster.start()
            drill = Drill(cluster, chance)
            drill.run(given.commands // BATCH)
            table(drill, time.perf_counter() - start)
            drill.reader.close()
        finally:
            cluster.stop()
    print(*drill.wrong[:20], sep="\n")
    print(f"{drill.counts['checks'] - len(drill.wrong)} passed, {len(drill.wrong)} failed")
    return int(len(drill.wrong) > 0)


if __name__ == "__main__":
    sys.exit(main())

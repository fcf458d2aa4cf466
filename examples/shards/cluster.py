"""All parts on one machine: an engine, a router, and leaders, each of which is restarted when it ends."""

from __future__ import annotations

import dataclasses
import os
import pathlib
import random
import subprocess
import sys

from engine import Engine
from followers import free_port, wait_for
from reader import Reader
from resp import has_answered, served

HERE = pathlib.Path(__file__).resolve().parent
DURABLE = ("--appendonly", "yes", "--appendfsync", "everysec", "--stream-node-max-entries", "100")
KEYS = 2**20
Process = subprocess.Popen[bytes]


def commands(count: int, chance: random.Random) -> list[bytes]:
    """Returns puts, and some cuts."""
    keys = chance.choices(range(KEYS), k=count)
    return [
        b"cut %d" % key if chance.random() < 0.3 else b"put %d %d" % (key, chance.randrange(10**6)) for key in keys
    ]


def children(process: int) -> list[int]:
    """Returns the child processes of a process."""
    found = pathlib.Path(f"/proc/{process}/task").glob("*/children")
    return [int(it) for file in found for it in file.read_text(encoding="ascii").split()]


@dataclasses.dataclass
class Cluster:
    """The parts. Commands get numbers from 1 on, in the order in which they are sent."""

    folder: str
    lows: list[int]
    leaders_each: int = 2  # (the second is on standby)
    every: int = 1_000_000  # commands between two snapshots
    port: int = dataclasses.field(default_factory=free_port)
    next: int = 1
    leaders: dict[str, list[Process]] = dataclasses.field(default_factory=dict)

    def start(self) -> None:
        self.start_server()
        self.engine = Engine(self.port)
        self.start_router()
        self.send([])
        self.mend()

    def start_server(self) -> None:
        self.server = served(self.port, self.folder, *DURABLE)
        wait_for(lambda: has_answered(self.port))

    def start_router(self) -> None:
        words = [sys.executable, str(HERE / "router.py"), str(self.port), *map(str, self.lows)]
        self.router = subprocess.Popen(words, stdin=subprocess.PIPE, stdout=subprocess.PIPE)

    def machine(self, place: int) -> str:
        """Returns the folder of a leader's machine."""
        return f"{self.folder}/machine{place}"

    def start_leader(self, shard: str, place: int) -> Process:
        words = [sys.executable, str(HERE / "leader.py"), str(self.port), shard, self.machine(place)]
        with open(f"{self.folder}/log", "ab") as log:
            return subprocess.Popen(words, env={**os.environ, "SNAPSHOT_EVERY": str(self.every)}, stdout=log)

    def mend(self) -> None:
        """Restarts what has ended: the router, and leaders, except those that ended with their shard."""
        for shard in {shard for table in self.engine.tables().values() for _, shard in table}:
            parts = self.leaders.setdefault(shard, [])
            for place, part in enumerate(parts):
                if part.poll() not in (None, 0):
                    parts[place] = self.start_leader(shard, place)
            parts += [self.start_leader(shard, place) for place in range(len(parts), self.leaders_each)]
        if self.router.poll() is not None:
            self.start_router()

    def have_ended(self) -> bool:
        """Returns whether the leaders of all shards that gave their pairs away have ended."""
        lead = {shard for _, shard in self.engine.table()}
        return all(it.poll() == 0 for shard, parts in self.leaders.items() if shard not in lead for it in parts)

    def send(self, lines: list[bytes], is_killed: bool = False) -> None:
        """Sends a batch, again if the router ended before its reply, or is to be killed then."""
        text = b"".join(line + b"\n" for line in [b"from %d" % self.next, *lines, b""])
        while True:
            try:
                assert self.router.stdin and self.router.stdout
                self.router.stdin.write(text)
                self.router.stdin.flush()
                answer = self.router.stdout.readline()
                if answer and not is_killed:
                    self.next = int(answer.removeprefix(b"next "))
                    return
            except OSError:
                pass
            is_killed = False
            end([self.router])
            self.start_router()

    def head(self) -> int:
        """Returns the number of the last command."""
        return self.next - 1

    def until_shown(self, reader: Reader, number: int) -> None:
        """Shows the map after a command, and restarts what ends meanwhile."""
        for _ in range(600):
            try:
                reader.show(number, 1)
                return
            except TimeoutError:
                self.mend()
        sys.exit(f"command {number} is not shown")

    def middle(self, reader: Reader) -> int:
        """Returns the key in the middle of the fullest shard that a reader shows."""
        counts = [high - low for low, high in zip(reader.below, reader.below[1:])]
        fullest = max(range(len(counts)), key=lambda place: counts[place])
        (pair,) = reader.at_position(reader.below[fullest] + counts[fullest] // 2)
        return int(pair.split(b":")[0])

    def stop(self) -> None:
        for parts in self.leaders.values():
            end(parts)
        end([self.router, self.server])


def end(parts: list[Process]) -> None:
    for it in parts:
        it.kill()
    for it in parts:
        it.wait()

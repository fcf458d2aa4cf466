"""A follower of a shard that keeps its state in a file of its own machine, and continues from there."""

from __future__ import annotations

import contextlib
import fcntl
import itertools
import pathlib
import sqlite3

from engine import MOST, Engine
from follower import Follower, Unfit, snapshot_until
from programs import built
from store import Ended, Store

REFUSED = 6  # the status of a program that cannot continue from its file
SECONDS = 60  # in which the program of a leader that was killed must end
PARTS = ("-wal", "-shm", "")  # (the log first: it belongs to no other file)

Told = dict[int, list[bytes]]


def number_of(command: bytes) -> int:
    """Returns the number of a command, as in `#17 put 5 6`."""
    return int(command[1 : command.index(b" ")])


def kept_behind(file: pathlib.Path, number: int) -> Told:
    """Returns the kept lines of the commands after one: for each its events, and the line with its number."""
    found: Told = {}
    with contextlib.closing(sqlite3.connect(f"file:{file}?mode=ro", SECONDS, uri=True)) as base:
        for (line,) in base.execute("SELECT CAST(line AS BLOB) FROM kept ORDER BY number DESC"):
            word, _, rest = line.partition(b" ")
            if word == b"done":
                last = int(rest.split(b" ")[0])
                if last <= number:
                    break
                found[last] = [line]
            elif word.isdigit() and found:
                found[last].insert(0, line)
            elif word != b"seal" and not word.isdigit():
                break  # (a snapshot)
    return found


def read_behind(file: pathlib.Path, number: int) -> Told:
    """Returns those of a file that may be missing or damaged. If another process holds it, it waits."""
    try:
        return kept_behind(file, number) if file.exists() else {}
    except (sqlite3.DatabaseError, ValueError) as error:
        if "locked" in str(error):
            raise
        return {}


def remove(file: pathlib.Path) -> None:
    for part in PARTS:
        pathlib.Path(f"{file}{part}").unlink(missing_ok=True)


class Kept(Follower):
    """A shard from its file, or from the newest snapshot if there is no file, or none that fits.

    All commands up to `at` are applied. Those of them whose events are not published, as after a kill between the two,
    are in `ahead`.
    """

    def __init__(self, engine: Engine, shard: str, folder: pathlib.Path) -> None:
        self.engine, self.shard, self.file = engine, shard, folder / f"{shard}.db"
        folder.mkdir(parents=True, exist_ok=True)
        self.lock = (folder / f"{shard}.lock").open("wb")
        fcntl.flock(self.lock, fcntl.LOCK_EX)  # (one leader per file)
        self.ahead = read_behind(self.file, engine.last(f"events:{shard}"))
        self.store = self.opened()
        self.at = int((*self.store.sum().split(b" "), b"0")[4])
        self.is_own = 0 < self.at <= engine.last(f"commands:{shard}")
        if not self.is_own:
            self.begin(snapshot_until(engine, shard, MOST))

    def opened(self) -> Store:
        """Returns the program over the file, or over a new one if it refuses that."""
        words = ["--keep", str(self.file)]
        store = Store(built("indexset_store"), *words)
        try:
            store.next()
            return store
        except Ended:
            if store.process.wait() != REFUSED:
                raise
        remove(self.file)
        self.ahead = {}
        return Store(built("indexset_store"), *words)

    def told(self) -> int:
        """Follows until it has all published events; returns the number of the last command among them."""
        while True:
            self.catch_up()
            last = max(self.engine.last(f"{stream}:{self.shard}") for stream in ("events", "snapshots"))
            if last <= self.at:
                return last

    def parted(self, commands: list[bytes]) -> tuple[list[bytes], list[bytes]]:
        """Returns the kept lines of those among some commands that were carried out, and the other commands."""
        done = list(itertools.takewhile(lambda number: number <= self.at, map(number_of, commands)))
        if any(number not in self.ahead for number in done):
            raise Unfit("the file has no lines of what was not told")
        return [line for number in done for line in self.ahead[number]], commands[len(done) :]

    def drop(self) -> None:
        """Ends the program, and removes the file."""
        self.store.kill()
        remove(self.file)
        pathlib.Path(self.lock.name).unlink(missing_ok=True)

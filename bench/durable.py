#!/usr/bin/env python3
"""Times a map that is kept in a file, and compares it with SQLite with the same commits, and Redis with its append-only
file.

usage: durable.py [--seconds S] [--rounds R] [--one-file] [--large] [--folder FOLDER]. Commands are sent one after the
reply to the other, in groups that are answered together, and from a file at full speed. The journal also keeps the rows
of such commands, with a checksum after each group, in its own process (ours/rows). SQLite, by Python's module, gets the
same rows in the same transactions, with synchronous=FULL, in this process and behind a pipe like the program
(rows_by_pipe.py); so does its own shell, by one statement per group; Redis syncs its file at each group (appendfsync
always). The last two are left out if they are not installed. Each size of groups begins with empty files, unless one
file is asked for, and the input is made before the clock starts. The speed of a disk varies, so they take turns: a rate
is the median of R turns of S seconds. The files are in a folder of the disk that is measured. Recovery is the time from
the start of the program to its first reply, the minimum of three; `--large` times only starts of large maps, in some
minutes.

It needs the built `indexset_store`, and for the journal `indexset_rows`, which `bench/build.py rows` builds, both
proved if the figures are to be published.
"""

from __future__ import annotations

import argparse
import contextlib
import os
import pathlib
import random
import shutil
import socket
import sqlite3
import statistics
import subprocess
import sys
import tempfile
import time
from collections.abc import Iterable, Iterator
from typing import IO, Any, Protocol

TOP = pathlib.Path(__file__).resolve().parent.parent
sys.dont_write_bytecode = True
sys.path[:0] = [str(TOP / "scripts"), str(TOP / "examples/common")]
from programs import FOLDER, built  # noqa: E402
from resp import Redis, Word  # noqa: E402
from rows_by_pipe import SEAL, TABLE, keep, opened as opened_rows  # noqa: E402

ROWS = pathlib.Path(os.environ.get(FOLDER, TOP / "bench/out/crates/indexset_rows/out"), "indexset_rows").resolve()
GROUPS = (1, 10, 100, 1000)  # commands
KEY_BITS = 40  # of keys that hardly ever repeat, so that a command emits one event, and now and then a split
PIPED = 300_000  # commands at full speed
SHELL, SAY_KEPT = "sqlite3", "SELECT 'kept';\n"
KEPT = (10**4, 10**5, 10**6)  # lines
LARGE = (10**6, 5 * 10**6, 10**7)  # pairs
MANY = 1_500_000  # events that are kept of a map, less one for ten pairs, or one for twenty pairs


class Timed(Protocol):
    """A store of commands."""

    name: str

    def seconds(self, group: int, count: int) -> float:
        """Returns the time of keeping a number of groups of a number of commands."""


class Sender:
    """A program that commands are sent to."""

    def made(self, group: int) -> Any:
        """Returns a group of a number of commands."""
        raise NotImplementedError

    def send(self, group: Any) -> None:
        """Sends a group, and waits for its replies."""
        raise NotImplementedError

    def seconds(self, group: int, count: int) -> float:
        groups = [self.made(group) for _ in range(count)]
        began = time.perf_counter()
        for it in groups:
            self.send(it)
        return time.perf_counter() - began


def rates(timed: list[Timed], group: int, seconds: float, rounds: int) -> list[str]:
    """Returns the median rate of each, in groups."""
    counts = [max(1, round(5 * seconds / it.seconds(group, 5))) for it in timed]
    found = [[group * count / it.seconds(group, count) for it, count in zip(timed, counts)] for _ in range(rounds)]
    return [f"{statistics.median(each):,.0f}" for each in zip(*found)]


def drawn(count: int, chance: random.Random) -> Iterator[str]:
    return (f"put {chance.getrandbits(KEY_BITS)} {chance.randrange(10**6)}" for _ in range(count))


def commands(count: int, chance: random.Random) -> list[str]:
    return list(drawn(count, chance))


class Store(Sender):
    """The program, as the leader of a file."""

    name = "`indexset_store`"

    def __init__(self, folder: pathlib.Path) -> None:
        self.file, self.chance = folder / "map.db", random.Random(1)
        self.words = [str(built("indexset_store")), "--keep", str(self.file), "--lead"]
        self.put: IO[bytes] | None = None
        self.told: Any = None

    @contextlib.contextmanager
    def running(self) -> Iterator[Store]:
        with subprocess.Popen(self.words, stdin=subprocess.PIPE, stdout=subprocess.PIPE) as run:
            self.put, self.told = run.stdin, run.stdout
            yield self
            assert self.put
            self.put.close()

    def made(self, group: int) -> tuple[int, bytes]:
        return group, "".join(f"{it}\n" for it in commands(group, self.chance)).encode()

    def send(self, group: tuple[int, bytes]) -> None:
        assert self.put
        left, text = group
        self.put.write(text)
        self.put.flush()
        came = b"\n"
        while left or came[-1:] != b"\n":
            came = came[-5:] + self.told.read1(1 << 20)
            left -= came.count(b"\nnext ")

    def piped(self, lines: Iterable[str]) -> float:
        """Returns the seconds of a run over lines from a file, with its output discarded."""
        with tempfile.TemporaryFile(dir=self.file.parent) as text:
            text.writelines(f"{it}\n".encode() for it in lines)
            text.seek(0)
            began = time.perf_counter()
            subprocess.run(self.words, stdin=text, stdout=subprocess.DEVNULL, check=True)
            return time.perf_counter() - began

    def recovery(self) -> float:
        """Returns the seconds from the start to the first reply, the minimum of three."""
        return min(self.piped(["next"]) for _ in range(3))

    def size(self) -> int:
        """Returns the bytes of the file and of its log."""
        copy = self.file.with_name("copy")
        shutil.rmtree(copy, ignore_errors=True)
        copy.mkdir()
        for it in self.file.parent.glob("map.db*"):
            shutil.copy(it, copy)
        with sqlite3.connect(copy / "map.db") as found:
            found.execute("PRAGMA wal_checkpoint(TRUNCATE)")
        found.close()
        return (copy / "map.db").stat().st_size


class Served(Store):
    """SQLite in WAL mode behind a pipe, with the replies of the program."""

    name = "SQLite, WAL, behind a pipe"

    def __init__(self, folder: pathlib.Path) -> None:
        super().__init__(folder)
        self.words = [sys.executable, str(TOP / "bench/rows_by_pipe.py"), str(self.file)]


class Journal:
    """The journal in a process of its own, which makes rows as the program does, and commits each group."""

    name = "rows only: `indexset_journal`"

    def __init__(self, folder: pathlib.Path) -> None:
        self.words = [str(ROWS), str(folder / "rows.db")]
        self.asked: Any = None
        self.told: Any = None

    @contextlib.contextmanager
    def running(self) -> Iterator[Journal]:
        with subprocess.Popen(self.words, stdin=subprocess.PIPE, stdout=subprocess.PIPE) as run:
            assert run.stdin
            self.asked, self.told = run.stdin, run.stdout
            yield self
            run.stdin.close()

    def seconds(self, group: int, count: int) -> float:
        self.asked.write(f"{group} {count}\n".encode())
        self.asked.flush()
        return int(self.told.readline()) / 1e6


class Rows(Sender):
    """A store of rows as the program keeps them, with a checksum after each group."""

    def __init__(self, name: str) -> None:
        self.name, self.number, self.chance = f"rows only: {name}", 0, random.Random(1)

    def pair(self) -> str:
        return f"{self.chance.getrandbits(KEY_BITS)}:{self.chance.randrange(10**6)}"

    def rows(self, group: int) -> list[tuple[int, str]]:
        rows = [(self.number + it, f"{self.number + it} insert {self.pair()} {self.pair()} 117") for it in range(group)]
        rows.append((self.number + group, SEAL))
        self.number += group + 1
        return rows


class Embedded(Rows):
    """SQLite in this process, which gets each group by one transaction."""

    def __init__(self, mode: str, file: pathlib.Path) -> None:
        super().__init__(f"SQLite, {mode}")
        self.kept = opened_rows(str(file), mode)

    def made(self, group: int) -> list[tuple[int, str]]:
        return self.rows(group)

    def send(self, group: list[tuple[int, str]]) -> None:
        keep(self.kept, group)


class Shell(Rows):
    """SQLite's own shell behind a pipe, which gets each group by one statement."""

    def __init__(self, file: pathlib.Path) -> None:
        super().__init__("SQLite's shell, WAL, behind a pipe")
        self.words = [SHELL, str(file)]
        self.asked: Any = None
        self.told: Any = None

    @contextlib.contextmanager
    def running(self) -> Iterator[Shell]:
        with subprocess.Popen(self.words, stdin=subprocess.PIPE, stdout=subprocess.PIPE) as run:
            assert run.stdin and run.stdout
            self.asked, self.told = run.stdin, run.stdout
            self.send(f"PRAGMA journal_mode=WAL;\nPRAGMA synchronous=FULL;\n{TABLE};\n{SAY_KEPT}".encode())
            yield self
            run.stdin.close()

    def made(self, group: int) -> bytes:
        values = ",".join(f"({number},'{line}')" for number, line in self.rows(group))
        return f"INSERT INTO kept VALUES {values};\n{SAY_KEPT}".encode()

    def send(self, group: bytes) -> None:
        self.asked.write(group)
        self.asked.flush()
        while self.told.readline() != b"kept\n":
            pass


class Remote(Sender):
    """Redis, which syncs before it replies."""

    name = "Redis"

    def __init__(self, client: Redis) -> None:
        self.client, self.chance = client, random.Random(1)

    def made(self, group: int) -> list[list[Word]]:
        return [["SET", *it.split(" ")[1:]] for it in commands(group, self.chance)]

    def send(self, group: list[list[Word]]) -> None:
        self.client.replies(group)


@contextlib.contextmanager
def redis(folder: pathlib.Path) -> Iterator[Remote]:
    with socket.socket() as found:
        found.bind(("127.0.0.1", 0))
        port = found.getsockname()[1]
    words = [
        "redis-server", "--port", str(port), "--dir", str(folder), "--save", "", "--appendonly", "yes", "--appendfsync",
        "always",
    ]
    with subprocess.Popen([*words, "--daemonize", "no", "--loglevel", "warning"], stdout=subprocess.DEVNULL) as run:
        try:
            until = time.monotonic() + 30
            while True:
                try:
                    client = Redis(port)
                    break
                except OSError:
                    if time.monotonic() > until:
                        raise
                    time.sleep(0.05)
            yield Remote(client)
            client.close()
        finally:
            run.terminate()


def row(name: str, cells: list[str]) -> None:
    print("|" + "|".join([name, *cells]) + "|", flush=True)


@contextlib.contextmanager
def opened(folder: pathlib.Path) -> Iterator[list[Timed]]:
    """Returns the stores of commands, each with empty files of its own."""
    with contextlib.ExitStack() as open_ones:
        found: list[Timed] = [open_ones.enter_context(Store(fresh(folder, "store")).running())]
        found.append(open_ones.enter_context(Served(fresh(folder, "served")).running()))
        if shutil.which("redis-server"):
            found.append(open_ones.enter_context(redis(fresh(folder, "redis"))))
        if ROWS.exists():
            found.append(open_ones.enter_context(Journal(fresh(folder, "journal")).running()))
        if shutil.which(SHELL):
            found.append(open_ones.enter_context(Shell(fresh(folder, "shell") / "rows.db").running()))
        found += [Embedded(mode, fresh(folder, mode) / "rows.db") for mode in ("WAL", "DELETE")]
        yield found


def answers(folder: pathlib.Path, seconds: float, rounds: int, has_one_file: bool) -> None:
    """Returns the table of commands per second, each kept before the reply."""
    piped = Store(fresh(folder, "piped"))
    pace = f"{PIPED / piped.piped(commands(PIPED, piped.chance)):,.0f}"
    rows: dict[str, list[str]] = {}
    with contextlib.ExitStack() as all_open:
        one = all_open.enter_context(opened(fresh(folder, "all"))) if has_one_file else None
        for group in GROUPS:
            with contextlib.nullcontext(one) if one else opened(fresh(folder, f"groups{group}")) as timed:
                for it, rate in zip(timed, rates(timed, group, seconds, rounds)):
                    rows.setdefault(it.name, []).append(rate)
    row(
        "commands a second",
        ["one at a time", f"groups of {GROUPS[1]}", *(f"of {it:,}" for it in GROUPS[2:]), "from a file"],
    )
    row("---", ["---"] * 5)
    for name, cells in rows.items():
        row(name, [*cells, pace if name == piped.name else "–"])
    if not shutil.which("redis-server"):
        print("redis-server is not installed: left out")
    if not shutil.which(SHELL):
        print(f"{SHELL} is not installed: left out")
    if not ROWS.exists():
        print("indexset_rows is not built: left out")


def recoveries(folder: pathlib.Path) -> None:
    """Returns the table of seconds to the first reply, and bytes."""
    print()
    row(
        "Kept lines",
        ["pairs", "seconds to the first answer", "bytes a line", "after compaction: lines", "seconds", "bytes a pair"],
    )
    row("---:", ["---:"] * 6)
    for count in KEPT:
        store = Store(fresh(folder, f"kept{count}"))
        keys = list(range(count))
        random.Random(2).shuffle(keys)
        pairs = count - count // 200  # (a node of 256 is split now and then)
        store.piped([f"put {key} {key}" for key in keys[:pairs]])
        lines, size, seconds = lines_of(store.file), store.size(), store.recovery()
        store.piped(["compact"])
        after, small = lines_of(store.file), store.size()
        row(
            f"{lines:,}",
            [
                f"{pairs:,}", f"{seconds:.3f}", f"{size / lines:.1f}", f"{after:,}", f"{store.recovery():.3f}",
                f"{small / pairs:.1f}",
            ],
        )
        shutil.rmtree(store.file.parent)


def behind(pairs: int) -> int:
    """Returns nearly as many puts of new keys as are kept after a snapshot of a number of pairs."""
    return int(0.98 * max((MANY - pairs / 10) / 1.1, pairs / 19))


def large_starts(folder: pathlib.Path) -> None:
    """Returns the table of seconds to the first reply of large maps: after a snapshot only, and with nearly as many
    events as are kept."""
    print()
    row("Pairs", ["compacted in", "seconds to the first answer", "events behind the snapshot", "seconds, three starts"])
    row("---:", ["---:"] * 4)
    for count in LARGE:
        store = Store(fresh(folder, f"large{count}"))
        store.piped(drawn(count, store.chance))
        start = store.recovery()
        compacted = store.piped(["compact"]) - start
        os.sync()
        start = store.recovery()
        store.piped(drawn(behind(count), store.chance))
        os.sync()
        starts = sorted(store.piped(["next"]) for _ in range(3))
        events = lines_of(store.file) - lines_of_snapshot(store.file)
        row(f"{count:,}", [f"{compacted:.1f}", f"{start:.1f}", f"{events:,}", ", ".join(f"{it:.1f}" for it in starts)])
        shutil.rmtree(store.file.parent)


def lines_of_snapshot(file: pathlib.Path) -> int:
    """Returns the number of lines of the snapshot in a file, by its last number of nodes."""
    with sqlite3.connect(file.with_name("count") / "map.db") as found:
        (end,) = found.execute("SELECT line FROM kept WHERE line LIKE 'end %' ORDER BY number DESC LIMIT 1").fetchone()
    found.close()
    return int(end.split(" ")[1]) + 2


def lines_of(file: pathlib.Path) -> int:
    """Returns the number of lines of a copy of a file."""
    copy = file.with_name("count")
    shutil.rmtree(copy, ignore_errors=True)
    copy.mkdir()
    for it in file.parent.glob("map.db*"):
        shutil.copy(it, copy)
    with sqlite3.connect(copy / "map.db") as found:
        (count,) = found.execute("SELECT count(*) FROM kept").fetchone()
    found.close()
    return int(count)


def fresh(folder: pathlib.Path, name: str) -> pathlib.Path:
    (folder / name).mkdir()
    return folder / name


def main() -> int:
    ask = argparse.ArgumentParser(description="Times a map that is kept in a file.")
    ask.add_argument("--seconds", type=float, default=0.5, help="for each turn")
    ask.add_argument("--rounds", type=int, default=11, help="turns of each")
    ask.add_argument(
        "--one-file", action="store_true", help="for all sizes of groups, so that the later ones meet a larger map"
    )
    ask.add_argument(
        "--folder", type=pathlib.Path, default=pathlib.Path(tempfile.gettempdir()), help="on the disk that is measured"
    )
    ask.add_argument("--large", action="store_true", help="the starts of maps of 1,000,000 to 10,000,000 pairs only")
    given = ask.parse_args()
    with tempfile.TemporaryDirectory(dir=given.folder) as folder:
        print(f"SQLite {sqlite3.sqlite_version}, {os.cpu_count()} processors\n")
        if given.large:
            large_starts(pathlib.Path(folder))
        else:
            answers(pathlib.Path(folder), given.seconds, given.rounds, given.one_file)
            recoveries(pathlib.Path(folder))
    return 0


if __name__ == "__main__":
    sys.exit(main())

#!/usr/bin/env python3
"""Damages the file in which a map is kept, and gives the program files of other kinds.

A file of a snapshot and of events, in several commits, is truncated at every byte, and has each byte changed, to a
value by a seed; and so has a log beside it that was not checkpointed into the file. The program refuses the file, with
status 6, a sentence on standard error and nothing changed, or it outputs the complete map; with a damaged log the map
may also be that after an earlier commit, as after a crash. It never outputs another map, and never ends in another way.

With --stride N it tries every Nth byte, with --sample N a sample of N cases, by the seed. The last line is 'N passed, M
failed'. It needs the built `indexset_store`.
"""

from __future__ import annotations

import argparse
import contextlib
import functools
import os
import pathlib
import random
import shutil
import sqlite3
import subprocess
import sys
import tempfile
from collections import Counter
from collections.abc import Callable, Iterator
from concurrent.futures import ThreadPoolExecutor

TOP = pathlib.Path(__file__).resolve().parent.parent.parent
sys.dont_write_bytecode = True
sys.path.insert(0, str(TOP / "scripts"))
from kept import sum_of  # noqa: E402
from programs import built  # noqa: E402
from seals import seal_of  # noqa: E402

REFUSED = 6
SENTENCES = {
    "the file is damaged",
    "the file holds something other than lines",
    "the file cannot be opened for writing",
    "another process has the file open",
    "the disk failed while the file was read or written",
    "the disk is full",
}
TABLE = "CREATE TABLE kept (number INTEGER PRIMARY KEY, line TEXT NOT NULL) STRICT"
LOG = "map.db-wal"
EMPTY = 2  # bytes below which SQLite treats a file as a new one
HEAD = 41  # bytes of a log without pages
NOBODY = 65_534
SECONDS = 60  # for one run, on a busy machine
FIRST = [f"put {key} {key * key}" for key in range(40)]
THEN = [["put 3 5"], ["cut 7", "#17 put 8 1"], ["put 100 1", "put 101 2", "put 102 3"], ["cut 100"], ["#19 cut 9999"]]

Files = dict[str, bytes]
Change = Callable[[bytes], bytes]
Case = tuple[str, Callable[[], str]]  # its name, and a call that returns its fault


def files_of(folder: pathlib.Path) -> Files:
    return {it.name: it.read_bytes() for it in sorted(folder.iterdir()) if it.is_file()}


class Bench:
    """The program, and its output."""

    def __init__(self, program: pathlib.Path) -> None:
        self.program = program
        self.counts: Counter[str] = Counter()
        self.said: Counter[str] = Counter()

    def run(
        self, file: pathlib.Path, lines: list[str], *words: str, user: int | None = None
    ) -> subprocess.CompletedProcess[str]:
        """Runs the program on a file, as this user or as the one of this process."""
        return subprocess.run(
            [self.program, "--keep", str(file), "--node-size", "4", *words],
            input="".join(f"{line}\n" for line in lines),
            stdout=subprocess.PIPE,
            stderr=subprocess.PIPE,
            timeout=SECONDS,
            encoding="utf-8",
            errors="replace",
            user=user,
            group=user,
        )

    def fault(self, folder: pathlib.Path, maps: list[str], user: int | None = None) -> str:
        """Returns the fault in a reply to `snapshot` from the files of a folder, if only these maps are right."""
        before = files_of(folder)
        done = self.run(folder / "map.db", ["snapshot"], user=user)
        if done.returncode == 0 and done.stdout in maps:
            self.said["answered" if done.stdout == maps[0] else "answered as after an earlier commit"] += 1
            return ""
        if done.returncode == 0:
            return f"it answers another map: {done.stdout[:200]!r}"
        if done.returncode != REFUSED or done.stdout or done.stderr.rstrip("\n") not in SENTENCES:
            return f"status {done.returncode}, {done.stdout[:200]!r}, {done.stderr[:300]!r}"
        after = files_of(folder)
        if LOG not in before and len(after.get(LOG, b"")) <= HEAD:
            self.said["refused, and a log with no page left there"] += after.pop(LOG, None) is not None
        if after != before:
            return f"it says {done.stderr.strip()!r}, and changes {changed(before, after)}"
        self.said[done.stderr.strip()] += 1
        return ""

    def count(self, what: str, fault: str) -> None:
        self.counts["failed" if fault else "passed"] += 1
        if fault:
            print(f"{what}: {fault}", flush=True)


def changed(before: Files, after: Files) -> str:
    names = [it for it in {**before, **after} if before.get(it) != after.get(it)]
    return ", ".join(f"{it} ({len(before.get(it, b''))} bytes, then {len(after.get(it, b''))})" for it in names)


def commit_each(program: pathlib.Path, file: pathlib.Path, groups: list[list[str]]) -> list[str]:
    """Runs groups of commands on a leader with a commit each; returns the snapshots before and after each group."""
    words = [str(program), "--keep", str(file), "--node-size", "4", "--lead"]
    found = []
    with subprocess.Popen(words, stdin=subprocess.PIPE, stdout=subprocess.PIPE, text=True) as run:
        assert run.stdin and run.stdout
        for group in [list[str](), *groups]:
            run.stdin.write("".join(f"{line}\n" for line in [*group, "snapshot"]))
            run.stdin.flush()
            lines = [""]
            while not lines[-1].startswith("end "):
                lines = [] if (line := run.stdout.readline()).startswith("start ") else lines
                lines.append(line)
            found.append("".join(lines))
        run.stdin.close()
    return found


def carry_over(file: pathlib.Path) -> None:
    """Makes SQLite checkpoint the log into the file."""
    with sqlite3.connect(file) as found:
        found.execute("PRAGMA wal_checkpoint(TRUNCATE)")
    found.close()


def cut(at: int, old: bytes) -> bytes:
    return old[:at]


def turned(at: int, turn: int, old: bytes) -> bytes:
    return old[:at] + bytes([old[at] ^ turn]) + old[at + 1 :]


def changes(size: int, stride: int, chance: random.Random) -> Iterator[tuple[str, Change]]:
    """Yields truncations and changed bytes of a file of this size."""
    for at in range(chance.randrange(stride), size, stride):
        if at >= EMPTY:
            yield f"cut at byte {at}", functools.partial(cut, at)
        turn = chance.randrange(1, 256)
        yield f"byte {at} turned by {turn}", functools.partial(turned, at, turn)


def damaged(bench: Bench, room: pathlib.Path, files: Files, name: str, maps: list[str], change: Change) -> str:
    """Returns the fault if one of the files is changed."""
    with tempfile.TemporaryDirectory(dir=room) as folder:
        for it, old in files.items():
            pathlib.Path(folder, it).write_bytes(change(old) if it == name else old)
        return bench.fault(pathlib.Path(folder), maps)


def damages(
    bench: Bench, room: pathlib.Path, files: Files, name: str, maps: list[str], stride: int, seed: int
) -> Iterator[Case]:
    """Yields all changes of one of the files."""
    used = len(files[name].rstrip(b"\0")) + 1 if name == LOG else len(files[name])
    for what, change in changes(used, stride, random.Random(seed)):
        yield f"{name}, {what}", functools.partial(damaged, bench, room, files, name, maps, change)


def of_damage(bench: Bench, room: pathlib.Path, stride: int, seed: int) -> Iterator[Case]:
    """Yields changes of a complete file, then of one whose log has the newest commits, and of this log."""
    made = room / "made"
    made.mkdir()
    file = made / "map.db"
    commit_each(bench.program, file, [FIRST, ["compact"]])
    maps = commit_each(bench.program, file, THEN)[::-1]
    carry_over(file)
    yield from damages(bench, room, files_of(made), "map.db", maps[:1], stride, seed)
    maps = commit_each(bench.program, file, THEN)[::-1]
    both = files_of(made)
    yield from damages(bench, room, both, "map.db", maps[:1], stride * 16, seed)
    yield from damages(bench, room, both, LOG, maps, stride * 16, seed)


def sealed(lines: list[str]) -> list[str]:
    return [*lines, f"seal {seal_of(0, lines)}"]


def statements(lines: list[str]) -> list[str]:
    return [TABLE, *(f"INSERT INTO kept VALUES ({at}, '{line}')" for at, line in enumerate(lines))]


def others() -> dict[str, list[str]]:
    """Yields databases that do not contain lines of a map, by their statements."""
    lines = statements(sealed(["0 create 1:1"]))
    loose = "CREATE TABLE kept (number INTEGER PRIMARY KEY, line TEXT)"
    return {
        "another table": ["CREATE TABLE other (x)", "INSERT INTO other VALUES (1)"],
        "a second table": [*lines, "CREATE TABLE other (x)"],
        "an index": [*lines, "CREATE INDEX other ON kept (line)"],
        "a view": [*lines, "CREATE VIEW other AS SELECT line FROM kept"],
        "a trigger": [*lines, "CREATE TRIGGER other AFTER INSERT ON kept BEGIN DELETE FROM kept; END"],
        "a row that is NULL": [loose, "INSERT INTO kept VALUES (0, NULL)"],
        "a row that is a blob": [loose, "INSERT INTO kept VALUES (0, x'00')"],
        "a row that is a number": [loose.replace("TEXT", "INT"), "INSERT INTO kept VALUES (0, 1)"],
        "a row below 0": [loose, "INSERT INTO kept VALUES (-1, 'x')"],
        "a third column": [loose.replace("TEXT", "TEXT, more TEXT"), "INSERT INTO kept VALUES (0, 'x', 'y')"],
        "no column of numbers": ["CREATE TABLE kept (line TEXT)", "INSERT INTO kept VALUES ('x')"],
        "a table with no rowid": [
            "CREATE TABLE kept (number INTEGER PRIMARY KEY, line TEXT NOT NULL) STRICT, WITHOUT ROWID"
        ],
        "no seal": statements(["0 create 1:1"]),
        "a wrong seal": statements(["0 create 1:1", "seal 1"]),
        "a line behind the last seal": statements([*sealed(["0 create 1:1"]), "1 drop 1:1"]),
        "a line changed": statements([*sealed(["0 create 1:1"])[:-1], sealed(["0 create 1:2"])[-1]]),
        "a line lost": statements(sealed(["0 create 1:1", "1 drop 1:1"])[1:]),
    }


def make(file: pathlib.Path, words: list[str], mode: str) -> None:
    with sqlite3.connect(file) as made:
        made.execute(f"PRAGMA journal_mode={mode}")
        for word in words:
            made.execute(word)
    made.close()


def of_others(bench: Bench, room: pathlib.Path) -> Iterator[Case]:
    """Tests that files that are not a kept map are refused, and unchanged. An empty one is new."""
    for mode in ("DELETE", "WAL"):
        for name, words in others().items():
            yield f"{name}, in mode {mode}", functools.partial(made_by, bench, room, words, mode)
    for name, text in {"no database": b"Dear reader,\n" * 1000, "a short text": b"Dear", "zeros": bytes(8192)}.items():
        yield name, functools.partial(damaged, bench, room, {"map.db": text}, "", [], bytes)
    empty = f"start 0\nend 0 {sum_of(['start 0'])}\n"
    yield "an empty file", functools.partial(damaged, bench, room, {"map.db": b""}, "", [empty], bytes)


def made_by(bench: Bench, room: pathlib.Path, words: list[str], mode: str) -> str:
    with tempfile.TemporaryDirectory(dir=room) as folder:
        make(pathlib.Path(folder, "map.db"), words, mode)
        return bench.fault(pathlib.Path(folder), [])


@contextlib.contextmanager
def some_map(bench: Bench, room: pathlib.Path) -> Iterator[pathlib.Path]:
    """Makes a folder in which a map is kept."""
    with tempfile.TemporaryDirectory(dir=room) as folder:
        bench.run(pathlib.Path(folder, "map.db"), FIRST[:3], "--lead")
        yield pathlib.Path(folder)


def of_places(bench: Bench, room: pathlib.Path) -> Iterator[Case]:
    """Tests files and folders that cannot be written, a folder in place of the file, no folder, and a second
    process."""
    yield "a file that is only read", functools.partial(unwritten, bench, room, 0o444, 0o777)
    yield "a folder that is only read", functools.partial(unwritten, bench, room, 0o666, 0o555)
    yield "a folder in place of the file", functools.partial(in_place, bench, room)
    yield "a missing folder", functools.partial(missing, bench, room)
    yield "a second process", functools.partial(second, bench, room)


def unwritten(bench: Bench, room: pathlib.Path, mode: int, folder_mode: int) -> str:
    with some_map(bench, room) as folder:
        carry_over(folder / "map.db")
        (folder / "map.db").chmod(mode)
        folder.chmod(folder_mode)
        fault = bench.fault(folder, [], NOBODY if os.getuid() == 0 else None)
        folder.chmod(0o777)
        return fault


def in_place(bench: Bench, room: pathlib.Path) -> str:
    with tempfile.TemporaryDirectory(dir=room) as folder:
        pathlib.Path(folder, "map.db").mkdir()
        return bench.fault(pathlib.Path(folder), [])


def missing(bench: Bench, room: pathlib.Path) -> str:
    done = bench.run(room / "none/map.db", ["snapshot"])
    is_right = done.returncode == REFUSED and not done.stdout and done.stderr.rstrip("\n") in SENTENCES
    bench.said[done.stderr.strip()] += is_right
    return "" if is_right and not (room / "none").exists() else f"status {done.returncode}, {done.stderr!r}"


def second(bench: Bench, room: pathlib.Path) -> str:
    """Tests that a second process is refused, and the first continues."""
    with some_map(bench, room) as folder:
        words = [str(bench.program), "--keep", str(folder / "map.db"), "--node-size", "4", "--lead"]
        with subprocess.Popen(words, stdin=subprocess.PIPE, stdout=subprocess.PIPE, text=True) as first:
            assert first.stdin and first.stdout
            first.stdin.write("put 70 1\n")
            first.stdin.flush()
            while not first.stdout.readline().startswith("next"):
                pass
            fault = bench.fault(folder, [])
            told = first.communicate("get 70\n")[0]
            return fault or ("" if told == "70:1\n" else f"the first process answers {told!r}")


def fault_of(case: Case) -> str:
    return case[1]()


def chosen(bench: Bench, room: pathlib.Path, given: argparse.Namespace) -> list[Case]:
    """Returns all cases, or a sample of them, in an order by the seed."""
    cases = [*of_others(bench, room), *of_places(bench, room), *of_damage(bench, room, given.stride, given.seed)]
    return random.Random(given.seed).sample(cases, given.sample or len(cases))


def main() -> int:
    ask = argparse.ArgumentParser(description="Damages the file in which a map is kept.")
    ask.add_argument("--seed", type=int, default=1)
    ask.add_argument("--stride", type=int, default=1, help="try every Nth byte")
    ask.add_argument("--sample", type=int, default=0, help="try so many of all cases")
    given = ask.parse_args()
    with tempfile.TemporaryDirectory() as folder:
        room = pathlib.Path(folder)
        room.chmod(0o755)
        program = pathlib.Path(shutil.copy(built("indexset_store"), room))
        program.chmod(0o755)
        bench = Bench(program)
        cases = chosen(bench, room, given)
        with ThreadPoolExecutor(2) as pool:
            try:
                for (what, _), fault in zip(cases, pool.map(fault_of, cases)):
                    bench.count(what, fault)
            except KeyboardInterrupt:
                pool.shutdown(cancel_futures=True)
                print(f"interrupted after {bench.counts.total():,} of {len(cases):,} cases, in an order by the seed")
    for said, count in sorted(bench.said.items()):
        print(f"{said:56}{count:>8,}")
    print(f"{bench.counts['passed']} passed, {bench.counts['failed']} failed")
    return int(bench.counts["failed"] > 0)


if __name__ == "__main__":
    sys.exit(main())

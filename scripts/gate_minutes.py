#!/usr/bin/env python3
"""Runs a command, and writes the minutes of processor time of its proofs, by crate, to a file.

    scripts/gate_minutes.py out/minutes rt ci

It exits with the status of the command. Each process of the prover below this one is read once a second until it ends,
so that a figure misses up to a second for each; the total is exact. `From` and `to` are minutes by the clock.
"""

from __future__ import annotations

import argparse
import collections
import contextlib
import dataclasses
import os
import pathlib
import resource
import subprocess
import sys
import threading
import time

TOP = pathlib.Path(__file__).resolve().parent.parent
sys.dont_write_bytecode = True
sys.path.insert(0, str(TOP / "scripts"))
import kit  # noqa: E402
import processes  # noqa: E402

KINDS = ["proof", "tests", "edits"]
BEGAN = time.monotonic()


@dataclasses.dataclass
class Seen:
    """The work of a process of the prover, its processor seconds so far, and the time of the last look."""

    work: kit.Work
    seconds: float = 0
    first: float = dataclasses.field(default_factory=time.monotonic)
    last: float = 0


Processes = dict[tuple[int, int], Seen]  # by number and start


def look(seen: Processes) -> None:
    """Notes the time that each process of the prover has taken so far, with its copies that have ended."""
    for pid in map(int, filter(str.isdigit, os.listdir("/proc"))):
        with contextlib.suppress(OSError):
            it = processes.process(pid)
            key = pid, it.began
            if key not in seen and (work := kit.work_of(pid)) and processes.descends(pid, os.getpid()):
                seen[key] = Seen(work)
            if key in seen:
                seen[key].seconds, seen[key].last = it.seconds, time.monotonic()


def shown(seconds: float) -> str:
    return f"{seconds / 60:.1f}" if seconds else ""


def table(seen: Processes, total: float) -> str:
    """Returns the minutes of each crate by kind and by the clock, those of all crates, and the total."""
    sums: dict[kit.Work, float] = collections.defaultdict(float)
    for it in seen.values():
        sums[it.work] += it.seconds
    rows = [["Crate", *KINDS, "from", "to"]]
    for crate in dict.fromkeys(work.crate for work in sums):
        own = [it for it in seen.values() if it.work.crate == crate]
        clock = min(it.first for it in own) - BEGAN, max(it.last for it in own) - BEGAN
        minutes = [sums.get(kit.Work(crate, kind), 0) for kind in KINDS]
        rows.append([f"`{crate}`", *map(shown, minutes), *map(shown, clock)])
    rows.append(["all", *(shown(sum(sums[work] for work in sums if work.kind == kind)) for kind in KINDS), "", ""])
    return "\n".join(f"| {' | '.join(row)} |" for row in rows) + f"\nprocessor minutes in all: {total / 60:.1f}\n"


def watched(command: list[str]) -> tuple[int, Processes]:
    """Runs a command. Returns its status, and the processes of the prover that were seen until it ended."""
    seen: Processes = {}
    is_over = threading.Event()

    def watch() -> None:
        while not is_over.wait(1):
            look(seen)

    watcher = threading.Thread(target=watch, daemon=True)
    watcher.start()
    status = subprocess.run(command).returncode
    is_over.set()
    watcher.join()
    return status, seen


def main() -> int:
    ask = argparse.ArgumentParser(
        description="Runs a command, and writes how many minutes of processor time its proofs took."
    )
    ask.add_argument("file", type=pathlib.Path, help="what the minutes are written to")
    ask.add_argument("command", nargs=argparse.REMAINDER, metavar="COMMAND", help="a command, with its words")
    given = ask.parse_args()
    if not given.command:
        ask.error("no command is given")
    status, seen = watched(given.command)
    used = resource.getrusage(resource.RUSAGE_CHILDREN)
    given.file.parent.mkdir(parents=True, exist_ok=True)
    given.file.write_text(table(seen, used.ru_utime + used.ru_stime))
    return status


if __name__ == "__main__":
    sys.exit(main())

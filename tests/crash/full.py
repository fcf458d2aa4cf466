#!/usr/bin/env python3
"""Fills the disk of a map that is kept: the commands with replies are in the file, which continues once there is room
again.

On small disks in memory a leader gets commands, one after each reply or many at a time, until it ends. It must end with
status 6 and a sentence; each emitted event is kept; on the full disk it shows the same map or is refused again; on a
larger disk it shows the map and continues. It mounts disks: if that is not permitted it prints that, and nothing has
failed. With --few it fills two. The last line is 'N passed, M failed'. It needs the built `indexset_store`.
"""

from __future__ import annotations

import argparse
import contextlib
import itertools
import pathlib
import subprocess
import sys
import tempfile
from collections.abc import Iterator

TOP = pathlib.Path(__file__).resolve().parent.parent.parent
sys.dont_write_bytecode = True
sys.path.insert(0, str(TOP / "scripts"))
from kept import Found, Wrong, found_in, is_event, number_of  # noqa: E402
from programs import built  # noqa: E402

FULL = (6, "the disk is full\n")
KILOBYTES = (4, 64, 256, 260, 264, 268, 272, 280, 300, 400, 600, 900)
LARGER = "64m"
GROUPS = (1, 7, 500)  # commands
FEW = [(256, 1), (600, 500)]
MOST = 200_000  # commands until a disk is full


class Disk:
    """A small disk in memory, and the program on it."""

    def __init__(self, folder: pathlib.Path, room: pathlib.Path) -> None:
        self.folder, self.room, self.file = folder, room, folder / "map.db"
        self.words = [str(built("indexset_store")), "--keep", str(self.file), "--node-size", "8", "--lead"]

    def resize(self, size: str) -> None:
        subprocess.run(["mount", "-o", f"remount,size={size}", self.folder], check=True)

    def run(self, *lines: str) -> subprocess.CompletedProcess[str]:
        return subprocess.run(self.words, input="".join(f"{it}\n" for it in lines), capture_output=True, text=True)

    def fill(self, group: int) -> tuple[list[str], int, str]:
        """Sends groups of commands, each after the replies to the one before, until the program ends; returns its
        output."""
        told, number = list[str](), 0
        words = self.words
        with subprocess.Popen(
            words, stdin=subprocess.PIPE, stdout=subprocess.PIPE, stderr=subprocess.PIPE, text=True
        ) as run:
            assert run.stdin and run.stdout and run.stderr
            with contextlib.suppress(BrokenPipeError):
                while number < MOST:
                    lines = [f"#{it} put {it * 7919 % 1000} {it}" for it in range(number + 1, number + group + 1)]
                    number += group
                    run.stdin.write(
                        "".join(f"{it}\n" for it in [*lines, "compact"] if it != "compact" or number % 11 == 0)
                    )
                    run.stdin.flush()
                    answers = group + (number % 11 == 0)
                    while answers and (line := run.stdout.readline()):
                        told.append(line[:-1])
                        answers -= line.startswith("next ")
                    if answers:
                        break
            said = run.stderr.read()
            with contextlib.suppress(BrokenPipeError):
                run.stdin.close()
            return told, run.wait(), said

    def found(self) -> Found:
        return found_in(self.file, self.room)


@contextlib.contextmanager
def small(kilobytes: int) -> Iterator[Disk]:
    with tempfile.TemporaryDirectory() as folder, tempfile.TemporaryDirectory() as room:
        subprocess.run(
            ["mount", "-t", "tmpfs", "-o", f"size={kilobytes}k", "tmpfs", folder], check=True, capture_output=True
        )
        try:
            yield Disk(pathlib.Path(folder), pathlib.Path(room))
        finally:
            subprocess.run(["umount", folder], check=True)


def holds(found: Found, told: list[str]) -> bool:
    """Returns whether each emitted event and number is kept."""
    events = {number_of(line): line for line in found.events()}
    kept = [line for line in filter(is_event, told) if number_of(line) >= found.last_start()]
    marks = [int(line.split(" ")[1]) for line in told if line.startswith("done ")]
    nexts = [int(line.split(" ")[1]) for line in told if line.startswith("next ")]
    return (
        all(events.get(number_of(it)) == it for it in kept)
        and found.model.done >= max(marks, default=0)
        and found.model.next >= max(nexts, default=0)
    )


def fills(kilobytes: int, group: int) -> None:
    with small(kilobytes) as disk:
        told, *ended = disk.fill(group)
        assert tuple(ended) == FULL, f"it ended with {ended} after {len(told)} lines"
        found = disk.found()
        assert holds(found, told), "what was told is not kept"
        shown = found.model.shown()
        again = disk.run("nodes", "sum")
        if again.returncode:
            assert (again.returncode, again.stderr, again.stdout) == (*FULL, ""), f"{again}"
        else:
            assert again.stdout.splitlines() == shown, "on the full disk it shows another map"
        disk.resize(LARGER)
        after = disk.run("nodes", "sum", "put 3 4", "compact", "put 5 6")
        assert after.returncode == 0, f"{after}"
        assert after.stdout.splitlines()[: len(shown)] == shown, "once there is room it shows another map"
        assert disk.found().model.next == found.model.next + len(list(filter(is_event, after.stdout.splitlines())))
        print(
            f"{kilobytes:>4} KB, {group:>3} at a time: {sum(map(is_event, told)):>6,} events told,"
            f" {found.model.next:>6,} kept"
        )


def can_mount() -> bool:
    try:
        with small(64):
            return True
    except (OSError, subprocess.CalledProcessError):
        return False


def main() -> int:
    ask = argparse.ArgumentParser(description="Fills the disk of a map that is kept.")
    ask.add_argument("--few", action="store_true", help="fill two disks only")
    given = ask.parse_args()
    if not can_mount():
        print("a disk cannot be mounted here, which takes the rights of root: nothing was tried")
        print("0 passed, 1 failed")
        return 1
    cases = FEW if given.few else list(itertools.product(KILOBYTES, GROUPS))
    failed = 0
    for size, group in cases:
        try:
            fills(size, group)
        except (AssertionError, Wrong) as why:
            failed += 1
            print(f"{size} KB, {group} at a time: FAILED: {why}")
    print(f"{len(cases) - failed} passed, {failed} failed")
    return int(failed > 0)


if __name__ == "__main__":
    sys.exit(main())

#!/usr/bin/env python3
"""Runs a leader and its followers over a pipe and a file, without a server.

1. The output of a leader is piped into a follower.
2. The event lines are appended to a file. A follower gets them from there with losses, repeats and swaps, and its
   relay requests missing ones. Leader, follower and relay are killed, three times each; each time the leader is
   killed, the follower becomes the leader. In the end all sides are compared.

Run it once the program is built. The argument is a seed, 1 by default. The last line is 'N passed, M failed'.
"""

from __future__ import annotations

import bisect
import pathlib
import subprocess
import sys
import tempfile
import time

TOP = pathlib.Path(__file__).resolve().parent.parent.parent
sys.dont_write_bytecode = True
sys.path[:0] = [str(TOP / "scripts"), str(TOP / "examples/common")]
from followers import Run, asked, commands, drive, number  # noqa: E402


class File:
    """The events in a file, one on each line, and the position up to which a relay has read them."""

    def __init__(self, path: pathlib.Path) -> None:
        self.path, self.into = path, path.open("ab")
        self.firsts: list[int] = []
        self.offsets: list[int] = [0]
        self.handed = self.came = 0

    def publish(self, events: list[bytes]) -> None:
        self.into.write(b"".join(event + b"\n" for event in events))
        self.into.flush()
        self.firsts.append(number(events[0]))
        self.offsets.append(self.into.tell())

    def lines(self, start: int, end: int) -> list[bytes]:
        with self.path.open("rb") as out:
            out.seek(start)
            return out.read(end - start).splitlines()

    def delivered(self) -> list[bytes]:
        self.handed, self.came = self.came, self.offsets[-1]
        return self.lines(self.handed, self.came)

    def kept(self, number: int) -> list[bytes]:
        batch = bisect.bisect_right(self.firsts, number) - 1
        return self.lines(*self.offsets[batch : batch + 2])[number - self.firsts[batch] :]

    def reconnect(self) -> None:
        self.came = self.handed


def piped(run: Run) -> None:
    """Runs a follower whose input is the output of a leader."""
    lines = commands(run.commands, run.chance)
    with tempfile.TemporaryFile() as given:
        given.write(b"".join(line + b"\n" for line in lines))
        given.seek(0)
        start = time.perf_counter()
        leader = subprocess.Popen([run.program, "--lead"], stdin=given, stdout=subprocess.PIPE)
        follower = subprocess.Popen([run.program, "--pass-others"], stdin=leader.stdout, stdout=subprocess.PIPE)
        assert leader.stdout and follower.stdout
        leader.stdout.close()
        answers = follower.stdout.read().splitlines()
        took = time.perf_counter() - start
    has_ended = leader.wait() == follower.wait() == 0
    is_taken = answers[-1:] == [b"next %d" % len(answers)]
    run.check(
        f"{run.commands} commands told {len(answers)} events, of which each is taken over the pipe",
        has_ended and is_taken,
    )
    print(f"events a second over the pipe: {len(answers) / took:,.0f}")


def main() -> None:
    run = asked("Drives a map's events to followers over a pipe and a file.", 20_000)
    piped(run)
    with tempfile.TemporaryDirectory() as folder:
        drive(File(pathlib.Path(folder, "events")), run)
    run.end()


if __name__ == "__main__":
    main()

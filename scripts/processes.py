"""The system's data on a process."""

from __future__ import annotations

import dataclasses
import os
import pathlib


@dataclasses.dataclass(frozen=True)
class Process:
    """A process: its name, its parent, the tick at which it began, and its processor time so far.

    The time is in seconds, including that of its children that have ended.
    """

    name: str
    parent: int
    began: int
    seconds: float


def process(pid: int) -> Process:
    """Returns the system's data on a process."""
    head, _, rest = pathlib.Path(f"/proc/{pid}/stat").read_text(errors="replace").rpartition(")")
    words = rest.split()
    seconds = sum(map(int, words[11:15])) / os.sysconf("SC_CLK_TCK")
    return Process(head.partition("(")[2], int(words[1]), int(words[19]), seconds)


def descends(pid: int, top: int) -> bool:
    """Returns whether a process is another one, or was started by it or its processes."""
    while pid not in (0, top):
        pid = process(pid).parent
    return pid == top

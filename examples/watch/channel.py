"""A channel that loses, repeats and delays lines, and the file from which lines are sent again."""

from __future__ import annotations

import collections
import dataclasses
import heapq
import itertools
import pathlib
import random

FLIGHT, PACE = 0.7, 0.06  # seconds: on the way, and between two lines
CROWD = 40  # from this number of lines on the way on, lines leave a hundred times as fast


@dataclasses.dataclass
class Percent:
    """The percentages of lines that are lost, repeated, and late."""

    loss: int = 0
    repeat: int = 0
    late: int = 0


@dataclasses.dataclass(frozen=True)
class Sent:
    """The fate of a line that is sent: it leaves after `wait` seconds, and is on the way for `takes` seconds."""

    fate: str
    wait: float
    takes: float


class Channel:
    """The lines on the way to one follower."""

    def __init__(self, percent: Percent, chance: random.Random) -> None:
        self.percent, self.chance = percent, chance
        self.flight: list[tuple[float, int, bytes]] = []  # the time of its arrival, and its number among the sent ones
        self.free, self.sendings = 0.0, itertools.count()
        self.counts: collections.Counter[str] = collections.Counter()

    def happens(self, percent: int) -> bool:
        return self.chance.random() * 100 < percent

    def send(self, line: bytes, why: str, now: float) -> list[Sent]:
        """Sends a line, once or twice, in time or late, or loses it."""
        return [self.send_one(line, fate, now) for fate in [why] + ["repeat"] * self.happens(self.percent.repeat)]

    def send_one(self, line: bytes, fate: str, now: float) -> Sent:
        """Sends a line, in time or late, or loses it."""
        fate = "lost" if self.happens(self.percent.loss) else "late" if self.happens(self.percent.late) else fate
        takes = FLIGHT * (self.chance.uniform(1.5, 3.5) if fate == "late" else 1)
        leaves = max(now, self.free)
        self.free = leaves + (PACE if len(self.flight) < CROWD else PACE / 100)
        self.counts[fate] += 1
        if fate != "lost":
            heapq.heappush(self.flight, (leaves + takes, next(self.sendings), line))
        return Sent(fate, leaves - now, takes)

    def arrived(self, now: float, most: int) -> list[bytes]:
        """Returns and removes the lines that have arrived, `most` at most."""
        lines: list[bytes] = []
        while self.flight and self.flight[0][0] <= now and len(lines) < most:
            lines.append(heapq.heappop(self.flight)[2])
        return lines

    def clear(self) -> None:
        """Loses all lines on the way."""
        self.flight, self.free = [], 0.0


class Kept:
    """The events of the leader, from number 0 on, in a text file. An event is in the file before it is in the
    channel."""

    def __init__(self, path: pathlib.Path) -> None:
        self.path = path
        self.events = self.read() if path.exists() else []
        self.size = sum(len(event) + 1 for event in self.events)
        self.file = path.open("ab")
        self.file.truncate(self.size)  # an unterminated last line is removed

    def read(self) -> list[bytes]:
        """Returns the complete lines of the file."""
        return self.path.read_bytes().split(b"\n")[:-1]

    def append(self, event: bytes) -> None:
        self.size += self.file.write(event + b"\n")
        self.file.flush()
        self.events.append(event)

    @property
    def head(self) -> int:
        """Returns the number of the next event."""
        return len(self.events)

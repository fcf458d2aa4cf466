"""The generators of lines to a leader and to a follower."""

from __future__ import annotations

import random
import time
from collections import Counter
from collections.abc import Iterator

from history import History, Side
from kept import Model, Wrong, is_event
from running import Run

KEYS = 400
BURSTS = (1, 2, 20, 300)  # commands
NUMBERED = 0.5  # of the commands have a number from their caller
LOST = 0.1  # of the events, at first
DOUBLED = 0.1
WINDOW = 64  # of the follower


class Author:
    """The generator of commands."""

    def __init__(self, chance: random.Random) -> None:
        self.chance, self.number = chance, 0

    def commands(self, compacts: bool) -> list[str]:
        """Returns commands that are sent together."""
        kind = self.chance.random()
        if kind < 0.03:
            return ["follow", "lead"]
        if kind < 0.1 and compacts:
            return ["compact"]
        return [self.command() for _ in range(self.chance.choice(BURSTS))]

    def command(self) -> str:
        key, number = self.chance.randrange(KEYS), ""
        if self.chance.random() < NUMBERED:
            self.number += 1
            number = f"#{self.number} "
        return number + (f"put {key} {self.chance.randrange(10**6)}" if self.chance.random() < 0.6 else f"cut {key}")

    def feed(self, run: Run, sent: list[str], compacts: bool, waits: bool) -> None:
        """Sends commands until the program has ended."""
        if waits and not run.wait_for(lambda: run.sums > 0):
            return
        before = run.nexts
        while True:
            burst = self.commands(compacts)
            for group in [[it] for it in burst] if waits and len(burst) < 300 else [burst]:
                sent += group
                if not run.send(group):
                    return
                if waits and not run.wait_for(lambda: run.nexts - before >= len(sent)):
                    return
            if self.chance.random() < 0.3:
                time.sleep(self.chance.random() / 100)


class Feed:
    """The lines to a follower, each of which gets one line of reply."""

    def __init__(self, chance: random.Random, history: History, leader: Model, side: Side) -> None:
        self.chance, self.history, self.leader, self.side = chance, history, leader, side
        self.sent: list[str] = []
        self.counts: Counter[str] = Counter()

    def lines(self) -> Iterator[list[str]]:
        """Yields all lines that bring a follower to the leader's state, in groups, and repeats endlessly."""
        begin = self.side.model.next
        if self.side.is_other or self.chance.random() < 0.1 or not self.history.has_all(begin, self.leader.next):
            if self.chance.random() < 0.3:
                yield self.wrong_snapshot()
            yield self.leader.snapshot()
            begin = self.leader.next
        for number in range(begin, self.leader.next, WINDOW):
            numbers = list(range(number, min(number + WINDOW, self.leader.next)))
            yield self.shuffled(numbers)
            yield self.whole(numbers)
        while True:
            yield [self.chance.choice(["len", "follow", "next", "compact", "done 1 0", "done 1 99999999999", "cut 1"])]
            time.sleep(0.002)

    def wrong_snapshot(self) -> list[str]:
        lines = self.leader.snapshot()
        lines.pop(self.chance.randrange(len(lines) - 1))
        return lines

    def shuffled(self, numbers: list[int]) -> list[str]:
        """Returns events of which some are lost, some are repeated, and all are out of order."""
        come = [it for it in numbers if self.chance.random() > LOST]
        twice = [it for it in come if self.chance.random() < DOUBLED]
        self.counts.update({"events lost": len(numbers) - len(come), "events doubled": len(twice)})
        old = [self.history.events[it] for it in [numbers[0] - 1] if it in self.history.events]
        lines = [self.history.events[it] for it in come + twice] + old
        self.chance.shuffle(lines)
        return lines

    def whole(self, numbers: list[int]) -> list[str]:
        """Returns events in their order, with the finished commands; sometimes `compact`."""
        lines = self.history.lines(numbers[0], numbers[-1] + 1)
        return [*lines, "compact"] if self.chance.random() < 0.01 else lines

    def feed(self, run: Run) -> None:
        for group in self.lines():
            self.sent += group
            if not run.send(group):
                return

    def acknowledged(self, replies: list[str]) -> tuple[int, int, bool]:
        """Returns the number and the greatest number of a command that were acknowledged, and whether a snapshot
        was."""
        model = self.side.model
        number, done, is_taken = (0, 0, False) if self.side.is_other else (model.next, model.done, False)
        for line, reply in zip(self.sent, replies):
            words = reply.split(" ")
            if words[0] not in ("next", "had", "gap", "held", "bad", "unfit") and line != "len":
                raise Wrong(f"to {line} a follower answers {reply}")
            if words[0] == "unfit" and (is_event(line) or line.startswith("done")):
                raise Wrong(f"to {line} a follower answers {reply}")
            if words[0] == "next":
                number = int(words[1])
                is_taken = is_taken or line.startswith("end ")
                if line.startswith("done "):
                    done = max(done, int(line.split(" ")[1]))
        return number, done, is_taken

"""A store that the page shows: its replies, its role, and the lines on the way to it."""

from __future__ import annotations

import bisect
import collections
import time

from channel import Channel
from programs import built
from store import Ended, Store

PAIRS = 96  # about this many pairs of a store are drawn


def last_key(node: bytes) -> int:
    """Returns the key of a node's last pair."""
    return int(node.rsplit(b" ", 1)[-1].split(b":")[0])


class Shown(Store):
    """A store, its role, its state at the last look, and what the relay knows of it."""

    def __init__(self, name: str, node_size: int, channel: Channel, leads: bool = False) -> None:
        super().__init__(built("indexset_store"), "--node-size", str(node_size), *["--lead"] * leads)
        self.name, self.channel, self.leads, self.shown = name, channel, leads, max(8, PAIRS // node_size)
        self.nodes_held: list[bytes] = []
        self.awaited, self.pairs, self.last_sum = 0, 0, ""
        self.look_takes = 0.0  # seconds, of the last one
        self.is_stale, self.is_unfit = True, False
        self.asked_to, self.asked_until = 0, 0.0  # up to which event it was sent again, and until when that may take
        self.replies: collections.Counter[str] = collections.Counter()
        self.last_reply = ""

    def is_running(self) -> bool:
        return self.process.poll() is None

    def follows(self) -> bool:
        return self.is_running() and not self.leads

    def stop(self) -> None:
        """Ends it by SIGKILL, and loses the lines on the way to it."""
        self.kill()
        self.channel.clear()
        self.is_stale, self.nodes_held, self.pairs = True, [], 0

    def say(self, line: bytes) -> list[bytes]:
        """Returns the lines of its reply, or none if it has ended; its role is that after the line."""
        try:
            told = self.ask(line)
        except (Ended, OSError, ValueError):
            self.stop()
            return []
        if line in (b"lead", b"follow") and told[0].startswith(b"next "):
            self.leads = line == b"lead"
        elif line.startswith(b"start ") and told == [b"held"]:
            self.leads = False
        return told

    def take(self, lines: list[bytes]) -> list[bytes]:
        """Returns the replies, of one line each, to lines of a follower; or none if it has ended."""
        self.is_stale = True
        try:
            return self.each(lines)
        except (Ended, OSError, ValueError):
            self.stop()
            return []

    def look(self) -> None:
        """Reads its nodes and the number that it expects, if these may have changed."""
        if self.is_stale:
            self.is_stale, self.last_sum, began = False, "", time.monotonic()
            if told := self.say(b"nodes") if self.is_running() else []:
                *self.nodes_held, last = told
                self.awaited, self.pairs = int(last[5:]), sum(node.count(b":") for node in self.nodes_held)
            self.look_takes = time.monotonic() - began

    def sum_of_all(self) -> str:
        """Returns its reply to `sum`, which is read once after a change."""
        self.look()
        if not self.last_sum and self.is_running():
            self.last_sum = b"".join(self.say(b"sum")).decode()
        return self.last_sum

    def nodes_about(self, key: int) -> tuple[int, list[str]]:
        """Returns the nodes around a key that are drawn, and the place of the first."""
        held = self.nodes_held
        middle = bisect.bisect_left(held, key, key=last_key)
        first = max(0, min(middle - self.shown // 2, len(held) - self.shown))
        return first, [node.decode() for node in held[first : first + self.shown]]

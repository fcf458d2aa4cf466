"""The right to lead a shard, held by one process at a time."""

from __future__ import annotations

import math
import os
import socket
import time

from engine import Engine

LEASE = 3000  # milliseconds, more than a leader needs for the entries that it takes at a time


class Lease:
    """The right to lead a shard, for a limited time."""

    def __init__(self, engine: Engine, shard: str) -> None:
        self.engine, self.name, self.held = engine, f"lease:{shard}", -math.inf
        self.owner = f"{socket.gethostname()} {os.getpid()}"

    def is_held(self) -> bool:
        """Takes the lease, or keeps it, at most three times in its length."""
        if time.monotonic() - self.held < LEASE / 3000:
            return True
        if self.engine.call("GET", self.name) == self.owner.encode():
            self.engine.call("PEXPIRE", self.name, LEASE)
        elif self.engine.call("SET", self.name, self.owner, "NX", "PX", LEASE) is None:
            return False
        self.held = time.monotonic()
        return True

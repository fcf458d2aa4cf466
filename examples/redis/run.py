#!/usr/bin/env python3
"""Runs a leader and its followers over a Redis stream.

The events of a batch of commands are one entry, whose number is that of its last event + 1, so that the server itself
rejects a repeated entry. The link to the follower loses, repeats and swaps deliveries. Leader, follower and relay are
killed, three times each: the relay with deliveries that it did not acknowledge; each time the leader is killed, the
follower becomes the leader. In the end all sides are compared.

It starts a server of its own on loopback. The argument is a seed, 1 by default. The last line is 'N passed, M failed'.
"""

from __future__ import annotations

import pathlib
import sys
import tempfile

TOP = pathlib.Path(__file__).resolve().parent.parent.parent
sys.dont_write_bytecode = True
sys.path[:0] = [str(TOP / "scripts"), str(TOP / "examples/common")]
from followers import Run, answering, asked, drive, free_port, installed, number  # noqa: E402
from resp import Entry, Redis, Refused, Word, has_answered, served  # noqa: E402

TWICE = 7  # one of this many entries is published twice


class Stream:
    """The events in a stream, which the relay reads as a consumer of a group."""

    def __init__(self, port: int) -> None:
        self.port = port
        self.leader, self.relay = Redis(port), Redis(port)
        self.entries = self.twice = self.refused = 0
        self.after = ">"  # (`0`: delivered, and not acknowledged)
        self.held: list[Entry] = []
        self.leader.call("XGROUP", "CREATE", "events", "followers", 0, "MKSTREAM")

    def publish(self, events: list[bytes]) -> None:
        """Adds an entry. The server rejects a repeated one by its number."""
        add: list[Word] = ["XADD", "events", f"{number(events[-1]) + 1}-0", "lines", b"\n".join(events)]
        self.leader.call(*add)
        self.entries += 1
        if self.entries % TWICE == 0:
            self.twice += 1
            self.refused += isinstance(self.leader.replies([add])[0], Refused)

    def delivered(self) -> list[bytes]:
        if self.held:
            self.relay.call("XACK", "events", "followers", *[entry.name for entry in self.held])
        read: list[Word] = ["XREADGROUP", "GROUP", "followers", "relay", "COUNT", 10, "STREAMS", "events"]
        self.held = self.relay.entries(*read, self.after)
        self.after = ">"
        return [line for entry in self.held for line in entry.lines()]

    def kept(self, number: int) -> list[bytes]:
        (entry,) = self.relay.entries("XRANGE", "events", f"{number + 1}-0", "+", "COUNT", 1)
        lines = entry.lines()
        return lines[number - entry.number + len(lines) :]

    def reconnect(self) -> None:
        self.relay.close()
        self.relay, self.held, self.after = Redis(self.port), [], "0"


def over(stream: Stream, run: Run) -> None:
    """Runs the map over the stream, and compares the final states."""
    drive(stream, run)
    run.check("each entry that was published twice was refused", stream.refused == stream.twice > 0)
    run.check("the stream holds each entry once", stream.leader.call("XLEN", "events") == stream.entries)
    run.check("a relay was killed with deliveries in its hands", run.counts["left by a relay"] > 0)
    stream.delivered()
    pending = stream.leader.call("XPENDING", "events", "followers")
    run.check("nothing is left to acknowledge", isinstance(pending, list) and pending[0] == 0)


def main() -> None:
    run, port = asked("Drives a map's events to followers over a Redis stream.", 100_000), free_port()
    installed("redis-server")
    with tempfile.TemporaryDirectory() as folder, answering(served(port, folder), lambda: has_answered(port)):
        over(Stream(port), run)
    run.end()


if __name__ == "__main__":
    main()

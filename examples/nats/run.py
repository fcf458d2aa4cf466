#!/usr/bin/env python3
"""Runs a leader and its followers over core NATS, which delivers at most once.

The events of a batch of commands are sent as one message on the subject `events`. A request on the subject `resend` is
a number, and the reply is events from it on. The link to the follower loses, repeats and swaps deliveries. Leader,
follower and relay are killed, three times each: the relay with a message that no one gets again; each time the leader
is killed, the follower becomes the leader. In the end all sides are compared.

It starts a server of its own on loopback. The argument is a seed, 1 by default. The last line is 'N passed, M failed'.
"""

from __future__ import annotations

import pathlib
import subprocess
import sys
import threading

TOP = pathlib.Path(__file__).resolve().parent.parent.parent
sys.dont_write_bytecode = True
sys.path[:0] = [str(TOP / "scripts"), str(TOP / "examples/common")]
from client import Nats, has_answered  # noqa: E402
from followers import BATCH, answering, asked, drive, free_port, installed  # noqa: E402


def resend(server: Nats, events: list[bytes]) -> None:
    """Replies to a number by the events from it on, one part at a time."""
    try:
        while True:
            request = server.message()
            start = int(request.text)
            server.publish(request.answer_to, b"\n".join(events[start : start + BATCH]))
    except (EOFError, OSError, ValueError):
        pass


class Subject:
    """The events as messages, all of which the leader's side stores."""

    def __init__(self, port: int) -> None:
        self.port, self.events = port, list[bytes]()
        self.leader = Nats(port)
        self.reconnect()
        threading.Thread(target=resend, args=(Nats(port, b"resend"), self.events), daemon=True).start()

    def publish(self, events: list[bytes]) -> None:
        self.events += events
        self.leader.publish(b"events", b"\n".join(events))
        self.leader.flush()

    def delivered(self) -> list[bytes]:
        return [line for message in self.relay.flush() for line in message.text.split(b"\n")]

    def kept(self, number: int) -> list[bytes]:
        self.asking.publish(b"resend", b"%d" % number, b"answers")
        return self.asking.message().text.split(b"\n")

    def reconnect(self) -> None:
        self.relay, self.asking = Nats(self.port, b"events"), Nats(self.port, b"answers")


def main() -> None:
    run, port = asked("Drives a map's events to followers over core NATS.", 100_000), free_port()
    installed("nats-server")
    server = subprocess.Popen(["nats-server", "-a", "127.0.0.1", "-p", str(port)], stderr=subprocess.DEVNULL)
    with answering(server, lambda: has_answered(port)):
        drive(Subject(port), run)
        run.check("a relay was killed with a message in its hands", run.counts["left by a relay"] > 0)
    run.end()


if __name__ == "__main__":
    main()

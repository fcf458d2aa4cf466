"""A connection to a NATS server, by its text protocol."""

from __future__ import annotations

import dataclasses
import socket
from collections.abc import Iterator


@dataclasses.dataclass(frozen=True)
class Message:
    """A message, with the subject for replies."""

    answer_to: bytes
    text: bytes


class Nats:
    """A connection to the server."""

    def __init__(self, port: int, *subjects: bytes) -> None:
        self.socket = socket.create_connection(("127.0.0.1", port))
        self.read = self.socket.makefile("rb")
        self.read.readline()
        self.socket.sendall(b'CONNECT {"verbose":false}\r\n')
        for place, subject in enumerate(subjects):
            self.socket.sendall(b"SUB %b %d\r\n" % (subject, place))
        self.flush()

    def flush(self) -> list[Message]:
        """Waits until the server has received all that was sent; earlier messages do not show that."""
        self.socket.sendall(b"PING\r\n")
        return list(self.until_pong())

    def publish(self, subject: bytes, text: bytes, answer_to: bytes = b"") -> None:
        self.socket.sendall(b"PUB %b %b %d\r\n%b\r\n" % (subject, answer_to, len(text), text))

    def until_pong(self) -> Iterator[Message]:
        """Returns the messages before the server's reply to a PING."""
        while (line := self.read.readline()) != b"PONG\r\n":
            if line == b"PING\r\n":
                self.socket.sendall(b"PONG\r\n")
            elif line.startswith(b"MSG "):
                words = line.split()
                text = self.read.read(int(words[-1]))
                self.read.readline()
                yield Message(words[3] if len(words) == 5 else b"", text)
            elif not line:
                raise EOFError("the server ended")

    def message(self) -> Message:
        """Returns the next message."""
        return next(self.until_pong())

    def close(self) -> None:
        self.read.close()
        self.socket.close()


def has_answered(port: int) -> bool:
    """Returns whether the server accepts a connection."""
    try:
        Nats(port).close()
    except OSError:
        return False
    return True

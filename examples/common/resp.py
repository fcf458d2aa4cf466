"""A connection to a Redis server, by its text protocol."""

from __future__ import annotations

import dataclasses
import socket
import subprocess
from collections.abc import Iterable
from typing import Union

Word = Union[bytes, str, int]


@dataclasses.dataclass(frozen=True)
class Refused:
    """An error reply of the server."""

    why: str


Reply = Union[bytes, int, None, Refused, list["Reply"]]


@dataclasses.dataclass(frozen=True)
class Entry:
    """An entry of a stream: the number before the dash of its name, its full name, and its fields."""

    number: int
    name: bytes
    fields: dict[bytes, bytes]

    def lines(self) -> list[bytes]:
        """Returns the lines of its field `lines`."""
        text = self.fields[b"lines"]
        return text.split(b"\n") if text else []


def as_word(word: Word) -> bytes:
    text = word if isinstance(word, bytes) else str(word).encode()
    return b"$%d\r\n%b\r\n" % (len(text), text)


class Redis:
    """A connection, with the errors of a socket."""

    def __init__(self, port: int, host: str = "127.0.0.1") -> None:
        self.socket = socket.create_connection((host, port), 60)
        self.socket.setsockopt(socket.IPPROTO_TCP, socket.TCP_NODELAY, 1)
        self.read = self.socket.makefile("rb")

    def replies(self, commands: Iterable[list[Word]]) -> list[Reply]:
        """Returns the replies to commands that are sent together."""
        texts = [b"*%d\r\n%b" % (len(words), b"".join(map(as_word, words))) for words in commands]
        self.socket.sendall(b"".join(texts))
        return [self.reply() for _ in texts]

    def call(self, *words: Word) -> Reply:
        """Returns the reply to a command. An error reply raises."""
        (found,) = self.replies([list(words)])
        if isinstance(found, Refused):
            raise RuntimeError(found.why)
        return found

    def reply(self) -> Reply:
        line = self.read.readline()
        if not line.endswith(b"\r\n"):
            raise ConnectionResetError("the server ended")
        kind, text = line[:1], line[1:-2]
        if kind == b"+":
            return text
        if kind == b"-":
            return refusal(text.decode())
        if kind == b":" or text == b"-1":
            return int(text) if kind == b":" else None
        return self.bulk(int(text)) if kind == b"$" else [self.reply() for _ in range(int(text))]

    def bulk(self, size: int) -> bytes:
        text = self.read.read(size + 2)
        if len(text) != size + 2:
            raise ConnectionResetError("the server ended")
        return text[:-2]

    def entries(self, *words: Word) -> list[Entry]:
        """Returns the entries of a stream from the reply to XRANGE, XREVRANGE, or XREAD of one stream."""
        found = self.call(*words)
        if found and str(words[0]).startswith("XREAD"):
            found = listed(listed(found)[0])[1]
        return [as_entry(it) for it in listed(found)]

    def close(self) -> None:
        self.read.close()
        self.socket.close()


def refusal(why: str) -> Refused:
    """Returns the error of an error reply. Raises an error of a socket if the server is not ready yet."""
    if why.startswith("LOADING"):
        raise ConnectionResetError(why)
    return Refused(why)


def listed(reply: Reply) -> list[Reply]:
    """Returns the parts of a reply, none if it is null."""
    return reply if isinstance(reply, list) else []


def text_of(reply: Reply) -> bytes:
    return reply if isinstance(reply, bytes) else b""


def as_entry(reply: Reply) -> Entry:
    name, fields = listed(reply)
    words = list(map(text_of, listed(fields)))
    return Entry(int(text_of(name).split(b"-")[0]), text_of(name), dict(zip(words[::2], words[1::2])))


def served(port: int, folder: str, *arguments: str) -> subprocess.Popen[bytes]:
    """A server on loopback, with its files in a folder."""
    words = [
        "redis-server", "--port", str(port), "--bind", "127.0.0.1", "--dir", folder, "--save", "", "--loglevel",
        "warning",
    ]
    return subprocess.Popen([*words, *arguments], stdout=subprocess.DEVNULL)


def has_answered(port: int) -> bool:
    """Returns whether the server replies."""
    try:
        return Redis(port).call("PING") == b"PONG"
    except (OSError, RuntimeError):
        return False

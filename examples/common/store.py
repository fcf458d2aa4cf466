"""A run of `indexset_store`, as a leader or a follower, and the lines between it and a script."""

from __future__ import annotations

import os
import pathlib
import re
import select
import subprocess
from collections.abc import Callable

SECONDS = 120  # until the next reply of a program, on a busy machine
PART = 65_536  # the capacity of a pipe
COUNT = re.compile(rb"^\d+\n", re.MULTILINE)  # a bare number, which is no command's reply
END = re.compile(rb"(?:\A|\n)end \d+ \d+\n\Z")


class Ended(Exception):
    """The program has ended."""


class Store:
    """A program that replies to each line of its input before it waits for the next."""

    def __init__(self, program: pathlib.Path, *arguments: str) -> None:
        self.program = program
        self.process = subprocess.Popen([program, *arguments], stdin=subprocess.PIPE, stdout=subprocess.PIPE, bufsize=0)
        assert self.process.stdin and self.process.stdout
        self.given, self.told = self.process.stdin.fileno(), self.process.stdout.fileno()
        os.set_blocking(self.given, False)

    def answers(self, lines: list[bytes], is_whole: Callable[[bytearray], bool]) -> list[bytes]:
        """Returns the output until it is complete, reading while the input is written, so that neither side waits."""
        if self.process.returncode is not None:
            raise Ended  # its pipes are closed, and their numbers may belong to other files
        left, found = memoryview(b"".join(line + b"\n" for line in lines)), bytearray()
        while left or not is_whole(found):
            readable, writable, _ = select.select([self.told], [self.given] if left else [], [], SECONDS)
            if not readable and not writable:
                raise TimeoutError(f"{self.program.name} does not answer")
            if writable:
                left = left[self.write(left[:PART]) :]
            if readable:
                part = os.read(self.told, 1 << 20)
                if not part:
                    raise Ended
                found += part
        return bytes(found).split(b"\n")[:-1]

    def write(self, part: memoryview) -> int:
        """Writes as much as fits into the pipe, and returns its length."""
        try:
            return os.write(self.given, part)
        except BlockingIOError:
            return 0
        except BrokenPipeError as error:
            raise Ended from error

    def each(self, lines: list[bytes]) -> list[bytes]:
        """Returns the replies to lines with one reply each."""
        return self.answers(lines, lambda found: found.count(b"\n") >= len(lines))

    def one(self, line: bytes) -> bytes:
        return self.each([line])[0]

    def ask(self, line: bytes) -> list[bytes]:
        """Returns the reply to any line, which ends at the `bad` for an empty line sent after it."""
        return self.answers([line, b""], lambda found: found.endswith(b"\nbad\n"))[:-1]

    def events(self, *batches: list[bytes]) -> list[list[bytes]]:
        """Returns the events of batches of commands to a leader, and the lines `done` of commands with numbers. A line
        `len` after each batch marks the end of its replies."""
        lines = [line for batch in batches for line in (*batch, b"len")]
        found: list[list[bytes]] = [[]]
        for line in self.answers(lines, lambda told: len(COUNT.findall(told)) == len(batches)):
            if line.isdigit():
                found.append([])
            elif line[:1].isdigit() or line.startswith(b"done "):
                found[-1].append(line)
        return found[:-1]

    def snapshot(self) -> list[bytes]:
        """Returns the lines that make another one equal."""
        return self.answers([b"snapshot"], lambda found: END.search(found[-64:]) is not None)

    def next(self) -> int:
        """Returns the number of the next event to apply or to emit."""
        return int(self.one(b"next").removeprefix(b"next "))

    def sum(self) -> bytes:
        """Returns the line that two are compared by."""
        return self.one(b"sum")

    def lead(self) -> int:
        """Makes a follower a leader; returns the number of the next event that it emits."""
        return int(self.one(b"lead").removeprefix(b"next "))

    def kill(self) -> None:
        """Kills the program; output that was not read is lost."""
        self.process.kill()
        self.process.communicate()

    def end(self) -> None:
        """Ends the program's input, and waits for its end."""
        self.process.communicate()

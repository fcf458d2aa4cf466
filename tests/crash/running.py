"""A program that runs until it is killed, and its output meanwhile."""

from __future__ import annotations

import pathlib
import signal
import subprocess
import threading
import time
from collections.abc import Callable, Sequence

from kept import Wrong

SECONDS = 120  # for a reply, on a busy machine


class Run:
    """A program that replies to lines. Its output is read as it is written."""

    def __init__(self, program: pathlib.Path, words: Sequence[str]) -> None:
        self.process = subprocess.Popen([program, *words], stdin=subprocess.PIPE, stdout=subprocess.PIPE)
        self.lines: list[str] = []
        self.nexts = self.sums = 0  # lines `next N` and `sum ..`
        self.reader = threading.Thread(target=self.read)
        self.reader.start()

    def read(self) -> None:
        assert self.process.stdout
        for line in iter(self.process.stdout.readline, b""):
            if line.endswith(b"\n"):
                self.lines.append(line[:-1].decode())
                self.nexts += line.startswith(b"next ")
                self.sums += line.startswith(b"sum ")

    def send(self, lines: Sequence[str]) -> bool:
        """Sends lines. Returns whether it still runs."""
        assert self.process.stdin
        try:
            self.process.stdin.write("".join(f"{line}\n" for line in lines).encode())
            self.process.stdin.flush()
        except (BrokenPipeError, ValueError):
            return False
        return True

    def wait_for(self, is_there: Callable[[], bool]) -> bool:
        """Waits for output or the end of the program. Returns whether there is output."""
        until = time.monotonic() + SECONDS
        while not is_there():
            if self.process.poll() is not None:
                self.reader.join()
                return is_there()
            if time.monotonic() > until:
                raise Wrong(f"no answer in {SECONDS} seconds, after {self.lines[-3:]}")
            time.sleep(0.0005)
        return True

    def kill(self) -> None:
        """Kills it, and waits until it has ended."""
        assert self.process.stdin
        self.process.send_signal(signal.SIGKILL)
        status = self.process.wait()
        self.reader.join()
        try:
            self.process.stdin.close()
        except BrokenPipeError:
            pass
        if status != -signal.SIGKILL:
            raise Wrong(f"it ended before the kill, with status {status}")

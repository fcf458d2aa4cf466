"""A running watch, its messages to its pages, and requests to it: for the tests."""

from __future__ import annotations

import http.client
import json
import pathlib
import queue
import signal
import subprocess
import sys
import threading
import time
from collections.abc import Callable
from typing import Any

TOP = pathlib.Path(__file__).resolve().parent.parent.parent
SECONDS = 120  # for anything that must happen, on a busy machine

Facts = dict[str, Any]


def is_running(pid: int) -> bool:
    stat = pathlib.Path(f"/proc/{pid}/stat")
    try:
        return stat.read_text().rsplit(")")[1].split()[0] != "Z"
    except FileNotFoundError:
        return False


def reached(wanted: Callable[[], object], seconds: float = SECONDS) -> bool:
    """Returns whether a condition holds in time."""
    end = time.monotonic() + seconds
    while not (found := bool(wanted())) and time.monotonic() < end:
        time.sleep(0.02)
    return found


class Watched:
    """The example, with its last messages."""

    def __init__(self, *arguments: str) -> None:
        signal.signal(signal.SIGTERM, lambda *_: sys.exit(1))  # so that the test ends the processes that it started
        self.process = subprocess.Popen([TOP / "examples/watch/run.py", *arguments], stdout=subprocess.PIPE, text=True)
        assert self.process.stdout
        self.url = self.process.stdout.readline().strip()
        self.host = self.url.removeprefix("http://").rstrip("/")
        self.stores: dict[str, Facts] = {}
        self.file: Facts = {}
        self.leader: Facts = {}
        self.told: queue.Queue[Facts] = queue.Queue()
        threading.Thread(target=self.listen, daemon=True).start()

    def listen(self) -> None:
        """Receives the messages to a page."""
        link = http.client.HTTPConnection(self.host)
        link.request("GET", "/events")
        for line in link.getresponse():
            for each in json.loads(line[6:]) if line.startswith(b"data: ") else []:
                self.take(each)

    def take(self, told: Facts) -> None:
        if told["kind"] == "store":
            self.stores[told["who"]] = told
        elif told["kind"] in ("file", "leader"):
            setattr(self, told["kind"], told)
        else:
            self.told.put(told)

    def status(self, path: str, body: str, **headers: str) -> int:
        """Returns the status of a request."""
        return self.request(path, body.encode(), headers)[0]

    def ask(self, act: str, **asked: object) -> Any:
        """Returns the reply to a request of the page."""
        status, body = self.request(f"/{act}", json.dumps(asked).encode(), {})
        assert status == 200, (status, act, asked)
        return json.loads(body)

    def request(self, path: str, body: bytes, headers: dict[str, str]) -> tuple[int, bytes]:
        link = http.client.HTTPConnection(self.host, timeout=SECONDS)
        link.request("POST", path, body, headers)
        answer = link.getresponse()
        return answer.status, answer.read()

    def line(self, to: str, line: str) -> list[str]:
        """Returns the reply of a store to a line."""
        replies: list[list[str]] = self.ask("line", to=to, lines=[line])
        return replies[0]

    def standings(self) -> str:
        """Returns the states of the stores, by their names."""
        return " ".join(f"{name} {it['standing']}" for name, it in sorted(self.stores.items()))

    def is_level(self, head: int, leader: str = "A") -> bool:
        """Returns whether the page shows that the file has events up to a number at least, and all stores the leader's
        sum."""
        others = [it["standing"] for name, it in self.stores.items() if name != leader]
        return self.file["head"] >= head and self.leader["who"] == leader and others == ["same", "same"]

    def is_same(self) -> bool:
        """Returns whether the stores reply alike."""
        first, *others = [self.line(name, "sum") + self.line(name, "nodes") for name in sorted(self.stores)]
        return all(first == each for each in others)

    def stores_run(self) -> list[int]:
        """Returns the running processes that it started."""
        words = ["ps", "--ppid", str(self.process.pid), "-o", "pid="]
        found = subprocess.run(words, capture_output=True, text=True).stdout.split()
        return [int(pid) for pid in found if is_running(int(pid))]

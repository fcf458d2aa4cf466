#!/usr/bin/env python3
"""Serves a page on which a person watches a leader, its events, a channel that loses some, two followers and a file.

    examples/watch/run.py [--file FILE] [--node-size N] [--port N] [--seed N]

It prints an address of this machine; Ctrl-C ends it and the stores. The events are kept in FILE, from which the leader
begins if it exists; by default in a temporary file.
"""

from __future__ import annotations

import argparse
import http.server
import json
import pathlib
import queue
import random
import signal
import sys
import tempfile
import threading
from collections.abc import Callable

HERE = pathlib.Path(__file__).resolve().parent
sys.dont_write_bytecode = True
sys.path[:0] = [str(HERE.parent.parent / "scripts"), str(HERE.parent / "common")]
from channel import Kept  # noqa: E402
from watch import Watch  # noqa: E402

STEP = 0.03  # seconds
MOST = 1 << 20  # bytes of a request
TYPES = {".html": "text/html", ".css": "text/css", ".js": "text/javascript"}
FILES = {f"/{it.name}": it for it in HERE.iterdir() if it.suffix in TYPES}


class Server(http.server.ThreadingHTTPServer):
    """The server of a watch, on loopback."""

    daemon_threads = True

    def __init__(self, watch: Watch, port: int) -> None:
        super().__init__(("127.0.0.1", port), Page)
        self.watch, self.asked = watch, threading.Event()

    def handle_error(self, *_: object) -> None:
        """Prints nothing about a page that is closed."""


class Page(http.server.BaseHTTPRequestHandler):
    """Serves the page, the stream of its messages, and its requests, only to its own origin."""

    server: Server
    protocol_version = "HTTP/1.1"
    disable_nagle_algorithm = True  # a body does not wait until its head has been confirmed

    def parse_request(self) -> bool:
        own = f"127.0.0.1:{self.server.server_port}"
        if not super().parse_request():
            return False
        if self.headers["Host"] != own or self.headers["Origin"] not in (None, f"http://{own}"):
            self.send_error(403)
            return False
        return True

    def give(self, kind: str, body: bytes | None) -> None:
        """Replies with a body, or with a stream if there is none."""
        self.send_response(200)
        self.send_header("Content-Type", kind)
        self.send_header("Content-Security-Policy", "default-src 'self'; img-src data:")
        self.send_header("Cache-Control", "no-store")
        self.send_header("Connection", "close") if body is None else self.send_header("Content-Length", str(len(body)))
        self.end_headers()
        self.wfile.write(body or b"")

    def do_GET(self) -> None:
        path = "/page.html" if self.path == "/" else self.path
        if path == "/events":
            self.stream()
        elif path in FILES:
            self.give(f"{TYPES[FILES[path].suffix]}; charset=utf-8", FILES[path].read_bytes())
        else:
            self.send_error(404)

    def stream(self) -> None:
        """Sends the messages to the page, until it is closed."""
        watch = self.server.watch
        self.give("text/event-stream", None)
        with watch.lock:
            page = watch.joined()
        try:
            while page in watch.pages or not page.empty():
                try:
                    self.wfile.write(f"data: {page.get(timeout=5)}\n\n".encode())
                except queue.Empty:
                    self.wfile.write(b":\n\n")
        except OSError:
            with watch.lock:
                watch.pages = [each for each in watch.pages if each is not page]
        self.close_connection = True

    def do_POST(self) -> None:
        watch = self.server.watch
        acts: dict[str, Callable[..., object]] = {
            "/line": watch.line,
            "/set_percent": watch.set_percent,
            "/show": watch.show,
            "/kill": watch.kill,
            "/start": watch.start,
            "/promote": watch.promote,
        }
        try:
            asked = json.loads(self.rfile.read(min(int(self.headers["Content-Length"]), MOST)))
            with watch.lock:
                found = acts[self.path](**asked)
                watch.answer()
            self.server.asked.set()
        except (KeyError, TypeError, ValueError, AttributeError):
            self.close_connection = True
            self.send_error(400)
        else:
            self.give("application/json", json.dumps(found).encode())

    def log_message(self, *_: object) -> None:
        """Prints nothing."""


def served(watch: Watch, port: int) -> None:
    """Serves a watch, until the program is stopped."""
    server = Server(watch, port)
    threading.Thread(target=server.serve_forever, daemon=True).start()
    print(f"http://127.0.0.1:{server.server_port}/", flush=True)
    while True:
        server.asked.wait(STEP / 10 if watch.looking else STEP)
        server.asked.clear()
        with watch.lock:
            watch.step()


def main() -> None:
    ask = argparse.ArgumentParser(description="A page to watch a leader, its events and its followers on.")
    ask.add_argument("--file", type=pathlib.Path, help="where the events are kept; a temporary file unless said")
    ask.add_argument("--node-size", type=int, default=4, metavar="N", help="pairs of a node (default: %(default)s)")
    ask.add_argument("--port", type=int, default=0, metavar="N", help="a free one unless said")
    ask.add_argument("--seed", type=int, metavar="N", help="of the channel's chance")
    given = ask.parse_args()
    signal.signal(signal.SIGTERM, lambda *_: sys.exit(0))
    with tempfile.TemporaryDirectory(prefix="indexset-watch-") as folder:
        kept = Kept(given.file or pathlib.Path(folder, "events.txt"))
        try:
            served(Watch(kept, given.node_size, random.Random(given.seed)), given.port)
        except KeyboardInterrupt:
            sys.exit(0)


if __name__ == "__main__":
    main()

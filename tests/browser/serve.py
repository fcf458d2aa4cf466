#!/usr/bin/env python3
"""Acts as a person at examples/watch/run.py, without a browser, for half a minute.

The replies of the stores are compared on all sides after losses, kills, snapshots and promotions, and with the file;
bad requests are refused; and the processes that the watch started end with it. The last line is 'N passed, M failed'.
"""

from __future__ import annotations

import argparse
import os
import pathlib
import signal
import sys
import tempfile

sys.dont_write_bytecode = True
TOP = pathlib.Path(__file__).resolve().parent.parent.parent
sys.path[:0] = [str(TOP / "scripts"), str(TOP / "examples/common")]
from followers import Results  # noqa: E402
from watched import SECONDS, Watched, is_running, reached  # noqa: E402

REPLIES = [
    ("put 1 10", ["new", "0 create 1:10"]),
    ("put 1 11", ["old 10", "1 drop 1:10", "2 create 1:11"]),
    ("cut 9", ["none"]),
    ("no line", ["bad"]),
    ("", ["bad"]),
    ("rank 9", ["1"]),
    ("nodes", ["1:11", "next 3"]),
]
REFUSED: list[tuple[str, str, dict[str, str], int]] = [
    ("/line", "{", {}, 400),
    ("/line", "[1]", {}, 400),
    ("/line", '{"to": "D", "lines": []}', {}, 400),
    ("/line", '{"to": "A", "lines": ["nodes\\nnodes"]}', {}, 400),
    ("/line", '{"to": "A", "lines": ["\\ud800"]}', {}, 400),
    ("/set_percent", '{"percent": {"loss": 1}}', {}, 400),
    ("/nothing", "{}", {}, 400),
    ("/kill", '{"who": "B"}', {"Origin": "http://other.example"}, 403),
    ("/kill", '{"who": "B"}', {"Host": "other.example"}, 403),
]


def told_by(watch: Watched, by: str) -> dict[str, object]:
    """Returns the messages to the pages about a line that was typed on one of them."""
    while (told := watch.told.get(timeout=SECONDS)).get("by") != by:
        pass
    return told


def followed(watch: Watched, results: Results) -> None:
    """Checks replies as they arrive, events that are lost and repeated, a follower that is killed and returns."""
    results.check("all begin alike", reached(lambda: watch.standings() == "A leads B same C same"))
    told = [(line, watch.line("A", line)[: len(reply)]) for line, reply in REPLIES]
    results.check("replies come as the store gives them", told == REPLIES)
    watch.ask("line", to="A", lines=["len"], by="a page")
    wanted = {"kind": "said", "to": "A", "line": "len", "told": ["1"], "more": 0, "by": "a page"}
    results.check("pages are told of a reply and by whom its line was typed", told_by(watch, "a page") == wanted)
    watch.ask("set_percent", percent={"loss": 20, "repeat": 20, "late": 20})
    watch.ask("line", to="A", lines=[f"put {at * 37 % 100} {at}" for at in range(14)])
    results.check("both followers end with the sum of the leader", reached(lambda: watch.is_level(16)))
    results.check("and with its nodes", watch.is_same())
    counts = {**watch.stores["B"]["counts"], **watch.stores["B"]["replies"]}
    results.check("lines were lost, asked for and sent again", {"lost", "gap", "again"} <= counts.keys())
    watch.ask("set_percent", percent={"loss": 0, "repeat": 0, "late": 0})
    watch.ask("kill", who="B")
    results.check("a follower that is killed has ended", reached(lambda: watch.stores["B"]["standing"] == "ended"))
    results.check("by its status", watch.stores["B"]["status"] == -signal.SIGKILL)
    results.check("and replies nothing", watch.line("B", "nodes") == [])
    watch.ask("start", who="B", source="snapshot")
    results.check("it comes back by a snapshot", reached(lambda: watch.is_level(16)))


def led(watch: Watched, results: Results) -> None:
    """Checks leaders that are killed, a follower that is promoted, the file, and a second leader that no one
    receives."""
    os.kill(watch.stores["A"]["pid"], signal.SIGKILL)
    results.check("a leader that is killed from outside has ended", reached(lambda: not watch.leader["is_there"]))
    watch.ask("promote", who="C")
    results.check("a follower leads", reached(lambda: watch.stores["C"]["standing"] == "leads"))
    head = watch.file["head"]
    results.check("from the next number on", watch.line("C", "put 500 1")[1].startswith(f"{head} "))
    watch.ask("start", who="A", source="nothing")
    results.check("the old leader follows, from nothing", reached(lambda: watch.is_level(head + 1, "C")))
    before = watch.line("C", "snapshot")
    watch.ask("kill", who="C")
    watch.ask("start", who="C", source="file")
    results.check("a leader that was killed leads again from the file", reached(lambda: watch.is_level(head + 1, "C")))
    results.check("and holds what it held", watch.line("C", "snapshot") == before)
    events = pathlib.Path(watch.file["path"]).read_text().splitlines()
    numbers = [int(event.split()[0]) for event in events]
    results.check("the file has each event once, in order", numbers == list(range(watch.file["head"])))
    watch.line("A", "lead")
    results.check("one of two leaders is not heard", reached(lambda: watch.stores["C"]["standing"] == "unheard"))
    watch.line("C", "put 600 1")
    watch.line("A", "put 600 2")
    watch.line("C", "follow")
    results.check("its events are not in the file", reached(lambda: watch.file["last"].split()[3] == "600:2"))
    watch.ask("start", who="C", source="snapshot")
    results.check("a snapshot makes it the same again", reached(lambda: watch.is_level(head + 2)) and watch.is_same())


def ended(watch: Watched, how: signal.Signals, results: Results) -> None:
    """Checks that the processes that the watch started end with it."""
    started = watch.stores_run()
    watch.process.send_signal(how)
    watch.process.wait()
    has_ended = reached(lambda: not any(map(is_running, started)), 10)
    results.check(f"its {len(started)} stores end with it by {how.name}", len(started) == 3 and has_ended)


def main() -> None:
    argparse.ArgumentParser(description="Plays a person at examples/watch/run.py, with no browser.").parse_args()
    results = Results()
    with tempfile.TemporaryDirectory() as folder:
        path = pathlib.Path(folder, "events.txt")
        watch = Watched("--seed", "1", "--file", str(path))
        try:
            followed(watch, results)
            led(watch, results)
            for asked, body, headers, status in REFUSED:
                results.check(f"{asked} {body} is refused", watch.status(asked, body, **headers) == status)
            told = watch.line("A", "snapshot")
            ended(watch, signal.SIGKILL, results)
            with path.open("ab") as file:
                file.write(b"999 create")
            watch = Watched("--file", str(path))
            results.check("the next watch begins from the file with a cut line", watch.line("A", "snapshot") == told)
            ended(watch, signal.SIGTERM, results)
        finally:
            watch.process.kill()
    results.end()


if __name__ == "__main__":
    main()

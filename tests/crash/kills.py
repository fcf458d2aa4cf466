#!/usr/bin/env python3
"""Kills a map that is kept in a file, in either role, at moments by a seed, and compares its file with its output.

usage: kills.py [SEED] [KILLS]; PYTHONHASHSEED=0 makes it faster (seals.py). A leader gets commands in bursts, or one
after each reply, `compact` among them in some runs; in the others the file grows until the program compacts it by
itself. A follower with a file of its own gets the leader's events, some lost, repeated and out of order within its
window, and snapshots, some of them wrong. After some kills of the leader the follower becomes the leader, by a command
or from its file, and the file of the old leader becomes the follower's.

After each kill the file is copied and read by SQLite, whose integrity check it passes; its checksums are computed
again. Each emitted event is kept in its place, or covered by the snapshot; numbers are consecutive, and none has two
events; a model of the six events makes nodes from the kept lines, which are those that the program shows after its
restart. The pairs of a leader, and the greatest number of a command, are those after some of the commands that were
sent, at least all that got replies; a follower has the leader's nodes after as many events as it acknowledged, or more.
It ends with a table, and the last line is 'N passed, M failed'.

It needs the built `indexset_store`.
"""

from __future__ import annotations

import argparse
import pathlib
import random
import sys
import tempfile
import threading
import time
from collections import Counter

TOP = pathlib.Path(__file__).resolve().parent.parent.parent
sys.dont_write_bytecode = True
sys.path.insert(0, str(TOP / "scripts"))
from history import History, Side, perform  # noqa: E402
from kept import Found, Model, Wrong, found_in, is_event, number_of  # noqa: E402
from lines import WINDOW, Author, Feed  # noqa: E402
from programs import built  # noqa: E402
from running import Run  # noqa: E402

LONGEST = 0.12  # seconds from the first reply to the kill
EARLY = 0.15  # of the kills are made while the program starts
COMPACTED = 0.4  # of the runs have lines `compact`
TURNS = ("lead", "follow", "promote")
WEIGHTS = (9, 8, 3)
NODE_SIZE = "4"


class Drill:
    """The two files, and all output about them."""

    def __init__(self, folder: pathlib.Path, chance: random.Random) -> None:
        self.program, self.chance, self.author = built("indexset_store"), chance, Author(chance)
        self.leader, self.follower = Side(folder / "one.db"), Side(folder / "two.db")
        self.history = History()
        self.counts: Counter[str] = Counter()
        self.start_up = 1.0  # seconds to the first reply

    def start(self, side: Side, leads: bool) -> Run:
        """Runs the program on a file, and makes it show its content."""
        words = ["--keep", str(side.file), "--node-size", NODE_SIZE, "--window", str(WINDOW)]
        run = Run(self.program, [*words, "--lead"] if leads else words)
        run.send(["nodes", "sum"])
        return run

    def told(self, run: Run, side: Side) -> list[str]:
        """Returns the output of a run after its content, which must equal what was found before."""
        wanted = side.model.shown()
        if run.lines[: len(wanted)] != wanted[: len(run.lines)]:
            raise Wrong("after the restart it shows other nodes or numbers than the kept lines lead to")
        self.counts["restarts that were shown"] += len(run.lines) >= len(wanted)
        return run.lines[len(wanted) :]

    def kill(self, run: Run, kind: str) -> None:
        """Kills a run while it starts, or at a moment under load."""
        if self.chance.random() < EARLY:
            time.sleep(self.chance.random() * self.start_up)
        else:
            began = time.monotonic()
            run.wait_for(lambda: len(run.lines) > 0)
            self.start_up = time.monotonic() - began
            time.sleep(self.chance.random() * LONGEST)
        is_silent = not run.lines
        run.kill()
        self.counts[f"kills of {kind}{', before its first answer' if is_silent else ''}"] += 1
        self.counts["kills"] += 1

    def found(self, side: Side, compacts: bool) -> Found:
        """Returns the content of a file after a kill."""
        found = found_in(side.file)
        was = [line for line in side.found.lines if line.startswith("start ")]
        if side.found.lines and found.lines[0].startswith("start ") and found.lines[0] not in was:
            self.counts["compactions" if compacts else "compactions by the rule"] += 1
        self.counts["events kept"] += max(found.model.next - side.model.next, 0)
        self.counts["commits"] += found.seals
        return found

    def lead(self) -> None:
        """Kills a leader."""
        self.led(self.start(self.leader, True), self.leader, "a leader")

    def led(self, run: Run, side: Side, kind: str) -> None:
        compacts, sent = self.chance.random() < COMPACTED, list[str]()
        waits = side is self.leader and not run.sums and self.chance.random() < 0.3
        feeder = threading.Thread(target=self.author.feed, args=[run, sent, compacts, waits])
        feeder.start()
        try:
            self.kill(run, kind)
        finally:
            run.process.kill()
            feeder.join()
        told = self.told(run, side)
        for line in told:
            self.history.tell(line)
        self.compare(side, sent, told, self.found(side, compacts))

    def compare(self, side: Side, sent: list[str], told: list[str], found: Found) -> None:
        """Compares the content of a leader's file with its input and its output."""
        model, begins = found.model, found.last_start()
        for line in found.events():
            self.history.keep(line)
        for number, done in found.marks():
            self.history.mark(number, done)
        if model.next < max(self.history.next, side.model.next, begins):
            raise Wrong(f"event {self.history.next - 1} was told, and {model.next} is the next")
        events = {number_of(line): line for line in found.events()}
        for line in filter(is_event, told):
            if number_of(line) >= begins and events.get(number_of(line)) != line:
                raise Wrong(f"{line} was told, and is not kept")
        answered = sum(line.startswith("next ") for line in told)
        after = self.after(side.model, sent, answered, model)
        self.counts.update({"commands sent": len(sent), "commands answered": answered})
        self.counts["commands kept and not answered"] += after - answered
        side.found = found

    def after(self, before: Model, sent: list[str], answered: int, model: Model) -> int:
        """Returns the number of commands after which the pairs and the number are those found, from those before the
        run."""
        pairs, done, found = before.pairs(), before.done, model.pairs()
        for count, command in enumerate([*sent, ""]):
            if count >= answered and done == model.done and pairs == found:
                return count
            done = perform(pairs, done, command)
        raise Wrong(f"no {answered} or more of {len(sent)} commands lead to what is kept")

    def follow(self) -> None:
        """Kills a follower."""
        side, run = self.follower, self.start(self.follower, False)
        feed = Feed(self.chance, self.history, self.leader.model, side)
        feeder = threading.Thread(target=feed.feed, args=[run])
        feeder.start()
        try:
            self.kill(run, "a follower")
        finally:
            run.process.kill()
            feeder.join()
        replies = self.told(run, side)
        self.followed(side, feed, replies, self.found(side, "compact" in feed.sent))
        self.counts.update(feed.counts)
        self.counts.update({"lines to followers": len(feed.sent), "replies of followers": len(replies)})

    def followed(self, side: Side, feed: Feed, replies: list[str], found: Found) -> None:
        """Compares the content of a follower's file with the leader's history and its acknowledgements."""
        number, done, is_taken = feed.acknowledged(replies)
        if side.is_other and not is_taken and found.model.is_same(side.model):
            side.found = found
            return
        if found.model.next < number or found.model.done < done:
            raise Wrong(
                f"a follower acknowledged {number} and {done}, and keeps {found.model.next} and {found.model.done}"
            )
        self.agrees(side, feed.sent, found)
        self.counts["snapshots taken by followers"] += is_taken
        side.found, side.is_other = found, False

    def agrees(self, side: Side, sent: list[str], found: Found) -> None:
        """Checks that the nodes are those of the leader after the same events, and the greatest number of a command was
        its."""
        for line in found.events():
            if self.history.events.get(number_of(line), line) != line:
                raise Wrong(f"a follower keeps {line}, and {self.history.events[number_of(line)]} was told")
        models = [] if side.is_other else [side.model]
        models += [self.leader.model] if any(line.startswith("end ") for line in sent) else []
        right = [it for it in models if it.next <= found.model.next and self.history.has_all(it.next, found.model.next)]
        if not right or self.history.after(right[-1], found.model.next).nodes != found.model.nodes:
            raise Wrong(f"a follower keeps other nodes than the leader had before event {found.model.next}")
        known = {it.done for it in models} | {1} | {int(it.split(" ")[1]) for it in sent if it.startswith("done ")}
        if found.model.done not in known:
            raise Wrong(f"a follower keeps {found.model.done} as the number of a command")

    def promote(self) -> None:
        """Makes the follower the leader in place of the killed one, with all its events, and then kills it."""
        old, side = self.leader, self.follower
        end = max(self.history.next, 0 if side.is_other else side.model.next)
        run = self.start(side, False)
        if side.is_other or not self.history.has_all(side.model.next, end):
            lines, end = old.model.snapshot(), old.model.next
        else:
            lines = self.history.lines(side.model.next, end)
        is_told = self.chance.random() < 0.5
        shown = side.model.shown()
        run.send([*lines, "next", "sum", *["lead"] * is_told])
        run.wait_for(lambda: len(run.lines) >= len(shown) + len(lines) + 2 + is_told)
        replies = self.told(run, side)
        if replies[len(lines)] != f"next {end}" or is_told and replies[-1] != f"next {end}":
            raise Wrong(f"a follower that has all is at {replies[len(lines)]} and not at {end}")
        found = self.found(side, False)
        if side.is_other or lines[:1] == old.model.snapshot()[:1]:
            side.found, side.is_other = Found([], 0, old.model), False
        self.agrees(side, lines, found)
        side.found = found
        self.history.cut(end)
        self.leader, self.follower = side, old
        old.is_other = old.model.next > end or old.model.done > side.model.done
        self.counts["promotions by `lead`" if is_told else "promotions from the file"] += 1
        self.counts["events of old leaders that were never told"] += old.model.next - end
        if not is_told:
            run.kill()
            run = self.start(side, True)
        else:
            del run.lines[:]
            run.send(["nodes", "sum"])
        self.led(run, side, "a follower that leads")

    def turn(self) -> None:
        getattr(self, self.chance.choices(TURNS, WEIGHTS)[0])()


def main() -> int:
    ask = argparse.ArgumentParser(description="Kills a map that is kept in a file, in either role.")
    ask.add_argument("seed", nargs="?", type=int, default=1)
    ask.add_argument("kills", nargs="?", type=int, default=60)
    given = ask.parse_args()
    failed = 0
    with tempfile.TemporaryDirectory() as folder:
        drill = Drill(pathlib.Path(folder), random.Random(given.seed))
        while drill.counts["kills"] < given.kills and not failed:
            try:
                drill.turn()
            except Wrong as why:
                failed += 1
                print(f"kill {drill.counts['kills']}: {why}")
            except KeyboardInterrupt:
                print(f"interrupted after {drill.counts['kills']} of {given.kills} kills")
                break
    for name, count in sorted(drill.counts.items()):
        print(f"{name:60}{count:>12,}")
    print(f"{drill.counts['kills'] - failed} passed, {failed} failed")
    return int(failed > 0)


if __name__ == "__main__":
    sys.exit(main())

"""Shared by the examples: commands, a link that loses, repeats and swaps, kills by a seed, and the final table."""

from __future__ import annotations

import argparse
import collections
import contextlib
import dataclasses
import pathlib
import random
import shutil
import socket
import subprocess
import sys
import time
from collections.abc import Callable, Iterator
from typing import NoReturn, Protocol

from programs import built
from store import Store

BATCH = 500  # commands
KEYS = 20_000
EVERY = 3  # kills of each part
NAMES = ("sent", "lost", "doubled", "swapped", "asked for again", "sent again", "taken", "repeats", "early")

Counts = collections.Counter[str]


def commands(count: int, chance: random.Random) -> list[bytes]:
    """Puts and cuts."""
    lines = []
    for _ in range(count):
        key = chance.randrange(KEYS)
        lines.append(b"put %d %d" % (key, chance.randrange(100)) if chance.random() < 0.6 else b"cut %d" % key)
    return lines


def apply(pairs: dict[int, int], command: bytes) -> None:
    """Does to a plain map what a command does."""
    match command.split(b" "):
        case [b"put", key, value]:
            pairs[int(key)] = int(value)
        case [_, key]:
            pairs.pop(int(key), None)


def number(event: bytes) -> int:
    return int(event.split(b" ", 1)[0])


def spoiled(events: list[bytes], chance: random.Random, counts: Counts) -> list[bytes]:
    """Returns events in pieces of 1 to 40, some of them lost, some repeated and some swapped; these are counted."""
    pieces: list[list[bytes]] = []
    at = 0
    while at < len(events):
        piece = events[at : at + chance.randint(1, 40)]
        times = chance.choices([0, 1, 2], [2, 95, 3])[0]
        counts["lost" if times == 0 else "doubled"] += 0 if times == 1 else len(piece)
        pieces += [piece] * times
        at += len(piece)
    for place in range(len(pieces) - 1):
        if chance.random() < 0.02:
            pieces[place], pieces[place + 1] = pieces[place + 1], pieces[place]
            counts["swapped"] += len(pieces[place]) + len(pieces[place + 1])
    return [event for piece in pieces for event in piece]


class Link(Protocol):
    """The transport of events from a leader to a relay, which also stores them."""

    def publish(self, events: list[bytes]) -> None:
        """Sends and stores events, at least one."""

    def delivered(self) -> list[bytes]:
        """Returns the events since the last call, which acknowledges those of the call before."""

    def kept(self, number: int) -> list[bytes]:
        """Returns some of the stored events, from that number on."""

    def reconnect(self) -> None:
        """Replaces a relay that was killed with the events that it had not handed over."""


@dataclasses.dataclass(kw_only=True)
class Results:
    """The results of comparisons."""

    passed: int = 0
    failed: int = 0

    def check(self, name: str, is_right: bool) -> None:
        print(f"{'ok' if is_right else 'WRONG'}: {name}")
        self.passed += is_right
        self.failed += not is_right

    def end(self) -> NoReturn:
        print(f"{self.passed} passed, {self.failed} failed")
        sys.exit(1 if self.failed else 0)


@dataclasses.dataclass
class Run(Results):
    """The settings of an example."""

    program: pathlib.Path
    chance: random.Random
    commands: int
    counts: Counts = dataclasses.field(default_factory=Counts)

    def store(self, *arguments: str) -> Store:
        return Store(self.program, *arguments)


def asked(what: str, count: int) -> Run:
    """Returns a run with the seed and the number of commands of the command line, by default 1 and `count`."""
    ask = argparse.ArgumentParser(description=what)
    ask.add_argument("seed", type=int, nargs="?", default=1, metavar="SEED", help="default: %(default)s")
    ask.add_argument("commands", type=int, nargs="?", default=count, metavar="COMMANDS", help="default: %(default)s")
    given = ask.parse_args()
    return Run(built("indexset_store"), random.Random(given.seed), given.commands)


class Relay:
    """Hands the events of a link over to a follower, and requests missing ones. It stores no event."""

    def __init__(self, link: Link, follower: Store, run: Run) -> None:
        self.link, self.follower, self.run = link, follower, run
        self.awaited = follower.next()
        self.held: int | None = None  # the first early event that the follower holds, if it reported one

    def hand(self, events: list[bytes]) -> None:
        """Reads the replies: each names the next event to apply, the last one that after all of them."""
        answers = self.follower.each(events)
        counts, before = self.run.counts, self.awaited
        for answer in answers:
            if answer.startswith(b"unfit"):
                sys.exit(f"the follower says {answer.decode()}")
            counts[{b"had": "repeats", b"gap": "early", b"next": "in turn"}[answer.split(b" ", 1)[0]]] += 1
        word, awaited, *held = answers[-1].split(b" ")
        self.awaited, self.held = int(awaited), int(held[0]) if word == b"gap" and held else None
        counts["taken"] += self.awaited - before

    def catch_up(self, head: int) -> None:
        """Requests the events from the next one to apply on, up to `head`."""
        while self.awaited < head:
            before, events = self.awaited, self.link.kept(self.awaited)
            events = events[: self.held - before] if self.held else events
            self.run.counts["asked for again"] += 1
            self.run.counts["sent again"] += len(events)
            self.hand(events)
            if self.awaited == before:
                sys.exit(f"event {before} is kept, and not taken")

    def feed(self) -> None:
        """Hands over the events that arrived. A lost last event is found with the next one."""
        if came := spoiled(self.link.delivered(), self.run.chance, self.run.counts):
            self.hand(came)
            self.catch_up(max(map(number, came)) + 1)


class Course:
    """A leader, a link and a relay with a follower, and kills of each."""

    def __init__(self, link: Link, run: Run) -> None:
        self.link, self.run = link, run
        self.leader = run.store("--lead")
        self.relay = Relay(link, run.store(), run)
        self.head = 0

    def publish(self, events: list[bytes]) -> None:
        if events:
            self.link.publish(events)
            self.head = number(events[-1]) + 1
            self.run.counts["sent"] += len(events)

    def follow_anew(self, from_snapshot: bool) -> None:
        """Starts a follower in place of one that has ended: from the leader's snapshot, or from the first stored
        event."""
        follower = self.run.store()
        if from_snapshot:
            snapshot = self.leader.snapshot()
            answers = follower.each(snapshot)
            is_held = answers == [b"held"] * (len(snapshot) - 1) + [b"next %d" % self.head]
            self.run.check(f"a snapshot of {len(snapshot) - 2} nodes before event {self.head} is held", is_held)
        self.relay = Relay(self.link, follower, self.run)

    def kill_leader(self, batch: list[bytes]) -> None:
        """Kills the leader amid a batch, and some of its last events with it. The follower becomes the leader."""
        (events,) = self.leader.events(batch[: self.run.chance.randrange(1, BATCH)])
        self.leader.kill()
        self.publish(events[: self.run.chance.randrange(len(events) + 1)])
        self.relay.catch_up(self.head)
        self.leader = self.relay.follower
        self.run.check(f"a follower leads from event {self.head} on", self.leader.lead() == self.head)
        self.run.counts["promotions"] += 1
        self.follow_anew(from_snapshot=True)

    def step(self, batch: list[bytes], killed: str) -> None:
        """Sends a batch of commands and delivers its events. All of it is repeated after a leader's end: no repeated
        command does harm."""
        self.run.counts[killed] += 1
        if killed == "leader":
            self.kill_leader(batch)
        self.publish(*self.leader.events(batch))
        if killed == "relay":
            self.run.counts["left by a relay"] += len(self.link.delivered())
            self.link.reconnect()
        elif killed == "follower":
            self.relay.follower.kill()
            self.follow_anew(from_snapshot=self.run.counts[killed] > 1)
        self.relay.feed()


def drive(link: Link, run: Run) -> None:
    """Sends the commands over a link, and compares all sides."""
    lines, pairs, course = commands(run.commands, run.chance), dict[int, int](), Course(link, run)
    kinds, steps = EVERY * ["leader", "follower", "relay"], range(run.commands // BATCH)
    kills = dict(zip(run.chance.sample(steps[5:], len(kinds)), kinds))
    start = time.perf_counter()
    for step in steps:
        course.step(lines[step * BATCH : (step + 1) * BATCH], kills.get(step, ""))
    course.relay.catch_up(course.leader.next())
    took = time.perf_counter() - start
    for line in lines:
        apply(pairs, line)
    late, seconds = followed_late(course)
    show(run, {"a second": run.counts["sent"] / took, "a second, late": course.head / seconds})
    compare(course, late, pairs)


def followed_late(course: Course) -> tuple[Store, float]:
    """Times a follower that takes all stored events, from scratch and without a fault."""
    late, awaited, start = course.run.store(), 0, time.perf_counter()
    while awaited < course.head:
        events = course.link.kept(awaited)
        late.each(events)
        awaited += len(events)
    return late, time.perf_counter() - start


def compare(course: Course, late: Store, pairs: dict[int, int]) -> None:
    """Returns the final states of all sides, which are compared by one line each."""
    run, told = course.run, course.leader.sum()
    print(f"leader   {told.decode()}\nfollower {course.relay.follower.sum().decode()}\nlate     {late.sum().decode()}")
    run.check("leader, follower and late follower have the same sum", course.relay.follower.sum() == told == late.sum())
    whole = course.leader.one(b"range 0 %d" % KEYS).split(b" ")
    run.check("the leader has the pairs of a plain map", whole == [b"%d:%d" % pair for pair in sorted(pairs.items())])
    for it in (course.leader, course.relay.follower, late):
        it.end()


def show(run: Run, rates: dict[str, float]) -> None:
    """Prints the table: events, or for some rows requests, kills and promotions."""
    counts = run.counts
    rows: dict[str, float] = {name: counts[name] for name in NAMES}
    rows.update({f"kills: {name}": counts[name] for name in ("leader", "follower", "relay")})
    rows["promotions"] = counts["promotions"]
    rows.update({f"events {name}": rate for name, rate in rates.items()})
    for name, value in rows.items():
        print(f"{name:24}{value:12,.0f}")


def installed(*programs: str) -> None:
    """Exits if a program is missing, and names the Debian package that has it."""
    for program in programs:
        if shutil.which(program) is None:
            sys.exit(f"{program} is not there: Debian's package {program} has it")


def free_port() -> int:
    """Returns a free port of loopback."""
    with socket.socket() as found:
        found.bind(("127.0.0.1", 0))
        return int(found.getsockname()[1])


def wait_for(answers: Callable[[], bool]) -> None:
    """Waits until a server replies, some seconds at most."""
    for _ in range(200):
        if answers():
            return
        time.sleep(0.05)
    sys.exit("the server does not answer")


@contextlib.contextmanager
def answering(server: subprocess.Popen[bytes], answers: Callable[[], bool]) -> Iterator[None]:
    """Waits until a server replies, and ends it after the block."""
    try:
        wait_for(answers)
        yield
    finally:
        server.terminate()
        server.wait()

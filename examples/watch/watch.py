"""The state that the page shows: three stores, the channel to those that follow, and the file of the leader's events.

All that is shown is the replies of the stores. This file contains the relay: what is sent again, and when.
"""

from __future__ import annotations

import collections
import dataclasses
import json
import queue
import random
import re
import threading
import time
from collections.abc import Iterator

from channel import FLIGHT, Channel, Kept, Percent
from shown import Shown

NAMES = ("A", "B", "C")
EVENT = re.compile(rb"\d+ (create|drop|insert|remove|split|merge) ")
LINES = 60  # of a reply that are shown
AGAIN = 8  # events are sent again for one `gap`
QUIET = 0.4  # seconds without lines on the way, after which `head` is sent
QUICK = 0.03  # seconds: a look at the leader of at most this duration is made before the reply to a request
BATCH = 200  # lines are handed over at once
NEWS = 200  # lines at most are sent to a page at once

Facts = dict[str, object]


class Watch:
    """The stores, the file, and the open pages. The caller holds the lock."""

    def __init__(self, kept: Kept, node_size: int, chance: random.Random) -> None:
        self.kept, self.node_size, self.chance, self.percent = kept, node_size, chance, Percent()
        self.lock = threading.Lock()
        self.pages: list[queue.Queue[str]] = []
        self.news: collections.deque[Facts] = collections.deque(maxlen=NEWS)
        self.last: dict[str, Facts] = {}
        self.changed: set[str] = set()
        self.leader, self.key, self.sum = NAMES[0], 0, ""
        self.looking: Iterator[bool] | None = None  # a round of looks that has begun
        self.look_from = 0.0  # seconds: the time of the next look
        self.stores = {name: self.started(name, leads=name == self.leader) for name in NAMES}
        self.look()
        if kept.events:
            self.start(self.leader, "file")

    def started(self, name: str, leads: bool = False) -> Shown:
        return Shown(name, self.node_size, Channel(self.percent, self.chance), leads)

    def has_leader(self) -> bool:
        leader = self.stores.get(self.leader)
        return leader is not None and leader.is_running() and leader.leads

    def line(self, to: str, lines: list[str], is_shown: bool = True, by: str = "") -> list[list[str]]:
        """Returns the replies of a store to lines, and sends them to the pages with the page that typed them."""
        if any("\n" in line for line in lines):
            raise ValueError("a line has no line end")
        store = self.stores[to]
        told = [self.say(store, line.encode(), is_shown, by) for line in lines]
        return [[each.decode() for each in reply[:LINES]] for reply in told]

    def say(self, store: Shown, line: bytes, is_shown: bool = True, by: str = "") -> list[bytes]:
        """Returns the reply of a store to a line. Puts the leader's events into the file, and then sends them."""
        told = store.say(line)
        if is_shown:
            store.is_stale = True
            shown = [each.decode() for each in told[:LINES]]
            self.tell("said", to=store.name, line=line.decode(), told=shown, more=len(told) - len(shown), by=by)
        if line == b"lead" and store.leads:
            is_whole = told == [b"next %d" % self.kept.head]
            self.leader = store.name if is_whole else "" if store.name == self.leader else self.leader
        events = [each for each in told if EVENT.match(each)] if store.name == self.leader else []
        for event in events:
            self.kept.append(event)
            self.tell("event", line=event.decode())
            for each in filter(Shown.follows, self.stores.values()):
                self.send(each, event, "sent")
        if events:
            store.is_stale, self.key = True, int(line.split(b" ")[1])
        return told

    def set_percent(self, percent: dict[str, int]) -> None:
        """Sets the behaviour of the channel from now on."""
        for name in dataclasses.asdict(self.percent):
            setattr(self.percent, name, int(percent[name]))
        self.state("percent", percent=dataclasses.asdict(self.percent))

    def show(self, key: str) -> None:
        """Shows the nodes around a key."""
        self.key = int(key)
        self.tell_stores()

    def kill(self, who: str) -> None:
        """Ends a store by SIGKILL. The sum of a leader is kept, for comparison."""
        if who == self.leader and self.has_leader():
            self.sum = self.stores[who].sum_of_all()
        self.stores[who].stop()

    def start(self, who: str, source: str) -> None:
        """Starts a store from nothing, the file or a snapshot, also if one still runs. From the file a leader leads
        again."""
        giver = self.giver(who) if source == "snapshot" else None
        store = self.stores[who]
        if not (giver and store.is_running()):
            store.stop()
            self.stores[who] = self.started(who)
            self.stores[who].replies, self.stores[who].channel.counts = store.replies, store.channel.counts
            store = self.stores[who]
        store.channel.clear()
        store.is_unfit, store.asked_until = False, 0.0
        lines = giver.say(b"snapshot") if giver else self.kept.read() if source == "file" else []
        told = [reply.decode() for reply in store.take(lines)[-1:]]
        self.tell("taken", who=who, source=giver.name if giver else source, lines=len(lines), told=told)
        if source == "file" and who == self.leader:
            self.say(store, b"lead")
        self.look()

    def giver(self, taker: str) -> Shown | None:
        """Returns the store that gives a snapshot: the leader, or else the one that expects the highest number."""
        others = [each for name, each in self.stores.items() if name != taker and each.is_running()]
        others.sort(key=lambda each: (each.name == self.leader, each.awaited))
        return others[-1] if others else None

    def promote(self, who: str) -> None:
        """Gives a follower its missing events, from the file, and makes it the leader; a running leader follows from
        then on."""
        store = self.stores[who]
        if store.follows():
            if self.has_leader():
                self.say(self.stores[self.leader], b"follow")
            store.channel.clear()
            store.look()
            store.take(self.kept.events[store.awaited :])
            self.say(store, b"lead")

    def send(self, store: Shown, line: bytes, why: str) -> None:
        """Sends an event or a `head` to a store."""
        is_seen = len(store.channel.flight) < LINES
        for sent in store.channel.send(line, why, time.monotonic()):
            if is_seen:
                self.tell("sent", to=store.name, word=line.split(b" ")[0].decode(), **dataclasses.asdict(sent))

    def send_again(self, store: Shown, end: int) -> None:
        """Sends some events of the file, from the one that a store expects to an end."""
        for event in (events := self.kept.events[store.awaited : min(store.awaited + AGAIN, end)]):
            self.send(store, event, "again")
        store.asked_to, store.asked_until = store.awaited + len(events), store.channel.free + FLIGHT

    def deliver(self, store: Shown, now: float) -> None:
        """Hands over the lines that have arrived, and sends again what the replies request, unless that may still
        arrive."""
        lines = store.channel.arrived(now, BATCH)
        for reply in store.take(lines) if lines else []:
            store.last_reply = reply.decode()
            word, *numbers = store.last_reply.split(" ")
            store.replies[word] += 1
            if word in ("next", "gap"):
                store.awaited = int(numbers[0])
                is_quiet = not store.channel.flight
                is_due = is_quiet or store.awaited >= store.asked_to or now >= store.asked_until
                if is_due and (word == "gap" or is_quiet and store.awaited < self.kept.head):
                    self.send_again(store, int(numbers[-1]) if numbers[1:] else self.kept.head)
            store.is_unfit |= word == "unfit"
        if lines:
            self.tell("reply", who=store.name, reply=store.last_reply)

    def ask_on(self, store: Shown, now: float) -> None:
        """Sends `head` to a store with missing events, once nothing is on the way, so that it reports them."""
        is_quiet = not store.channel.flight and now >= max(store.channel.free + QUIET, store.asked_until)
        if is_quiet and store.awaited < self.kept.head and not store.is_unfit:
            self.send(store, b"head %d" % self.kept.head, "head")

    def step(self) -> None:
        """Hands over due lines, looks at a store that changed, the leader first, and sends messages to the pages."""
        now = time.monotonic()
        for each in self.stores.values() if self.looking is None else ():
            if each.nodes_held and not each.is_running():
                each.stop()
            if each.follows():
                self.deliver(each, now)
                self.ask_on(each, now)
        if self.looking is None and any(each.is_stale for each in self.stores.values()):
            self.looking = self.looks()
        if self.looking and now >= self.look_from:
            leader = self.stores.get(self.leader)
            if leader and leader.is_stale:
                self.look_at(leader)
            elif not next(self.looking, False):
                self.looking = None
            self.look_from = 2 * time.monotonic() - now
        self.publish()

    def answer(self) -> None:
        """Sends the result of a request to the pages, with the nodes of the leader if a look at it is quick."""
        leader = self.stores.get(self.leader)
        if leader and leader.is_stale and leader.look_takes < QUICK:
            self.look_at(leader)
            self.looking = self.looking or self.looks()
        self.publish()

    def look(self) -> None:
        """Looks at all stores that changed."""
        self.looking = None
        for _ in self.looks():
            pass

    def looks(self) -> Iterator[bool]:
        """Looks at the stores that changed, and at the sums of those without missing events, one for each item, so that
        a line that arrives meanwhile waits for only one of them; and then sends their states."""
        for each in [it for it in self.stores.values() if it.is_stale]:
            self.look_at(each)
            yield True
        level = [each for each in self.stores.values() if each.follows() and each.awaited == self.kept.head]
        if level and self.has_leader():
            self.sum = self.stores[self.leader].sum_of_all()
            yield True
        for each in level:
            each.sum_of_all()
            yield True
        self.tell_stores()

    def look_at(self, store: Shown) -> None:
        """Looks at a store, and sends its state if it leads; others are compared first."""
        store.look()
        if store.leads:
            self.tell_leader()
            self.tell_store(store)

    def standing(self, store: Shown) -> str:
        """Returns the state of a store, in a word, compared with the file and the leader's last sum."""
        if not store.is_running():
            return "ended"
        if store.leads:
            return "leads" if store.name == self.leader else "unheard"
        if store.is_unfit:
            return "unfit"
        if store.awaited != self.kept.head:
            return "behind" if store.awaited < self.kept.head else "ahead"
        if not self.sum.startswith(f"sum {self.kept.head} "):
            return "level"
        return "same" if store.last_sum == self.sum else "other"

    def tell_stores(self) -> None:
        """Sends the states of the stores and the file to the pages."""
        for each in self.stores.values():
            self.tell_store(each)
        last = self.kept.events[-1].decode() if self.kept.events else ""
        self.state("file", path=str(self.kept.path), size=self.kept.size, head=self.kept.head, last=last)
        self.tell_leader()

    def tell_store(self, store: Shown) -> None:
        """Sends the state of a store, and its nodes around the key that is shown."""
        first, nodes = store.nodes_about(self.key)
        self.state(
            "store",
            store.name,
            who=store.name,
            pid=store.process.pid,
            status=store.process.poll(),
            standing=self.standing(store),
            next=store.awaited,
            sum=store.last_sum,
            pairs=store.pairs,
            total=len(store.nodes_held),
            first=first,
            nodes=nodes,
            replies=dict(store.replies),
            counts=dict(store.channel.counts),
        )

    def tell_leader(self) -> None:
        """Sends the name of the leader, and the key around which nodes are shown."""
        self.state("leader", who=self.leader, is_there=self.has_leader(), key=str(self.key))

    def state(self, kind: str, of: str = "", **facts: object) -> None:
        """Sends a state, if it is new."""
        told: Facts = {"kind": kind, **facts}
        if self.last.get(kind + of) != told:
            self.last[kind + of] = told
            self.changed.add(kind + of)

    def tell(self, kind: str, **facts: object) -> None:
        """Sends an event of the story."""
        self.news.append({"kind": kind, **facts})

    def publish(self) -> None:
        """Sends new messages to the pages; one that does not read is dropped."""
        told = [*self.news, *(self.last[name] for name in sorted(self.changed))]
        self.news.clear()
        self.changed.clear()
        self.pages = [page for page in self.pages if not page.full()]
        for page in self.pages if told else []:
            page.put(json.dumps(told))

    def joined(self) -> queue.Queue[str]:
        """Adds a page that watches from now on."""
        page: queue.Queue[str] = queue.Queue(1000)
        events = [{"kind": "event", "line": event.decode()} for event in self.kept.events[-NEWS:]]
        page.put(json.dumps([{"kind": "hello"}, *events, *self.last.values()]))
        self.pages.append(page)
        return page

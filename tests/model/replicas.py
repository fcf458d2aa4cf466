"""The replica, and events that come to it out of turn: its calls, and the author of its random scripts.

The events of the scripts are those of a tree, with losses, repeats, and events that do not fit.
"""

from __future__ import annotations

from collections.abc import Sequence
from dataclasses import replace

from draw import Author, Draw, Make
from followed import deliver, handing_back
from items import LARGEST, NUMBERED, NUMBERS, Item, Spelling, read_natural
from language import DONE, Answer, Calls, Subject, Words, number
from nodes import KINDS, Event, Events, Node, read_event
from reads import by_place, by_range, ends, key_of, of_items, walk
from trees import Replica, Tree, replica_of

WHOLE = ("nodes", "nodes", "text", "next", "len", "is_empty", "first", "last", "items")


class Replicas(Subject):
    """A replica, and events."""

    def __init__(self, spelling: Spelling) -> None:
        super().__init__(spelling)
        self.replica, self.events = Replica(), Events()

    def hold(self, replica: Replica) -> str:
        """Replaces the replica."""
        self.replica = replica
        return DONE

    def made_of(self, words: Words) -> Answer:
        """Makes a replica of nodes."""
        nodes = self.spelling.read_nodes(" ".join(words[1:]))
        make = lambda: self.hold(replica_of(nodes, read_natural(words[0])))  # noqa: E731
        return handing_back(self.spelling.write_nodes(nodes), make)

    def attached(self, words: Words) -> Answer:
        """Gives the replica the node of the words."""
        node = self.spelling.read_node(" ".join(words))
        return handing_back(self.spelling.write_nodes([node]), lambda: self.attach(node))

    def attach(self, node: Node) -> str:
        """Gives the replica a node."""
        self.replica.attach(node)
        return DONE

    def apply(self, words: Words) -> str:
        """Applies the event of the words."""
        self.replica.apply(*self.event(words))
        return DONE

    def keep(self, words: Words) -> str:
        """Keeps the event of the words, to be delivered."""
        self.events.append(self.event(words))
        return DONE

    def event(self, words: Words) -> tuple[int, Event]:
        """Returns the event of the words, with its number."""
        return read_event(words, self.spelling)

    def by_key(self, name: str, words: Words) -> Answer:
        """Returns the result of a call by a key."""
        items = self.replica.items
        return (by_place(items, key_of, lambda w: Item(number(w))) | by_range(items, "_back"))[name](words)

    def calls(self) -> Calls:
        items, nodes = self.replica.items, self.spelling.write_nodes(self.replica.nodes)
        return {
            **ends(items),
            **of_items(items, self.item),
            "new": lambda w: self.hold(Replica(number(w))),
            "from_nodes": self.made_of,
            "attach": self.attached,
            "apply": self.apply,
            "offer": lambda w: self.replica.offer(*self.event(w)),
            "event": self.keep,
            "follow": lambda w: deliver(self.replica, self.events, w),
            "nodes": lambda w: nodes,
            "text": lambda w: nodes.replace(",", ", ").replace(" ", "_"),
            "next": lambda w: self.replica.next,
            "items": lambda w: items,
            "walk": lambda w: walk(items, w),
            "by_key": lambda w: self.by_key(w[0], w[1:]),
        }


class ReplicaAuthor(Author):
    """A generator of scripts of replicas."""

    def __init__(self, draw: Draw, model: Replicas, size: int, by_keys: bool) -> None:
        super().__init__(draw, model)
        self.copies, self.size, self.tree = model, size, Tree(size)
        self.by_keys = by_keys
        self.ahead: Events = []

    def length(self) -> int:
        return len(self.copies.replica.items)

    def item(self, key: int) -> Item:
        """An item of a key; one with a number is the first of its key, or one of a few."""
        if self.copies.spelling is NUMBERED:
            return Item(key, self.draw.rng.choice((0, 0, 1, 2)), self.draw.letter())
        return Item(key, 0, "" if self.copies.spelling is NUMBERS else self.draw.letter())

    def near(self) -> int:
        """Returns a present key, or any."""
        return self.draw.near(self.copies.replica.items)

    def text(self, number: int, event: Event) -> str:
        """The words of an event."""
        return event.write(number, self.copies.spelling)

    def next_event(self) -> tuple[int, Event]:
        """Returns the first event that the replica did not get, after changes of the tree until there is one."""
        while not self.ahead:
            if self.tree.next > LARGEST - 4:
                return LARGEST, Event("create", self.item(self.near()))
            grow, shrink = self.phase
            item = self.item(self.draw.near(self.tree.items))
            is_put = self.draw.rng.random() * (grow + shrink) < grow
            self.ahead += (self.tree.put(item) if is_put else self.tree.remove(item))[1]
        return self.ahead[0]

    def adding(self) -> Sequence[tuple[int, Make]]:
        return (
            (60, self.apply),
            (16, self.offer),
            (25, self.hostile),
            (6, self.keep),
            (6, self.deliver),
            (2, self.restart),
        )

    def removing(self) -> Sequence[tuple[int, Make]]:
        return self.adding()

    def looking(self) -> Sequence[tuple[int, Make]]:
        rng = self.draw.rng
        return (
            (10, lambda: rng.choice(WHOLE)),
            (8, self.find),
            (4, self.range),
            (14, self.position),
            (3, lambda: f"walk {self.draw.steps(('next', 'next_back'))}"),
            (4, self.attach),
        )

    def apply(self) -> str:
        """Returns the next event; it is done with, whether the replica applies it or not."""
        number, event = self.next_event()
        if self.copies.replica.next != number or self.copies.replica.refusal(number, event):
            return self.resume()
        self.ahead = self.ahead[1:]
        return f"apply {self.text(number, event)}"

    def offer(self) -> str:
        """Offers the next event, an earlier one again, or one that is turned."""
        number, event = self.next_event()
        if self.draw.chance(0.4):
            number, event = self.turned((number, event))
        elif self.copies.replica.next == number and not self.copies.replica.refusal(number, event):
            self.ahead = self.ahead[1:]
        return f"offer {self.text(number, event)}"

    def resume(self) -> str:
        """Makes a replica of the tree's nodes."""
        if self.tree.next > LARGEST - 4 and self.draw.chance(0.1):
            self.tree = Tree(self.size)
        self.ahead = []
        return f"from_nodes {self.tree.next} {self.copies.spelling.write_nodes(self.tree.nodes)}".rstrip()

    def turned(self, told: tuple[int, Event]) -> tuple[int, Event]:
        """An event with a number that may be too low or too high."""
        number = told[0] + self.draw.rng.choice((0, 0, -1, 1, 2, -5))
        return min(max(number, 0), LARGEST), told[1]

    def hostile(self) -> str:
        """Returns an event with one part changed, or two; or one that the replica may know."""
        number, event = self.next_event()
        if self.copies.replica.nodes and self.draw.chance(0.5):
            return f"apply {self.text(self.copies.replica.next, self.forged())}"
        for _ in range(self.draw.rng.randint(1, 2)):
            number, event = self.changed(number, event)
        return f"apply {self.text(number, event)}"

    def forged(self) -> Event:
        """Returns an event that names an item of the replica, or nearly."""
        rng, nodes = self.draw.rng, self.copies.replica.nodes
        node, other, kind = rng.choice(nodes), rng.choice(nodes), rng.choice(KINDS)
        index = rng.randint(0, len(node) + 1)
        match kind:
            case "remove":
                node = min(node, other, key=len)
                index = rng.randint(0, len(node))
                return Event(kind, node[-1], node[min(index, len(node) - 1)], index)
            case "insert":
                return Event(kind, node[-1], self.item(self.near()), index)
            case "merge":
                return Event(kind, node[-1], other[-1])
            case "split":
                return Event(kind, node[-1], None, index)
            case _:
                return Event(kind, self.item(self.near()))

    def changed(self, number: int, event: Event) -> tuple[int, Event]:
        """An event with one part changed."""
        rng, replica = self.draw.rng, self.copies.replica
        match rng.choice(("number", "kind", "last", "last", "item", "index", "index")):
            case "number":
                return self.turned((number, event))
            case "kind":
                kind, index = rng.choice(KINDS), rng.randint(0, self.size)
                item = self.item(self.near()) if kind in ("insert", "remove", "merge") else None
                return number, Event(kind, event.last, item, index)
            case "last":
                node = rng.choice(replica.nodes)[-1] if replica.nodes else self.item(self.near())
                return number, replace(event, last=self.draw.held([node, self.item(self.near())]) or node)
            case "item":
                item = None if event.item is None else self.item(self.near())
                return number, replace(event, item=item)
            case _:
                return number, replace(event, index=max(0, event.index + rng.choice((-1, 1, 2, 9))))

    def keep(self) -> str:
        """Keeps the next event to be delivered."""
        number, event = self.next_event()
        if self.draw.chance(0.9):
            self.ahead = self.ahead[1:]
        return f"event {self.text(number, event)}"

    def deliver(self) -> str:
        """Delivers some of the events that were kept, in any order."""
        count = len(self.copies.events)
        if count == 0:
            return "next"
        return self.draw.places("follow", range(max(0, count - 9), count))

    def restart(self) -> str:
        """Begins again, or with few event numbers left."""
        if self.length() and self.draw.chance(0.7):
            return "len"
        number = self.draw.rng.choice((0, 7, LARGEST - 30, LARGEST - 1, LARGEST))
        self.tree, self.ahead = Tree(self.size, min(number, LARGEST - 1)), []
        return f"new {number}"

    def attach(self) -> str:
        """Gives the replica a node, which may not fit."""
        start, count = self.near(), self.draw.rng.randint(0, 3)
        node = [self.item(start + i) for i in range(count)]
        if self.draw.chance(0.2):
            node = node[::-1]
        return f"attach {self.copies.spelling.write_nodes([node])}"

    def find(self) -> str:
        """Looks up an item, or a key of a pair."""
        name = self.draw.rng.choice(("get", "contains", "rank", "index_of", "count_of"))
        if self.by_keys and self.draw.chance(0.5):
            return f"by_key {name} {self.near()}"
        return f"{name} {self.copies.spelling.write(self.item(self.near()))}"

    def range(self) -> str:
        """A range of items, or of keys of pairs."""
        name = self.draw.rng.choice(("range", "range_back"))
        if self.copies.spelling is NUMBERED or (self.by_keys and self.draw.chance(0.5)):
            return f"by_key {name} {self.draw.bounds(self.near)}"
        return f"{name} {self.bounds()}"

    def bounds(self) -> str:
        """Two bounds."""
        tag = "" if self.copies.spelling is NUMBERS else f":{self.draw.letter()}"
        return self.draw.bounds(self.near, tag)

    def position(self) -> str:
        """A call by positions."""
        rng = self.draw.rng
        name = rng.choice(("ranks", "get_index", "range_idx", "range_idx_back", "count_before", "count_up_to"))
        if name == "ranks":
            return "by_key ranks" if self.by_keys and self.draw.chance(0.5) else "ranks"
        if name.startswith("range"):
            return f"{name} {self.draw.bounds(lambda: self.draw.position(self.length()))}"
        if name == "get_index" or self.copies.spelling is NUMBERED:
            return f"get_index {self.draw.position(self.length())}"
        start, end = self.bounds().split()
        return f"{name} {start if name == 'count_before' else end}"

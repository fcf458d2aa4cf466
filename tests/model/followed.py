"""Logged collections: the calls that they have in common, and the author of their random scripts.

A subject is a tree, the events of its calls, and a replica that follows them, or gets some of them in any order.
"""

from __future__ import annotations

from collections.abc import Callable, Iterable, Sequence

from definitions import in_range
from draw import Author, Draw, Make
from items import DEFAULT_SIZE, LARGEST, Item, Spelling, read_natural
from language import DONE, Answer, Calls, NoCall, Refused, Subject, Words, number, permitted
from nodes import Events, Node, Nodes
from reads import bounds, by_range, ends, of_items, walk
from trees import Replica, Tree, refusal_of_nodes, replica_of

MODES = ("follows", "follows", "delivered", "untold")
LONG = ("nodes", "items", "items_back", "text", "copy", "follow", "range", "range_back", "ranks", "copy_ranks",
        "range_idx", "range_idx_back", "copy_range_idx", "copy_range_idx_back")  # fmt: skip


class Reading(Subject):
    """The items of a replica, which are read by themselves and by positions."""

    def __init__(self, spelling: Spelling, items: Sequence[Item]) -> None:
        super().__init__(spelling)
        self.items_there = items

    def calls(self) -> Calls:
        return of_items(self.items_there, self.item)


def deliver(replica: Replica, events: Events, words: Words) -> str:
    """Delivers the events at these places to a replica."""
    places = [read_natural(word) for word in words]
    permitted(all(place < len(events) for place in places), "an event that is not there")
    replica.follow(events, places)
    return DONE


def handing_back(text: str, call: Callable[[], Answer]) -> Answer:
    """Returns the result of a call that hands its argument back if it is refused."""
    try:
        return call()
    except Refused as refused:
        raise Refused(refused.cause, text) from None


class Followed(Subject):
    """A logged tree and its replica."""

    def __init__(self, size: int, spelling: Spelling) -> None:
        super().__init__(spelling)
        self.size, self.tree, self.replica = size, Tree(size), Replica()
        self.events: Events = []
        self.followed = 0
        self.clones: int | None = None

    def perform(self, name: str, words: Words) -> str:
        """The result of a call. The events of a call that returns them contain clones of items."""
        if name.startswith("copy_"):
            return Reading(self.spelling, self.replica.items).perform(name.removeprefix("copy_"), words)
        if name != "run" and "_cdc" not in name:
            return super().perform(name, words)
        self.tree.clones = self.clones
        try:
            return super().perform(name, words)
        finally:
            self.clones, self.tree.clones = self.tree.clones, None

    def told(self, answer: Answer, events: Events) -> str:
        """Returns a result and its events, each after a comma; the replica may follow them."""
        self.events += events
        return ", ".join([self.text(answer), *(event.write(number, self.spelling) for number, event in events)])

    def told_if(self, name: str, answer: Answer, events: Events) -> Answer:
        """Returns a result, with its events if the call returns them."""
        return self.told(answer, events) if name.endswith("_cdc") else answer

    def restart(self, tree: Tree, items: Iterable[Item] = ()) -> str:
        """Replaces the tree, and the replica by an empty one."""
        self.tree, self.replica, self.events, self.followed = tree, Replica(), [], 0
        for item in items:
            self.tree.put_checked(item)
        return DONE

    def read_nodes(self, words: Words) -> Nodes:
        """Returns the nodes of the words."""
        return self.spelling.read_nodes(" ".join(words))

    def made_of(self, size: int, number: int, nodes: Nodes) -> str:
        """Makes a tree of these nodes."""
        cause = self.refusal_of_nodes(nodes, size)
        if cause is not None:
            raise Refused(cause, self.spelling.write_nodes(nodes))
        return self.restart(Tree(size, number, nodes))

    def refusal_of_nodes(self, nodes: Nodes, size: int) -> str | None:
        """Returns the reason why these are not the nodes of a tree, if any."""
        return refusal_of_nodes(nodes, size)

    def attach(self, node: Node) -> str:
        """Gives the tree a node."""
        self.tree.attach(node)
        return DONE

    def attached(self, words: Words) -> Answer:
        """Gives the tree the node of the words."""
        node = self.spelling.read_node(" ".join(words))
        return handing_back(self.spelling.write_nodes([node]), lambda: self.attach(node))

    def has_few_nodes(self) -> bool:
        """Returns whether any two neighbours hold more than half a node."""
        return (max(len(self.tree.nodes), 1) - 1) * (self.tree.size // 2 + 1) <= 2 * len(self.tree.items)

    def room(self, count: int) -> bool:
        """Returns that there is room for no more items than there are."""
        permitted(count <= len(self.tree.items), "room for more than there is")
        return True

    def limit(self, clones: int) -> str:
        """Sets the number of clones that can be made."""
        self.clones = clones
        return DONE

    def copied(self, replica: Replica) -> str:
        """Replaces the replica."""
        self.replica = replica
        return DONE

    def follow(self) -> Nodes:
        """Makes the replica apply the events that it has not followed yet."""
        for event in self.events[self.followed :]:
            self.replica.apply(*event)
            self.followed += 1
        return self.replica.nodes

    def run(self, words: Words) -> str:
        """Runs commands up to the first that fails: the replies, and then the events."""
        replies: list[Answer] = []
        events: Events = []
        for word in words:
            command, _, rest = word.partition("(")
            try:
                reply, more = self.command(command, rest.removesuffix(")"))
            except Refused as refused:
                raise Refused(refused.cause, self.told(replies, events)) from None
            replies.append(reply)
            events += more
        return self.told(replies, events)

    def command(self, name: str, word: str) -> tuple[Answer, Events]:
        """Returns the reply to a command, and its events."""
        raise NoCall(name)

    def makes(self) -> Calls:
        """The calls that make a tree."""
        return {
            **dict.fromkeys(("new", "default"), lambda w: self.restart(Tree(DEFAULT_SIZE))),
            "starting_at": lambda w: self.restart(Tree(read_natural(w[0]), number(w[1:]))),
            "from_nodes": lambda w: self.made_of(read_natural(w[0]), read_natural(w[1]), self.read_nodes(w[2:])),
            "go_on": lambda w: self.made_of(number(w), self.tree.next, self.tree.nodes),
            "attach": self.attached,
            "attach_node": self.attached,
            "run": self.run,
            "clones": lambda w: self.limit(number(w)),
        }

    def copies(self) -> Calls:
        """The calls of the replica."""
        return {
            "replica": lambda w: self.copied(replica_of(self.read_nodes(w[1:]), read_natural(w[0]))),
            "snapshot": lambda w: self.copied(Replica(self.tree.next, list(self.tree.nodes))),
            "deliver": lambda w: deliver(self.replica, self.events, w),
            "follow": lambda w: self.spelling.write_nodes(self.follow()),
            "is_followed": lambda w: self.follow() == self.tree.nodes,
            "copy": lambda w: self.spelling.write_nodes(self.replica.nodes),
            "next": lambda w: self.replica.next,
            "events": lambda w: len(self.events),
        }

    def calls(self) -> Calls:
        tree, items, nodes = self.tree, self.tree.items, self.spelling.write_nodes(self.tree.nodes)
        return {
            **self.makes(),
            **self.copies(),
            **ends(items),
            **by_range(items, "_back"),
            "node_count": lambda w: len(tree.nodes),
            "maximum_node_size": lambda w: tree.size,
            "events_issued": lambda w: tree.next,
            "has_room_for": lambda w: self.room(number(w)),
            "has_few_nodes": lambda w: self.has_few_nodes(),
            "nodes": lambda w: nodes,
            "text": lambda w: nodes.replace(",", ", ").replace(" ", "_"),
            "walk_nodes": lambda w: walk([self.spelling.write_nodes([node]) for node in tree.nodes], w),
            "items": lambda w: items,
            "items_back": lambda w: items[::-1],
            "walk": lambda w: walk(items, w),
            "range_hint": lambda w: walk(in_range(items, *bounds(w)), ["size_hint"]),
        }


class LoggedAuthor(Author):
    """A generator of scripts of a logged tree in vectors, or also in nodes of a fixed capacity."""

    maker = "set"
    attach = "attach_node"

    def __init__(self, draw: Draw, model: Followed, size: int, capacity: int | None) -> None:
        super().__init__(draw, model)
        self.trees, self.size, self.capacity = model, size, capacity
        self.mode = draw.rng.choice(MODES)

    def length(self) -> int:
        return len(self.trees.tree.items)

    def is_long(self, name: str) -> bool:
        return name in LONG

    def cdc(self, name: str) -> str:
        """Returns a change by its name, in the form that returns its events, at times without them."""
        if self.mode == "untold" and self.draw.chance(0.5):
            return name
        brief = "quietly " if self.draw.chance(0.06) else ""
        return f"{brief}{'put_cdc_checked' if name == 'insert' and self.maker == 'set' else f'{name}_cdc'}"

    def near(self) -> int:
        """Returns a present key, or any."""
        return self.draw.near(self.trees.tree.items)

    def item(self, key: int, number: int) -> Item:
        """An item of a key."""
        return Item(key, 0, self.draw.letter())

    def adding(self) -> Sequence[tuple[int, Make]]:
        return ((100, self.add), (2, self.run), (5, self.attach_node), (self.restarts(), self.restart))

    def removing(self) -> Sequence[tuple[int, Make]]:
        pops = (12, lambda: self.cdc(self.draw.rng.choice(("pop_first", "pop_last"))))
        return ((70, self.remove), pops, (2, self.run), (self.restarts(), self.restart))

    def restarts(self) -> int:
        """Returns the weight of making a new tree, which is higher once event numbers are exhausted."""
        return 15 if self.trees.tree.next >= LARGEST - 1 else 1

    def add(self) -> str:
        """Puts an item."""
        raise NotImplementedError

    def remove(self) -> str:
        """Removes an item."""
        raise NotImplementedError

    def commands(self) -> Sequence[str]:
        """Returns a command of each kind."""
        raise NotImplementedError

    def run(self) -> str:
        """Runs a list of commands."""
        words = (self.draw.rng.choice(self.commands()) for _ in range(self.draw.rng.randint(0, 6)))
        return " ".join(["run", *words])

    def looking(self) -> Sequence[tuple[int, Make]]:
        rng = self.draw.rng
        return (
            (12, lambda: rng.choice(self.whole())),
            (8, lambda: rng.choice(("nodes", "nodes", "items", "items_back", "text"))),
            (30, self.find),
            (12, lambda: f"{rng.choice(('range', 'range_back'))} {self.key_bounds()}"),
            (3, lambda: f"has_room_for {rng.randint(0, self.length())}"),
            (20, self.copy),
            (30, self.position),
            (8, self.in_copy),
        )

    def position(self) -> str:
        """A call by positions."""
        rng = self.draw.rng
        copy = rng.choice(("", "copy_"))
        match rng.choice(("ranks", "ranks", "get_index", "range_idx", "by_key", "by_key")):
            case "ranks":
                return f"{copy}ranks"
            case "get_index":
                return f"{copy}get_index {self.draw.position(self.length())}"
            case "range_idx":
                name = rng.choice(("range_idx", "range_idx_back"))
                return f"{copy}{name} {self.draw.bounds(lambda: self.draw.position(self.length()))}"
            case _:
                return self.rank()

    def rank(self) -> str:
        """Returns a call for the rank or the position of an item."""
        raise NotImplementedError

    def count_at(self) -> str:
        """Returns a call for the number of items before a bound, or up to it."""
        start, end = self.key_bounds().split()
        return self.draw.rng.choice((f"count_before {start}", f"count_up_to {end}"))

    def in_copy(self) -> str:
        """Returns a call that searches an item of the replica, or one like it."""
        held = self.draw.held(self.trees.replica.items)
        item = held if held is not None and self.draw.chance(0.6) else self.item(self.near(), 3)
        name = self.draw.rng.choice(("get", "contains", "rank", "index_of", "count_of"))
        return f"copy_{name} {self.trees.spelling.write(item)}"

    def whole(self) -> Sequence[str]:
        """The calls on a tree as a whole."""
        return "len", "is_empty", "node_count", "events_issued", "first", "last"

    def find(self) -> str:
        """Looks up an item."""
        raise NotImplementedError

    def key_bounds(self) -> str:
        """Two bounds of keys."""
        return self.draw.bounds(self.near)

    def copy(self) -> str:
        """A call of the replica."""
        if self.mode == "follows":
            return self.draw.rng.choice(("is_followed",) * 6 + ("follow", "copy", "next", "events"))
        name = self.draw.rng.choice(("deliver", "deliver", "deliver", "copy", "next", "events", "replica"))
        if name == "replica" or (self.mode == "untold" and self.draw.chance(0.2)):
            tree = self.trees.tree
            return f"replica {tree.next} {self.trees.spelling.write_nodes(tree.nodes)}".rstrip()
        return self.deliver() if name == "deliver" else name

    def deliver(self) -> str:
        """Delivers a few events with losses, repeats, and some out of turn."""
        events, next_number = self.trees.events, self.trees.replica.next
        if not events:
            return "next"
        first = next((i for i, it in enumerate(events) if it[0] == next_number), len(events))
        return self.draw.places("deliver", range(max(first - 2, 0), min(first + 8, len(events))))

    def fresh_node(self, size: int) -> Node:
        """A node that may be too large, not ascending, or over others."""
        count = self.draw.rng.choice((0, 1, 1, 2, 2, size, size + 1))
        if self.capacity is not None:
            count = min(count, self.capacity)
        start = self.near()
        number = self.draw.rng.choice((0, 5, 99, LARGEST - 1, LARGEST)) if self.draw.chance(0.1) else 100
        node = [self.item(start + i, min(number + i, LARGEST)) for i in range(count)]
        if self.capacity is None and len(node) > 1 and self.draw.chance(0.2):
            node[0], node[-1] = node[-1], node[0]
        return node

    def attach_node(self) -> str:
        """Gives the tree a node."""
        if self.mode == "follows" or (self.capacity is not None and self.trees.tree.size > self.capacity):
            return "len"
        return f"{self.attach} {self.trees.spelling.write_nodes([self.fresh_node(self.trees.tree.size)])}"

    def restart(self) -> str:
        """Makes a new tree, at times with few event numbers left, or one from the same nodes."""
        rng, tree = self.draw.rng, self.trees.tree
        name = rng.choice((self.maker, "starting_at", "starting_at", "from_nodes", "on"))
        if self.length() and name != "on" and self.draw.chance(0.6):
            return "len"
        match name:
            case "starting_at":
                return f"starting_at {self.size} {rng.choice((7, LARGEST - rng.randint(0, 40), LARGEST - 200))}"
            case "from_nodes":
                number = rng.choice((0, 3, LARGEST - 30))
                return f"from_nodes {self.size} {number} {self.some_nodes(self.size)}".rstrip()
            case "on":
                return f"from_nodes {self.size} {tree.next} {self.trees.spelling.write_nodes(tree.nodes)}".rstrip()
            case _:
                return f"{self.maker} {self.size}"

    def opening(self) -> list[str]:
        if self.size <= 8:
            return []
        nodes = self.trees.spelling.write_nodes(self.lawful_nodes(self.size))
        return [f"from_nodes {self.size} 0 {nodes}".rstrip()]

    def lawful_nodes(self, size: int) -> Nodes:
        """Returns a few nodes; large ones have few free places."""
        nodes: Nodes = []
        key, least = 0, size - 4 if size > 8 else 1
        number = LARGEST - 1 - 9 * self.draw.rng.randrange(size) if self.draw.chance(0.1) else 0
        for _ in range(self.draw.rng.randint(0, 3 if size > 8 else 5)):
            count = self.draw.rng.randint(least, size)
            nodes.append([self.item(key + i, min(number + 9 * (key + i), LARGEST)) for i in range(count)])
            key += count + self.draw.rng.randint(0, 2)
        return nodes

    def some_nodes(self, size: int) -> str:
        """The words of a few nodes, lawful or not."""
        nodes = self.lawful_nodes(size)
        if self.draw.chance(0.4) and nodes:
            nodes[self.draw.rng.randrange(len(nodes))] = self.fresh_node(size)
        return self.trees.spelling.write_nodes(nodes)

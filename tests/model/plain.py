"""A set or a map without events: its ascending list, and its nodes if the rules determine them.

Nodes hold at most `size` items, and none is empty unless it is the only one. An absent item is inserted into the node
of the first item above it, or at the end of the last node; a full node is first split at half its length, and the item
is then inserted into the right half unless it is below the first item there. An equal item is searched before any
split. An emptied node is removed. The results of `split_off` and `from_sorted` may be partitioned in any way.
"""

from __future__ import annotations

from bisect import bisect_left
from collections.abc import Callable, Iterable, Iterator, Sequence
from dataclasses import dataclass, field

from definitions import digits, equal_to, is_ascending, joined, put, rank, without
from draw import Author, Draw
from items import DEFAULT_SIZE, Item, Spelling, order, read_natural
from language import DONE, Answer, Calls, NoCall, Refused, Subject, Unfixed, Words, number, permitted
from nodes import Node, Nodes, end_of
from reads import at, by_range, walk

MOST_CHECKED = 256


def one_empty_node() -> Nodes | None:
    """Returns the nodes of an empty collection."""
    return [[]]


@dataclass
class Plain:
    """A plain collection."""

    size: int
    items: list[Item] = field(default_factory=list)
    nodes: Nodes | None = field(default_factory=one_empty_node)

    def __post_init__(self) -> None:
        self.check()

    def check(self) -> None:
        """Fails unless the list ascends and the nodes are its nodes."""
        assert len(self.items) > MOST_CHECKED or is_ascending(self.items)
        if not self.items:
            self.nodes = [[]]
        if self.nodes is not None:
            assert joined(self.nodes) == self.items
            assert max(map(len, self.nodes)) <= self.size
            assert all(self.nodes) or len(self.nodes) == 1

    def copy(self) -> Plain:
        """Returns the same list in the same nodes."""
        return Plain(self.size, list(self.items), None if self.nodes is None else list(self.nodes))

    def fixed_nodes(self) -> Nodes:
        """Returns the nodes, if the rules determine them."""
        if self.nodes is None:
            raise Unfixed("the nodes")
        return self.nodes

    def most_comparisons(self) -> int:
        """Returns the maximum number of comparisons of a search."""
        return digits(len(self.fixed_nodes())) + digits(self.size) + 1

    def put(self, item: Item) -> Item | None:
        """Puts an item, and returns the equal one that it replaces."""
        old = equal_to(self.items, item)
        self.items = put(self.items, item)
        if self.nodes is not None:
            self.nodes = with_new(self.nodes, self.size, item) if old is None else edited(self.nodes, item, put)
        self.check()
        return old

    def remove(self, item: Item | None) -> Item | None:
        """Removes the item that is equal to this one, if any."""
        old = None if item is None else equal_to(self.items, item)
        if old is not None:
            self.items = without(self.items, old)
            self.nodes = None if self.nodes is None else edited(self.nodes, old, without)
            self.check()
        return old

    def retain(self, kept: Iterable[Item]) -> None:
        """Keeps some of the items, with the values that they now have, and removes nodes without items."""
        self.items = list(kept)
        if self.nodes is not None:
            held = {order(it): it for it in self.items}
            nodes = [[held[order(it)] for it in node if order(it) in held] for node in self.nodes]
            self.nodes = [node for node in nodes if node] or [[]]
        self.check()

    def split_off(self, place: int) -> Plain:
        """Keeps the items before a position, and returns the rest."""
        rest = Plain(self.size, self.items[place:], None)
        self.retain(self.items[:place])
        return rest

    def append(self, other: Plain) -> None:
        """Moves the items of another collection here, one by one."""
        for item in other.items:
            self.put(item)
        other.retain([])

    def text(self, spelling: Spelling) -> str:
        """Returns the node size, and the items with a bar between two nodes."""
        return f"of {self.size}: " + " | ".join(map(spelling.write_all, self.fixed_nodes()))


def edited(nodes: Sequence[Node], item: Item, change: Callable[[Node, Item], Node]) -> Nodes:
    """Returns the nodes after a change of the one with the item that is equal to this one; removes it if emptied."""
    place = bisect_left(nodes, order(item), key=end_of)
    changed = change(nodes[place], item)
    return [*nodes[:place], *([changed] if changed else []), *nodes[place + 1 :]]


def with_new(nodes: Sequence[Node], size: int, item: Item) -> Nodes:
    """Returns the nodes with an item to which none is equal."""
    below = bisect_left(nodes, order(item), key=end_of) if nodes[0] else 0
    place = min(below, len(nodes) - 1)
    parts = [nodes[place]]
    if len(parts[0]) >= size:
        half = len(parts[0]) // 2
        parts = [parts[0][:half], parts[0][half:]]
    goes = 1 if len(parts) == 2 and order(item) >= order(parts[1][0]) else 0
    parts[goes] = put(parts[goes], item)
    return [*nodes[:place], *parts, *nodes[place + 1 :]]


class Plains(Subject):
    """Two plain collections, of which most calls take the first."""

    def __init__(self, size: int, spelling: Spelling) -> None:
        super().__init__(spelling)
        self.size = size
        self.held, self.other = Plain(size), Plain(size)

    def over(self, held: Item, item: Item) -> Item:
        """Returns the item that an insertion of one leaves in the place of an equal one."""
        raise NotImplementedError

    def compared(self, item: Item) -> Answer:
        """Returns what the order of collections compares of an item."""
        raise NotImplementedError

    def numbered(self, number: int) -> Item:
        """Returns the item of a number."""
        raise NotImplementedError

    def key(self, words: Words) -> Item:
        """Returns an item with the key of a word, for a search."""
        return self.item(words)

    def insert(self, to: Plain, item: Item) -> Item | None:
        """Inserts an item; returns the equal one that was there."""
        old = equal_to(to.items, item)
        to.put(item if old is None else self.over(old, item))
        return old

    def made(self, size: int, items: Iterable[Item]) -> Plain:
        """Makes a collection of items inserted one by one."""
        made = Plain(size)
        for item in items:
            self.insert(made, item)
        return made

    def filled(self, name: str, count: int, step: int) -> Plain:
        """Makes a collection of a number of ascending keys with a given step, by the call."""
        items = [self.numbered(number * step) for number in range(count)]
        match name:
            case "insert":
                return self.made(self.size, items)
            case "from" | "from_iter":
                return self.made(DEFAULT_SIZE, items)
            case "from_reversed":
                return self.made(DEFAULT_SIZE, reversed(items))
            case "from_sorted":
                return Plain(DEFAULT_SIZE, items, None)
            case _:
                raise NoCall(name)

    def unsorted(self, words: Words) -> Plain:
        """Makes a collection of the first of equal items."""
        made = Plain(DEFAULT_SIZE)
        for item in self.items(words):
            if not equal_to(made.items, item):
                made.put(item)
        return Plain(DEFAULT_SIZE, made.items, None)

    def sorted(self, words: Words) -> Plain:
        """Makes a collection of items that must ascend."""
        items = self.items(words)
        if not is_ascending(items):
            raise Refused("Unsorted", " ".join(words))
        return Plain(DEFAULT_SIZE, items, None)

    def hold(self, held: Plain | None = None, other: Plain | None = None, size: int | None = None) -> str:
        """Replaces what is given."""
        self.held, self.other, self.size = held or self.held, other or self.other, size or self.size
        return DONE

    def append(self) -> str:
        """Moves the items of the second collection into the first."""
        self.held.append(self.other)
        return DONE

    def partly_appended(self) -> Iterator[str]:
        """Returns the states in which an `append` that fails may leave the collections: some first items moved."""
        here, there = self.held.copy(), self.other.copy()
        for item in self.other.items:
            yield f"{here.text(self.spelling)} {there.text(self.spelling)}"
            here.put(item)
            there.remove(item)

    def leaves(self, words: Words) -> str:
        """Says so if the words are no state that a failing `append` may leave."""
        return DONE if words in map(str.split, self.partly_appended()) else "nothing appends so"

    def extend(self, words: Words) -> str:
        """Inserts the items of the words."""
        for item in self.items(words):
            self.insert(self.held, item)
        return DONE

    def retain(self, words: Words) -> Answer:
        """Keeps the items of the words; returns those that the condition reads."""
        asked, kept = self.held.items, {order(it): it for it in self.items(words)}
        self.held.retain(self.over(it, kept[order(it)]) for it in asked if order(it) in kept)
        return asked

    def pop(self, place: int) -> Item:
        """Removes the item at a position."""
        permitted(place < len(self.held.items), "a position that is not there")
        return self.held.remove(self.held.items[place]) or Item(0)

    def is_equal(self) -> bool:
        """Returns whether both have equal items."""
        return self.sides()[0] == self.sides()[1]

    def sides(self) -> tuple[list[Answer], list[Answer]]:
        """Returns what is compared of both."""
        return [*map(self.compared, self.held.items)], [*map(self.compared, self.other.items)]

    def ordering(self) -> str:
        """Returns the order of both."""
        left, right = self.sides()
        return "Equal" if left == right else "Less" if left < right else "Greater"

    def hash(self) -> bool:
        """Returns that equal collections have the same hash."""
        permitted(self.is_equal(), "hashes of what differs")
        return True

    def each(self, look: Callable[[Item], Answer]) -> Callable[[Words], Answer]:
        """Returns a call that looks up the key of each word."""
        return lambda w: [look(self.key([word])) for word in w]

    def make(self) -> Calls:
        """The calls that make or move whole collections."""
        it, items = self.held, self.items
        return {
            "size": lambda w: self.hold(size=number(w)),
            "fill": lambda w: self.hold(self.filled(w[0], read_natural(w[1]), read_natural(w[2]))),
            **dict.fromkeys(
                ("new", "default", "from", "from_iter", "collect"),
                lambda w: self.hold(self.made(DEFAULT_SIZE, items(w))),
            ),
            "from_unsorted": lambda w: self.hold(self.unsorted(w)),
            "from_sorted": lambda w: self.hold(self.sorted(w)),
            **dict.fromkeys(("clone", "clone_of_the_trait"), lambda w: self.hold(other=it.copy())),
            "swap": lambda w: self.hold(self.other, it),
            "clear": lambda w: self.hold(Plain(it.size)),
            "split_off": lambda w: self.hold(other=it.split_off(rank(it.items, self.key(w)))),
            "append": lambda w: self.append(),
            "leaves": self.leaves,
            "extend": self.extend,
            "retain": self.retain,
        }

    def calls(self) -> Calls:
        it, held = self.held, self.held.items
        return {
            **self.make(),
            **by_range(held, "_rev"),
            "len": lambda w: len(held),
            "is_empty": lambda w: not held,
            "pop_first": lambda w: it.remove(at(held, 0)),
            "pop_last": lambda w: it.remove(at(held[::-1], 0)),
            "pop_index": lambda w: self.pop(number(w)),
            "node_count": lambda w: len(it.fixed_nodes()),
            "maximum_node_size": lambda w: it.size,
            "nodes": lambda w: " | ".join(map(self.spelling.write_all, it.fixed_nodes())),
            "rank": self.each(lambda key: rank(held, key)),
            "index_of": self.each(lambda key: rank(held, key) if equal_to(held, key) else None),
            "get_index": lambda w: [at(held, read_natural(word)) for word in w],
            **dict.fromkeys(("iter", "into_iter"), lambda w: walk(held, w)),
            "eq": lambda w: self.is_equal(),
            "lt": lambda w: self.ordering() == "Less",
            "le": lambda w: self.ordering() != "Greater",
            "cmp": lambda w: self.ordering(),
            "partial_cmp": lambda w: f"Some({self.ordering()})",
            "hash": lambda w: self.hash(),
        }


class PlainAuthor(Author):
    """A generator of scripts of plain collections; those that do not see nodes may be run at several node sizes."""

    maker = "set"

    def __init__(self, draw: Draw, model: Plains, sees_nodes: bool) -> None:
        super().__init__(draw, model)
        self.plains, self.sees_nodes = model, sees_nodes

    def length(self) -> int:
        return len(self.plains.held.items)

    def near(self) -> int:
        """Returns a present key, or any."""
        return self.draw.near(self.plains.held.items)

    def tag(self) -> str:
        """Returns what follows a key in its word."""
        return ""

    def key(self) -> str:
        """Returns the word of a present key, or of any."""
        return f"{self.near()}{self.tag()}"

    def keys(self) -> str:
        """Returns the words of one to three keys."""
        return " ".join(self.key() for _ in range(self.draw.rng.choice((1, 1, 1, 2, 3))))

    def word(self, key: int) -> str:
        """The word of an item of a key."""
        return f"{key}{self.tag()}"

    def some(self, most: int) -> list[str]:
        """The words of a few items."""
        return [self.word(self.draw.key()) for _ in range(self.draw.rng.randint(0, most))]

    def append(self) -> str:
        """Moves the other collection in, once it has items."""
        return "append" if self.plains.other.items or self.draw.chance(0.1) else "swap"

    def make(self) -> str:
        """Makes a new collection."""
        named = (self.maker, self.maker, "from", "from_iter", "collect", "from_sorted", "from_sorted", "from_unsorted")
        name = self.draw.rng.choice((*named, "new", "default"))
        if name in ("new", "default"):
            return name
        if name == self.maker and self.sees_nodes and self.draw.chance(0.3):
            return f"size {self.draw.rng.choice((2, 3, 4, 5, 7, 64))}"
        words = self.some(30)
        if name == "from_sorted" and self.draw.chance(0.5):
            kept = {int(word.partition(":")[0]): word for word in words}
            words = [kept[key] for key in sorted(kept)]
        return " ".join([name, *words])

    def retain(self) -> str:
        """Keeps a part of the items, and names some absent ones."""
        share = self.draw.rng.choice((0.3, 0.7, 0.95))
        kept = [self.word(it.key) for it in self.plains.held.items if self.draw.chance(share)]
        return " ".join(["retain", *kept, *self.some(1)])

    def range(self) -> str:
        """A range of keys, or of positions."""
        if self.draw.chance(0.3):
            return f"range_idx {self.draw.bounds(lambda: self.draw.position(self.length()))}"
        return f"{self.draw.rng.choice(('range', 'range_rev'))} {self.draw.bounds(self.near, self.tag())}"

    def jump(self) -> str:
        """A word of a cursor with a position."""
        return f"{self.draw.rng.choice(('peek_index', 'move_index'))}={self.draw.position(self.length())}"

    def walk(self, names: Sequence[str]) -> str:
        """An iterator from both ends."""
        steps = ("next", "next_back", "next", "next_back", "len", "size_hint")
        return f"{self.draw.rng.choice(names)} {self.draw.steps(steps)}"

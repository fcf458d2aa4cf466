"""The multimap, whose pairs are in the order of keys and then of numbers: its calls, and the author of its scripts."""

from __future__ import annotations

from collections.abc import Iterable, Sequence

from draw import Make
from followed import LoggedAuthor
from items import LARGEST, NUMBERED, PAIRS, Item, write_pair
from language import Answer, Calls, NoCall, Refused, Words, number, one
from logged_maps import LoggedPairs
from nodes import Events, Node, Nodes
from reads import at
from trees import Tree


class MultiMaps(LoggedPairs):
    """A multimap, and a replica that follows it."""

    def __init__(self, size: int) -> None:
        super().__init__(size, NUMBERED)
        self.pair_next = 0

    def shown(self, item: Item) -> str:
        return write_pair(item)

    def restart(self, tree: Tree, items: Iterable[Item] = ()) -> str:
        self.pair_next = 1 + max((it.number for it in tree.items), default=-1)
        return super().restart(tree, items)

    def refusal_of_nodes(self, nodes: Nodes, size: int) -> str | None:
        if any(it.number == LARGEST for node in nodes for it in node):
            return "PairNumber"
        return super().refusal_of_nodes(nodes, size)

    def attach(self, node: Node) -> str:
        if any(it.number == LARGEST for it in node):
            raise Refused("PairNumber")
        super().attach(node)
        self.pair_next = max(self.pair_next, *(it.number + 1 for it in node))
        return ""

    def of_key(self, words: Words) -> list[Item]:
        """Returns the pairs of a key."""
        return [it for it in self.tree.items if it.key == number(words)]

    def equal(self, pair: Item) -> Item | None:
        """Returns the first pair of a key with an equal value."""
        return next((it for it in self.tree.items if it.key == pair.key and it.value == pair.value), None)

    def put(self, name: str, pair: Item) -> tuple[Answer, Events]:
        """Puts a pair, with the number of the first of its key and value, which it replaces, or with a new one. A push
        always takes a new one."""
        old = None if name.startswith("push") else self.equal(pair)
        if old is not None:
            return old.value, self.tree.put(pair._replace(number=old.number))[1]
        if self.pair_next == LARGEST:
            raise Refused("Numbers")
        events = self.tree.put(pair._replace(number=self.pair_next))[1]
        self.pair_next += 1
        return {"push": "", "push_cdc": "some"}.get(name), events

    def remove_all(self, name: str, words: Words) -> Answer:
        """Removes the pairs of a key, one after another; returns their number."""
        pairs = self.of_key(words)
        return self.told_if(name, len(pairs), [event for pair in pairs for event in self.tree.remove(pair)[1]])

    def command(self, name: str, word: str) -> tuple[Answer, Events]:
        match name:
            case "insert":
                return self.put(name, PAIRS.read(word))
            case "remove" | "remove_some":
                pair = self.equal(PAIRS.read(word)) if name == "remove" else at(self.of_key([word]), 0)
                return pair, [] if pair is None else self.tree.remove(pair)[1]
            case _:
                raise NoCall(name)

    def index_of(self, pair: Item) -> int | None:
        """Returns the position of the first pair of a key with an equal value."""
        equal = self.equal(pair)
        return None if equal is None else self.tree.items.index(equal)

    def calls(self) -> Calls:
        items, spelling = self.tree.items, self.spelling
        return {
            **super().calls(),
            **self.named(("push", "push_cdc"), self.put_back),
            **self.named(
                ("remove", "remove_cdc"), lambda name, w: self.remove(name, self.equal(PAIRS.read(one(w))))
            ),
            **self.named(
                ("remove_some", "remove_some_cdc"), lambda name, w: self.remove(name, at(self.of_key(w), 0))
            ),
            **self.named(
                ("pop_index", "pop_index_cdc"), lambda name, w: self.remove(name, at(items, number(w)))
            ),
            **self.named(("remove_all", "remove_all_cdc"), self.remove_all),
            "get": self.of_key,
            "size_of": lambda w: len(self.of_key(w)),
            "raw_get": lambda w: spelling.write_all(self.of_key(w)),
            "raw_get_back": lambda w: spelling.write_all(self.of_key(w)[::-1]),
            "index_of": lambda w: self.index_of(PAIRS.read(one(w))),
        }


class MultiMapAuthor(LoggedAuthor):
    """A generator of scripts of multimaps."""

    maker = "map"
    attach = "attach"

    def item(self, key: int, number: int) -> Item:
        return Item(key, number, self.draw.letter())

    def pair(self) -> str:
        """Returns the word of a present pair, or of any."""
        held = self.draw.held(self.trees.tree.items)
        if held is not None and self.draw.chance(0.4):
            return f"{held.key}:{held.value}"
        return f"{self.near()}:{self.draw.letter()}"

    def add(self) -> str:
        return f"{self.cdc(self.draw.rng.choice(('insert', 'insert', 'push')))} {self.pair()}"

    def remove(self) -> str:
        name = self.draw.rng.choice(("remove", "remove", "remove_some"))
        return f"{self.cdc(name)} {self.pair() if name == 'remove' else self.near()}"

    def removing(self) -> Sequence[tuple[int, Make]]:
        pop = (8, lambda: f"{self.cdc('pop_index')} {self.draw.position(self.length())}")
        return (*super().removing(), (4, self.remove_all), pop)

    def remove_all(self) -> str:
        """Removes all pairs of a key, if their events fit."""
        return f"{self.cdc('remove_all')} {self.near()}" if self.trees.tree.next < 2**63 else "len"

    def commands(self) -> Sequence[str]:
        return f"insert({self.pair()})", f"remove({self.pair()})", f"remove_some({self.near()})"

    def find(self) -> str:
        return f"{self.draw.rng.choice(('get', 'raw_get', 'raw_get_back', 'contains_key', 'size_of'))} {self.near()}"

    def rank(self) -> str:
        if self.draw.chance(0.3):
            return f"index_of {self.pair()}"
        return f"{self.draw.rng.choice(('rank', 'count_of'))} {self.near()}"

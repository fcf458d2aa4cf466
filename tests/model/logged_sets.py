"""The logged set: its calls, and the author of its random scripts."""

from __future__ import annotations

from collections.abc import Sequence

from definitions import equal_to, rank
from draw import Make
from followed import Followed, LoggedAuthor, handing_back
from items import DEFAULT_SIZE, NUMBERS, Item, order, read_natural
from language import DONE, Answer, Calls, Refused, Words, number, permitted
from nodes import Events
from reads import at, bounds, by_place, counts
from trees import Replica, Tree, refusal_of_nodes


class LoggedSets(Followed):
    """A logged set, and a replica that follows it."""

    def take_copy(self, size: int) -> str:
        """Makes a set of the nodes of the replica, moving them."""
        copy, self.replica = self.replica, Replica()
        cause = refusal_of_nodes(copy.nodes, size)
        if cause is not None:
            raise Refused(cause)
        self.tree = Tree(size, copy.next, copy.nodes)
        return DONE

    def put(self, name: str, item: Item) -> Answer:
        """Puts an item, unless an equal one is present and the call is checked."""
        if name in ("put", "put_cdc"):
            return self.told_if(name, *self.tree.put(item))
        events = self.tree.put_checked(item)
        if name == "insert":
            return events is not None
        return None if events is None else self.told("some", events)

    def remove(self, name: str, item: Item | None) -> Answer:
        """Removes an item, if there is one."""
        if item is None:
            return None
        permitted(not name.startswith("remove_at") or equal_to(self.tree.items, item) is not None, "an absent item")
        return self.told_if(name, *self.tree.remove(item))

    def remove_range(self, words: Words) -> str:
        """Removes the items within a range."""
        self.tree.remove_range(*bounds(words))
        return DONE

    def command(self, name: str, word: str) -> tuple[Answer, Events]:
        item = self.spelling.read(word)
        match name:
            case "put":
                return self.tree.put(item)
            case "remove":
                return self.tree.remove(item)
            case "put_checked":
                events = self.tree.put_checked(item)
                return events is not None, events or []
            case _:
                return super().command(name, word)

    def place_of(self, item: Item) -> str:
        """Returns the node and the position of an item, or of its insertion."""
        is_there, node, place = self.tree.place_of(item)
        return f"{'' if is_there else 'absent '}{node} {place}"

    def changes(self) -> Calls:
        """The calls that change a set."""
        items = self.tree.items
        return {
            **self.named(("insert", "put", "put_cdc", "put_cdc_checked"), self.put_back),
            **self.named(("remove", "remove_cdc", "remove_at", "remove_at_cdc"), self.remove_word),
            **self.named(("pop_first", "pop_first_cdc"), lambda name, w: self.remove(name, at(items, 0))),
            **self.named(("pop_last", "pop_last_cdc"), lambda name, w: self.remove(name, at(items[::-1], 0))),
        }

    def put_back(self, name: str, words: Words) -> Answer:
        """Puts the item of the words; a refused call returns it."""
        item = self.item(words)
        return handing_back(self.shown(item), lambda: self.put(name, item))

    def remove_word(self, name: str, words: Words) -> Answer:
        """Removes the item of the words."""
        return self.remove(name, self.item(words))

    def calls(self) -> Calls:
        items = self.tree.items
        return {
            **super().calls(),
            **by_place(items, order, self.item),
            **counts(items),
            **self.changes(),
            "set": lambda w: self.restart(Tree(read_natural(w[0]) if w else self.size), self.items(w[1:])),
            "from": lambda w: self.restart(Tree(DEFAULT_SIZE), self.items(w)),
            "from_iter": lambda w: self.restart(Tree(DEFAULT_SIZE), self.items(w)),
            "from_copy": lambda w: self.take_copy(number(w)),
            "remove_range": self.remove_range,
            "below": lambda w: items[: rank(items, self.item(w))],
            "place_of": lambda w: self.place_of(self.item(w)),
        }


class LoggedSetAuthor(LoggedAuthor):
    """A generator of scripts of logged sets."""

    def tag(self) -> str:
        """Returns what follows a key in its word."""
        return "" if self.trees.spelling is NUMBERS else f":{self.draw.letter()}"

    def word(self) -> str:
        """Returns the word of a present item, or of any."""
        return f"{self.near()}{self.tag()}"

    def add(self) -> str:
        return f"{self.cdc(self.draw.rng.choice(('put', 'put', 'insert')))} {self.word()}"

    def remove(self) -> str:
        return f"{self.cdc(self.draw.rng.choice(('remove', 'remove', 'remove_at')))} {self.word()}"

    def commands(self) -> Sequence[str]:
        return f"put({self.word()})", f"put_checked({self.word()})", f"remove({self.word()})"

    def removing(self) -> Sequence[tuple[int, Make]]:
        if self.capacity is not None or self.mode == "follows":
            return super().removing()
        size = max(map(len, self.trees.replica.nodes), default=0) + self.draw.rng.randint(2, 4)
        ranges = (1, lambda: f"remove_range {self.key_bounds()}")
        return (*super().removing(), ranges, (1, lambda: f"from_copy {size}"))

    def whole(self) -> Sequence[str]:
        return *super().whole(), "maximum_node_size", "has_few_nodes" if self.mode == "follows" else "len"

    def find(self) -> str:
        rng = self.draw.rng
        if self.draw.chance(0.2):
            return f"{rng.choice(('walk', 'walk_nodes'))} {self.draw.steps(('next', 'next_back'))}"
        if self.draw.chance(0.1):
            return f"range_hint {self.key_bounds()}"
        return f"{rng.choice(('get', 'contains', 'place_of', 'below'))} {self.word()}"

    def rank(self) -> str:
        if self.draw.chance(0.3):
            return self.count_at()
        return f"{self.draw.rng.choice(('rank', 'index_of', 'position_by'))} {self.word()}"

    def key_bounds(self) -> str:
        return self.draw.bounds(self.near, self.tag())

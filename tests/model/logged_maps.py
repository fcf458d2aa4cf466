"""The logged map: its calls, and the author of its random scripts."""

from __future__ import annotations

from collections.abc import Sequence

from followed import Followed, LoggedAuthor, handing_back
from items import PAIRS, Item, read_natural
from language import Answer, Calls, NoCall, Words, number, one
from nodes import Events
from reads import at, by_place, counts, key_of
from trees import Tree


class LoggedPairs(Followed):
    """A logged tree of pairs, which a word of a key or of a pair finds."""

    def put(self, name: str, pair: Item) -> tuple[Answer, Events]:
        """Puts a pair by the call; returns the old value, and the events."""
        raise NotImplementedError

    def key(self, words: Words) -> Item:
        """Returns an item with the key of a word, for a search."""
        return Item(number(words))

    def filled(self, size: int, value: str, keys: Words) -> str:
        """Makes a tree of keys, each with the value."""
        self.restart(Tree(size))
        for key in keys:
            self.put("insert", PAIRS.read(f"{key}:{value}"))
        self.events = []
        return ""

    def put_back(self, name: str, words: Words) -> Answer:
        """Puts the pair of a word; a refused call returns it."""
        return handing_back(one(words), lambda: self.told_if(name, *self.put(name, PAIRS.read(one(words)))))

    def remove(self, name: str, pair: Item | None) -> Answer:
        """Removes a pair, if there is one."""
        return self.told_if(name, pair, [] if pair is None else self.tree.remove(pair)[1])

    def calls(self) -> Calls:
        items = self.tree.items
        return {
            **super().calls(),
            **by_place(items, key_of, self.key),
            **self.named(("insert", "insert_cdc"), self.put_back),
            **self.named(("pop_first", "pop_first_cdc"), lambda name, w: self.remove(name, at(items, 0))),
            **self.named(("pop_last", "pop_last_cdc"), lambda name, w: self.remove(name, at(items[::-1], 0))),
            "map": lambda w: self.restart(Tree(number(w))),
            "fill": lambda w: self.filled(read_natural(w[0]), w[1], w[2:]),
            "contains_key": lambda w: any(it.key == number(w) for it in items),
        }


class LoggedMaps(LoggedPairs):
    """A logged map, and a replica that follows it."""

    def __init__(self, size: int) -> None:
        super().__init__(size, PAIRS)

    def put(self, name: str, pair: Item) -> tuple[Answer, Events]:
        old, events = self.tree.put(pair)
        return None if old is None else old.value, events

    def checked(self, name: str, words: Words) -> Answer:
        """Stores a pair unless its key is present."""
        events = handing_back(one(words), lambda: self.put_checked(name, PAIRS.read(one(words))))
        return events

    def put_checked(self, name: str, pair: Item) -> Answer:
        """Puts a pair unless its key is present."""
        events = self.tree.put_checked(pair)
        return None if events is None else self.told_if(name, "some", events)

    def held(self, words: Words) -> Item | None:
        """Returns the pair of a key."""
        return next((it for it in self.tree.items if it.key == number(words)), None)

    def command(self, name: str, word: str) -> tuple[Answer, Events]:
        match name:
            case "insert":
                return self.put(name, PAIRS.read(word))
            case "checked_insert":
                events = self.tree.put_checked(PAIRS.read(word))
                return events is not None, events or []
            case "remove":
                return self.tree.remove(Item(read_natural(word)))
            case _:
                raise NoCall(name)

    def calls(self) -> Calls:
        calls = {
            **super().calls(),
            **counts(self.tree.items),
            **self.named(("checked_insert", "checked_insert_cdc"), self.checked),
            **self.named(("remove", "remove_cdc"), lambda name, w: self.remove(name, self.held(w))),
        }
        return {**calls, "get_key_value": calls["get"], "get_key_value_by": calls["get"]}


class LoggedMapAuthor(LoggedAuthor):
    """A generator of scripts of logged maps."""

    maker = "map"

    def pair(self) -> str:
        """Returns the word of a pair whose key is present, or of any."""
        return f"{self.near()}:{self.draw.letter()}"

    def add(self) -> str:
        return f"{self.cdc(self.draw.rng.choice(('insert', 'insert', 'checked_insert')))} {self.pair()}"

    def remove(self) -> str:
        return f"{self.cdc('remove')} {self.near()}"

    def commands(self) -> Sequence[str]:
        return f"insert({self.pair()})", f"checked_insert({self.pair()})", f"remove({self.near()})"

    def find(self) -> str:
        names = ("get", "contains_key", "get_key_value", "get_key_value_by")
        return f"{self.draw.rng.choice(names)} {self.near()}"

    def rank(self) -> str:
        if self.draw.chance(0.3):
            return self.count_at()
        return f"{self.draw.rng.choice(('rank', 'index_of'))} {self.near()}"

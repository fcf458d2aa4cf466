"""The plain map: its calls, those that borrow values mutably, and the authors of their random scripts.

`next=7` at a walk writes 7 to the next value, and a last word to the value that a call borrows.
"""

from __future__ import annotations

from collections.abc import Callable, Sequence

from definitions import equal_to, in_positions, in_range, read_bound
from draw import Author, Draw, Make
from items import PAIRS, BadWord, Item, read_natural
from language import Answer, Calls, NoCall, Words, number, one, permitted
from plain import PlainAuthor, Plains
from reads import at, bounds, follow, walk

LISTS = ("pairs", "ref_pairs", "into_pairs", "all_keys", "all_values")
COMPARED = ("eq", "lt", "cmp", "partial_cmp", "hash")
WHOLE = ("len", "is_empty", "first_key_value", "last_key_value")
NODES = ("node_count", "maximum_node_size", "nodes")
SOUGHT = ("get", "get_key_value", "contains_key", "rank", "index_of", "index")
WALKS = ("iter", "into_iter", "keys", "values", "into_keys", "into_values")
SHOWN = ("key", "value", "key_value", "peek_next", "peek_prev", "move_next", "move_prev")
LENT = ("next", "next_back", "len")
ENTERED = ("entry_get_mut", "entry_into_mut", "entry_remove", "entry_remove_entry")


class Maps(Plains):
    """Two maps. A key may have a tag, as in `1:p:a`."""

    def __init__(self, size: int, is_tagged: bool = False) -> None:
        super().__init__(size, PAIRS)
        self.is_tagged = is_tagged

    def key_text(self, pair: Item) -> str:
        """Returns the text of a pair's key."""
        return self.shown(pair).rpartition(":")[0]

    def value(self, pair: Item | None) -> str | None:
        """Returns the value of a pair."""
        return None if pair is None else pair.value.rpartition(":")[2]

    def with_value(self, pair: Item, value: str) -> Item:
        """Returns the pair with another value, and its own key."""
        return pair._replace(value=f"{pair.value.rpartition(':')[0]}:{value}" if self.is_tagged else value)

    def over(self, held: Item, item: Item) -> Item:
        return self.with_value(held, self.value(item) or "")

    def compared(self, item: Item) -> Answer:
        value = self.value(item) or ""
        return (item.key, (read_natural(value), "") if value.isdigit() else (0, value))

    def numbered(self, number: int) -> Item:
        return Item(number, 0, str(number))

    def key(self, words: Words) -> Item:
        return Item(read_natural(one(words).partition(":")[0]))

    def pair(self, word: str) -> Item | None:
        """Returns the pair of a key, if any."""
        return equal_to(self.held.items, self.key([word]))

    def index(self, key: Item) -> Answer:
        """Returns the value of a present key."""
        pair = equal_to(self.held.items, key)
        permitted(pair is not None, "a key that is not there")
        return self.value(pair)

    def write(self, pair: Item, value: str) -> None:
        """Writes a value to that of a pair of the map, unless there is none to write."""
        if value:
            self.held.put(self.with_value(pair, value))

    def lent(self, pair: Item | None, value: str) -> Answer:
        """Returns the value of a pair, if there is one, and writes another."""
        if pair is not None:
            self.write(pair, value)
        return self.value(pair)

    def cursor(self, is_before: Callable[[int], bool], words: Words) -> Answer:
        """Returns the result of a cursor that begins after the keys that are before."""
        items = self.held.items
        start = sum(is_before(it.key) for it in items)
        return follow(items, start, words[1:], {"key": self.key_text, "value": self.value, "key_value": self.shown})

    def lists(self) -> Calls:
        """The calls that return all pairs, keys or values."""
        held = self.held.items
        keys, values = list(map(self.key_text, held)), list(map(self.value, held))
        return {
            **dict.fromkeys(("keys", "into_keys"), lambda w: walk(keys, w)),
            **dict.fromkeys(("values", "into_values"), lambda w: walk(values, w)),
            **dict.fromkeys(("pairs", "ref_pairs", "into_pairs"), lambda w: held),
            "all_keys": lambda w: keys,
            "all_values": lambda w: values,
        }

    def calls(self) -> Calls:
        it, held = self.held, self.held.items
        return {
            **super().calls(),
            **self.lists(),
            "map": lambda w: self.hold(self.made(self.size, self.items(w))),
            "insert": lambda w: self.value(self.insert(it, self.item(w))),
            "remove": lambda w: self.value(it.remove(self.key(w))),
            "remove_entry": lambda w: it.remove(self.key(w)),
            "first_key_value": lambda w: at(held, 0),
            "last_key_value": lambda w: at(held[::-1], 0),
            "get": self.each(lambda key: self.value(equal_to(held, key))),
            "get_key_value": self.each(lambda key: equal_to(held, key)),
            "contains_key": self.each(lambda key: equal_to(held, key) is not None),
            "index": self.each(self.index),
            "get_mut": lambda w: self.lent(self.pair(w[0]), one(w[1:])),
            "get_mut_index": lambda w: self.lent(at(held, read_natural(w[0])), one(w[1:])),
            "lower_bound": lambda w: self.cursor(lambda key: not read_bound(w[0]).is_below(key), w),
            "upper_bound": lambda w: self.cursor(read_bound(w[0]).is_above, w),
        }


class LendingMaps(Maps):
    """A map of numbers, whose entries and iterators lend values."""

    def walk(self, pairs: Sequence[Item], words: Words, are_values: bool) -> Answer:
        """Returns the result of an iterator over these pairs, and writes values."""
        remaining, answers = list(pairs), list[Answer]()
        for word in words:
            name, _, value = word.partition("=")
            if name == "len":
                answers.append(len(remaining))
            elif name == "has_next" and not are_values:
                answers.append(bool(remaining))
            elif name not in ("next", "next_back") and (are_values or name != "next_pair"):
                raise BadWord(word)
            elif not remaining:
                permitted(name != "next_pair", "a pair that is not there")
                answers.append(None)
            else:
                pair = remaining.pop(-1 if name.endswith("_back") else 0)
                answers.append(self.value(pair) if are_values else pair)
                self.write(pair, value)
        return answers

    def or_put(self, key: str, value: str, words: Words) -> Answer:
        """Returns the value of a key, which is inserted if it is absent."""
        if self.pair(key) is None:
            self.insert(self.held, Item(read_natural(key), 0, value))
        return self.lent(self.pair(key), one(words) if words else "")

    def modify(self, more: str, key: str, value: str, words: Words) -> Answer:
        """Adds to the value of a key, or inserts it."""
        held = self.pair(key)
        if held is not None:
            self.write(held, str(int(held.value) + read_natural(more)))
        return self.or_put(key, value, words)

    def insert_by_entry(self, key: str, value: str, words: Words) -> Answer:
        """Inserts by an entry, of either kind."""
        if self.pair(key) is None:
            return self.or_put(key, value, words)
        return self.value(self.insert(self.held, Item(read_natural(key), 0, value)))

    def vacant(self, key: str) -> str:
        """Returns the key of a vacant entry."""
        permitted(self.pair(key) is None, "the key of an occupied entry")
        return key

    def occupied(self, key: str) -> Item:
        """Returns the pair of an occupied entry."""
        pair = self.pair(key)
        if pair is None:
            raise NoCall("an entry that is vacant")
        return pair

    def entry(self, key: str) -> str:
        """Returns the kind of an entry, its key, and its value."""
        pair = self.pair(key)
        return f"vacant {key}" if pair is None else f"occupied {key} {pair.value}"

    def entries(self) -> Calls:
        """The calls of entries."""
        return {
            **dict.fromkeys(("or_insert", "or_insert_with"), lambda w: self.or_put(w[0], w[1], w[2:])),
            "or_insert_with_key": lambda w: self.or_put(w[0], w[0], w[2:]),
            "or_default": lambda w: self.or_put(w[0], "0", w[1:]),
            "and_modify": lambda w: self.modify(w[0], w[1], w[2], w[3:]),
            "entry": lambda w: self.entry(one(w)),
            "entry_key": one,
            "entry_into_key": lambda w: self.vacant(one(w)),
            "entry_insert": lambda w: self.insert_by_entry(w[0], w[1], w[2:]),
            **dict.fromkeys(("entry_get_mut", "entry_into_mut"), lambda w: self.lent(self.occupied(w[0]), one(w[1:]))),
            "entry_remove": lambda w: self.value(self.held.remove(self.occupied(one(w)))),
            "entry_remove_entry": lambda w: self.held.remove(self.occupied(one(w))),
        }

    def filled_by_entries(self, count: int) -> str:
        """Makes a map of numbers, each with itself as value."""
        return self.hold(self.made(self.size, map(self.numbered, range(count))))

    def calls(self) -> Calls:
        held, every = self.held.items, super().calls()
        return {
            **{name: every[name] for name in ("map", "len", "node_count", "nodes")},
            **self.entries(),
            "fill": lambda w: self.filled_by_entries(number(w)),
            "iter_mut": lambda w: self.walk(held, w, False),
            "values_mut": lambda w: self.walk(held, w, True),
            "range_mut": lambda w: self.walk(in_range(held, *bounds(w[:2])), w[2:], False),
            "range_mut_idx": lambda w: in_positions(held, *map(read_bound, w)),
        }


class MapAuthor(PlainAuthor):
    """A generator of scripts of maps."""

    maker = "map"

    def __init__(self, draw: Draw, model: Maps, name: str, sees_nodes: bool) -> None:
        super().__init__(draw, model, sees_nodes)
        self.is_tagged, self.has_letters = model.is_tagged, name in ("letter_map", "tagged_map")

    def is_long(self, name: str) -> bool:
        return name in (*LISTS, "nodes", "retain", "range", "range_rev", "range_idx", "range_mut_idx")

    def opening(self) -> list[str]:
        size = self.plains.size
        if size <= 8 or self.has_letters:
            return []
        return [f"fill {self.draw.rng.choice(('insert', 'from_sorted'))} {2 * size} 2"]

    def tag(self) -> str:
        return f":{self.draw.letter()}" if self.is_tagged else ""

    def value(self) -> str:
        """The word of a value."""
        return self.draw.letter() if self.has_letters else str(self.draw.rng.randrange(100))

    def word(self, key: int) -> str:
        return f"{key}{self.tag()}:{self.value()}"

    def adding(self) -> Sequence[tuple[int, Make]]:
        return (
            (60, lambda: f"insert {self.key()}:{self.value()}"),
            (4, lambda: " ".join(["extend", *self.some(9)])),
            (3, self.append),
            (2, self.make),
        )

    def removing(self) -> Sequence[tuple[int, Make]]:
        rng = self.draw.rng
        return (
            (30, lambda: f"{rng.choice(('remove', 'remove_entry'))} {self.key()}"),
            (16, lambda: rng.choice(("pop_first", "pop_last"))),
            (12, lambda: f"pop_index {self.draw.position(max(self.length() - 1, 0))}"),
            (2, self.retain),
            (1, lambda: f"split_off {self.key()}"),
            (1, lambda: rng.choice(("swap", "clear", "clone", "clone_of_the_trait"))),
        )

    def looking(self) -> Sequence[tuple[int, Make]]:
        rng = self.draw.rng
        both = (
            (40, lambda: f"{rng.choice(SOUGHT)} {self.keys()}"),
            (8, lambda: rng.choice(WHOLE)),
            (6, lambda: f"get_index {self.draw.position(self.length())}"),
            (4, lambda: rng.choice(LISTS)),
            (15, self.range),
            (5, lambda: rng.choice(COMPARED)),
            (6, lambda: self.walk(WALKS)),
            (8, self.cursor),
            (6, lambda: f"get_mut {self.key()} {self.value()}"),
            (4, lambda: f"get_mut_index {self.draw.position(self.length())} {self.value()}"),
            (2, lambda: rng.choice(("swap", "clone"))),
        )
        return (*both, (12, lambda: rng.choice(NODES))) if self.sees_nodes else both

    def cursor(self) -> str:
        """A cursor that is moved."""
        rng = self.draw.rng
        bound = f"{rng.choice('[(')}{self.key()}" if self.draw.chance(0.9) else ".."
        return f"{rng.choice(('lower_bound', 'upper_bound'))} {bound} {self.draw.steps((*SHOWN, self.jump()))}"


class LendingAuthor(Author):
    """A generator of scripts of the map that lends values."""

    def __init__(self, draw: Draw, model: LendingMaps) -> None:
        super().__init__(draw, model)
        self.maps = model

    def length(self) -> int:
        return len(self.maps.held.items)

    def is_long(self, name: str) -> bool:
        return name in ("nodes", "range_mut_idx")

    def key(self) -> int:
        """Returns a present key, or any."""
        return self.draw.near(self.maps.held.items)

    def value(self) -> int:
        """A value."""
        return self.draw.rng.randrange(100)

    def maybe(self) -> str:
        """Returns a value to be written to a borrowed one, or nothing."""
        return f" {self.value()}" if self.draw.chance(0.5) else ""

    def adding(self) -> Sequence[tuple[int, Make]]:
        rng = self.draw.rng
        return (
            (40, lambda: f"{rng.choice(('or_insert', 'or_insert_with'))} {self.key()} {self.value()}{self.maybe()}"),
            (10, lambda: f"or_insert_with_key {self.key()} 0{self.maybe()}"),
            (10, lambda: f"or_default {self.key()}{self.maybe()}"),
            (10, lambda: f"and_modify {self.value()} {self.key()} {self.value()}{self.maybe()}"),
            (30, lambda: f"entry_insert {self.key()} {self.value()}"),
        )

    def removing(self) -> Sequence[tuple[int, Make]]:
        return ((1, lambda: f"{self.draw.rng.choice(ENTERED[2:])} {self.key()}"),)

    def looking(self) -> Sequence[tuple[int, Make]]:
        rng = self.draw.rng
        return (
            (20, lambda: f"{rng.choice(('entry', 'entry_key', 'entry_into_key'))} {self.key()}"),
            (20, lambda: f"{rng.choice(ENTERED[:2])} {self.key()} {self.value()}"),
            (10, lambda: rng.choice(("len", "node_count", "nodes"))),
            (15, self.walk),
            (6, lambda: f"range_mut_idx {self.draw.bounds(lambda: self.draw.position(self.length()))}"),
        )

    def walk(self) -> str:
        """An iterator that borrows values mutably."""
        name = self.draw.rng.choice(("iter_mut", "values_mut", "range_mut"))
        steps = [*LENT, f"next={self.value()}", f"next_back={self.value()}"]
        head = f"range_mut {self.draw.bounds(self.key)}" if name == "range_mut" else name
        return f"{head} {self.draw.steps(steps if name == 'values_mut' else [*steps, 'has_next'])}"

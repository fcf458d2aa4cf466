"""The plain set: its calls, and the author of its random scripts."""

from __future__ import annotations

from collections.abc import Sequence

import definitions
from definitions import equal_to, rank, up_to
from draw import Make
from items import NUMBERS, Item, read_natural
from language import Answer, Calls, Words, number, permitted
from plain import PlainAuthor, Plains
from reads import at, follow

LISTS = ("items", "ref_items", "items_rev", "into_items", "into_items_rev")
ALGEBRA = ("union", "difference", "intersection", "symmetric_difference")
COMPARED = ("eq", "le", "lt", "cmp", "hash", "is_subset", "is_superset", "is_disjoint")
WHOLE = ("len", "is_empty", "first", "last")
NODES = ("node_count", "maximum_node_size", "nodes")
SOUGHT = ("get", "contains", "rank", "index_of", "lower_bound", "upper_bound")
MOVES = ("item", "peek_next", "peek_prev", "move_next", "move_prev")


class Sets(Plains):
    """Two sets."""

    def over(self, held: Item, item: Item) -> Item:
        return held

    def compared(self, item: Item) -> Answer:
        return item.key

    def numbered(self, number: int) -> Item:
        return Item(number)

    def split_off_index(self, place: int) -> str:
        """Moves the items from a position on into the second set."""
        permitted(place <= len(self.held.items), "a position that is not there")
        return self.hold(other=self.held.split_off(place))

    def index(self, place: int) -> Item:
        """Returns the item at a position within the length."""
        permitted(place < len(self.held.items), "a position that is not there")
        return self.held.items[place]

    def locate(self, words: Words) -> Answer:
        """Returns the positions that a search finds, with no more comparisons than it may make."""
        items = self.held.items
        permitted(read_natural(words[0]) >= self.held.most_comparisons(), "fewer comparisons than it may make")
        return [f"{'' if equal_to(items, it) else 'gap '}{rank(items, it)}" for it in self.items(words[1:])]

    def debug(self) -> str:
        """Returns the text of the numbers as a list."""
        permitted(self.spelling is NUMBERS, "a list of what has no such text")
        return "[" + ", ".join(map(self.shown, self.held.items)) + "]"

    def algebra(self) -> Calls:
        """The calls with both sets."""
        left, right = self.held.items, self.other.items
        return {
            "union": lambda w: definitions.union(left, right),
            "difference": lambda w: definitions.difference(left, right),
            "intersection": lambda w: definitions.intersection(left, right),
            "symmetric_difference": lambda w: definitions.symmetric_difference(left, right),
            "is_subset": lambda w: not definitions.difference(left, right),
            "is_superset": lambda w: not definitions.difference(right, left),
            "is_disjoint": lambda w: not definitions.intersection(left, right),
        }

    def calls(self) -> Calls:
        it, held = self.held, self.held.items
        return {
            **super().calls(),
            **self.algebra(),
            "set": lambda w: self.hold(self.made(self.size, self.items(w))),
            "insert": lambda w: self.insert(it, self.item(w)) is None,
            "replace": lambda w: it.put(self.item(w)),
            "take": lambda w: it.remove(self.item(w)),
            "remove": lambda w: it.remove(self.item(w)) is not None,
            "split_off_index": lambda w: self.split_off_index(number(w)),
            "first": lambda w: at(held, 0),
            "last": lambda w: at(held[::-1], 0),
            "index": lambda w: self.index(number(w)),
            "get": self.each(lambda item: equal_to(held, item)),
            "contains": self.each(lambda item: equal_to(held, item) is not None),
            "lower_bound": self.each(lambda item: at(held, rank(held, item))),
            "upper_bound": self.each(lambda item: at(held, up_to(held, item))),
            "locate_by": self.locate,
            **dict.fromkeys(("items", "ref_items", "into_items"), lambda w: held),
            **dict.fromkeys(("items_rev", "into_items_rev"), lambda w: held[::-1]),
            "debug": lambda w: self.debug(),
            "cursor_at": lambda w: follow(held, read_natural(w[0]), w[1:], {"item": lambda it: it}),
        }


class SetAuthor(PlainAuthor):
    """A generator of scripts of sets."""

    def tag(self) -> str:
        return "" if self.plains.spelling is NUMBERS else f":{self.draw.letter()}"

    def opening(self) -> list[str]:
        size = self.plains.size
        if size <= 8 or self.plains.spelling is not NUMBERS:
            return []
        return [f"fill {self.draw.rng.choice(('insert', 'insert', 'from_reversed'))} {2 * size} 2"]

    def is_long(self, name: str) -> bool:
        return name in (*LISTS, *ALGEBRA, "nodes", "retain", "range", "range_rev", "range_idx")

    def adding(self) -> Sequence[tuple[int, Make]]:
        return (
            (60, lambda: f"insert {self.key()}"),
            (20, lambda: f"replace {self.key()}"),
            (4, lambda: " ".join(["extend", *self.some(9)])),
            (3, self.append),
            (2, self.make),
        )

    def removing(self) -> Sequence[tuple[int, Make]]:
        rng = self.draw.rng
        return (
            (30, lambda: f"remove {self.key()}"),
            (20, lambda: f"take {self.key()}"),
            (16, lambda: rng.choice(("pop_first", "pop_last"))),
            (15, lambda: f"pop_index {self.draw.position(max(self.length() - 1, 0))}"),
            (2, self.retain),
            (1, lambda: f"split_off {self.key()}"),
            (1, lambda: f"split_off_index {rng.randint(0, self.length() + 1)}"),
            (1, lambda: rng.choice(("swap", "clear", "clone", "clone_of_the_trait"))),
        )

    def looking(self) -> Sequence[tuple[int, Make]]:
        rng = self.draw.rng
        both = (
            (40, lambda: f"{rng.choice(SOUGHT)} {self.keys()}"),
            (8, lambda: rng.choice(WHOLE)),
            (10, lambda: f"{rng.choice(('get_index', 'index'))} {self.draw.position(self.length())}"),
            (4, lambda: rng.choice(LISTS)),
            (17, self.range),
            (4, lambda: rng.choice(ALGEBRA)),
            (6, lambda: rng.choice(COMPARED)),
            (4, lambda: self.walk(("iter", "into_iter"))),
            (6, lambda: f"cursor_at {self.draw.position(self.length())} {self.draw.steps((*MOVES, self.jump()))}"),
            (2, lambda: rng.choice(("swap", "clone"))),
        )
        return (*both, (12, lambda: rng.choice(NODES)), (6, self.locate)) if self.sees_nodes else both

    def locate(self) -> str:
        """Returns a search that may make no more comparisons than promised."""
        held = self.plains.held
        return f"locate_by {64 if held.nodes is None else held.most_comparisons()} {self.keys()}"

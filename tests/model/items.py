"""Items, and their texts in a script.

A number is `7`, an item with a tag or with a value `7:a`, and a pair with a number `7:a #0`. A node is `[7:a,9:b]`. Two
items are equal if their keys and numbers are: the order does not read the tag or value.
"""

from __future__ import annotations

import re
from collections.abc import Callable, Sequence
from dataclasses import dataclass
from operator import itemgetter
from typing import NamedTuple

LARGEST = 2**64 - 1
DEFAULT_SIZE = 1024
NODE = re.compile(r"\[([^\[\]]*)\]")


class Item(NamedTuple):
    """A key, the other part that the order reads, and the part that it does not read."""

    key: int
    number: int = 0
    value: str = ""


class BadWord(Exception):
    """A word that is missing, or does not fit the call."""


# The parts of an item that the order compares: its key and its number.
order: Callable[[Item], tuple[int, int]] = itemgetter(0, 1)


def read_natural(word: str) -> int:
    """Returns the number of a word, which fits 64 bits."""
    if not re.fullmatch(r"[0-9]+", word) or int(word) > LARGEST:
        raise BadWord(word)
    return int(word)


@dataclass(frozen=True)
class Spelling:
    """The format of the items of a subject."""

    pattern: re.Pattern[str]
    words: int
    write: Callable[[Item], str]

    def read(self, text: str) -> Item:
        """Returns the item of a text."""
        found = self.pattern.fullmatch(text.strip())
        if found is None:
            raise BadWord(text)
        key, value, number = (found.groupdict().get(name) for name in ("key", "value", "number"))
        return Item(read_natural(key or ""), read_natural(number or "0"), value or "")

    def take(self, words: list[str]) -> Item:
        """Returns the item of the first words, which it removes."""
        text = " ".join(words[: self.words])
        del words[: self.words]
        return self.read(text)

    def write_all(self, items: Sequence[Item]) -> str:
        """Returns the texts of items, separated by blanks."""
        return " ".join(map(self.write, items))

    def read_node(self, text: str) -> list[Item]:
        """Returns the node of a text."""
        found = NODE.fullmatch(text.strip())
        if found is None:
            raise BadWord(text)
        return [self.read(it) for it in found[1].split(",") if it.strip()]

    def read_nodes(self, text: str) -> list[list[Item]]:
        """Returns the nodes of a text."""
        if NODE.sub("", text).strip():
            raise BadWord(text)
        return [self.read_node(found[0]) for found in NODE.finditer(text)]

    def write_nodes(self, nodes: Sequence[Sequence[Item]]) -> str:
        """Returns the texts of nodes, separated by blanks."""
        return " ".join("[" + ",".join(map(self.write, node)) + "]" for node in nodes)


def write_number(item: Item) -> str:
    """A key without a value."""
    return str(item.key)


def write_pair(item: Item) -> str:
    """A key with its tag or value."""
    return f"{item.key}:{item.value}"


def write_numbered(item: Item) -> str:
    """A key with its value, and the pair's number."""
    return f"{item.key}:{item.value} #{item.number}"


NUMBERS = Spelling(re.compile(r"(?P<key>\d+)"), 1, write_number)
PAIRS = Spelling(re.compile(r"(?P<key>\d+):(?P<value>\S+)"), 1, write_pair)
NUMBERED = Spelling(re.compile(r"(?P<key>\d+):(?P<value>\S+) +#(?P<number>\d+)"), 2, write_numbered)

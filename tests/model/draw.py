"""Shared by the generators of random scripts: keys, bounds, positions, and phases of growing and shrinking."""

from __future__ import annotations

import random
from collections.abc import Callable, Sequence
from dataclasses import dataclass

from items import LARGEST, Item
from language import NoCall, Subject, spelled

Make = Callable[[], str]
LETTERS = "abcdefghijklmnopqrstuvwxyz"
SMALL_SIZES = (2, 2, 3, 3, 4, 4, 5, 6, 7, 8, 8, 8)
GROW, MIX, SHRINK = (6, 1), (3, 3), (1, 6)
PHASES = (GROW, MIX, SHRINK, MIX, GROW, SHRINK, GROW, SHRINK)
MANY = 60


@dataclass
class Draw:
    """A source of random words over keys below a number."""

    rng: random.Random
    keys: int

    def chance(self, share: float) -> bool:
        """Returns true in this share of all draws."""
        return self.rng.random() < share

    def key(self) -> int:
        """Returns a key, which at times is above all."""
        return self.rng.randrange(self.keys + 2)

    def letter(self) -> str:
        """Returns a letter, of which few are drawn often."""
        return self.rng.choice(LETTERS[:5] if self.chance(0.7) else LETTERS)

    def held(self, items: Sequence[Item]) -> Item | None:
        """Returns an item of these, if any; often one near an end or beside the middle."""
        if not items:
            return None
        ends = (0, len(items) - 1, len(items) // 2, min(1, len(items) - 1))
        return items[self.rng.choice(ends) if self.chance(0.2) else self.rng.randrange(len(items))]

    def near(self, items: Sequence[Item]) -> int:
        """Returns a key: half of the time a present one, and at times the one beside it."""
        item = self.held(items)
        if item is None or self.chance(0.45):
            return self.key()
        return item.key if self.chance(0.75) else item.key + 1

    def position(self, length: int) -> int:
        """Returns a position, which at times does not exist."""
        if self.chance(0.05):
            return self.rng.choice((length, length + 1, LARGEST - 1, LARGEST))
        return self.rng.randrange(length + 1)

    def bounds(self, pick: Callable[[], int], tag: str = "") -> str:
        """Returns two bounds; those of keys are in order more often than not."""
        start, end = sorted((pick(), pick()))
        if self.chance(0.1):
            start, end = end, start
        first = ".." if self.chance(0.15) else f"{self.rng.choice('[(')}{start}{tag}"
        return f"{first} " + (".." if self.chance(0.15) else f"{end}{tag}{self.rng.choice('])')}")

    def steps(self, words: Sequence[str], least: int = 1) -> str:
        """Returns some of the words, in any order and with repeats."""
        return " ".join(self.rng.choice(words) for _ in range(self.rng.randint(least, 7)))

    def places(self, name: str, window: Sequence[int]) -> str:
        """Returns a call with these places, of which some are lost, repeated or out of order."""
        places = [place for place in window if self.chance(0.9)] or [0]
        places += [self.rng.choice(places) for _ in range(self.rng.randint(0, 3))]
        if self.chance(0.3):
            self.rng.shuffle(places)
        return " ".join([name, *map(str, places)])


class Author:
    """Generates the calls of a script, and asks the model for their results."""

    def __init__(self, draw: Draw, subject: Subject) -> None:
        self.draw, self.model = draw, subject
        self.phase: tuple[int, int] = GROW

    def adding(self) -> Sequence[tuple[int, Make]]:
        """Returns the calls that add items, each with a weight."""
        raise NotImplementedError

    def removing(self) -> Sequence[tuple[int, Make]]:
        """Returns the calls that remove items."""
        raise NotImplementedError

    def looking(self) -> Sequence[tuple[int, Make]]:
        """Returns the other calls."""
        raise NotImplementedError

    def length(self) -> int:
        """Returns the number of items of the subject."""
        raise NotImplementedError

    def one_of(self, makes: Sequence[tuple[int, Make]]) -> str:
        """Returns one of these calls."""
        return self.draw.rng.choices(makes, [weight for weight, _ in makes])[0][1]()

    def call(self) -> str:
        """Returns the next call: a third of all change nothing."""
        grow, shrink = self.phase
        groups = (self.adding, self.removing, self.looking)
        group = self.draw.rng.choices(groups, (grow, shrink, (grow + shrink) / 2))[0]
        return self.one_of(group())

    def statement(self) -> str:
        """Returns the next permitted call, with its result."""
        while True:
            call = self.call()
            is_long = self.is_long(call.split()[0])
            if is_long and self.length() > MANY and not self.draw.chance(0.04):
                continue
            try:
                return self.answered(call)
            except NoCall:
                continue

    def answered(self, call: str) -> str:
        """Returns a call with its result."""
        name, *words = spelled(call)
        return f"{call} -> {self.model.answer(name, words)}".rstrip()

    def is_long(self, name: str) -> bool:
        """Returns whether a call returns all items."""
        return False

    def opening(self) -> list[str]:
        """Yields the first calls, which fill large nodes."""
        return []

    def statements(self, count: int) -> list[str]:
        """Yields a number of statements, through phases of growing and shrinking."""
        lines = [self.answered(call) for call in self.opening()]
        while len(lines) < count:
            self.phase = PHASES[len(lines) * len(PHASES) // count]
            lines.append(self.statement())
        return lines

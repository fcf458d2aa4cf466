"""The language of the scripts: statements, and subjects with a table of calls.

A statement is a call, its words, and after `->` the words of its result. Statements of one line are separated by `;`. A
line that begins `each 0..4:` is run for each number from 0 to 3, and `each 4..0:` for each from 3 down to 0, which
replaces `@` in its statements. A word `0..4` or `4..0` means these numbers. A line that begins with `#` is a title.
"""

from __future__ import annotations

import re
from collections.abc import Callable, Iterator, Sequence
from functools import partial
from typing import NamedTuple, Union

from items import BadWord, Item, Spelling, read_natural

RANGE = re.compile(r"(\d+)\.\.(\d+)")
DONE = ""
Words = list[str]
Answer = Union[None, bool, int, str, Item, Sequence["Answer"]]
Calls = dict[str, Callable[[Words], Answer]]


class NoCall(Exception):
    """A call that no subject has, or that is not permitted there."""


class Unfixed(NoCall):
    """A call whose result no rule determines."""


class Refused(Exception):
    """A call that fails, and its result."""

    def __init__(self, cause: str, back: str = "") -> None:
        super().__init__(cause)
        self.cause, self.back = cause, back


class Statement(NamedTuple):
    """A call of a script, and its line."""

    line: int
    name: str
    words: Words
    answer: Words
    text: str


class Subject:
    """The object that a script calls: a call takes words, and returns a result."""

    def __init__(self, spelling: Spelling) -> None:
        self.spelling = spelling

    def calls(self) -> Calls:
        """Returns the calls by name."""
        raise NotImplementedError

    def shown(self, item: Item) -> str:
        """Returns the text of an item as the calls of this subject return it."""
        return self.spelling.write(item)

    def text(self, answer: Answer) -> str:
        """Returns the text of a result."""
        if answer is None:
            return "none"
        if isinstance(answer, bool):
            return "true" if answer else "false"
        if isinstance(answer, Item):
            return self.shown(answer)
        return str(answer) if isinstance(answer, (int, str)) else " ".join(map(self.text, answer))

    def perform(self, name: str, words: Words) -> str:
        """Returns the text of the result of a call."""
        call = self.calls().get(name)
        if call is None:
            raise NoCall(name)
        try:
            return self.text(call(words))
        except Refused as refused:
            return f"{refused.back} refused {refused.cause}"

    def answer(self, name: str, words: Words) -> str:
        """Returns the result of a statement: its words before the name of the call are read first."""
        match name:
            case "bare":
                return self.answer(words[0], words[1:])
            case "within":
                read_natural(words[0])
                return self.answer(words[1], words[2:])
            case "quietly" | "numbers" | "count":
                return briefly(name, self.answer(words[0], words[1:]))
            case _:
                return " ".join(self.perform(name, words).split())

    def named(self, names: Sequence[str], call: Callable[[str, Words], Answer]) -> Calls:
        """Returns several calls that differ by their names."""
        return {name: partial(call, name) for name in names}

    def item(self, words: Words) -> Item:
        """Returns the item that the words are."""
        return self.spelling.read(" ".join(words))

    def items(self, words: Words) -> list[Item]:
        """Returns the item of each word."""
        return [self.spelling.read(word) for word in words]


def briefly(name: str, whole: str) -> str:
    """Returns a result without its events, or with only their numbers, or with how many there are."""
    refused = re.search(r"refused \w+$", whole)
    if refused:
        return refused[0]
    answer, *events = whole.split(", ")
    if name == "numbers":
        return " ".join([answer, *(event.split()[0] for event in events)])
    return f"{answer} {len(events)}" if name == "count" else answer


def one(words: Words) -> str:
    """Returns the only word."""
    if len(words) != 1:
        raise BadWord(" ".join(words))
    return words[0]


def number(words: Words) -> int:
    """Returns the number that the only word is."""
    return read_natural(one(words))


def permitted(is_permitted: bool, about: str) -> None:
    """Fails if a call is not permitted."""
    if not is_permitted:
        raise NoCall(about)


def numbers_of(text: str) -> list[str]:
    """Returns the numbers of a range, up or down."""
    found = RANGE.fullmatch(text.strip())
    if found is None:
        raise BadWord(text)
    start, end = int(found[1]), int(found[2])
    upwards = [str(it) for it in range(min(start, end), max(start, end))]
    return upwards if start <= end else upwards[::-1]


def spelled(text: str) -> Words:
    """Returns the words of a text, with the numbers of each range."""
    words: Words = []
    for word in text.split():
        words += numbers_of(word) if RANGE.fullmatch(word) else [word]
    return words


def statements_of(line: str) -> Iterator[str]:
    """Returns the texts of the statements of a line, with its numbers filled in."""
    found = re.match(r"each ([^:]*):(.*)", line)
    if found is None:
        yield from line.split(";")
        return
    for each in numbers_of(found[1]):
        yield from found[2].replace("@", each).split(";")


def read(script: str) -> Iterator[Statement]:
    """Yields the statements of a script, with the numbers of their lines from 1 on."""
    for line, text in enumerate(script.splitlines(), 1):
        if text.startswith("#"):
            continue
        for statement in statements_of(text):
            call, _, answer = statement.partition("->")
            words = spelled(call)
            if words:
                yield Statement(line, words[0], words[1:], spelled(answer), statement.strip())

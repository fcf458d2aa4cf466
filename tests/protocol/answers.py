"""The reply of a follower to each line of its input, by docs/protocol.md."""

from __future__ import annotations

import dataclasses
import hashlib
import re
import urllib.parse
from bisect import bisect_left
from collections.abc import Callable, Sequence
from operator import lt
from typing import Any

MOST = 2**64 - 1
WINDOW = 4096  # by default
NUMBER = rb"(0|[1-9][0-9]*)"

Key = Any  # a number, or the bytes of a text
Pair = tuple[Key, Key]
Node = list[Pair]


def number(text: bytes) -> int:
    """Returns the number of a text, which must not have more than 64 bits."""
    value = int(text)
    if value > MOST:
        raise OverflowError
    return value


def spelled(key: Key) -> bytes:
    """Returns the text of a key or a value."""
    return b"%d" % key if isinstance(key, int) else urllib.parse.quote_from_bytes(key, safe="").encode()


def unescaped(text: bytes) -> bytes:
    """Returns the bytes of a text, which must have its only valid encoding."""
    value = urllib.parse.unquote_to_bytes(text)
    if spelled(value) != text:
        raise OverflowError
    return value


class Spelling:
    """The encoding of the keys and values of a map: the form of a text, and the value of one, if it is valid."""

    def __init__(self, form: bytes, key: Callable[[bytes], Key]) -> None:
        self.form, self.key = form, key
        pair = form + b":" + form
        parts = rb" (?:(create|drop) (PAIR)|(split) (PAIR) NUM|(merge) (PAIR) (PAIR)|(insert|remove) (PAIR) (PAIR) NUM)"
        self.event = re.compile(NUMBER + parts.replace(b"PAIR", pair).replace(b"NUM", NUMBER))
        self.node = re.compile(rb"node (PAIR(?: PAIR)*)".replace(b"PAIR", pair))

    def is_key(self, text: bytes) -> bool:
        return re.fullmatch(self.form, text) is not None

    def pair(self, text: bytes) -> Pair:
        """Returns the pair of a text."""
        key, value = text.split(b":")
        return self.key(key), self.key(value)


NUMBERS = Spelling(rb"(?:0|[1-9][0-9]*)", number)
TEXTS = Spelling(rb"(?:[A-Za-z0-9._~-]|%[0-9A-F]{2})*", unescaped)
START = re.compile(rb"start " + NUMBER + rb"(?: ([1-9][0-9]*))?")
END = re.compile(rb"end " + NUMBER + rb"(?: " + NUMBER + rb")?")
DONE = re.compile(rb"done " + NUMBER + rb" " + NUMBER)


@dataclasses.dataclass(frozen=True)
class Event:
    """An event, with its item and its index if its word has them."""

    at: int
    word: bytes
    name: Pair
    item: Pair
    index: int


def is_number(text: bytes) -> bool:
    return re.fullmatch(NUMBER, text) is not None


def shown(items: Sequence[Pair]) -> bytes:
    """Returns the text of some pairs."""
    return b" ".join(spelled(key) + b":" + spelled(value) for key, value in items)


def event_of(told: re.Match[bytes], spelling: Spelling) -> Event:
    """Returns the event of a line that has the form of one."""
    at, word, *parts = [part for part in told.groups() if part is not None]
    pairs = [spelling.pair(part) for part in parts if b":" in part]
    places = [number(part) for part in parts if b":" not in part]
    return Event(number(at), word, pairs[0], pairs[-1], places[0] if places else 0)


def is_lawful(nodes: list[Node]) -> bool:
    """Returns whether no node is empty, and the keys ascend."""
    keys = [key for node in nodes for key, _ in node]
    return all(nodes) and all(map(lt, keys, keys[1:]))


def behind(done: int) -> bytes:
    """Returns the rest of a line that names the greatest number of a command."""
    return b" %d" % done if done else b""


def snapshot(nodes: list[Node], awaited: int, done: int = 0) -> list[bytes]:
    """Returns the lines that make a follower hold these nodes, and the greatest number of a command."""
    lines = [b"start %d%b" % (awaited, behind(done))] + [b"node " + shown(node) for node in nodes]
    return [*lines, b"end %d %d" % (len(nodes), told_sum(lines))]


def told_sum(lines: list[bytes]) -> int:
    """Returns the first 64 bits of the SHA-256 of some lines."""
    return int.from_bytes(hashlib.sha256(b"".join(line + b"\n" for line in lines)).digest()[:8], "big")


def ends_below(nodes: list[Node], key: Key) -> int:
    """Returns the number of lawful nodes that end below a key."""
    return bisect_left(nodes, key, key=lambda node: node[-1][0])


def with_node(nodes: list[Node], node: Node, key: Key) -> list[Node]:
    """Returns the nodes with another one before the first that ends above or at a key."""
    place = ends_below(nodes, key)
    return [*nodes[:place], node, *nodes[place:]]


class Model:
    """The expected state and replies of a follower, and those that it writes if it is quiet."""

    leads = False

    def __init__(self, is_quiet: bool = False, window: int = WINDOW, spelling: Spelling = NUMBERS) -> None:
        self.is_quiet = is_quiet
        self.spelling = spelling
        self.nodes: list[Node] = []
        self.next = 0
        self.done = 0
        self.coming: list[Node] | None = None
        self.coming_next = 0
        self.coming_done = 0
        self.window = window
        self.early: dict[int, Event] = {}

    def named(self, name: Pair) -> int | None:
        """Returns the place of the node whose last key is that of the name, or None."""
        at = ends_below(self.nodes, name[0])
        return at if at < len(self.nodes) and self.nodes[at][-1][0] == name[0] else None

    def changed(self, at: int, event: Event) -> list[Node] | str:
        """Returns the replacement of a node, and of the next one if they are merged; or why the event does not
        apply."""
        node, item, index = self.nodes[at], event.item, event.index
        match event.word:
            case b"drop":
                return []
            case b"split":
                return [node[:index], node[index:]] if 0 < index < len(node) else "split"
            case b"merge":
                place = self.named(item)
                return "node" if place is None else [node + self.nodes[place]] if place == at + 1 else "neighbours"
            case b"insert":
                return [[*node[:index], item, *node[index:]]] if index <= len(node) else "place"
            case _:
                if index >= len(node):
                    return "place"
                if node[index][0] != item[0]:
                    return "item"
                return [[*node[:index], *node[index + 1 :]]] if len(node) > 1 else "empty"

    def step(self, event: Event) -> list[Node] | str:
        """Returns the nodes after an event, or why it does not apply."""
        if event.at == MOST:
            return "number"
        if event.word == b"create":
            nodes = with_node(self.nodes, [event.name], event.name[0])
        else:
            at = self.named(event.name)
            if at is None:
                return "node"
            changed = self.changed(at, event)
            if isinstance(changed, str):
                return changed
            end = at + 2 if event.word == b"merge" else at + 1
            nodes = [*self.nodes[:at], *changed, *self.nodes[end:]]
        return nodes if is_lawful(nodes) else "order"

    def unfit(self, reason: str) -> bytes:
        return b"unfit %d %b" % (self.next, reason.encode())

    def event(self, event: Event) -> bytes:
        if event.at < self.next:
            return b"had %d" % self.next
        if event.at - self.next > self.window:
            return b"gap %d" % self.next
        self.early[event.at] = event
        if event.at > self.next:
            return b"gap %d %d" % (self.next, min(self.early))
        while due := self.early.pop(self.next, None):
            nodes = self.step(due)
            if isinstance(nodes, str):
                return self.unfit(nodes)
            self.nodes, self.next = nodes, self.next + 1
        return b"next %d" % self.next

    def node(self, items: Node) -> bytes:
        if self.coming is None:
            return self.unfit("start")
        if not is_lawful([items]):
            return self.unfit("order")
        nodes = with_node(self.coming, items, items[0][0])
        if not is_lawful(nodes):
            return self.unfit("overlap")
        self.coming = nodes
        return b"held"

    def start(self, at: int, done: int) -> bytes:
        self.coming, self.coming_next, self.coming_done = [], at, done
        return b"held"

    def end(self, count: int, told: int | None) -> bytes:
        if self.coming is None:
            return self.unfit("start")
        came, self.coming = self.coming, None
        if len(came) != count:
            return self.unfit("count")
        if told is not None and told_sum(snapshot(came, self.coming_next, self.coming_done)[:-1]) != told:
            return self.unfit("sum")
        self.nodes, self.next, self.done, self.early = came, self.coming_next, self.coming_done, {}
        return b"next %d" % self.next

    def told_done(self, done: int, end: int) -> bytes:
        if self.next < end:
            return b"gap %d" % self.next
        self.done = max(self.done, done)
        return b"next %d" % self.next

    def asked(self, line: bytes) -> bytes | None:
        """Returns the reply to a read, or None if the line is not one or has a number of more than 64 bits."""
        try:
            return self.read(line)
        except OverflowError:
            return None

    def cut(self, line: bytes) -> bytes:
        """Returns the reply to an unterminated last line: it changes nothing, in any case."""
        told = self.asked(line)
        return b"bad" if told is None else told

    def voiced(self, line: bytes, answer: bytes) -> list[bytes]:
        """Returns the written part of a reply: by a quiet follower `missing` or `unfit` lines, and replies to
        requests."""
        is_request = line in (b"lead", b"follow") or self.asked(line) is not None
        is_told = not self.is_quiet or self.leads or is_request or answer.startswith((b"gap ", b"unfit "))
        return [answer] if is_told else []

    def written(self, line: bytes) -> list[bytes]:
        """Returns the output for a line with its end."""
        answer = self.answer(line)
        return self.voiced(line.removesuffix(b"\r"), answer)

    def written_cut(self, line: bytes) -> list[bytes]:
        """Returns the output for an unterminated last line."""
        return [self.cut(line)] if self.asked(line) is not None or self.leads or not self.is_quiet else []

    def items(self) -> list[Pair]:
        """Returns the pairs of all nodes."""
        return [item for node in self.nodes for item in node]

    def read(self, line: bytes) -> bytes | None:
        """Returns the reply to a read, or None if the line is not one."""
        match line.split(b" "):
            case [b"nodes"]:
                return b"\n".join([shown(node) for node in self.nodes] + [b"next %d" % self.next])
            case [b"next"]:
                return b"next %d" % self.next
            case [b"head", end] if is_number(end):
                return b"%b %d" % (b"gap" if self.next < number(end) else b"next", self.next)
            case [b"snapshot"]:
                return b"\n".join(snapshot(self.nodes, self.next, self.done))
            case [b"sum"]:
                told = told_sum(snapshot(self.nodes, self.next, self.done)[:-1])
                return b"sum %d %d %d%b" % (self.next, len(self.nodes), told, behind(self.done))
            case [b"len"]:
                return b"%d" % sum(map(len, self.nodes))
            case [b"first"]:
                return shown(self.items()[:1]) or b"none"
            case [b"last"]:
                return shown(self.items()[-1:]) or b"none"
            case [b"get", key] if self.spelling.is_key(key):
                wanted = self.spelling.key(key)
                return shown([item for item in self.items() if item[0] == wanted]) or b"none"
            case [b"rank", key] if self.spelling.is_key(key):
                bound = self.spelling.key(key)
                return b"%d" % sum(item[0] < bound for item in self.items())
            case [b"at", place] if is_number(place):
                at = number(place)
                return shown(self.items()[at : at + 1]) or b"none"
            case [b"range", first, last] if self.spelling.is_key(first) and self.spelling.is_key(last):
                low, high = self.spelling.key(first), self.spelling.key(last)
                return shown([item for item in self.items() if low <= item[0] <= high]) or b"none"
            case [b"page", place, count] if is_number(place) and is_number(count):
                at, many = number(place), number(count)
                return shown(self.items()[at : at + many]) or b"none"
        return None

    def answer(self, line: bytes) -> bytes:
        """Returns the reply to a line with its end, to which one byte 13 before the byte 10 belongs."""
        return self.told(line.removesuffix(b"\r"))

    def told(self, line: bytes) -> bytes:
        """Returns the reply to an unterminated line."""
        try:
            if event := self.spelling.event.fullmatch(line):
                return self.event(event_of(event, self.spelling))
            if node := self.spelling.node.fullmatch(line):
                return self.node([self.spelling.pair(part) for part in node[1].split(b" ")])
            if start := START.fullmatch(line):
                return self.start(number(start[1]), number(start[2] or b"0"))
            if end := END.fullmatch(line):
                return self.end(number(end[1]), number(end[2]) if end[2] else None)
            if done := DONE.fullmatch(line):
                return self.told_done(number(done[1]), number(done[2]))
        except OverflowError:
            return b"bad"
        return self.cut(line)

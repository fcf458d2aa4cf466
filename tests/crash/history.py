"""The output of a leader, and the effects of its commands."""

from __future__ import annotations

import pathlib

from kept import Found, Model, Wrong, is_event, number_of

OLD = 50_000  # events that are known


def perform(pairs: dict[int, int], done: int, command: str) -> int:
    """Does to a plain map what a command does, and returns the greatest number of a command."""
    words = command.split(" ")
    if words[0].startswith("#"):
        done = max(done, int(words.pop(0)[1:]))
    match words:
        case ["put", key, value]:
            pairs[int(key)] = int(value)
        case ["cut", key]:
            pairs.pop(int(key), None)
    return done


class History:
    """The output of a leader: its events, and its `done` lines by the number of the event after each."""

    def __init__(self) -> None:
        self.events: dict[int, str] = {}
        self.done: dict[int, list[int]] = {}
        self.next = 0  # after the last emitted event

    def tell(self, line: str) -> None:
        """Adds a line of the leader's output."""
        words = line.split(" ")
        if is_event(line):
            self.keep(line)
            self.next = max(self.next, int(words[0]) + 1)
        elif words[0] == "done":
            self.mark(int(words[2]), int(words[1]))
        elif words[0] == "next":
            self.next = max(self.next, int(words[1]))

    def keep(self, event: str) -> None:
        """Adds an event, which must equal a known one of its number."""
        if self.events.setdefault(number_of(event), event) != event:
            raise Wrong(f"there is {event}, and was {self.events[number_of(event)]}")

    def mark(self, number: int, done: int) -> None:
        found = self.done.setdefault(number, [])
        if done not in found:
            found.append(done)

    def cut(self, end: int) -> None:
        """Forgets the events and marks from event `end` on, and old ones."""
        self.events = {number: it for number, it in self.events.items() if end - OLD <= number < end}
        self.done = {number: it for number, it in self.done.items() if end - OLD <= number <= end}
        self.next = end

    def lines(self, begin: int, end: int) -> list[str]:
        """Returns the lines from event `begin` to event `end`."""
        marks = {
            number: [f"done {it} {number}" for it in self.done.get(number, [])] for number in range(begin, end + 1)
        }
        return marks[begin] + [line for it in range(begin, end) for line in (self.events[it], *marks[it + 1])]

    def has_all(self, begin: int, end: int) -> bool:
        return all(number in self.events for number in range(begin, end))

    def after(self, model: Model, end: int) -> Model:
        """Returns the nodes of a model after the events up to `end`."""
        model = model.copy()
        for number in range(model.next, end):
            model.take(self.events[number])
        return model


class Side:
    """A file, and its content."""

    def __init__(self, file: pathlib.Path) -> None:
        self.file, self.found = file, Found([], 0, Model())
        self.is_other = False  # it holds events that the leader does not have

    @property
    def model(self) -> Model:
        return self.found.model

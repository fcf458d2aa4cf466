"""Calls that read an ascending list: by keys, by positions, by iterators and by cursors."""

from __future__ import annotations

from collections.abc import Callable, Sequence
from typing import Union

from definitions import Bound, bounds_are_ordered, in_positions, in_range, read_bound
from items import BadWord, Item, order, read_natural
from language import Answer, Calls, Words, number, one, permitted

Place = Union[int, tuple[int, int]]


def key_of(item: Item) -> int:
    """Returns the key of an item."""
    return item.key


def at(items: Sequence[Item], place: int) -> Item | None:
    """Returns the item at a position, if any."""
    return items[place] if place < len(items) else None


def ends(items: Sequence[Item], first: str = "first", last: str = "last") -> Calls:
    """The first and the last item, and the length."""
    return {
        "len": lambda w: len(items),
        "is_empty": lambda w: not items,
        first: lambda w: at(items, 0),
        last: lambda w: at(items[::-1], 0),
    }


def bounds(words: Words) -> tuple[Bound, Bound]:
    """Returns two bounds of keys, which are in order."""
    start, end = map(read_bound, words)
    permitted(bounds_are_ordered(start, end), "bounds that are not in order")
    return start, end


def by_range(items: Sequence[Item], back: str) -> Calls:
    """Items between two keys or two positions, from the start and from the back."""
    return {
        "range": lambda w: in_range(items, *bounds(w)),
        f"range{back}": lambda w: in_range(items, *bounds(w))[::-1],
        "range_idx": lambda w: in_positions(items, *map(read_bound, w)),
        f"range_idx{back}": lambda w: in_positions(items, *map(read_bound, w))[::-1],
        "get_index": lambda w: at(items, number(w)),
    }


def rank(places: Sequence[Place], place: Place) -> int:
    """Returns how many of the places are below one."""
    return sum(it < place for it in places)  # type: ignore[operator]


def index_of(places: Sequence[Place], place: Place) -> int | None:
    """Returns the position of the first of the places that is this one, if any."""
    return rank(places, place) if place in places else None


def by_place(items: Sequence[Item], of: Callable[[Item], Place], read: Callable[[Words], Item]) -> Calls:
    """Looks up the items whose place, by their order or by their key, is that of an item that is read."""
    places = list(map(of, items))

    def gap(words: Words) -> Answer:
        place = of(read(words))
        return rank(places, place) if place in places else f"gap {rank(places, place)}"

    def first(words: Words) -> Item | None:
        index = index_of(places, of(read(words)))
        return None if index is None else items[index]

    return {
        "get": first,
        "contains": lambda w: first(w) is not None,
        "rank": lambda w: rank(places, of(read(w))),
        "ranks": lambda w: [rank(places, it) for it in places],
        "index_of": lambda w: index_of(places, of(read(w))),
        "position_by": gap,
        "count_of": lambda w: places.count(of(read(w))),
    }


def counts(items: Sequence[Item]) -> Calls:
    """The numbers of items before a start, and up to an end."""
    return {
        "count_before": lambda w: sum(not read_bound(one(w)).is_below(it.key) for it in items),
        "count_up_to": lambda w: sum(read_bound(one(w)).is_above(it.key) for it in items),
    }


def of_items(items: Sequence[Item], read: Callable[[Words], Item]) -> Calls:
    """All reads of a list by its items and by positions."""
    return by_place(items, order, read) | by_range(items, "_back") | counts(items)


def walk(given: Sequence[Answer], words: Words) -> Answer:
    """Returns the result of an iterator at each word: the first or the last of the remaining ones, and their number."""
    remaining, answers = list(given), list[Answer]()
    for word in words:
        if word in ("next", "next_back"):
            answers.append(remaining.pop(0 if word == "next" else -1) if remaining else None)
        elif word == "len":
            answers.append(len(remaining))
        elif word == "size_hint":
            answers.append(f"({len(remaining)}, Some({len(remaining)}))")
        else:
            raise BadWord(word)
    return answers


def moved(length: int, position: int, name: str, index: str) -> int:
    """Returns the position of a cursor after a word: from 0 to the length, which is past the end; it goes round."""
    match name:
        case "move_next":
            return 0 if position == length else position + 1
        case "move_prev":
            return length if position == 0 else position - 1
        case "move_index":
            return min(read_natural(index), length)
        case _:
            return position


def shown_by(length: int, position: int, name: str, index: str) -> int:
    """Returns the position that a word shows, or one without an item."""
    match name:
        case "peek_next":
            return moved(length, position, "move_next", "")
        case "peek_prev":
            return position - 1
        case "peek_index":
            return read_natural(index)
        case _:
            return position


def follow(items: Sequence[Item], start: int, words: Words, parts: dict[str, Callable[[Item], Answer]]) -> Answer:
    """Returns the result of a cursor at each word; `parts` are the words for the parts of the item at its position."""
    position, answers = min(start, len(items)), list[Answer]()
    for word in words:
        name, _, index = word.partition("=")
        if name.startswith("move_"):
            position = moved(len(items), position, name, index)
            continue
        if name not in ("peek_next", "peek_prev", "peek_index", *parts):
            raise BadWord(word)
        place = shown_by(len(items), position, name, index)
        item = items[place] if 0 <= place < len(items) else None
        answers.append(None if item is None else parts.get(name, lambda it: it)(item))
    return answers

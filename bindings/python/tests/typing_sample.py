"""The types of the package: `mypy --strict` accepts this program, and each annotation would be an error if it were
wrong."""
from __future__ import annotations

from array import array
from typing import Optional, Union

from indexset import Change, LoggedDict, Replica, SortedDict, SortedKeyList, SortedList, SortedMultiDict, SortedSet


def sets() -> int:
    numbers: SortedSet[int] = SortedSet([3, 1])
    numbers.add(2)
    least: int = numbers[0]
    part: list[int] = numbers[:2]
    names = SortedSet(keys="str")
    names.add("a")
    first: str = names[0]
    floats: SortedSet[float] = SortedSet([0.5], keys="float64")
    union: SortedSet[int] = numbers | [5]
    by_size = SortedSet(["fig", "pear"], key=len)
    longest: str = by_size.pop()
    for number in numbers.irange(1, 2):
        least += number
    return least + len(part) + len(first) + int(floats[0]) + union.bisect_left(4) + len(longest)


def first(names: SortedSet[str]) -> str:
    return names[0]


def texts(names: SortedSet[str], others: SortedList[str], ages: SortedDict[str, int]) -> list[str]:
    """Each result has a precise type. (Not run: texts and numbers cannot be compared.)"""
    both: SortedSet[str] = names | ["x"]
    mixed: SortedSet[Union[str, int]] = names | [1]
    rest: SortedSet[str] = (names & {1, "a"}) - [None]
    more: SortedList[str] = others + ["y"]
    twice: SortedList[str] = more * 2
    part: list[str] = names[1:]
    age: int = ages.setdefault("a", 1)
    name: str = ages.keys()[0]
    pair: tuple[str, int] = ages.items()[-1]
    some: list[int] = ages.values()[:2]
    copied: SortedDict[str, int] = ages.copy()
    widened: SortedDict[Union[str, int], Union[int, float]] = copied | {1: 0.5}
    zeros: SortedDict[str, int] = SortedDict.fromkeys(names, 0)
    gone: Union[int, None] = zeros.pop("a", None)
    last: str = twice.copy().pop()
    numbers: array[int] = SortedSet([age, *some]).to_array()
    found = [first(both), name, pair[0], last, f"{len(mixed)} {len(rest)} {len(widened)} {gone} {numbers[0]}"]
    return [*found, *part]


def lists() -> float:
    numbers: SortedList[float] = SortedList([0.5, 0.5])
    numbers.update([1.5])
    total: float = sum(numbers)
    words: SortedKeyList[str] = SortedKeyList(["b"], key=len)
    word: str = words[0]
    return total + numbers.count(0.5) + len(word) + words.bisect_key_left(1)


def dictionaries() -> Optional[str]:
    ages: SortedDict[str, int] = SortedDict({"a": 1})
    ages["b"] = 2
    key, value = ages.peekitem(0)
    name: str = key
    age: int = value + ages[name]
    by_number = SortedDict({1: "x"})
    found: Optional[str] = by_number.get(age)
    for one, other in by_number.items():
        found = other * one
    named: SortedDict[str, float] = SortedDict(keys="str")
    named["x"] = 0.5
    keys: list[str] = list(named.keys())
    return found or keys[0]


def pairs() -> int:
    tags: SortedMultiDict[str, int] = SortedMultiDict([("a", 1)])
    values: list[int] = tags["a"]
    told: list[Change] = []
    log: LoggedDict[int, str] = LoggedDict(told.append, {1: "x"})
    log[2] = "y"
    replica: Replica[int, str] = Replica(log)
    replica.apply_all(told)
    text: str = replica[1]
    nodes: list[list[tuple[int, str]]] = replica.nodes()
    name, age = tags.peekitem(0)
    last: tuple[int, str] = replica.peekitem()
    for one, other in log.islice(1):
        text += other * one
    keys: list[int] = list(log.keys())
    maybe: Optional[str] = log.get(7)
    some: str = log.get(1, "z") + log.setdefault(1, "w")
    log.update({5: "v"})
    popped: str = log.pop(5)
    pair: tuple[int, str] = log.popitem()
    text += f"{maybe}{some}{popped}{pair[1]}"
    return values[0] + len(text) + len(nodes) + len(name) + age + last[0] + keys[log.bisect_left(2)]


if __name__ == "__main__":
    print(sets(), lists(), dictionaries(), pairs())

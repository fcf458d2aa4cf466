"""The subjects of the scripts that the model has, and random scripts of each family.

The same seed, number of calls and family give the same scripts. A call counts once for each node size, and for each
kind of node, at which its script is run.
"""

from __future__ import annotations

import random
from collections.abc import Iterator
from typing import NamedTuple

from draw import SMALL_SIZES, Author, Draw
from followed import Followed, LoggedAuthor
from items import NUMBERED, NUMBERS, PAIRS
from language import Subject
from logged_maps import LoggedMapAuthor, LoggedMaps
from logged_sets import LoggedSetAuthor, LoggedSets
from maps import LendingAuthor, LendingMaps, MapAuthor, Maps
from multimaps import MultiMapAuthor, MultiMaps
from replicas import ReplicaAuthor, Replicas
from sets import SetAuthor, Sets

CAPACITIES = {"logged_set": (2, 3, 4, 8, 10), "logged_map": (2, 4, 8), "multimap": (3, 4)}
WEIGHTS = {"set": 2, "map": 2, "logged_set": 2, "logged_map": 2, "multimap": 2, "replica": 1}
AUTHORS = {"logged_set": LoggedSetAuthor, "logged_map": LoggedMapAuthor, "multimap": MultiMapAuthor}


class Script(NamedTuple):
    """A script, and the number of its calls."""

    text: str
    calls: int


class Start(NamedTuple):
    """The first statement of a script, its author, and how often it is played."""

    head: str
    author: Author
    plays: int


def subject_of(name: str, size: int) -> Subject | None:
    """Returns the subject of a name, over nodes of any kind, if the model has one."""
    spelling = PAIRS if name.startswith(("tagged_", "letter_")) else NUMBERS
    match name.partition("+")[0].removeprefix("owned_").removeprefix("metered_"):
        case "set" | "tagged_set":
            return Sets(size, spelling)
        case "map" | "letter_map" | "tagged_map":
            return Maps(size, name.startswith("tagged_"))
        case "lending_map":
            return LendingMaps(size)
        case "numbered_replica":
            return Replicas(NUMBERED)
        case "replica" | "tagged_replica" | "letter_replica":
            return Replicas(spelling)
        case _:
            return tree_of(name, size)


def tree_of(name: str, size: int) -> Followed | None:
    """Returns the logged subject of a name, if there is one."""
    match name.partition("+")[0].removeprefix("owned_").removeprefix("metered_"):
        case "logged_set" | "tagged_logged_set":
            return LoggedSets(size, PAIRS if name.startswith("tagged_") else NUMBERS)
        case "logged_map":
            return LoggedMaps(size)
        case "multimap":
            return MultiMaps(size)
        case _:
            return None


def sized(rng: random.Random) -> tuple[int, int]:
    """Returns a node size, and the number of keys that fills some nodes of it."""
    share = rng.random()
    if share < 0.85:
        return rng.choice(SMALL_SIZES), rng.choice((6, 12, 25, 60, 120))
    return (64, 250) if share < 0.96 else (1024, 3000)


def plain_start(family: str, rng: random.Random) -> Start:
    """Returns a script of sets or maps: it sees nodes, or is run at several node sizes."""
    size, keys = sized(rng)
    names = {
        "set": ("set", "set", "set", "tagged_set", "owned_set"),
        "map": ("map", "map", "letter_map", "tagged_map", "owned_map", "lending_map", "lending_map"),
    }
    name, draw, sees_nodes = rng.choice(names[family]), Draw(rng, keys), rng.random() < 0.75
    if name == "lending_map":
        return Start(f"make {name} {size}", LendingAuthor(draw, LendingMaps(size)), 1)
    author: Author
    if family == "set":
        author = SetAuthor(draw, Sets(size, PAIRS if name == "tagged_set" else NUMBERS), sees_nodes)
    else:
        author = MapAuthor(draw, Maps(size, name == "tagged_map"), name, sees_nodes)
    return Start(f"make {name} {size}", author, 1) if sees_nodes else Start(f"make {name} 2 5 64", author, 3)


def tree_start(family: str, rng: random.Random) -> Start:
    """Returns a script of a logged tree in vectors, or also in nodes of a fixed capacity."""
    size, keys = sized(rng)
    limits = [it for it in CAPACITIES[family] if it >= size]
    limit = rng.choice(limits) if limits and rng.random() < 0.4 else None
    name = family if limit is None else f"{family}+array_{limit}"
    if limit is None and rng.random() < 0.3:
        name = f"{rng.choice(('owned', 'tagged') if family == 'logged_set' else ('owned',))}_{family}"
    model = tree_of(name, size)
    assert model is not None
    author: LoggedAuthor = AUTHORS[family](Draw(rng, keys), model, size, limit)
    return Start(f"make {name} {size}", author, 1 if limit is None else 2)


def replica_start(rng: random.Random) -> Start:
    """Returns a script of a replica."""
    size, keys = rng.choice(SMALL_SIZES), rng.choice((6, 12, 25, 60))
    name = rng.choice(("replica", "tagged_replica", "letter_replica", "numbered_replica", "owned_replica"))
    spellings = {"tagged_replica": PAIRS, "letter_replica": PAIRS, "numbered_replica": NUMBERED}
    model = Replicas(spellings.get(name, NUMBERS))
    by_keys = name in ("letter_replica", "numbered_replica")
    return Start(f"make {name} 2", ReplicaAuthor(Draw(rng, keys), model, size, by_keys), 1)


def start_of(family: str, rng: random.Random) -> Start:
    """Returns the start of a script of a family."""
    if family in ("set", "map"):
        return plain_start(family, rng)
    return replica_start(rng) if family == "replica" else tree_start(family, rng)


def scripts(family: str, calls: int, seed: int) -> Iterator[Script]:
    """Yields scripts of a family, of a number of calls together."""
    rng = random.Random(f"{family} {seed}")
    while calls > 0:
        start = start_of(family, rng)
        count = min(rng.randint(200, 1200), max(20, calls // start.plays))
        text = "\n".join([start.head, *start.author.statements(count)])
        calls -= count * start.plays
        yield Script(f"{text}\n", count * start.plays)


def share(family: str, calls: int) -> int:
    """Returns the number of calls of a family, of those of all."""
    return calls * WEIGHTS[family] // sum(WEIGHTS.values())

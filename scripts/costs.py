"""The costs of calls, from scripts/costs.txt: `write_docs.py` writes them to the pages of the reference."""

from __future__ import annotations

import dataclasses
import pathlib

FILE = pathlib.Path(__file__).resolve().parent / "costs.txt"
# The head of a page with costs explains them.
ABOUT = (
    "*Cost*, at most: n is the length, n' that of the other collection, m the number of nodes, B the node size (1024"
    " unless given), L = digits(m) + digits(B) + 1 the comparisons of a look-up, digits being the bit length, and p the"
    " number of pairs of a key, or of items that a comparator finds Equal. *Moves* are elements; a node that comes or"
    " goes also moves the headers of the nodes after it. A position reads digits(m) cells of the index in a plain"
    " collection, and in a logged one digits(m / 32 + 1) cells and up to 32 node lengths. A call without a cost"
    " compares, moves and allocates nothing. Proved are the comparisons of `locate_by`, `get_by` and `places_by`, and"
    " the reads of `find_in` and `prefix_in`; the other numbers describe the code."
)


@dataclasses.dataclass(frozen=True)
class Cost:
    """The cost of a call."""

    comparisons: str
    moves: str
    allocates: str

    def text(self) -> str:
        """Returns the cost as one sentence, without a capital."""
        parts = [f"comparisons {self.comparisons}" * bool(self.comparisons), f"moves {self.moves}" * bool(self.moves)]
        parts.append("allocates" if self.allocates == "yes" else f"allocates {self.allocates}" * bool(self.allocates))
        return "; ".join(part for part in parts if part) + "."


@dataclasses.dataclass(frozen=True)
class Line:
    """A line of the file: the cost of some calls, of the pages that have a call of the name."""

    pages: list[str]
    calls: list[str]
    cost: Cost


def lines() -> list[Line]:
    """Returns the lines of the file."""
    read = (
        text.split("|") for text in FILE.read_text(encoding="utf-8").splitlines() if text and not text.startswith("#")
    )
    return [Line(pages.split(), calls.split(), Cost(*(part.strip() for part in cost))) for pages, calls, *cost in read]


LINES = lines()
COSTS = {(page, call): line.cost for line in LINES for page in line.pages for call in line.calls}


def key_of(page: str, owner: str, name: str) -> tuple[str, str]:
    """Returns the name of a call in the file."""
    return page, name if owner.startswith("BTree") else f"{owner}::{name}"


def line(page: str, owner: str, name: str, complexity: str) -> str:
    """Returns the line of a page on the cost of a call, or an empty string: its docs' `Complexity`, and its numbers."""
    cost = COSTS.get(key_of(page, owner, name))
    numbers = cost.text() if cost else ""
    said = f"{complexity} At most: {numbers}" if complexity and numbers else complexity or numbers
    return f"*Cost:* {said}" if said else ""


def has(page: str) -> bool:
    """Returns whether a page has costs."""
    return any(of == page for of, _ in COSTS)


def unknown(calls: set[tuple[str, str, str]]) -> list[str]:
    """Returns the names in the file that are not calls: each call is given by its page, its type and its name."""
    named = {key_of(*call) for call in calls}
    return sorted(
        call for line in LINES for call in line.calls if not any((page, call) in named for page in line.pages)
    )

#!/usr/bin/env python3
"""Draws docs/crates.svg: the crates of crates.txt, each above those that it uses.

An arrow points to a crate that is used directly, and not also through another one. If several crates use the same
ones, a bar joins their arrows. It fails if a crate of the product has no place in the picture, or uses one that is not
below it.
"""

from __future__ import annotations

import itertools
import sys

sys.dont_write_bytecode = True
import drawing  # noqa: E402
from drawing import TOP, Number, Shapes, arrow, box, paint, text, title  # noqa: E402

WIDE, LEFT, STEP, HEAD, PITCH, HIGH, HALF, EDGE = 984, 162, 124, 8, 78, 44, 56, 17
GROUP = "example_*"
# Each layer from top to bottom, its name by lines, and its rows: the column of each crate, and what it is.
Row = dict[str, tuple[float, str]]
LAYERS: list[tuple[list[str], list[Row]]] = [
    (
        ["programs,", "exports"],
        [
            {
                "indexset_c": (0, "exports to C"),
                GROUP: (1, "programs to copy"),
                "indexset_uses": (2, "proved callers"),
                "indexset_program": (3, "set and map"),
                "indexset_store": (4.5, "leader, follower"),
            }
        ],
    ),
    (
        ["a map", "over lines"],
        [
            {"indexset_keep": (5.5, "a map in a file")},
            {
                "indexset_text": (4, "texts as keys"),
                "indexset_follow": (5, "lead and follow"),
                "indexset_journal": (6, "lines in SQLite"),
            },
        ],
    ),
    (
        ["over all", "collections"],
        [
            {
                "indexset_ffi": (0, "handles"),
                "indexset": (1, "paths to import"),
                "indexset_bench": (3, "lists of commands"),
            }
        ],
    ),
    (
        ["collections"],
        [
            {
                "indexset_map": (0, "a set of pairs"),
                "indexset_multi": (1, "logged multimap"),
                "indexset_replica": (2, "follows events"),
            },
            {
                "indexset_set": (0, "an ordered list"),
                "indexset_log": (1, "logged set, map"),
                "indexset_wire": (3, "texts of events"),
            },
        ],
    ),
    (
        ["below"],
        [
            {
                "indexset_spine": (0, "nodes, positions"),
                "indexset_events": (2, "and their replay"),
                "indexset_lines": (3.3, "input, output"),
            },
            {"indexset_index": (1, "Fenwick tree")},
            {"indexset_core": (2.15, "order, searches, nodes, keys of text, errors")},
        ],
    ),
]
ROWS = [row for _, rows in LAYERS for row in rows]
PLACES = {name: (at, column) for at, row in enumerate(ROWS) for name, (column, _) in row.items()}
WIDER = {"indexset_core": 1.6 * STEP}  # by how much on each side

Uses = dict[str, set[str]]
Bar = tuple[list[str], list[str]]  # crates, and what each of them uses


def used() -> Uses:
    """The crates of the product, those of each program to copy as one, and which of them each uses."""
    found: Uses = {}
    for line in (TOP / "crates.txt").read_text(encoding="utf-8").split("\n# Tests")[0].splitlines():
        names, _, uses = line.partition(":")
        name = GROUP if names.startswith("example_") else names.split()[0]
        found.setdefault(name, set()).update(uses.split())
    for name, uses_of in found.items():
        uses_of.intersection_update(found)
        if wrong := [it for it in (name, *uses_of) if it not in PLACES]:
            sys.exit(f"no place in the picture: {', '.join(wrong)}")
        if wrong := [it for it in uses_of if PLACES[it][0] <= PLACES[name][0]]:
            sys.exit(f"{name} is not above {', '.join(wrong)}")
    if lost := PLACES.keys() - found.keys():
        sys.exit(f"not in crates.txt: {', '.join(sorted(lost))}")
    return found


def direct(uses: Uses) -> Uses:
    """What each crate uses, and not also through another one."""

    def below(name: str) -> set[str]:
        return uses[name].union(*map(below, uses[name]))

    return {name: of - set[str]().union(*map(below, of)) for name, of in uses.items()}


def bars(uses: Uses) -> list[Bar]:
    """The groups of crates that use the same two or more."""
    shared = {frozenset(uses[a] & uses[b]) for a, b in itertools.combinations(sorted(uses), 2)}
    return [([it for it in uses if of <= uses[it]], sorted(of)) for of in sorted(shared, key=sorted) if len(of) > 1]


def across(name: str) -> float:
    return LEFT + STEP * PLACES[name][1]


def down(row: int) -> int:
    return HEAD + PITCH * row + EDGE


def landing(x: float, name: str) -> float:
    """Where an arrow that begins at x meets a box below."""
    return x if name in WIDER else across(name) + min(max(0.25 * (x - across(name)), 14 - HALF), HALF - 14)


def a_line(x0: Number, y0: Number, x1: Number, y1: Number) -> Shapes:
    return [f'<line x1="{x0:.1f}" y1="{y0}" x2="{x1:.1f}" y2="{y1}" {paint(line="ink")} stroke-width="1.4"/>']


def a_bar(bar: Bar, aside: set[str]) -> Shapes:
    """A bar below the lowest of its crates, arrows from it, and lines to it; further left from crates with more."""
    crates, of = bar
    y = down(max(PLACES[it][0] for it in crates)) + HIGH + 14
    tops = [(it, across(it) - (26 if it in aside else 0)) for it in crates]
    ends = [*(x for _, x in tops), *map(across, of)]
    shapes = [shape for it, x in tops for shape in a_line(x, down(PLACES[it][0]) + HIGH, x, y)]
    shapes += [shape for it in of for shape in arrow(across(it), y, across(it), down(PLACES[it][0]) - 1)]
    return shapes + a_line(min(ends), y, max(ends), y)


def arrows(uses: Uses) -> Shapes:
    found, shapes = bars(uses), Shapes()
    joined = {(it, below) for crates, of in found for it in crates for below in of}
    left = {name: sorted(it for it in of if (name, it) not in joined) for name, of in uses.items()}
    aside = {name for name, of in left.items() if of}
    for bar in found:
        shapes += a_bar(bar, aside)
    in_bars = {it for crates, _ in found for it in crates}
    for name, of in left.items():
        for below in of:
            x = across(name) + (26 if name in in_bars else 0)
            shapes += arrow(x, down(PLACES[name][0]) + HIGH, landing(x, below), down(PLACES[below][0]) - 1)
    return shapes


def layers() -> Shapes:
    """The layers with their names, and the box of each crate."""
    shapes, at = Shapes(), 0
    for words, rows in LAYERS:
        y = down(at) - EDGE + 4
        shapes += box(12, y, WIDE - 24, PITCH * len(rows) - 8, paint("card"), 'rx="6"')
        for line, word in enumerate(words):
            shapes += text(22, y + 22 + 15 * line, word, colour="soft")
        at += len(rows)
    return shapes


def crates() -> Shapes:
    shapes = Shapes()
    for at, row in enumerate(ROWS):
        for name, (_, says) in row.items():
            half, x, y = HALF + WIDER.get(name, 0), across(name), down(at)
            short = name.removeprefix("indexset_")
            shapes += box(x - half, y, 2 * half, HIGH, paint("node", "soft"), 'rx="4"')
            shapes += title(x, y + 18, short, "middle")
            shapes += text(x, y + 35, says, "middle", "soft", 'font-size="11"')
    return shapes


def legend() -> Shapes:
    words = [
        "A box is the crate indexset_NAME,",
        "but indexset and example_*.",
        "An arrow: uses. What is also used through",
        "another crate has none. A bar: each crate",
        "above it uses each one below it.",
    ]
    return [shape for at, it in enumerate(words) for shape in text(690, down(4) + 30 + 18 * at, it, colour="soft")]


def draw() -> str:
    high = down(len(ROWS)) - EDGE + 8
    return drawing.svg(WIDE, high, layers() + arrows(direct(used())) + crates() + legend())


if __name__ == "__main__":
    drawing.main("Draws docs/crates.svg.", "crates.svg", draw)

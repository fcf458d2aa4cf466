#!/usr/bin/env python3
"""Draws docs/speed.svg from the tables of docs/benchmarks.md: times by number of keys, a line a library."""

from __future__ import annotations

import math
import pathlib
import re
import sys
from collections.abc import Callable

TREE = pathlib.Path(__file__).resolve().parent.parent
sys.dont_write_bytecode = True
sys.path.insert(0, str(TREE / "scripts"))
import drawing  # noqa: E402
from drawing import Shapes, paint, text, title  # noqa: E402
from tables import Rows  # noqa: E402

PAGE = TREE / "docs/benchmarks.md"
MARKS = ("<!-- bench/run: sets -->", "<!-- bench/run: end of sets -->")
PANELS = [
    "insert",
    "insert, ascending",
    "contains",
    "element at a position",
    "rank",
    "range of 100",
    "pop_first",
    "pop_last",
    "remove",
    "append, all above",
    "equality",
    "iterate",
]
COLOURS = ["blue", "orange", "green", "purple", "olive"]
WIDTH, HEIGHT, LEFT, RIGHT, TOP, COLUMNS = 300, 200, 52, 34, 30, 3
HEAD, FOOT = 64, 24  # the height of the legend above the panels, and of the line below them
SAID = (
    "Nanoseconds (ns) or microseconds (µs) an operation, by number of keys; lower is better."
    " Both scales are logarithmic."
)
LEAST = 0.1  # nanoseconds: smaller times are drawn as this

Points = list[tuple[int, float]]  # numbers of keys, each with its nanoseconds
Times = dict[str, dict[int, Rows]]  # rows by library and number of keys


def on_page() -> tuple[list[str], Times]:
    """The libraries of the tables of sets, and their figures."""
    part = PAGE.read_text(encoding="utf-8").split(MARKS[0])[1].split(MARKS[1])[0]
    names: list[str] = []
    found: Times = {}
    for keys, table in re.findall(r"^### ([\d,]+) keys\n\n(.*?)\n\n", part, re.M | re.S):
        head, _, *lines = ([cell.strip() for cell in line.strip("|").split("|")] for line in table.splitlines())
        names = head[1:]
        for what, *cells in lines:
            for name, cell in zip(names, cells):
                rows = found.setdefault(name, {}).setdefault(int(keys.replace(",", "")), {})
                rows.update({} if cell == "–" else {what: float(cell)})
    return names, found


def unit(nanoseconds: float) -> str:
    return f"{nanoseconds / 1000:g} µs" if nanoseconds >= 1000 else f"{nanoseconds:g} ns"


def keys_in_short(keys: int) -> str:
    return f"{keys // 1_000_000} million" if keys >= 1_000_000 else f"{keys:,}"


def across(keys: list[int], x0: int) -> Callable[[int], float]:
    """The place of a number of keys in a panel."""
    low, high = math.log10(min(keys)), math.log10(max(keys))
    return lambda k: x0 + LEFT + (math.log10(k) - low) / max(high - low, 1) * (WIDTH - LEFT - RIGHT)


def scale(low: int, high: int, x0: int, y: Callable[[float], float]) -> Shapes:
    """Draws the lines across a panel at powers of ten."""
    out: Shapes = []
    for power in range(low, high + 1):
        at = y(10**power)
        ends = f'x1="{x0 + LEFT}" x2="{x0 + WIDTH - RIGHT}" y1="{at:.1f}" y2="{at:.1f}"'
        out.append(f"<line {ends} {paint(line='rule')}/>")
        out += text(x0 + LEFT - 4, round(at + 4, 1), unit(10**power), "end")
    return out


def dot(x: float, y: float, colour: str) -> str:
    return f'<circle cx="{x:.1f}" cy="{y:.1f}" r="2.5" {paint(colour)}/>'


def panel(what: str, lines: list[Points], x0: int, y0: int) -> Shapes:
    """Draws a panel with the points of each library."""
    keys = [k for points in lines for k, _ in points]
    times = [t for points in lines for _, t in points]
    low = math.floor(math.log10(min(times)))
    high = max(math.ceil(math.log10(max(times))), low + 1)
    x = across(keys, x0)

    def y(time: float) -> float:
        return y0 + HEIGHT - 28 - (math.log10(time) - low) / (high - low) * (HEIGHT - TOP - 36)

    out = title(x0 + LEFT, y0 + 18, what) + scale(low, high, x0, y)
    for k in sorted(set(keys)):
        out += text(round(x(k), 1), y0 + HEIGHT - 10, keys_in_short(k), "middle")
    for points, colour in zip(lines, COLOURS):
        path = " ".join(f"{x(k):.1f},{y(t):.1f}" for k, t in points)
        out.append(f'<polyline points="{path}" fill="none" {paint(line=colour)} stroke-width="2"/>')
        out += [dot(x(k), y(t), colour) for k, t in points]
    return out


def legend(names: list[str]) -> Shapes:
    """What the picture shows, and the line of each library."""
    out = text(20, 20, SAID, more='font-size="13" font-weight="bold"')
    for at, (name, colour) in enumerate(zip(names, COLOURS)):
        x = 20 + 160 * at
        out.append(f'<line x1="{x}" x2="{x + 28}" y1="42" y2="42" {paint(line=colour)} stroke-width="2"/>')
        out += [dot(x + 14, 42, colour), *text(x + 36, 46, name, more='font-size="13"')]
    return out


def draw() -> str:
    """The picture of the figures on the page."""
    names, figures = on_page()

    def points(name: str, what: str) -> Points:
        return [(k, max(rows[what], LEAST)) for k, rows in figures[name].items() if what in rows]

    shown = [what for what in PANELS if any(points(name, what) for name in names)]
    width, height = WIDTH * COLUMNS, HEIGHT * -(-len(shown) // COLUMNS) + HEAD + FOOT
    out = legend(names)
    for at, what in enumerate(shown):
        out += panel(what, [points(name, what) for name in names], at % COLUMNS * WIDTH, at // COLUMNS * HEIGHT + HEAD)
    least = f"number of keys (less than {LEAST:g} ns is shown as {LEAST:g} ns)"
    return drawing.svg(width, height, out + text(width // 2, height - 8, least, "middle"), size=11)


if __name__ == "__main__":
    drawing.main("Draws docs/speed.svg from docs/benchmarks.md.", "speed.svg", draw)

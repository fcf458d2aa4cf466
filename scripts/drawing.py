"""What the pictures of the pages share: an SVG in colours for light and for dark, as the reader's browser prefers."""

from __future__ import annotations

import argparse
import html
import math
import pathlib
import re
import sys
from collections.abc import Callable

TOP = pathlib.Path(__file__).resolve().parent.parent
# Each colour in light and in dark.
COLOURS = {
    "back": ("#ffffff", "#0d1117"),
    "ink": ("#222222", "#e6edf3"),
    "soft": ("#5f6670", "#9aa4af"),
    "rule": ("#dddddd", "#30363d"),
    "card": ("#f6f8fb", "#161b22"),
    "node": ("#e8eef8", "#1f2f4d"),
    "new": ("#fbe3b4", "#5c4310"),
    "index": ("#e3f1e3", "#1d3a24"),
    "sent": ("#1d4f91", "#79b8ff"),
    "lost": ("#b3261e", "#ff8a80"),
    "blue": ("#1f4e9c", "#79b8ff"),
    "orange": ("#c2571a", "#f0974f"),
    "green": ("#3f8f3f", "#6cc66c"),
    "purple": ("#8a3f8f", "#d69add"),
    "olive": ("#7a6a1f", "#d9c55a"),
}

Number = int | float
Shapes = list[str]


def paint(fill: str = "", line: str = "") -> str:
    """The class of a shape that is filled and drawn in these colours; without a name in none."""
    names = [f"{kind}-{colour}" for kind, colour in (("fill", fill), ("line", line)) if colour]
    return f'class="{" ".join(names)}"'


def text(
    x: Number, y: Number, words: str | int, anchor: str = "start", colour: str = "ink", more: str = ""
) -> Shapes:
    """A line of text, with further attributes."""
    attributes = " ".join(filter(None, [f'text-anchor="{anchor}"', paint(colour), more]))
    return [f'<text x="{x:g}" y="{y:g}" {attributes}>{html.escape(str(words), quote=False)}</text>']


def title(x: Number, y: Number, words: str | int, anchor: str = "start") -> Shapes:
    return text(x, y, words, anchor, more='font-weight="bold"')


def code(x: Number, y: Number, words: str, anchor: str = "start", colour: str = "ink") -> Shapes:
    return text(x, y, words, anchor, colour, 'font-family="monospace" font-size="13"')


def box(x: Number, y: Number, wide: Number, high: Number, colours: str, more: str = "") -> Shapes:
    """A rectangle in the colours that `paint` gives."""
    attributes = " ".join(filter(None, [colours, more]))
    return [f'<rect x="{x:g}" y="{y:g}" width="{wide:g}" height="{high:g}" {attributes}/>']


def arrow(x0: Number, y0: Number, x1: Number, y1: Number, colour: str = "ink") -> Shapes:
    """A line from one point to another, with a head there."""
    length = math.hypot(x1 - x0, y1 - y0)
    ex, ey = (x1 - x0) / length, (y1 - y0) / length
    wings = [(x1 - 8 * ex - 4 * side * ey, y1 - 8 * ey + 4 * side * ex) for side in (1, -1)]
    head = " ".join(f"{x:.1f},{y:.1f}" for x, y in [(x1, y1), *wings])
    to = f'x2="{x1 - 6 * ex:.1f}" y2="{y1 - 6 * ey:.1f}"'
    return [
        f'<line x1="{x0:g}" y1="{y0:g}" {to} {paint(line=colour)} stroke-width="1.4"/>',
        f'<polygon points="{head}" {paint(colour)}/>',
    ]


def rules(shapes: Shapes) -> Shapes:
    """The colours that shapes are in, as a style."""
    classes = re.findall(r'class="([^"]*)"', "".join(shapes))
    used = sorted({name for names in classes for name in names.split()})

    def of(at: int) -> str:
        pairs = [(name, COLOURS[name.partition("-")[2]][at]) for name in used]
        return "".join(f".{it}{{{'fill' if it.startswith('fill') else 'stroke'}:{colour}}}" for it, colour in pairs)

    return ["<style>", of(0), f"@media (prefers-color-scheme:dark){{{of(1)}}}", "</style>"]


def svg(wide: int, high: int, shapes: Shapes, size: int = 13) -> str:
    """The text of a picture on a ground of its own."""
    whole = [*box(0, 0, wide, high, paint("back")), *shapes]
    head = f'<svg xmlns="http://www.w3.org/2000/svg" width="{wide}" height="{high}" viewBox="0 0 {wide} {high}"'
    return "\n".join([f'{head} font-family="sans-serif" font-size="{size}">', *rules(whole), *whole, "</svg>"]) + "\n"


def main(what: str, name: str, draw: Callable[[], str]) -> None:
    """Writes a picture of `docs`, or with --check fails if the one there is another."""
    ask = argparse.ArgumentParser(description=what)
    ask.add_argument("--check", action="store_true", help=f"write nothing; fail if docs/{name} is another picture")
    check, picture, path = ask.parse_args().check, draw(), TOP / "docs" / name
    if not check:
        path.write_text(picture, encoding="utf-8")
    elif path.read_text(encoding="utf-8") != picture:
        sys.exit(f"docs/{name} is not what {pathlib.Path(sys.argv[0]).name} writes")

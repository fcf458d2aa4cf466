#!/usr/bin/env python3
"""Measures the processor seconds of each function's proof, and lists the most expensive ones.

    scripts/proof_seconds.py [CRATE..]

Each crate is checked from scratch by one job, one crate after another, over the built libraries below it (as `rt check`
of a crate above leaves them in out/). A figure is the processor time between two functions' ends. A file of lemmas is
checked with the first function that uses it, and the front end with the first function, which has no figure for that
reason. The figures of a crate are kept in out/seconds/CRATE.tsv, and `--kept` lists those of earlier runs.
"""

from __future__ import annotations

import argparse
import pathlib
import sys

TOP = pathlib.Path(__file__).resolve().parent.parent
sys.dont_write_bytecode = True
sys.path.insert(0, str(TOP / "scripts"))
import kit  # noqa: E402

Seconds = list[tuple[float, str]]


def measured(built: kit.Crate, crate: kit.Crate, to: pathlib.Path) -> Seconds:
    """Returns the seconds of each function of a crate, and keeps them in a file."""
    found = [(seconds, name) for name, seconds in kit.timed(built, pathlib.Path(crate.folder))]
    to.parent.mkdir(parents=True, exist_ok=True)
    to.write_text("".join(f"{seconds:.2f}\t{name}\n" for seconds, name in found), encoding="utf-8")
    return found


def read(file: pathlib.Path) -> Seconds:
    """Returns the seconds that an earlier run kept."""
    if not file.is_file():
        return []
    rows = [line.split("\t") for line in file.read_text(encoding="utf-8").splitlines()]
    return [(float(seconds), name) for seconds, name in rows]


def arguments() -> argparse.Namespace:
    ask = argparse.ArgumentParser(description="Measures the processor seconds of each function's proof.")
    ask.add_argument("crates", nargs="*", metavar="CRATE", help="default: all")
    ask.add_argument("--top", type=pathlib.Path, default=TOP, help="the checkout to measure")
    ask.add_argument("--built", type=pathlib.Path, help="the checkout whose libraries are built (default: the same)")
    ask.add_argument("--dearest", type=int, default=40, metavar="N", help="how many to list (default: %(default)s)")
    ask.add_argument("--kept", action="store_true", help="measure nothing: list what earlier runs kept")
    return ask.parse_args()


def main() -> int:
    given = arguments()
    top = given.top.resolve()
    built = {it.name: it for it in kit.crates((given.built or top).resolve())}
    crates = [it for it in kit.crates(top) if not given.crates or it.name in given.crates]
    kit.guard()
    every: Seconds = []
    for crate in crates:
        file = top / f"out/seconds/{crate.name}.tsv"
        if not given.kept and (lacking := kit.unbuilt(crate, built[crate.name])):
            sys.exit(
                f"{crate.name}: not built of these sources: {', '.join(lacking)}. Run `rt check` in its folder first"
            )
        found = read(file) if given.kept else measured(built[crate.name], crate, file)
        print(f"{crate.name}: {len(found)} functions, {sum(it for it, _ in found):.0f} s", flush=True)
        every += found
    for seconds, name in sorted(every, reverse=True)[: given.dearest]:
        print(f"{seconds:7.2f} {name}")
    return 0


if __name__ == "__main__":
    sys.exit(main())

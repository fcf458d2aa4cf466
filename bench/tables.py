"""The tables of sets compared with other libraries, of their memory, of the logged family and replicas, and of node
sizes."""

from __future__ import annotations

import pathlib
import subprocess
from collections.abc import Mapping, Sequence

Rows = dict[str, float]  # nanoseconds by row
Figures = Mapping[str, Mapping[int, Rows]]  # rows by library and number of keys
Programs = Mapping[str, pathlib.Path]

HELD = [(1_000, 1_000), (100_000, 10), (1_000_000, 2), (10_000_000, 1)]


def read(text: str) -> Rows:
    """Returns the rows that a program printed, under the name of the last line `over`."""
    rows: Rows = {}
    over = ""
    for line in text.splitlines():
        name, tab, figure = line.partition("\t")
        if tab and name == "over":
            over = f"{figure}: "
        elif tab:
            rows[over + name] = float(figure)
    return rows


def timed(program: pathlib.Path, what: str, keys: int) -> Rows:
    words = ["taskset", "-c", "0", str(program), what, str(keys)]
    return read(subprocess.run(words, check=True, capture_output=True, text=True).stdout)


def turns(keys: int, times: int) -> int:
    """Returns the number of runs of a table: more for few keys, which take little time, one for 10,000,000, which take
    minutes."""
    return 10 * times if keys <= 100_000 else times if keys < 10_000_000 else 1


def leasts(programs: Programs, what: str, keys: int, times: int) -> dict[str, Rows]:
    """Returns the rows of each program, the minimum of some runs, in turn with the others': the speed of a shared
    processor varies."""
    runs: dict[str, list[Rows]] = {name: [] for name in programs}
    for _ in range(turns(keys, times)):
        for name, program in programs.items():
            runs[name].append(timed(program, what, keys))
    return {name: {row: min(run[row] for run in found) for row in found[0]} for name, found in runs.items()}


def held(program: pathlib.Path, keys: int, copies: int, order: str) -> int:
    """Returns the bytes of memory of a program that holds a number of sets."""
    words = [str(program), "hold", str(keys), str(copies), order]
    with subprocess.Popen(words, stdin=subprocess.PIPE, stdout=subprocess.PIPE, text=True) as it:
        assert it.stdout
        it.stdout.readline()
        status = pathlib.Path(f"/proc/{it.pid}/status").read_text()
        it.communicate("\n")
    return next(int(line.split()[1]) for line in status.splitlines() if line.startswith("VmRSS")) * 1024


def bytes_each(program: pathlib.Path, keys: int, copies: int, order: str) -> float:
    return (held(program, keys, copies, order) - held(program, 0, 1, order)) / (keys * copies)


def shown(figure: float | None) -> str:
    return "–" if figure is None else f"{figure:.0f}" if figure >= 100 else f"{figure:.1f}"


def table(head: Sequence[str], lines: Sequence[Sequence[str]]) -> str:
    return "\n".join(f"|{'|'.join(it)}|" for it in [head, ["---"] * len(head), *lines]) + "\n"


def of_sets(names: list[str], keys: list[int], figures: Figures, compilers: str) -> str:
    """Returns a table for each number of keys, with a column for each library."""
    parts = [f"Nanoseconds an operation; lower is better. Compilers: {compilers}.\n"]
    for k in keys:
        lines = [[row, *(shown(figures[name][k].get(row)) for name in names)] for row in figures["ours"][keys[0]]]
        parts.append(f"### {k:,} keys\n\n" + table(["call", *names], lines))
    return "\n".join(parts)


def of_memory(programs: Programs) -> str:
    lines: list[list[str]] = []
    for order in ("ascending", "mixed"):
        for size in HELD:
            lines.append([order, f"{size[0]:,}", *(shown(bytes_each(it, *size, order)) for it in programs.values())])
    return "### Bytes of memory an element\n\n" + table(["inserted", "keys", *programs], lines)


PER_EVENT = ", an event"


def of_call(call: str) -> str:
    return call.replace(PER_EVENT, ", M events/s")


def of_logged_call(call: str, figure: float | None) -> str:
    """Returns a cell: rows on events show the number of events per second."""
    return f"{1000 / figure:.1f}" if figure and call.endswith(PER_EVENT) else shown(figure)


def of_logged(program: pathlib.Path, keys: list[int], times: int) -> str:
    """Returns a table for each number of keys, with a column for each type and size of nodes."""
    found = {k: leasts({"ours": program}, "logged", k, times)["ours"] for k in keys}
    nodes = list(dict.fromkeys(row.partition(": ")[0] for row in found[keys[0]]))
    calls = list(dict.fromkeys(row.partition(": ")[2] for row in found[keys[0]]))
    return logged_tables(nodes, calls, found)


def logged_tables(nodes: list[str], calls: list[str], found: Mapping[int, Rows]) -> str:
    parts = ["The logged set, the logged map and replicas, by type and size of nodes, nanoseconds an operation.\n"]
    for k, rows in found.items():
        lines = [
            [of_call(call), *(of_logged_call(call, rows.get(f"{node}: {call}")) for node in nodes)] for call in calls
        ]
        parts.append(f"### {k:,} items, logged\n\n" + table(["call", *nodes], lines))
    return "\n".join(parts)


def of_sizes(program: pathlib.Path, keys: list[int], times: int) -> str:
    """Returns a table for each number of keys, with a column for each size of nodes."""
    parts = ["A set, maps, and a logged set and its replica, by the size of their nodes, nanoseconds an operation.\n"]
    for k in keys:
        rows = leasts({"ours": program}, "sizes", k, times)["ours"]
        sizes, calls = (list(dict.fromkeys(row.partition(": ")[at] for row in rows)) for at in (0, 2))
        lines = [[call, *(shown(rows[f"{size}: {call}"]) for size in sizes)] for call in calls]
        parts.append(f"### Node sizes, {k:,} items\n\n" + table(["call", *sizes], lines))
    return "\n".join(parts)

"""The tables of the C library compared with pb_ds, and of the Python package compared with sortedcontainers."""

from __future__ import annotations

import importlib.util
import os
import subprocess
import sys

import build
from tables import table

ROWS = ["insert", "contains", "rank", "at", "remove"]
TEXTS = {"text_insert": "insert", "text_get": "get", "text_remove": "remove"}
OUT = build.TOP / "bindings"
ABSL = ["-labsl_throw_delegate", "-labsl_raw_logging_internal"]
BACKENDS = {"extension": "the compiled module", "ctypes": "ctypes"}
KINDS = ["int", "str", "tuple", "datetime", "own class"]
Cells = dict[tuple[int, str], str]  # by number of keys and row: our figure, the other's


def read(text: str) -> Cells:
    """Returns the cells that the C program printed."""
    cells: Cells = {}
    for line in text.splitlines()[1:]:
        keys, row, ours, other = line.split()
        cells[int(keys), row] = f"{ours}/{other}"
    return cells


def read_python(text: str) -> Cells:
    """Returns the cells that Python's program printed; the rows are in the order in which they were printed."""
    lines = [line.split("\t") for line in text.splitlines()[1:]]
    return {(int(keys), row): f"{ours}/{other}" for keys, row, ours, other in lines}


def c_cells(keys: list[str]) -> Cells:
    build.OUT.mkdir(exist_ok=True)
    made, library = build.OUT / "beside", OUT / "c/out/libindexset.a"
    built = library.exists() and build.ran(
        "g++",
        "-O2",
        "-I",
        str(OUT / "c/include"),
        str(build.HERE / "cpp/beside.cpp"),
        str(library),
        *ABSL,
        "-o",
        str(made),
    )
    if not built:
        print(
            "C is left out: `make -C bindings/c` makes its library, and `g++` the program, with Debian's `libabsl-dev`"
        )
        return {}
    return read(subprocess.run(["taskset", "-c", "0", made, *keys], check=True, capture_output=True, text=True).stdout)


def is_built(backend: str) -> bool:
    """Returns whether the package is built with a backend, and `sortedcontainers` is installed."""
    package = OUT / "python/out"
    has_module = any((package / "indexset").glob("_speedups*")) or backend == "ctypes"
    if not (package / "indexset").is_dir() or not importlib.util.find_spec("sortedcontainers") or not has_module:
        print(f"Python by {BACKENDS[backend]} is left out: it needs `bindings/test.sh` and `sortedcontainers`")
        return False
    return True


def said(program: str, *words: str, backend: str) -> str:
    """Returns the output of a program of Python."""
    where = {
        **os.environ,
        "PYTHONPATH": str(OUT / "python/out"),
        "INDEXSET_LIBRARY": str(OUT / "c/out/libindexset.so"),
        "INDEXSET_BACKEND": backend,
    }
    run = ["taskset", "-c", "0", sys.executable, str(build.HERE / "python" / program), *words]
    return subprocess.run(run, env=where, check=True, capture_output=True, text=True).stdout


def python_cells(keys: list[str], backend: str) -> Cells | None:
    """Returns the cells; None if the package is not built with the backend."""
    return read_python(said("bindings.py", *keys, backend=backend)) if is_built(backend) else None


def of_kinds(count: int) -> str:
    """Returns the table of operations on many items, with a column for each kind."""
    text = said(
        "kinds.py", str(count), "--kinds", *KINDS, "--parts", "list", "set", "dict", "key", "bytes", backend="extension"
    )
    cells: dict[tuple[str, str], str] = {}
    for line in text.splitlines()[1:]:
        _, kind, row, ours, other = line.split("\t")
        cells[kind, row] = f"{float(ours):.0f}/{float(other):.0f}"
    rows = list(dict.fromkeys(row for _, row in cells))
    lines = [[as_cell(row), *(cells.get((kind, row), "–") for kind in KINDS)] for row in rows]
    return table([f"{count:,} items", *KINDS], lines)


def as_cell(row: str) -> str:
    return "`" + row.replace("|", "\\|") + "`"


def of_python(found: dict[str, Cells], keys: list[int]) -> str:
    """Returns the table of every row, with a column for each backend and number of keys."""
    head = ["Ours/`sortedcontainers`", *(f"{name}, {k:,}" for name in found for k in keys)]
    rows = list(dict.fromkeys(row for cells in found.values() for _, row in cells))
    return table(
        head, [[f"`{row}`", *(cells.get((k, row), "–") for cells in found.values() for k in keys)] for row in rows]
    )


def of_wrappers(keys: list[int]) -> str | None:
    """Returns the two tables, or None if nothing can be measured."""
    words = [str(k) for k in keys]
    in_c = c_cells(words)
    found = {name: cells for name in BACKENDS if (cells := python_cells(words, name)) is not None}
    heads = {"Ours/pb_ds, in C": dict(zip(ROWS, ROWS)), "Texts, ours/std/absl": TEXTS}
    tables = {
        head: [[shown, *(in_c.get((k, row), "–") for k in keys)] for row, shown in rows.items()]
        for head, rows in heads.items()
    }
    parts = [table([head, *(f"{k:,}" for k in keys)], lines) for head, lines in tables.items() if in_c]
    parts += [of_python(found, keys)] if found else []
    parts += [of_kinds(keys[len(keys) // 2])] if "extension" in found else []
    return "\n".join(parts) or None

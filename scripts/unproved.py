#!/usr/bin/env python3
"""Builds in minutes, without proofs: the program of a crate, or the library for C.

    scripts/unproved.py [CRATE] [-o FILE] [--unchecked]
    scripts/unproved.py --library [-o FILE]

CRATE is the folder of a program's crate, of this repository or of another one (the current folder). The program is
written to CRATE/out/unproved/NAME, and stays there. It stops at an index out of bounds, an overflow or a bad access, as
`rt try` does, but no `requires` or `ensures` is checked; with --unchecked it stops at none of them, and is as fast as a
proved one. If a check stops it, it prints a report of addresses; `rt try` on the same input names the check. At its
start it writes a line to standard error that says that it is unproved, and the symbol `unproved` marks the file.

The library is written to crates/indexset_c/out/unproved/libindexset_c.a, and its symbol `unproved` marks it.
`make -C bindings/c UNPROVED=1` makes the libraries of C from it, in bindings/c/out/unproved, whose `indexset_proved` is
0.
"""

from __future__ import annotations

import argparse
import pathlib
import re
import subprocess
import sys
import tempfile

sys.dont_write_bytecode = True
import checked  # noqa: E402
import lay  # noqa: E402

FOLDER = pathlib.Path("out/unproved")
LIBRARY = "indexset_c"
EXPORT = re.compile(r'pub extern "C" fn (\w+)\(([^)]*)\)')
# `rt try` compiles what `main` reaches, and no other code. This code is compiled, and never runs.
MAIN = """
fn any<T>() -> T {{
    any::<T>()
}}

fn main(rt: HostRuntime) {{
    let _rt = rt;
{calls}
}}
"""
# Linked into a program; into a library without the constructor.
MARK = """
#include <unistd.h>
const char unproved[] = "{name}: unproved: no contract was checked\\n";
#ifdef PROGRAM
__attribute__((constructor)) static void tell(void) {{
    if (write(2, unproved, sizeof unproved - 1) < 0) {{
        _exit(1);
    }}
}}
#endif
"""


def mark(name: str, to: pathlib.Path, *flags: str) -> None:
    """Compiles the object that marks a file as unproved."""
    command = ["cc", "-O1", "-c", "-fPIC", *flags, "-x", "c", "-o", str(to), "-"]
    subprocess.run(command, input=MARK.format(name=name), text=True, check=True)


def program(crate: pathlib.Path, to: pathlib.Path, is_unchecked: bool) -> None:
    """Builds the program of a crate."""
    with tempfile.TemporaryDirectory() as room:
        object_file = pathlib.Path(room, "mark.o")
        mark(crate.name, object_file, "-DPROGRAM")
        checked.program(crate, to, object_file, is_bare=is_unchecked)


def calls(source: pathlib.Path) -> str:
    """Returns calls of all exports of a crate to C."""
    lines = []
    for file in sorted(source.glob("*.rt")):
        module = "" if file.stem == "lib" else f"{file.stem}::"
        for name, words in EXPORT.findall(file.read_text(encoding="utf-8")):
            lines.append(f"    let _result = {module}{name}({', '.join(['any()'] * words.count(':'))});")
    return "\n".join(lines)


def as_program(room: pathlib.Path) -> pathlib.Path:
    """Returns the crate of the library for C, copied into a folder, with a `main` that calls each export."""
    lay.lay(room, [LIBRARY])
    crates = room / "crates.txt"
    text = crates.read_text(encoding="utf-8")
    crates.write_text(text.replace(f"{LIBRARY} staticlib:", f"{LIBRARY}:"), encoding="utf-8")
    source = room / "crates" / LIBRARY / "src"
    with open(source / "lib.rt", "a", encoding="utf-8") as root:
        root.write(MAIN.format(calls=calls(source)))
    (source / "lib.rt").rename(source / "main.rt")
    return source.parent


def library(to: pathlib.Path) -> None:
    """Builds the library for C."""
    with tempfile.TemporaryDirectory() as room:
        objects = [pathlib.Path(room, name) for name in ("library.o", "mark.o")]
        checked.library(as_program(pathlib.Path(room, "repository")), objects[0])
        mark(f"lib{LIBRARY}.a", objects[1])
        to.unlink(missing_ok=True)
        subprocess.run(["ar", "rcs", to, *objects], check=True)


def main() -> int:
    ask = argparse.ArgumentParser(description=__doc__, formatter_class=argparse.RawDescriptionHelpFormatter)
    ask.add_argument("crate", nargs="?", type=pathlib.Path, metavar="CRATE")
    ask.add_argument("-o", dest="file", type=pathlib.Path, metavar="FILE", help="where it is built")
    kinds = ask.add_mutually_exclusive_group()
    kinds.add_argument("--unchecked", action="store_true", help="without checks, as fast as a proved program")
    kinds.add_argument("--library", action="store_true", help="the library for C, without checks")
    given = ask.parse_args()
    if given.library and given.crate:
        ask.error("--library takes no crate")
    crate = lay.TOP / "crates" / LIBRARY if given.library else (given.crate or pathlib.Path()).resolve()
    if not given.library and not (crate / "src/main.rt").is_file():
        ask.error(f"{crate} is no crate of a program: it has no src/main.rt")
    file = (given.file or crate / FOLDER / (f"lib{LIBRARY}.a" if given.library else crate.name)).resolve()
    file.parent.mkdir(parents=True, exist_ok=True)
    try:
        library(file) if given.library else program(crate, file, given.unchecked)
    except RuntimeError as why:
        print(why, file=sys.stderr)
        return 1
    print(f"{file}: unproved")
    return 0


if __name__ == "__main__":
    sys.exit(main())

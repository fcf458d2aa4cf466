#!/usr/bin/env python3
"""Writes what C and Python have of the exports of `crates/indexset_c`.

    scripts/write_bindings.py [--check]      `--check` writes nothing, and fails if something is out of date

These are the prototypes of the C header, the calls of C that are not the exports themselves (`bindings/c/src/calls.c`),
and the table of Python's calls. In the header each prototype is written in its place; the rest of the header is written
by hand, and a new call needs its comment there first. A slice of an export is a pointer and a length in C. A handle is
const if a clause states that its collection is unchanged.
"""

from __future__ import annotations

import argparse
import dataclasses
import pathlib
import re
import sys

HERE = pathlib.Path(__file__).resolve().parent.parent / "bindings"
EXPORTS = HERE.parent / "crates/indexset_c/src"
HEADER = HERE / "c/include/indexset.h"
CALLS = HERE / "c/src/calls.c"
ABOUT_CALLS = """\
/* The calls that are not the library's exports themselves, which have "inner_" before their names when it is linked. A
 * call with a const handle works on a copy of the handle, so that it writes nothing that its caller has. One that frees
 * a handle tests for null. Written by scripts/write_bindings.py. */
#include "indexset.h"\
"""
TABLE = HERE / "python/src/indexset/_signatures.py"
HANDLES = {
    "Set": "set", "Map": "map", "Text": "text_map", "TextLog": "text_log", "Multi": "multi", "Log": "log",
    "Replica": "replica",
}
PLAIN = {"u8": "void", "u32": "uint32_t", "u64": "uint64_t", "usize": "size_t", "bool": "bool", "": "void"}
PLAIN |= {"Event": "indexset_event", "TextEvent": "indexset_text_event", "Cursor": "indexset_cursor"}
IN_PYTHON = {"u32": "c_uint32", "u64": "c_uint64", "usize": "c_size_t", "bool": "c_bool", "": "None"}
WIDTH = 120  # of a line
NEXT = "\n     "  # before the rest of an entry of Python's table
EXPORT = re.compile(r'pub extern "C" fn indexset_(\w+)\(([^)]*)\)(?: -> (\w+))?\s(.*?)^\{', re.M | re.S)
PROTOTYPE = re.compile(r"^\w[\w ]* \*?indexset_(\w+)\([^)]*\);$", re.M)


@dataclasses.dataclass(frozen=True)
class Word:
    """A parameter of an export."""

    name: str
    kind: str
    stays: bool

    def is_slice(self, of: str = "") -> bool:
        return self.kind.startswith(f"&{of}[")

    def base(self) -> str:
        return self.kind.removeprefix("&").removeprefix("mut ").strip("[]")

    def length(self, words: list[Word]) -> str:
        """Returns the name of the length of a slice, which distinguishes slices of one kind in a call."""
        if self.kind == "&[u8]":
            return f"{self.name}_len"
        many = sum(it.is_slice("mut ") == self.is_slice("mut ") for it in words if it.is_slice() or it.is_slice("mut "))
        what = "places" if self.is_slice("mut ") else "count"
        return f"{self.name.removesuffix('s')}_{what}" if many > 1 else what

    def handle(self) -> str:
        """Returns the type in C of a handle."""
        return f"indexset_{HANDLES[self.base().removesuffix('Handle').removesuffix('Owner')]}"

    def in_c(self, words: list[Word], of_export: bool = False) -> str:
        """Returns its parameters in C; those of an export itself, which writes to each handle, if asked."""
        base = self.base()
        const = "const " if self.stays and not of_export or not self.kind.startswith("&mut ") else ""
        if base.endswith(("Handle", "Owner")):
            stars = "*" if base.endswith("Handle") else "**"
            name = self.handle().removeprefix("indexset_").removeprefix("text_")
            return f"{const}{self.handle()} {stars}{name if self.name == 'handle' else self.name}"
        if not self.kind.startswith("&"):
            return f"{PLAIN[base]} {self.name}"
        length = f", size_t {self.length(words)}" if "[" in self.kind else ""
        return f"{const}{PLAIN[base]} *{self.name}{length}"

    def in_python(self) -> list[str]:
        """Returns its types in ctypes."""
        if not self.kind.startswith("&"):
            return [IN_PYTHON[self.kind]]
        return ["c_char_p" if self.kind == "&[u8]" else "c_void_p", *["c_size_t"] * ("[" in self.kind)]


def laid_out(head: str, words: str) -> str:
    """Returns a parenthesis that `head` opens, on lines of at most the width."""
    lines = [head]
    for word in re.split("(?<=,) ", words):
        if len(lines[-1]) + len(word) + 1 > WIDTH:
            lines.append(" " * (len(head) - 1))
        lines[-1] += word if lines[-1] == head else f" {word}"
    return "\n".join(lines)


@dataclasses.dataclass(frozen=True)
class Call:
    """An export."""

    name: str
    words: list[Word]
    result: str

    def in_c(self, prefix: str = "", end: str = ";") -> str:
        """Returns the prototype, in the layout of clang-format."""
        head = f"{PLAIN[self.result]} {prefix}indexset_{self.name}("
        words = ", ".join(it.in_c(self.words, prefix != "") for it in self.words) or "void"
        return laid_out(head, f"{words}){end}")

    def around(self) -> str | None:
        """Returns the call of C around this export, or None if they are one."""
        passed, first = [], []
        for word in self.words:
            parameters = re.findall(r"(\w+)(?:,|$)", word.in_c(self.words))
            if word.stays:
                first.append(f"    {word.handle()} copy_of_{parameters[0]} = *{parameters[0]};")
                parameters[0] = f"&copy_of_{parameters[0]}"
            passed += parameters
        if self.name.endswith("_destroy"):
            first.append(f"    if (*{passed[0]} == NULL) return;")
        if not first:
            return None
        result = "" if self.result == "" else "return "
        call = laid_out(f"    {result}inner_indexset_{self.name}(", f"{', '.join(passed)});")
        return "\n".join([self.in_c("inner_"), self.in_c(end=" {"), *first, call, "}"])

    def in_python(self) -> str:
        words = [of for it in self.words for of in it.in_python()]
        head, types = f'    ("{self.name}", {IN_PYTHON[self.result]},', f"[{', '.join(words)}]),"
        return f"{head}{' ' if len(head) + len(types) < WIDTH else NEXT}{types}"


def calls() -> list[Call]:
    """Returns the exports, file by file."""
    found = []
    for file in sorted(EXPORTS.glob("*.rt")):
        for name, words, result, clauses in EXPORT.findall(file.read_text(encoding="utf-8")):
            pairs = [it.split(": ") for it in re.sub(r"\s+", " ", words).strip(" ,").split(", ") if it]
            stay = re.findall(r"\{ (\w+)\.new\.slot\.value ≡ \1\.old\.slot\.value \}", clauses)
            found.append(Call(name, [Word(it[0], it[1], it[0] in stay) for it in pairs if it[1] != "Global"], result))
    return found


def header(exports: list[Call]) -> str:
    """Returns the text of the header, with the prototypes of these exports."""
    by_name = {it.name: it for it in exports}
    text = HEADER.read_text(encoding="utf-8")
    shown = PROTOTYPE.findall(text)
    if odd := {*shown} ^ {*by_name}:
        sys.exit(f"{HEADER.name} and the exports differ in {', '.join(sorted(odd))}")
    return PROTOTYPE.sub(lambda found: by_name[found[1]].in_c(), text)


def around(exports: list[Call]) -> str:
    """Returns the text of the calls of C that are not the exports themselves."""
    text = [it for it in (call.around() for call in exports) if it is not None]
    return "\n\n".join([ABOUT_CALLS, *text]) + "\n"


def table(exports: list[Call]) -> str:
    """Returns the text of Python's table."""
    names = sorted({of for it in exports for line in [it.in_python()] for of in re.findall(r"c_\w+(?=[,\]])", line)})
    return "\n".join(
        [
            '"""The library\'s calls, with their results and parameters. Written by `scripts/write_bindings.py`."""',
            "from __future__ import annotations",
            "",
            f"from ctypes import {', '.join(names)}",
            "from typing import Any",
            "",
            "CALLS: list[tuple[str, Any, list[Any]]] = [",
            *(it.in_python() for it in exports),
            "]",
            "",
        ]
    )


def main() -> int:
    ask = argparse.ArgumentParser(description="Writes what C and Python have of the exports.")
    ask.add_argument("--check", action="store_true", help="write nothing, and fail where something is out of date")
    given = ask.parse_args()
    exports = calls()
    texts = {HEADER: header(exports), CALLS: around(exports), TABLE: table(exports)}
    stale = [it for it, text in texts.items() if not it.exists() or it.read_text(encoding="utf-8") != text]
    if given.check and stale:
        sys.exit(f"stale: {', '.join(it.name for it in stale)}; run scripts/write_bindings.py")
    for it in stale:
        it.write_text(texts[it], encoding="utf-8")
    return 0


if __name__ == "__main__":
    sys.exit(main())

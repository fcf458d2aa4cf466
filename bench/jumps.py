#!/usr/bin/env python3
"""Counts the badly aligned code of a call: code that continues in another block of 32 bytes, and jumps across the
boundary.

    bench/jumps.py ROW KEYS PROGRAM..

Intel's processors fetch decoded code of one block per cycle, and those of 2015 to 2019 cache none of a block with a
jump that crosses its boundary or ends there. So a short loop takes up to twice the time depending on its address, which
the code linked before it determines. For each program of bench/build.py it prints, for one operation of the row, the
instructions, the jumps, the badly aligned ones, and how often the code continued in another block, by callgrind and
objdump. A comparison just before a jump counts with it if the processor fuses the two.
"""

from __future__ import annotations

import argparse
import pathlib
import re
import subprocess
import tempfile
from collections import Counter
from dataclasses import dataclass

import counters
from tables import shown

BLOCK = 32  # bytes
INSTRUCTION = re.compile(r" *([0-9a-f]+):\t(?:bnd |notrack )?(\S+)")
JUMP = re.compile(r"j|call|ret")
CONDITIONAL = re.compile(r"j(?!mp)")
JOINED = re.compile(r"cmp|test|add|sub|and|inc|dec")  # with a conditional jump that follows


@dataclass
class Code:
    """Returns the addresses of a program's jumps, of the badly aligned ones, and of instructions that others continue
    into across a boundary."""

    jumps: set[int]
    bad: set[int]
    crossed: set[int]


def code_of(program: pathlib.Path) -> Code:
    listed = subprocess.run(
        ["objdump", "-d", "--no-show-raw-insn", program], check=True, capture_output=True, text=True
    ).stdout
    lines = [(int(found[1], 16), found[2]) for line in listed.splitlines() if (found := INSTRUCTION.match(line))]
    code = Code(set(), set(), set())
    for (before, word), (at, jump), (end, _) in zip(lines, lines[1:], lines[2:]):
        if before // BLOCK != at // BLOCK:
            code.crossed.add(at)
        if JUMP.match(jump):
            start = before if CONDITIONAL.match(jump) and JOINED.match(word) else at
            code.jumps.add(at)
            if start // BLOCK != end // BLOCK:
                code.bad.add(at)
    return code


def executed(program: pathlib.Path, words: list[str]) -> Counter[int]:
    """Returns how often each instruction of the program itself ran, by its address."""
    found: Counter[int] = Counter()
    options = ["--dump-instr=yes", "--compress-pos=no", "--compress-strings=no"]
    with tempfile.NamedTemporaryFile("r") as out:
        command = ["valgrind", "--tool=callgrind", *options, f"--callgrind-out-file={out.name}", *words]
        subprocess.run(command, check=True, capture_output=True)
        is_own = is_of_callee = False
        for line in out.read().splitlines():
            if line.startswith("ob="):
                is_own = pathlib.Path(line[3:]) == program
            elif line.startswith("calls="):
                is_of_callee = True  # the line that follows
            elif line.startswith("0x"):
                address, _, count = line.split()
                found[int(address, 16)] += int(count) if is_own and not is_of_callee else 0
                is_of_callee = False
    return found


def cell(row: str, keys: int, program: pathlib.Path) -> str:
    """Returns what an operation executes: the difference between a run with calls and one without them."""
    count, operations = counters.counts(row, keys)
    some, none = (executed(program, counters.words(program, row, keys, it)) for it in (count, 0))
    some.subtract(none)
    code = code_of(program)
    each = [
        sum(some.values()),
        *(sum(some[it] for it in addresses) for addresses in (code.jumps, code.bad, code.crossed)),
    ]
    return "/".join(shown(it / operations) for it in each)


def main() -> None:
    words = argparse.ArgumentParser(description=__doc__, formatter_class=argparse.RawDescriptionHelpFormatter)
    words.add_argument("row")
    words.add_argument("keys", type=int)
    words.add_argument("program", type=pathlib.Path, nargs="+")
    given = words.parse_args()
    print(f"{given.row}, {given.keys:,} keys: instructions/jumps/jumps that lie badly/boundaries crossed")
    for program in given.program:
        print(f"{program}: {cell(given.row, given.keys, program.resolve())}")


if __name__ == "__main__":
    main()

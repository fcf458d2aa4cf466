#!/usr/bin/env python3
"""Gives the program more lines at once than one commit keeps.

They are in a file, so that a read returns thousands. All emitted events must be kept, and a commit keeps at most 4,096
lines and the remaining ones of its last command. With `--rule`, which takes minutes with an unoptimized program: a
snapshot replaces the lines of 200,000 pairs once they are more than 1,480,000 beside one for each node, and not before.
The last line is 'N passed, M failed'. It needs the built `indexset_store`.
"""

from __future__ import annotations

import argparse
import pathlib
import subprocess
import sys
import tempfile

TOP = pathlib.Path(__file__).resolve().parent.parent.parent
sys.dont_write_bytecode = True
sys.path.insert(0, str(TOP / "scripts"))
from kept import Wrong, is_event, rows_of, unsealed  # noqa: E402
from programs import built  # noqa: E402

MOST = 4_096  # lines that a commit keeps
FURTHER = 3  # lines of a command after its first: three events, and the numbers of finished commands
COMMANDS = 12_000
PAIRS = 200_000  # ten lines for each of these are more than MANY
MANY = 1_500_000 - PAIRS // 10  # lines beside one for each node, above which a snapshot replaces them


def lines_of(commands: list[str]) -> str:
    return "".join(f"{it}\n" for it in commands)


def told_by(file: pathlib.Path, lines: str, *role: str) -> str:
    """Returns the output of the program for lines from a file."""
    with tempfile.TemporaryFile("w+", dir=file.parent) as text:
        text.write(lines)
        text.seek(0)
        words = [str(built("indexset_store")), "--keep", str(file), "--node-size", "64", *role]
        return subprocess.run(words, stdin=text, stdout=subprocess.PIPE, text=True, check=True).stdout


def commits(rows: list[str]) -> list[int]:
    """Yields the number of lines that each commit keeps."""
    ends = [at for at, row in enumerate(rows) if row.startswith("seal ")]
    return [end - start - 1 for start, end in zip([-1, *ends], ends)]


def fault(file: pathlib.Path, told: list[str], least: int, most: int) -> str:
    """Returns the fault in the kept lines, given the output and bounds of the largest commit, or an empty string."""
    rows = [row for _, row in rows_of(file)]
    largest = max(commits(rows))
    if unsealed(rows) != told:
        return "not all that was told is kept"
    return "" if least <= largest <= most else f"the largest commit keeps {largest:,} lines"


def begins(file: pathlib.Path) -> tuple[str, int]:
    """Returns the first kept line, and the number of lines kept beside one for each node."""
    rows = [row for _, row in rows_of(file)]
    return rows[0], sum(not row.startswith("node ") for row in rows)


def rule_fault(file: pathlib.Path) -> str:
    """Returns the fault in the time at which a snapshot replaces lines; a replacement emits two events."""
    told_by(file, lines_of([*(f"put {key} 0" for key in range(PAIRS)), "compact"]), "--lead")
    first, _ = begins(file)
    few = [f"put {it * 7919 % PAIRS} {it}" for it in range(1, MANY // 2 - COMMANDS // 2)]
    told_by(file, lines_of(few), "--lead")
    begun, beside = begins(file)
    if begun != first or not MANY - 2 * COMMANDS < beside <= MANY:
        return f"{begun} and {beside:,} lines are kept before they are many"
    told_by(file, lines_of([f"put {it} {MANY}" for it in range(COMMANDS)]), "--lead")
    begun, beside = begins(file)
    return (
        ""
        if begun != first and beside < 2 * COMMANDS
        else f"{begun} and {beside:,} lines are kept where they were many"
    )


def main() -> int:
    ask = argparse.ArgumentParser(description="Gives the program more lines at once than one commit keeps.")
    ask.add_argument("--rule", action="store_true", help="ask for a snapshot in place of lines, too")
    given = ask.parse_args()
    faults = dict[str, str]()
    with tempfile.TemporaryDirectory() as name:
        room = pathlib.Path(name)
        for what, number in (("commands", ""), ("numbered commands", "#{} ")):
            puts = [f"{number.format(it)}put {it * 7919 % COMMANDS} 1" for it in range(1, COMMANDS + 1)]
            file = room / f"{what}.db"
            told = told_by(file, lines_of(puts), "--lead").splitlines()
            kept = [line for line in told if is_event(line) or line.startswith("done ")]
            faults[what] = fault(file, kept, MOST, MOST + FURTHER)
        events = list(filter(is_event, told))
        told_by(room / "events.db", lines_of(events))
        faults["events"] = fault(room / "events.db", events, 1, MOST)
        if given.rule:
            faults["rule"] = rule_fault(room / "rule.db")
    for what, why in faults.items():
        print(f"{what}: {why or 'kept'}")
    failed = sum(map(bool, faults.values()))
    print(f"{len(faults) - failed} passed, {failed} failed")
    return int(failed > 0)


if __name__ == "__main__":
    try:
        sys.exit(main())
    except Wrong as why:
        sys.exit(f"{why}\n0 passed, 1 failed")

#!/usr/bin/env python3
"""Makes each request of two programs fail in turn, and compares their behaviour with the expected one.

    tests/faults/sweep.py [--player PATH] [--program PATH] [--linked] [--jobs N] [--write] [WORD..]

`test_script_runner` runs the scripts below tests/scripts, except those below `large`, with one allocation after another
failing until none is left: a script must end with all its results, whichever failed (10: a call of the library failed;
11: the runner could not allocate words of its own). Some allocation must fail within a call, or none if the script has
the line `# No call asks for memory.` The number of failed ones within the calls of each is in `requests.txt`, which
`--write` writes. With words, only scripts whose paths have one of them are run.

`indexset_program` gets the lines of `lines`, with the replies of `replies`, those to one line separated by ` / `: if a
request fails it must write the replies to the lines before, the fault's word, and nothing else.

All memory must be freed either way. `refuse.c` counts the requests; it is loaded before a program, or linked into it
(`--linked`). The last line is 'N passed, M failed'.
"""

from __future__ import annotations

import argparse
import os
import pathlib
import sys
from concurrent.futures import ThreadPoolExecutor

HERE = pathlib.Path(__file__).resolve().parent
SCRIPTS = HERE.parent / "scripts"
TABLE = HERE / "requests.txt"
REFUSED, BEFORE = 10, 11
ASKS_FOR_NONE = b"# No call asks for memory."
sys.dont_write_bytecode = True
sys.path.insert(0, str(HERE.parent.parent / "scripts"))
from programs import built  # noqa: E402
from refuse import MEMORY, Run, Sweep, replies_to_first, sweeping  # noqa: E402


def is_judged(run: Run) -> bool:
    """Returns whether a run in which an allocation failed ended as it must."""
    return run.failed == 1 and run.status in (REFUSED, BEFORE) and not run.out and not run.err and run.kept == 0


def runs(sweep: Sweep, player: pathlib.Path, name: str) -> tuple[Run, list[Run]]:
    """Returns the whole run of a script, and those in which one allocation after another failed."""
    words = [str(player), "swept"]
    whole, copies = sweep.copied(words, SCRIPTS / name)
    if not whole.out and not whole.err and len(copies) == whole.memory:
        return whole, copies
    given = (SCRIPTS / name).read_bytes()
    whole = sweep.run(words, given)
    return whole, [sweep.run(words, given, **{MEMORY: n}) for n in range(1, whole.memory + 1)]


def judged(sweep: Sweep, name: str, whole: Run, refused: list[Run]) -> int:
    """Judges the runs of a script; returns the number of allocations that failed within its calls."""
    is_whole = whole.is_done(b"") and whole.failed == 0
    sweep.expect(is_whole, f"{name}: {whole}")
    if not is_whole:
        return 0
    for n, run in enumerate(refused, 1):
        sweep.expect(is_judged(run), f"{name}, request {n}: {run}")
    count = sum(run.status == REFUSED for run in refused)
    asks_for_none = ASKS_FOR_NONE in (SCRIPTS / name).read_bytes().splitlines()
    said = f"has {'the' if asks_for_none else 'no'} line {ASKS_FOR_NONE.decode()!r}"
    sweep.expect((count == 0) == asks_for_none, f"{name} {said}, and {count} requests are refused")
    return count


def scripts(sweep: Sweep, player: pathlib.Path, given: argparse.Namespace) -> None:
    """Tests all scripts; then compares the table of requests with them, or writes it."""
    names = sorted(str(path.relative_to(SCRIPTS)) for path in SCRIPTS.rglob("*.script"))
    names = [name for name in names if not name.startswith("large/")]
    chosen = [name for name in names if not given.words or any(word in name for word in given.words)]
    with ThreadPoolExecutor(given.jobs) as pool:
        found = [*pool.map(lambda name: runs(sweep, player, name), chosen)]
    counts = {name: judged(sweep, name, *seen) for name, seen in zip(chosen, found)}
    print(f"{len(chosen)} scripts, {sum(counts.values())} requests refused within their calls")
    text = "".join(f"{name} {count}\n" for name, count in counts.items())
    if given.write and not given.words:
        TABLE.write_text(text, encoding="utf-8")
    lines = TABLE.read_text(encoding="utf-8").splitlines() if TABLE.exists() else []
    others = set(text.splitlines()) ^ {line for line in lines if line.split(" ")[0] in counts or not given.words}
    sweep.expect(not others, f"{TABLE.name} is not of this run ({sorted(others)}): run sweep.py --write")


def many(sweep: Sweep, program: pathlib.Path) -> None:
    """Returns a thousand lines, each of a new key, for which memory suffices."""
    given = "".join(f"put {key} {key}\n" for key in range(1000)).encode()
    run = sweep.run([str(program)], given)
    are_new = run.out.splitlines().count(b"new") == 1000
    sweep.expect(run.status == 0 and are_new and run.kept == 0, f"a thousand lines: {run}")


def main() -> int:
    ask = argparse.ArgumentParser(description="Has each request of two programs fail in turn.")
    ask.add_argument("words", nargs="*", metavar="WORD")
    ask.add_argument("--player", type=pathlib.Path, help="the program test_script_runner")
    ask.add_argument("--program", type=pathlib.Path, help="the program indexset_program")
    ask.add_argument("--linked", action="store_true", help="both programs contain refuse.c")
    ask.add_argument("--jobs", type=int, default=len(os.sched_getaffinity(0)))
    ask.add_argument("--write", action="store_true", help="write requests.txt")
    given = ask.parse_args()
    with sweeping(given.linked) as sweep:
        scripts(sweep, given.player or built("test_script_runner"), given)
        if not given.words:
            program = given.program or built("indexset_program")
            sweep.each_request(program, (HERE / "lines").read_bytes(), replies_to_first("replies"))
            many(sweep, program)
        return sweep.end()


if __name__ == "__main__":
    sys.exit(main())

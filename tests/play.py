#!/usr/bin/env python3
"""Plays scripts: calls, each with its expected result.

    tests/play.py [WORD..]              each script below tests/scripts, by test_script_runner
    tests/play.py --model [WORD..]      the same on the model of tests/model
    tests/play.py --random CALLS        random scripts, whose results are the model's, by test_script_runner

With words: the scripts whose paths have one of them. Run it once `test_script_runner` is built. A script that fails is
named with its line, both results and the state. On the model are left out scripts of subjects that it does not have,
of very many calls or items, and calls whose result no rule determines. Random scripts that fail are kept. The last line
is 'N passed, M failed', of scripts, or of calls on the model and of random scripts.
"""

from __future__ import annotations

import argparse
import os
import pathlib
import re
import subprocess
import sys
import tempfile
from collections.abc import Iterator
from concurrent.futures import ThreadPoolExecutor
from dataclasses import dataclass, field

HERE = pathlib.Path(__file__).resolve().parent
SCRIPTS = HERE / "scripts"
SECONDS = 1200  # for one script, on a busy machine
MANY = re.compile(r"\d{6,}")
MOST = 6000  # of the statements of a script, and of the words of one, on the model
sys.dont_write_bytecode = True
sys.path[:0] = [str(HERE.parent / "scripts"), str(HERE / "model")]
from families import WEIGHTS, scripts, share, subject_of  # noqa: E402
from items import BadWord  # noqa: E402
from language import NoCall, Statement, Unfixed, read  # noqa: E402
from programs import built  # noqa: E402


@dataclass
class Count:
    """The numbers of calls."""

    passed: int = 0
    failed: int = 0
    left_out: int = 0
    failures: list[str] = field(default_factory=list)

    def end(self, besides: str = "") -> int:
        """Prints the failures and the numbers, and returns the status."""
        print(*self.failures, sep="\n", end="\n" if self.failures else "")
        print(f"{self.passed} passed, {self.failed} failed{besides}")
        return int(self.failed > 0 or self.passed == 0)


def chosen(words: list[str]) -> list[pathlib.Path]:
    """Returns the written scripts whose paths have one of the words."""
    paths = sorted(SCRIPTS.rglob("*.script"))
    return [path for path in paths if not words or any(word in str(path) for word in words)]


def played(player: pathlib.Path, script: pathlib.Path) -> str:
    """Returns the fault in the run of a script, or an empty string."""
    try:
        done = subprocess.run([player], input=script.read_bytes(), capture_output=True, timeout=SECONDS)
    except subprocess.TimeoutExpired:
        return f"{script}: not ended after {SECONDS} seconds"
    said = (done.stdout + done.stderr).decode(errors="replace")
    if done.returncode == 0 and not said:
        return ""
    line = re.match(r"line (\d+)", said)
    return f"{script}:{line[1] if line else 0}: status {done.returncode}\n{said[-4000:]}"


def play(words: list[str], jobs: int) -> int:
    """Plays the written scripts."""
    count, player = Count(), built("test_script_runner")
    with ThreadPoolExecutor(jobs) as pool:
        for fault in pool.map(lambda path: played(player, path), chosen(words)):
            count.failed, count.passed = count.failed + bool(fault), count.passed + (not fault)
            count.failures += [fault] if fault else []
    return count.end()


def written(folder: pathlib.Path, family: str, calls: int, seed: int) -> Iterator[tuple[pathlib.Path, int]]:
    """Writes the random scripts of a family; yields their paths, with the number of calls of each."""
    for number, script in enumerate(scripts(family, calls, seed)):
        path = folder / f"{family}_{seed}_{number}.script"
        path.write_text(script.text, encoding="utf-8")
        yield path, script.calls


def play_one(player: pathlib.Path, path: pathlib.Path, calls: int) -> Count:
    """Plays a random script, whose calls from the first that fails count as failed; one that passes is removed."""
    fault = played(player, path)
    if not fault:
        path.unlink()
        return Count(passed=calls)
    line = re.search(r"\.script:(\d+)", fault)
    passed = min(max(int(line[1] if line else 0) - 2, 0), calls - 1)
    return Count(passed, calls - passed, failures=[fault])


def play_random(given: argparse.Namespace) -> int:
    """Plays random scripts of all families, or of one."""
    count, player = Count(), built("test_script_runner")
    folder = given.keep or pathlib.Path(tempfile.mkdtemp(prefix="scripts-"))
    folder.mkdir(parents=True, exist_ok=True)
    calls = {given.family: given.random} if given.family else {it: share(it, given.random) for it in WEIGHTS}
    for family in calls:
        with ThreadPoolExecutor(given.jobs) as pool:
            made = written(folder, family, calls[family], given.seed)
            done = [task.result() for task in [pool.submit(play_one, player, *it) for it in made]]
        passed, failed = sum(it.passed for it in done), sum(it.failed for it in done)
        print(f"{family}: {len(done)} scripts of seed {given.seed}, {passed} calls passed, {failed} failed", flush=True)
        count.passed, count.failed = count.passed + passed, count.failed + failed
        count.failures += [fault for it in done for fault in it.failures]
    if not count.failed and given.keep is None:
        folder.rmdir()
    return count.end()


def compare(count: Count, path: pathlib.Path, name: str, size: int, statements: list[Statement]) -> None:
    """Plays statements on the model, up to the first that it does not have."""
    subject = subject_of(name, size)
    for done, it in enumerate(statements):
        try:
            answer = None if subject is None else subject.answer(it.name, it.words)
        except Unfixed:
            count.left_out += 1
            continue
        except (NoCall, BadWord, IndexError, ValueError):
            answer = None
        if answer is None:
            count.left_out += len(statements) - done
            return
        if answer.split() == it.answer:
            count.passed += 1
        else:
            count.failed += 1
            count.failures.append(f"{path}:{it.line}: {it.text}\n  the model: {answer}")


def is_large(script: str, statements: list[Statement]) -> bool:
    """Returns whether a script makes so many calls, or calls on so many items, that the model would take long."""
    if len(statements) > MOST or any(len(it.words) > MOST for it in statements):
        return True
    return any(int(it) < 2**32 for it in MANY.findall(script))


def play_on_model(words: list[str]) -> int:
    """Plays the written scripts on the model."""
    count = Count()
    for path in chosen(words):
        script = path.read_text(encoding="utf-8")
        statements = [it for it in read(script) if it.name != "make"]
        for line in script.splitlines():
            name, *sizes = line.split()[1:] if line.startswith("make ") else [""]
            for size in sizes:
                if is_large(script, statements):
                    count.left_out += len(statements)
                else:
                    compare(count, path, name, int(size), statements)
    return count.end(f", {count.left_out} left out")


def main() -> int:
    ask = argparse.ArgumentParser(description=__doc__, formatter_class=argparse.RawDescriptionHelpFormatter)
    ask.add_argument("words", nargs="*", metavar="WORD")
    kinds = ask.add_mutually_exclusive_group()
    kinds.add_argument("--model", action="store_true", help="the written scripts on the model")
    kinds.add_argument("--random", type=int, metavar="CALLS", help="random scripts, of so many calls together")
    ask.add_argument("--seed", type=int, default=1, help="of random scripts")
    ask.add_argument("--family", choices=WEIGHTS, help="random scripts of this family only")
    ask.add_argument("--keep", type=pathlib.Path, metavar="FOLDER", help="where random scripts that fail are kept")
    ask.add_argument("--jobs", type=int, default=len(os.sched_getaffinity(0)), help="how many players at a time")
    given = ask.parse_args()
    if given.random:
        return play_random(given)
    return play_on_model(given.words) if given.model else play(given.words, given.jobs)


if __name__ == "__main__":
    sys.exit(main())

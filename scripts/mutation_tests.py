#!/usr/bin/env python3
"""Tries wrong bodies: the prover must refuse each.

    scripts/mutation_tests.py [CRATE..]

Each file crates/NAME/must-fail/*.edit makes a wrong body of a function, by a line `file: PATH` and pairs of lines
`old: TEXT` and `new: TEXT`; an old text occurs in its file exactly once. A proof depends on the contracts of the
functions that it calls and not on their bodies, and the prover reports for each function by itself why it is refused.
So edits of different functions of a crate are tried together, in rounds. An edit is refused if the prover finds
something open in a function that contains the edit: not if that function only calls one that is refused, and not if a
proof only names what the edit removed. An edit that is not refused in a round is tried again, at last by itself.

`rt must-fail` tries each edit by itself, which took 67 minutes of processor time where this took 20. Only the edited
functions are proved, and those that they call, over the built libraries below their crate. Those must exist and be up
to date, and so must the crate's own, which shows that it is proved unchanged: `rt lib` in its folder leaves them in
out/. What one round has proved of a crate is not proved again in later ones. The prover's output is kept in
out/edits.log. The last line is 'N passed, M failed'.
"""

from __future__ import annotations

import argparse
import dataclasses
import os
import pathlib
import re
import shutil
import sys
import tempfile
from collections.abc import Callable
from concurrent.futures import Future, ThreadPoolExecutor
from typing import TextIO

TOP = pathlib.Path(__file__).resolve().parent.parent
sys.dont_write_bytecode = True
sys.path.insert(0, str(TOP / "scripts"))
import kit  # noqa: E402

FUNCTION = re.compile(r"( *)(?:pub(?:\([^)]*\))? )?(?:(?:const|unsafe|extern \"C\") )*fn (\w+)")
CLAUSE = re.compile(r"(?m)(?:^|[ )])(?:requires|ensures|ghost)\b")
ITEM = re.compile(r"(?:unsafe )?(?:pub )?(?:impl|trait)\b")
IMPL = re.compile(r"impl\s*(?:(.*?)\s+for\s+)?(.*?)\s*$")


@dataclasses.dataclass(frozen=True)
class Change:
    """A text of a file, and its replacement in a wrong body."""

    path: str
    old: str
    new: str


@dataclasses.dataclass
class Function:
    """An edited function: its module, the type and the trait that it is a method of, and its name.

    The prover calls a method by its type's module, wherever its text is, and distinguishes types of one name by their
    arguments. So `word`, by which it is asked, begins as the end of the known name.
    """

    module: list[str]
    owner: str
    name: str
    word: str = ""

    def __post_init__(self) -> None:
        self.word = self.word or "::".join([self.owner, self.name] if self.owner else [*self.module, self.name])

    def key(self) -> str:
        return "::".join([*self.module, self.owner, self.name])

    def has(self, name: str) -> bool:
        """Returns whether a full name is that of this function, or of a closure in it."""
        within = rf"::fn::(?:{re.escape(self.owner)}[^:]*::)?{self.name}::" if self.owner else rf"::fn::{self.name}::"
        return f"::{name}".endswith(f"::{self.word}") or bool(re.search(within, name))

    def learns(self, checked: kit.Checked) -> bool:
        """Takes another name if the prover knows no function, or several, by the present one."""
        word, names = checked.unknown()
        if word != self.word:
            return False
        self.word = self.nearest(names).partition("::")[2] if names else self.name
        return self.word != word

    def nearest(self, names: list[str]) -> str:
        """Returns, of the names of several functions, the one with this function's module."""
        parts = {it: it.split("::") for it in names}
        shared = {it: len(os.path.commonprefix([self.module, words[1:-1]])) for it, words in parts.items()}
        return max(names, key=lambda it: (parts[it][-2].split("+")[0] == self.owner, shared[it]))


@dataclasses.dataclass
class Edit:
    """A wrong body: its changes, and the functions that contain them."""

    name: str
    changes: list[Change]
    functions: list[Function]

    def finding(self, found: dict[str, kit.Finding]) -> kit.Finding:
        """Returns the findings for the edited functions, closures in them included."""
        mine = [it for name, it in found.items() if any(function.has(name) for function in self.functions)]
        mine.sort(key=lambda it: (bool(it.open), it.is_refused()))
        return mine[-1] if mine else kit.Finding()


@dataclasses.dataclass
class Tally:
    """The results of the edits of a crate."""

    crate: str
    passed: int = 0
    failed: int = 0
    checks: int = 0
    seconds: float = 0


class Unfit(Exception):
    """An edit that cannot be tried as it is written."""


def changes_in(text: str) -> list[Change]:
    """Returns the changes that a file of an edit lists."""
    found: list[Change] = []
    path, old = "", ""
    for line in text.splitlines():
        word, _, rest = line.partition(":")
        if word == "file":
            path = rest.strip()
        elif word == "old":
            old = rest.removeprefix(" ")
        elif word == "new":
            found.append(Change(path, old, rest.removeprefix(" ")))
    if not found or not all(it.old and it.path.startswith("src/") for it in found):
        raise Unfit("it needs a line `file: src/..`, and pairs of lines `old: ..` and `new: ..`")
    return found


def applied(changes: list[Change], folder: pathlib.Path) -> dict[str, str]:
    """Returns the texts of the files that the changes make, by path."""
    texts: dict[str, str] = {}
    for it in changes:
        if it.path not in texts and not (folder / it.path).is_file():
            raise Unfit(f"there is no file {it.path}")
        text = texts.get(it.path) or (folder / it.path).read_text(encoding="utf-8")
        if (count := text.count(it.old)) != 1:
            raise Unfit(f"its text `{it.old.strip()}` stands {count} times in {it.path}, and not once")
        texts[it.path] = text.replace(it.old, it.new)
    return texts


def without_brackets(text: str) -> str:
    """Returns a text without the parts in angle brackets."""
    text = text.replace("->", "")
    while (less := re.sub(r"<[^<>]*>", "", text)) != text:
        text = less
    return text


def named(of_type: str) -> str:
    """Returns a type as the prover writes it in the name of a function."""
    of_type = re.sub(r"&\s*(?:'\w+ )?mut ", "RefMut ", of_type)
    of_type = re.sub(r"&\s*(?:'\w+ )?", "Ref ", of_type)
    return "".join(re.sub(r"\W", "", it.split("::")[-1]) for it in of_type.split())


def owner(header: str) -> str:
    """Returns the prover's name of the impl or the trait with a header."""
    header = without_brackets(" ".join(header.split())).partition(" where")[0]
    header = re.sub(r"^(?:unsafe )?(?:pub )?", "", header)
    if header.startswith("trait"):
        return header.removeprefix("trait").partition(":")[0].strip()
    found = IMPL.match(header)
    return named(found[2]) + named(found[1] or "") if found else ""


def function_at(path: str, text: str, at: int) -> Function:
    """Returns the function around a place of a file."""
    module = [it for it in pathlib.Path(path).with_suffix("").parts[1:] if it not in ("lib", "main", "mod")]
    lines = text[: at + len(text[at:].partition("\n")[0])].splitlines()
    heads = [it for line in lines if (it := FUNCTION.match(line))]
    if not heads:
        raise Unfit(f"its text stands in no function of {path}")
    if not heads[-1][1]:
        return Function(module, "", heads[-1][2])
    begun = max(i for i, line in enumerate(lines) if ITEM.match(line))
    return Function(module, owner("\n".join(lines[begun:]).partition("{")[0]), heads[-1][2])


def read(file: pathlib.Path, folder: pathlib.Path) -> Edit:
    """Returns the edit that a file lists."""
    changes = changes_in(file.read_text(encoding="utf-8"))
    functions: dict[str, Function] = {}
    for at, change in enumerate(changes):
        before = applied(changes[:at], folder).get(change.path)
        text = before or (folder / change.path).read_text(encoding="utf-8")
        applied(changes[: at + 1], folder)
        at_line = text[: text.index(change.old)].rpartition("\n")[2] + change.old + change.new
        if CLAUSE.search(at_line):
            raise Unfit("it changes a clause, and a wrong body is one of code")
        found = function_at(change.path, text, text.index(change.old))
        functions[found.key()] = found
    return Edit(file.stem, changes, [*functions.values()])


def fit_together(edits: list[Edit], folder: pathlib.Path) -> bool:
    """Returns whether edits are in different functions, and each old text occurs once after those before it."""
    functions = [function.key() for it in edits for function in it.functions]
    try:
        applied([change for it in edits for change in it.changes], folder)
    except Unfit:
        return False
    return len(functions) == len(set(functions))


class Trial:
    """The edits of a crate while they are tried."""

    def __init__(self, crate: kit.Crate, built: kit.Crate, kept: pathlib.Path, log: TextIO) -> None:
        self.crate, self.built, self.kept, self.log = crate, built, kept / crate.name, log
        self.folder = pathlib.Path(crate.folder)
        self.tally = Tally(crate.name)
        self.jobs: Callable[[], int] = lambda: 1

    def fail(self, name: str, why: str) -> None:
        self.tally.failed += 1
        print(f"{self.crate.name}/{name}: {why}", flush=True)

    def edits(self, picked: list[str]) -> list[Edit]:
        """Returns the edits of the crate that can be tried."""
        found = []
        for file in sorted((self.folder / "must-fail").glob("*.edit")):
            try:
                found += [read(file, self.folder)] if file.stem in picked or not picked else []
            except Unfit as why:
                self.fail(file.stem, f"BAD EDIT: {why}")
        return found

    def check(self, edits: list[Edit]) -> kit.Checked:
        """Returns the prover's output for a copy of the crate with these edits in it."""
        with tempfile.TemporaryDirectory(prefix="edits-") as room:
            for part in kit.sources(self.crate):
                shutil.copytree(part, pathlib.Path(room, part.name))
            for path, text in applied([change for it in edits for change in it.changes], self.folder).items():
                pathlib.Path(room, path).write_text(text, encoding="utf-8")
            checked = self.asked([function for it in edits for function in it.functions], pathlib.Path(room))
        names = [it.name for it in edits]
        print(f"=== {self.crate.name}: {', '.join(names)}\n{checked.said}", file=self.log, flush=True)
        return checked

    def asked(self, functions: list[Function], room: pathlib.Path) -> kit.Checked:
        """Returns the prover's output for functions, each by a name that it knows."""
        while True:
            words = [word for it in functions for word in ("--only", it.word)]
            checked = kit.check(self.built, room, self.kept, words, self.jobs())
            self.tally.checks += 1
            self.tally.seconds += checked.seconds
            if not any(it.learns(checked) for it in functions):
                return checked

    def run(self, picked: list[str]) -> Tally:
        """Tries all edits, as many at a time as fit together, and the remaining ones one by one."""
        left, alone = self.edits(picked), list[Edit]()
        while left or alone:
            together = self.fitting(left) if left else [alone.pop(0)]
            left = [it for it in left if it not in together]
            kept = self.tried(together)
            # (if none of a round was refused, they are tried one by one)
            (left if len(kept) < len(together) else alone).extend(kept)
        return self.tally

    def fitting(self, edits: list[Edit]) -> list[Edit]:
        """Returns as many of these edits as can be tried together."""
        together = list[Edit]()
        for edit in edits:
            if fit_together([*together, edit], self.folder):
                together.append(edit)
        return together

    def tried(self, edits: list[Edit]) -> list[Edit]:
        """Tries edits together, and returns those without a result yet."""
        checked = self.check(edits)
        found = checked.findings(self.crate.name)
        refused = [it for it in edits if is_refused(it.finding(found), len(edits) == 1)]
        if checked.status != 1 or checked.unread():
            refused = []
        self.tally.passed += len(refused)
        if refused or len(edits) > 1:
            return [it for it in edits if it not in refused]
        self.fail(edits[0].name, why_not(edits[0], edits[0].finding(found), checked))
        return []


def is_refused(finding: kit.Finding, is_alone: bool) -> bool:
    """Returns whether something of a function itself is open. Beside a refused callee that may be due to the callee."""
    return finding.is_refused() and bool(finding.open) and (is_alone or not finding.has_refused_callee())


def why_not(edit: Edit, finding: kit.Finding, checked: kit.Checked) -> str:
    """Returns why an edit that was tried by itself counts as not refused."""
    name = " and ".join(it.word for it in edit.functions)
    if checked.unread():
        return f"BAD EDIT: the prover cannot read the edited text: {checked.unread()[0][:200]}"
    if finding.said == "proved":
        return f"NOT REFUSED: {name} is still proved with this edit"
    if finding.is_refused() and finding.stale:
        return (
            f"BAD EDIT: {name} is refused only because a proof names what the edit took away: {finding.stale[0][:200]}"
        )
    if finding.is_refused() and finding.has_refused_callee():
        return f"NOT REFUSED: {name} is refused only for what it calls"
    return f"NOT REFUSED: the check ended with status {checked.status}, and said of {name}: {finding.said[:200]}"


def stop_on_unbuilt(trials: list[Trial]) -> None:
    """Stops if a crate, or a library below it, is not built from the current sources."""
    for it in trials:
        lacking = kit.unbuilt(it.crate, it.built)
        if it.crate.makes_rlib() and not kit.is_built(it.crate, it.built):
            lacking.append(it.crate.name)
        if lacking:
            sys.exit(
                f"not built, or not of these sources: {', '.join(lacking)}. Run `rt lib` in {it.crate.folder} first"
            )


def arguments() -> argparse.Namespace:
    ask = argparse.ArgumentParser(description="Tries the wrong bodies crates/*/must-fail/*.edit in rounds.")
    ask.add_argument("crates", nargs="*", metavar="CRATE", help="the crates whose edits are tried (default: all)")
    ask.add_argument("--top", type=pathlib.Path, default=TOP, help="the checkout with the edits")
    ask.add_argument("--built", type=pathlib.Path, help="the checkout whose libraries are built (default: the same)")
    ask.add_argument("--pick", action="append", default=[], metavar="NAME", help="only the edits of this name")
    ask.add_argument("--jobs", type=int, default=kit.at_once(), help="checks at a time (default: %(default)s)")
    return ask.parse_args()


def trials_of(given: argparse.Namespace, kept: pathlib.Path, log: TextIO) -> list[Trial]:
    """Returns the crates with edits, those with most of them first."""
    built = {it.name: it for it in kit.crates(given.built or given.top)}
    crates = [it for it in kit.crates(given.top) if not given.crates or it.name in given.crates]
    if lacking := {*given.crates} - {it.name for it in crates}:
        sys.exit(f"there is no crate {', '.join(sorted(lacking))}")
    count = {it.name: len([*pathlib.Path(it.folder, "must-fail").glob("*.edit")]) for it in crates}
    crates = sorted((it for it in crates if count[it.name]), key=lambda it: -count[it.name])
    if lacking := {it.name for it in crates} - {*built}:
        sys.exit(f"{given.built} has no crate {', '.join(sorted(lacking))}")
    return [Trial(it, built[it.name], kept, log) for it in crates]


def main() -> int:
    given = arguments()
    top = given.top.resolve()
    given.top, given.built = top, (given.built or top).resolve()
    kit.guard()
    (TOP / "out").mkdir(exist_ok=True)
    with (
        tempfile.TemporaryDirectory(prefix="edits-") as kept,
        open(TOP / "out/edits.log", "w", encoding="utf-8") as log,
        ThreadPoolExecutor(given.jobs) as pool,
    ):
        trials = trials_of(given, pathlib.Path(kept), log)
        stop_on_unbuilt(trials)
        runs: list[Future[Tally]] = []

        def share() -> int:
            """Returns the jobs of a check: its share of all, among the remaining crates."""
            left = len(trials) - sum(it.done() for it in runs)
            return max(1, int(given.jobs) // max(1, left))

        for trial in trials:
            trial.jobs = share
            runs.append(pool.submit(trial.run, given.pick))
        tallies = [it.result() for it in runs]
    for it in tallies:
        print(
            f"{it.crate}: {it.passed} of {it.passed + it.failed} refused in {it.checks} checks,"
            f" {it.seconds:.0f} s of processor"
        )
    passed, failed = sum(it.passed for it in tallies), sum(it.failed for it in tallies)
    print(f"{passed} passed, {failed} failed")
    return 1 if failed or not passed else 0


if __name__ == "__main__":
    sys.exit(main())

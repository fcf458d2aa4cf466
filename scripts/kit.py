"""The parts of the toolchain that the tools of this repository use beyond the commands that `rt help` lists.

`rt` is a script over a module `rtlib`, which knows the crates of a repository, the words that the prover takes for
each, and the places of built files. That module may change with the toolchain: if it does not have what is used here,
the tools stop with a sentence that names the missing part.
"""

from __future__ import annotations

import argparse
import contextlib
import dataclasses
import importlib
import importlib.machinery
import importlib.util
import os
import pathlib
import re
import shutil
import subprocess
import sys
import tempfile
from collections.abc import Callable, Iterator
from typing import Protocol, cast

import processes

TOP = pathlib.Path(__file__).resolve().parent.parent
USED = ("KIT", "PARTS", "RATTLE", "Crate", "crates_below", "guarded", "lock", "main")
STAMP = "stamp"  # beside a built library: a sum of all sources that it was built from
MEMORY = 4 << 30  # bytes that a check may take
PROVED = "out/checked"  # in the folder of a static library: what its check proved, for its build
PROVER = "rattle"  # the name of its process
ALONE = "/rt-edit-"  # in the path of the folder in which `rt must-fail` tries an edit
# The output of a check for a function, and before that, what is open in it.
FUNCTION = re.compile(r"fn (\S+): (.*)")
OPEN = re.compile(r"note: (src/\S+:\d+:\d+: it is not proved .*)")
# An error in a proof file, in the folder of its function.
IN_PROOF = re.compile(r"(?:\./)?proofs/(\S+)/\w+\.antt:\d+:\d+: error: (.*)")
# Such an error if the proof names something that the code no longer has; it then does not concern a contract.
STALE = re.compile(
    r"has no field|is not a field of|has no `|is not in scope|is no name|was not admitted"
    r"|was rejected, were not checked"
)
# The output for a name that matches no function, or several.
NO_FUNCTION = re.compile(r"`\w+` has no function `([^`]+)`")
SEVERAL = re.compile(r"several functions are named `([^`]+)`: help: write one of (.*)")
ENDED = re.compile(r"checked (\S+), \d+ of \d+")
UNREAD = re.compile(r"(?:\./)?(?:src|specs)/\S+:\d+:\d+: error|rattle: error|error")


class Crate(Protocol):
    """A crate, as in `rtlib`."""

    name: str
    folder: str
    rlib: str
    is_static: bool

    def below(self) -> list[Crate]:
        ...

    def makes_rlib(self) -> bool:
        ...

    def stamp(self) -> str:
        ...

    def words(self, flags: list[str], *, keeps: bool) -> list[str]:
        ...


Crates = list[Crate]


class Linking(Protocol):
    """The used part of the class of the crates: the files that are linked into a crate's program."""

    c_code: Callable[[Crate, str], list[str]]


class Proving(Protocol):
    """The used part of the class of the crates under `rt ci`: it runs the prover's commands, and judges their
    output."""

    prove: Callable[..., int]


Key = tuple[str, ...]  # of a task of `rt ci`: a crate, and whether it is its proof or its tests
Given = dict[Key, object]  # results of tasks
# The tasks that a task waits for, its work in lines, its memory, and a call that gets their results and a number of
# jobs.
Task = tuple[list[Key], int, int, Callable[[Given, int], object]]


class Command(Protocol):
    """The used part of the script `rt`."""

    Crate: Proving
    in_lanes: Callable[[dict[Key, Task]], Given]

    def main(self, words: list[str]) -> int:
        ...


class Module(Protocol):
    """The used part of `rtlib`."""

    KIT: str
    PARTS: tuple[str, ...]
    RATTLE: str
    Crate: Linking

    def crates_below(self, top: str) -> Crates:
        ...

    def guarded(self) -> list[str]:
        ...

    def lock(self, crates: Crates) -> list[int]:
        ...

    def main(self, verb: str, *words: str) -> int:
        ...


def script() -> str:
    """Returns the file of the command `rt`."""
    command = shutil.which("rt")
    if not command:
        sys.exit("the toolchain's command `rt` is not on the path")
    return os.path.realpath(command)


def module() -> Module:
    """Returns the module `rtlib` beside the command `rt`."""
    sys.dont_write_bytecode = True
    sys.path.insert(0, os.path.dirname(script()))
    try:
        rtlib = importlib.import_module("rtlib")
    except ImportError:
        sys.exit("this toolchain has no module rtlib beside `rt`: scripts/kit.py has to learn of another way")
    lacking = [name for name in USED if not hasattr(rtlib, name)]
    if lacking:
        sys.exit(f"the toolchain's rtlib has no {lacking[0]}: scripts/kit.py has to learn of another way")
    return cast(Module, rtlib)


def crates(top: pathlib.Path = TOP) -> Crates:
    """Returns the crates of a repository, each after those that it uses."""
    return module().crates_below(str(top / "crates"))


def command() -> Command:
    """Returns the script `rt`, as a module."""
    sys.dont_write_bytecode = True
    loader = importlib.machinery.SourceFileLoader("rt", script())
    spec = importlib.util.spec_from_loader("rt", loader)
    assert spec
    rt = importlib.util.module_from_spec(spec)
    loader.exec_module(rt)
    if not hasattr(getattr(rt, "Crate", None), "prove") or not hasattr(rt, "in_lanes") or not hasattr(rt, "main"):
        sys.exit("this toolchain's `rt` does not prove as scripts/kit.py knows it: that has to learn of another way")
    return cast(Command, rt)


def ci() -> int:
    """Runs `rt ci` with two changes.

    A check of a static library also writes what it proved into the library's folder, for `library`: `rt ci` does so
    only for a program, and `rt lib` would prove it again, in 7.9 minutes of processor time in place of 0.5.

    `rt ci` shares the idle processors among all proofs that wait, and counts the tests of a crate without tests as one:
    of four processors it gives the crates of a chain of three 2, 1 and 1 (tests/gate_lanes.py). Those tests are left
    for the end, when nothing waits, and each crate of the chain gets 4.
    """
    rt = command()
    prove, in_lanes = rt.Crate.prove, rt.in_lanes

    def proved(crate: Crate, *commands: list[str]) -> int:
        more = ["-o", PROVED] if crate.is_static else []
        return prove(crate, *(it + more if it[0] == "check" and "--test" not in it else it for it in commands))

    def with_idle_processors(tasks: dict[Key, Task]) -> Given:
        awaited = {key for it in tasks.values() for key in it[0]}
        empty = [key for key, it in tasks.items() if key[1] == "tests" and it[1] == 0 and key not in awaited]
        given = in_lanes({key: it for key, it in tasks.items() if key not in empty})
        return {**given, **{key: tasks[key][3](given, 1) for key in empty}}

    rt.Crate.prove, rt.in_lanes = proved, with_idle_processors
    return rt.main(["ci"])


def library(folder: pathlib.Path) -> int:
    """Builds the static library of a crate from what a check under `ci` proved of it, or proves it if there is no such
    check."""
    crate = next(it for it in crates(folder.parent.parent) if it.name == folder.name)
    if not (folder / PROVED).is_dir():
        return subprocess.run(["rt", "lib", "--jobs", str(len(os.sched_getaffinity(0)))], cwd=folder).returncode
    rtlib = module()
    words = crate.words(["--jobs", "1"], keeps=False)
    for flag in ("--logic-built", "--jobs"):  # (of a check)
        del words[words.index(flag) : words.index(flag) + 2]
    words += ["--crate-checked", PROVED, "--toolchain", f"{rtlib.KIT}/toolchain", "--backend", "llvm"]
    return subprocess.run([rtlib.RATTLE, "build", *words, "-o", f"out/lib{crate.name}.a"], cwd=folder).returncode


def stamp(top: pathlib.Path) -> None:
    """Writes the sums that mark the libraries of a repository as up to date for `rt`.

    `rt ci` does not write them, and without them `rt` builds each library again: `indexset_index` in 125 s of processor
    time, `indexset` in 130.
    """
    for crate in crates(top):
        if os.path.isdir(crate.rlib):
            pathlib.Path(crate.folder, "out/rlib/stamp").write_text(crate.stamp(), encoding="utf-8")


def identity() -> str:
    """Returns the line that identifies the toolchain."""
    return subprocess.run(["rt", "version"], capture_output=True, text=True, check=True).stdout.strip()


def sources(crate: Crate) -> list[pathlib.Path]:
    """Returns the folders of a crate that a check reads."""
    folders = [pathlib.Path(crate.folder, part) for part in module().PARTS]
    return [it for it in folders if it.is_dir()]


def unbuilt(crate: Crate, built: Crate) -> list[str]:
    """Returns the libraries below a crate that are not built from the current sources, in the checkout of `built`."""
    there = {it.name: it for it in built.below()}
    return [it.name for it in crate.below() if it.name not in there or not is_built(it, there[it.name])]


def is_built(crate: Crate, built: Crate) -> bool:
    """Returns whether the library of a crate exists, and is built from these sources by this toolchain."""
    file = pathlib.Path(built.rlib).parent / STAMP
    return os.path.isdir(built.rlib) and file.is_file() and file.read_text(encoding="utf-8") == crate.stamp()


@contextlib.contextmanager
def locked(crates: Crates) -> Iterator[None]:
    """Waits until no `rt` works in the folders of crates, and keeps others out."""
    held = module().lock(crates)
    try:
        yield
    finally:
        for it in held:
            os.close(it)


def at_once() -> int:
    """Returns the number of checks that the processors and the free memory allow at a time."""
    return max(1, min(len(os.sched_getaffinity(0)), free_memory() // MEMORY))


def free_memory() -> int:
    """Returns the free memory in bytes."""
    found = re.search(r"MemAvailable:\s+(\d+)", pathlib.Path("/proc/meminfo").read_text(encoding="ascii"))
    return 1024 * int(found[1]) if found else 0


@dataclasses.dataclass
class Finding:
    """The result of a check for a function."""

    said: str = "nothing"
    open: list[str] = dataclasses.field(default_factory=list)
    stale: list[str] = dataclasses.field(default_factory=list)

    def is_refused(self) -> bool:
        return self.said.startswith(("not proved", "no proof"))

    def has_refused_callee(self) -> bool:
        return "it calls " in self.said


@dataclasses.dataclass
class Checked:
    """The output of a check, with its exit status and its processor seconds."""

    said: str
    status: int
    seconds: float

    def unread(self) -> list[str]:
        """Returns the errors for which the prover was not asked."""
        return [line for line in self.said.splitlines() if UNREAD.match(line)]

    def unknown(self) -> tuple[str, list[str]]:
        """Returns the name that matches no function, or several, and these."""
        if it := NO_FUNCTION.search(self.said):
            return it[1], []
        it = SEVERAL.search(self.said)
        return (it[1], re.findall(r"`([^`]+)`", it[2])) if it else ("", [])

    def findings(self, crate: str) -> dict[str, Finding]:
        """Returns the findings for each function, by its full name."""
        found: dict[str, Finding] = {}
        opens: list[str] = []
        for line in self.said.splitlines():
            if it := OPEN.match(line):
                opens.append(it[1])
            elif it := IN_PROOF.match(line):
                finding = found.setdefault("::".join([crate, *it[1].split("/")]), Finding())
                (finding.stale if STALE.search(it[2]) else finding.open).append(it[2])
            elif it := FUNCTION.match(line):
                finding = found.setdefault(it[1], Finding())
                finding.said = it[2]
                finding.open += opens
                opens = []
        return found


def guard() -> list[str]:
    """Returns the words before a command that make it end with this process. The first call must come from the main
    thread."""
    return module().guarded()


def check(built: Crate, at: pathlib.Path, kept: pathlib.Path, flags: list[str], jobs: int) -> Checked:
    """Checks the sources in a folder as those of a crate, over the libraries of the crate's checkout.

    Of the crate itself it uses what earlier checks kept in a folder, and keeps there what it has checked.
    """
    rtlib = module()
    flags = ["--jobs", str(jobs), "--incremental", str(kept), *flags]
    words = [*guard(), rtlib.RATTLE, "check", *built.words(flags, keeps=False)]
    with tempfile.TemporaryFile("w+", errors="replace") as out:
        ran = subprocess.Popen(words, cwd=at, stdin=subprocess.DEVNULL, stdout=out, stderr=subprocess.STDOUT)
        _, status, used = os.wait4(ran.pid, 0)
        ran.returncode = os.waitstatus_to_exitcode(status)
        out.seek(0)
        return Checked(out.read(), ran.returncode, used.ru_utime + used.ru_stime)


@dataclasses.dataclass(frozen=True)
class Work:
    """The crate that a process of the prover works on, and the purpose: its proof, its tests or its edits."""

    crate: str
    kind: str


def work_of(pid: int) -> Work | None:
    """Returns the work of a process of the prover; None for a copy of another one, and for any other process."""
    it = processes.process(pid)
    if it.name != PROVER or processes.process(it.parent).name == PROVER:
        return None
    words = pathlib.Path(f"/proc/{pid}/cmdline").read_bytes().decode(errors="replace").split("\0")
    crate = dict(zip(words, words[1:])).get("--crate-name")
    is_edit = ALONE in os.readlink(f"/proc/{pid}/cwd")
    kind = "tests" if "--test" in words else "edits" if is_edit else "proof"
    return Work(crate, kind) if crate else None


def timed(built: Crate, at: pathlib.Path) -> Iterator[tuple[str, float]]:
    """Returns the functions of the sources in a folder, each as its proof ends in a check by one job, with its
    seconds."""
    rtlib = module()
    words = [*guard(), rtlib.RATTLE, "check", *built.words(["--jobs", "1", "--progress"], keeps=False)]
    now, last, is_first, ended = 0.0, 0.0, True, ""
    with subprocess.Popen(
        words, cwd=at, stdin=subprocess.DEVNULL, stdout=subprocess.PIPE, stderr=subprocess.STDOUT, text=True
    ) as ran:
        assert ran.stdout
        for line in ran.stdout:
            with contextlib.suppress(OSError):
                now = processes.process(ran.pid).seconds
            if it := ENDED.match(line):
                yield it[1], 0.0 if is_first else now - last
                is_first = False
            last, ended = now, line
    if ran.returncode:
        raise RuntimeError(f"{at.name} is not proved: {ended}")


def main() -> int:
    """Runs `kit.py ci`, `kit.py stamp FOLDER` or `kit.py library FOLDER`."""
    ask = argparse.ArgumentParser(description="What the tools use of the toolchain beyond the commands of `rt help`.")
    verbs = ask.add_subparsers(dest="verb", required=True)
    verbs.add_parser("ci", help="run `rt ci` over idle processors, and keep what it proves for `library`")
    it = verbs.add_parser("stamp", help="mark the libraries that `rt ci` has built in a folder as up to date")
    it.add_argument("folder", type=pathlib.Path)
    it = verbs.add_parser(
        "library", help="build the static library of a crate's folder, without a second proof where `ci` proved it"
    )
    it.add_argument("folder", type=pathlib.Path)
    given = ask.parse_args()
    if given.verb == "ci":
        return ci()
    if given.verb == "library":
        return library(given.folder.resolve())
    stamp(given.folder.resolve())
    return 0


if __name__ == "__main__":
    sys.exit(main())

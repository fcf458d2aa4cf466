"""Runs of programs in which `refuse.c` makes a request fail, and their counts."""

from __future__ import annotations

import contextlib
import os
import pathlib
import signal
import subprocess
import tempfile
import threading
from collections.abc import Iterator
from dataclasses import dataclass, field

HERE = pathlib.Path(__file__).resolve().parent
MEMORY, READ, WRITE = "REFUSE_MEMORY", "REFUSE_READ", "REFUSE_WRITE"
TOLD = {MEMORY: (1, b"memory\n"), READ: (3, b"read\n"), WRITE: (4, b"write\n")}
CONDITIONS: tuple[dict[str, int], ...] = ({}, {"REFUSE_ON": 1}, {"SHORT_READ": 5})
SECONDS = 1200  # for one run, on a busy machine


@dataclass
class Run:
    """The result of a program while one or more of its requests failed."""

    status: int
    out: bytes
    err: bytes
    memory: int
    failed: int
    kept: int

    def tells(self, which: str) -> bool:
        """Returns whether it ended as it must at such a fault."""
        return (self.status, self.err) == TOLD[which] and self.kept == 0

    def is_done(self, replies: bytes) -> bool:
        """Returns whether it succeeded, with these replies."""
        return (self.status, self.out, self.err, self.kept) == (0, replies, b"", 0)


@dataclass
class Sweep:
    """Programs with `refuse.c` from a library, or linked, and their results."""

    library: pathlib.Path | None
    passed: int = 0
    failures: list[str] = field(default_factory=list)

    def expect(self, is_right: bool, what: str) -> None:
        """Counts a right result, and stores a wrong one."""
        if is_right:
            self.passed += 1
        else:
            self.failures.append(what)

    def settings(self, report: int, refuse: dict[str, int]) -> dict[str, str]:
        """Returns the environment of a program in which such requests fail."""
        found = {name: str(value) for name, value in [*refuse.items(), ("REFUSE_REPORT", report)]}
        return {**found, "LD_PRELOAD": str(self.library)} if self.library else found

    def run(self, words: list[str], given: bytes, **refuse: int) -> Run:
        """Runs a program on these lines while such requests fail."""
        reader, writer = os.pipe()
        settings = self.settings(writer, refuse)
        done = subprocess.run(words, input=given, env=settings, capture_output=True, pass_fds=[writer], timeout=SECONDS)
        os.close(writer)
        with os.fdopen(reader) as report:
            counts = report.read().split() or ["-1"] * 5
        memory, _reads, _writes, failed, kept = map(int, counts)
        return Run(done.returncode, done.stdout, done.stderr, memory, failed, kept)

    def copied(self, words: list[str], given: pathlib.Path) -> tuple[Run, list[Run]]:
        """Runs a program on the lines of a file, and at each allocation a copy of it in which that one fails. The
        output of a copy counts as that of the program."""
        reader, writer = os.pipe()
        settings = self.settings(writer, {"REFUSE_EACH": 1})
        with open(given, "rb") as lines, tempfile.TemporaryFile() as out, tempfile.TemporaryFile() as err:
            how = {"stdin": lines, "stdout": out, "stderr": err, "pass_fds": [writer], "start_new_session": True}
            program = subprocess.Popen(words, env=settings, **how)  # type: ignore[call-overload]
            os.close(writer)
            limit = threading.Timer(SECONDS, os.killpg, (program.pid, signal.SIGKILL))
            limit.start()
            with os.fdopen(reader) as report:
                told = [[int(word) for word in line.split()] for line in report]
            status = program.wait()
            limit.cancel()
            out.seek(0)
            err.seek(0)
            *copies, own = told or [[-1] * 5]
            whole = Run(status, out.read(), err.read(), own[0], *own[3:])
        pairs = zip(copies[::2], copies[1::2])
        return whole, [Run(ended, b"", b"", counts[0], *counts[3:]) for counts, (ended,) in pairs]

    def runs(self, words: list[str], given: bytes, which: str, **more: int) -> Iterator[tuple[int, Run]]:
        """Yields each N with the run whose Nth such request fails; in the last none does."""
        n, failed = 0, 1
        while failed > 0:
            n += 1
            run = self.run(words, given, **{which: n}, **more)
            failed = run.failed
            yield n, run

    def each_request(self, program: pathlib.Path, given: bytes, replies: list[bytes], *words: str) -> None:
        """Tests each allocation, each read and each write over the lines, with the given replies to the first of them,
        with these arguments. After a failed read all complete lines that were read have their replies."""
        print(f"| {' '.join((program.name, *words))} | runs with a failed request |\n|---|---|")
        for which in TOLD:
            for more in CONDITIONS:
                count = 0
                for n, run in self.runs([str(program), *words], given, which, **more):
                    whole = given[: (n - 1) * more.get("SHORT_READ", len(given))].count(b"\n")
                    ends = [replies[whole]] if which == READ else replies
                    is_right = run.tells(which) and run.out in ends if run.failed else run.is_done(replies[-1])
                    self.expect(is_right, f"{which} {n} {more}: {run}")
                    count = n - 1
                self.expect(count > 0, f"{which} {more}: no request was refused")
                print(f"| {which} {' '.join(more)} | {count} |")

    def end(self) -> int:
        """Prints the wrong results, and their number; returns the exit status."""
        for failure in self.failures:
            print(failure)
        print(f"{self.passed} passed, {len(self.failures)} failed")
        return int(bool(self.failures))


@contextlib.contextmanager
def sweeping(is_linked: bool) -> Iterator[Sweep]:
    """Returns a sweep over programs into which `refuse.c` is linked, or before which it is loaded."""
    with tempfile.TemporaryDirectory() as folder:
        library = None if is_linked else pathlib.Path(folder) / "refuse.so"
        if library:
            build = ["cc", "-O1", "-shared", "-fPIC", "-o", str(library), str(HERE / "refuse.c"), "-ldl"]
            subprocess.run(build, check=True)
        yield Sweep(library)


def replies_to_first(file: str) -> list[bytes]:
    """Returns the replies to the first lines: to none, to one, and so on up to all; those to one line are separated by
    ` / `."""
    parts = (HERE / file).read_bytes().splitlines(keepends=True)
    return [b"".join(parts[:count]).replace(b" / ", b"\n") for count in range(len(parts) + 1)]

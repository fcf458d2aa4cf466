#!/usr/bin/env python3
"""Makes each request of the follower fail in turn, and compares its behaviour with the expected one.

`indexset_store` gets the lines of `follower_lines`, with the replies of `follower_replies`, those to one line separated
by ` / `; as a leader those of `leader_lines`; and over texts those of `text_follower_lines` and `text_leader_lines`. If
an allocation, a read or a write fails, it must write the replies to the lines before, the fault's word and nothing
else, exit with the fault's status, and free all memory. Four more cases are tested. The reply to an unterminated last
line is written only by the last flush: if that fails, the run fails. If an allocation fails and then the last flush
too, the first fault is reported. If one fails while the arguments are read, memory is reported, or of wrong arguments
the whole message, since the search for a tip can do without. And each reply must be written while the follower waits
for the rest of a line.

Run it once the program is built; `--linked` if refuse.c is linked into it. The last line is 'N passed, M failed'.
"""

from __future__ import annotations

import argparse
import os
import pathlib
import select
import subprocess
import sys
import time

HERE = pathlib.Path(__file__).resolve().parent
sys.dont_write_bytecode = True
sys.path.insert(0, str(HERE.parent.parent / "scripts"))
from programs import built  # noqa: E402
from refuse import MEMORY, WRITE, Sweep, replies_to_first, sweeping  # noqa: E402

PATIENCE = 30.0  # seconds for a reply, on a busy machine
BAD_ARGUMENTS = 5  # the status


def last_flush(sweep: Sweep, follower: pathlib.Path, line: bytes, reply: bytes) -> None:
    """Tests that the reply to an unterminated last line is written only by the last flush."""
    for n, run in sweep.runs([str(follower)], line, WRITE):
        is_right = run.tells(WRITE) if run.failed else n == 2 and run.is_done(reply)
        sweep.expect(is_right, f"the last flush, write {n}: {run}")


def first_fault(sweep: Sweep, follower: pathlib.Path, given: bytes, replies: list[bytes]) -> None:
    """Tests an allocation that fails before anything is written, and then the last flush. After a failed write it is
    only known that the output is the replies to the lines before."""
    asked = sweep.run([str(follower)], given).memory
    sweep.expect(asked > 0, "no memory was asked for")
    for n in range(1, asked + 1):
        run = sweep.run([str(follower)], given, **{MEMORY: n, WRITE: 1})
        sweep.expect(run.tells(MEMORY) and run.out in replies, f"memory request {n}, then a write: {run}")


def each_argument(sweep: Sweep, follower: pathlib.Path) -> None:
    """Tests each allocation that fails while the program reads arguments that are wrong, or that ask for the help."""
    for status, words in (
        (0, ["--help"]),
        (0, ["-V"]),
        (BAD_ARGUMENTS, ["--leads"]),
        (BAD_ARGUMENTS, ["--node-size", "1"]),
        (BAD_ARGUMENTS, ["--keys", "tex"]),
        (BAD_ARGUMENTS, ["--lead", "--follow"]),
        (BAD_ARGUMENTS, [os.fsdecode(b"--lead\xff")]),
    ):
        whole = sweep.run([str(follower), *words], b"")
        sweep.expect((whole.status, whole.kept) == (status, 0) and whole.memory > 0, f"{words}: {whole}")
        for n, run in sweep.runs([str(follower), *words], b"", MEMORY):
            is_whole = (run.status, run.out, run.err, run.kept) == (status, whole.out, whole.err, 0)
            is_memory = run.failed == 1 and run.tells(MEMORY) and not run.out
            may_be_whole = status == BAD_ARGUMENTS or run.failed == 0
            sweep.expect(is_memory or is_whole and may_be_whole, f"{words}, memory request {n}: {run}")


def waits(sweep: Sweep, follower: pathlib.Path) -> None:
    """Tests that each reply is written while the follower waits for more of a line, and for the next line."""
    with subprocess.Popen([follower], stdin=subprocess.PIPE, stdout=subprocess.PIPE) as running:
        assert running.stdin and running.stdout
        for given, reply in ((b"start 7\nle", b"held\n"), (b"n\n", b"0\n"), (b"fir", b""), (b"st\nget 1", b"none\n")):
            running.stdin.write(given)
            running.stdin.flush()
            sweep.expect(read_in_time(running.stdout.fileno(), len(reply)) == reply, f"no {reply!r} after {given!r}")
        running.stdin.close()
        sweep.expect(running.stdout.read() == b"none\n", "no reply to the last line")


def read_in_time(descriptor: int, length: int) -> bytes:
    """Returns the output of some seconds, up to this length."""
    came, end = b"", time.monotonic() + PATIENCE
    while len(came) < length and select.select([descriptor], [], [], max(0.0, end - time.monotonic()))[0]:
        more = os.read(descriptor, length - len(came))
        if not more:
            break
        came += more
    return came


def lines_and_replies(name: str) -> tuple[bytes, list[bytes]]:
    """Returns some lines, and the replies to the first of them."""
    return (HERE / f"{name}_lines").read_bytes(), replies_to_first(f"{name}_replies")


def main() -> int:
    ask = argparse.ArgumentParser(description="Has each request of the follower fail in turn.")
    ask.add_argument("--follower", type=pathlib.Path, help="the program indexset_store")
    ask.add_argument("--linked", action="store_true", help="the program contains refuse.c")
    arguments = ask.parse_args()
    follower = (arguments.follower or built("indexset_store")).resolve()
    given, replies = lines_and_replies("follower")
    leads, of_texts = ["--lead", "--node-size", "2"], ["--keys", "text"]
    with sweeping(arguments.linked) as sweep:
        sweep.each_request(follower, given, replies)
        sweep.each_request(follower, *lines_and_replies("leader"), *leads)
        sweep.each_request(follower, *lines_and_replies("text_follower"), *of_texts)
        sweep.each_request(follower, *lines_and_replies("text_leader"), *leads, *of_texts)
        last_flush(sweep, follower, b"len", b"0\n")
        first_fault(sweep, follower, given, replies)
        each_argument(sweep, follower)
        waits(sweep, follower)
        return sweep.end()


if __name__ == "__main__":
    sys.exit(main())

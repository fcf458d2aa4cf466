#!/usr/bin/env python3
"""Compares a leader with a model, line by line, and a follower that takes over with the leader that continues.

The lines to a leader are commands, reads, commands and reads with a word or a byte altered, snapshots that it begins
with while it has no node, `follow` and then events, and bytes of any kind; some lines are sent to a quiet program. A
follower reads the events of a leader up to some line, and then `lead` and the commands after that line: its replies
must be, byte for byte, those of the leader to these. Another begins from the snapshot that the leader writes at that
line. Some lines to a leader are truncated at every byte.

Run it once the program is built. The last line is 'N passed, M failed'.
"""

from __future__ import annotations

import argparse
import pathlib
import random
import re
import subprocess
import sys
from collections.abc import Sequence

sys.dont_write_bytecode = True
HERE = pathlib.Path(__file__).resolve().parent
sys.path[:0] = [str(HERE.parent.parent / "scripts"), str(HERE.parent / "model")]
from answers import DONE, MOST, NUMBERS, START, Model, is_number, number, snapshot  # noqa: E402
from hostile import Counts, Hostile, agreed, cuts, joined  # noqa: E402
from items import PAIRS, Item  # noqa: E402
from nodes import Events  # noqa: E402
from programs import built  # noqa: E402
from trees import Tree  # noqa: E402

LINES = 20_000
TURNS = 12
SECONDS = 1200  # for one run, on a busy machine


def texts(events: Events) -> list[str]:
    """Returns the texts of events."""
    return [event.write(number, PAIRS) for number, event in events]


class Store(Model):
    """The expected state and replies of a follower or a leader."""

    def __init__(self, size: int, leads: bool = True, is_quiet: bool = False) -> None:
        super().__init__(is_quiet)
        self.tree, self.leads = Tree(size), leads

    def lead(self) -> bytes:
        """Returns the reply to `lead`: a follower becomes a leader of its nodes."""
        if not self.leads:
            if any(len(node) > self.tree.size for node in self.nodes):
                return b"unfit %d size" % self.next
            self.tree.nodes = [[Item(key, 0, str(value)) for key, value in node] for node in self.nodes]
            self.tree.next, self.leads, self.coming, self.early = self.next, True, None, {}
        return b"next %d" % self.next

    def command(self, line: bytes) -> bytes | None:
        """Returns the reply to a command, with or without a number before it, or None if the line is not one."""
        word, *words = line.split(b" ")
        echo = number(word[1:]) if word[:1] == b"#" and is_number(word[1:]) else None
        match [word, *words] if echo is None else words:
            case [b"put", key, value] if is_number(key) and is_number(value):
                old, events = self.tree.put(Item(number(key), 0, str(number(value))))
                reply = "new" if old is None else f"old {old.value}"
            case [b"cut", key] if is_number(key):
                out, events = self.tree.remove(Item(number(key)))
                reply = "none" if out is None else f"gone {out.value}"
            case _:
                return None
        self.nodes = [[(item.key, int(item.value)) for item in node] for node in self.tree.nodes]
        self.next = self.tree.next
        if echo is None:
            return "\n".join([reply, *texts(events), f"next {self.next}"]).encode()
        self.done = max(self.done, echo)
        return "\n".join(
            [f"#{echo} {reply}", *texts(events), f"done {self.done} {self.next}", f"next {self.next}"]
        ).encode()

    def led(self, line: bytes) -> bytes:
        """Returns the reply of a leader."""
        told = self.read(line)
        told = self.command(line) if told is None else told
        return b"bad" if told is None else told

    def told(self, line: bytes) -> bytes:
        """Returns the reply to an unterminated line, in its role."""
        if line == b"lead":
            return self.lead()
        if line == b"follow":
            self.leads = False
            return b"next %d" % self.next
        try:
            if (
                not self.nodes
                and (started := START.fullmatch(line))
                and number(started[1]) + number(started[2] or b"0") >= 0
            ):
                self.leads = False
            return self.led(line) if self.leads else super().told(line)
        except OverflowError:
            return b"bad"


def random_echo(chance: random.Random, done: int) -> bytes:
    """Returns a number before a command, most often the one after the greatest, or an invalid one."""
    return chance.choice(
        [b"#%d " % (done % MOST + 1)] * 6
        + [
            b"#0 ",
            b"#%d " % chance.randrange(99),
            b"#%d " % (MOST if chance.random() < 0.01 else 7),
            b"# ",
            b"#01 ",
            b"#%d " % (MOST + 1),
            b"##1 ",
            b"#1  ",
        ]
    )


class Commands(Hostile):
    """Lines to a map that leads or has begun a snapshot, some of them adversarial."""

    def __init__(self, model: Model, seed: int, keys: int) -> None:
        super().__init__(model, seed)
        self.keys = keys

    def command(self) -> bytes:
        return random_echo(self.random, self.model.done) + self.plain() if self.random.random() < 0.3 else self.plain()

    def plain(self) -> bytes:
        key = self.random.randrange(self.keys) if self.random.random() < 0.95 else min(self.some_number(), MOST)
        if self.random.random() < 0.55:
            return b"put %d %d" % (key, self.random.randrange(9))
        return b"cut %d" % key

    def line(self) -> bytes:
        random = self.random
        kind = random.random()
        if kind < 0.02:
            return b"lead"
        if kind < 0.04:
            return b"%d %b" % (self.model.next, self.likely())
        if kind < 0.6:
            return self.command()
        if kind < 0.8:
            return self.read()
        if kind < 0.96:
            return self.altered(random.choice([self.command(), self.read()]))
        if kind < 0.98:
            given = [
                b"start %d" % random.choice([0, 3, 60, MOST + 1]),
                b"start 3 17",
                self.end(),
                self.whole_node(),
                b"0 create 1:1",
                self.done(),
            ]
            return random.choice([b"lead", b"lead", b"follow", b"snapshot", *given])
        return bytes(random.choices(range(256), k=random.randrange(40))).replace(b"\n", b"")


def run(program: pathlib.Path, words: Sequence[str | bytes], lines: list[bytes]) -> subprocess.CompletedProcess[bytes]:
    return subprocess.run([program, *words], input=joined(lines), capture_output=True, timeout=SECONDS)


def compare(program: pathlib.Path, size: int, keys: int, seed: int) -> Counts:
    """Returns the numbers of lines with the replies of the model, and of others."""
    leader = Store(size)
    author = Commands(leader, seed, keys)
    lines: list[bytes] = []
    answers: list[bytes] = []
    for _ in range(LINES):
        lines.append(author.given())
        answers.append(leader.answer(lines[-1]))
    done = run(program, ["--lead", "--node-size", str(size)], lines)
    if (done.returncode, done.stdout, done.stderr) == (0, joined(answers), b""):
        return Counts(LINES, 0)
    return Counts(agreed(lines, answers, done.stdout.split(b"\n")), 1)


def quiet(program: pathlib.Path, leads: bool, seed: int) -> Counts:
    """Returns the numbers for a quiet program, whose input is lines to a leader or to a follower."""
    model = Store(9, leads, is_quiet=True)
    author = Commands(model, seed, 60) if leads else Hostile(model, seed)
    lines: list[bytes] = []
    answers: list[bytes] = []
    for _ in range(LINES):
        lines.append(author.given())
        answers += model.written(lines[-1])
    done = run(program, ["--quiet", "--node-size", "9", *(["--lead"] if leads else [])], lines)
    passed = (done.returncode, done.stdout, done.stderr) == (0, joined(answers), b"")
    if not passed:
        print(f"quiet, seed {seed}: status {done.returncode}, {len(done.stdout)} bytes, not {len(joined(answers))}")
    return Counts(LINES if passed else 0, int(not passed))


def take_over(program: pathlib.Path, size: int, seed: int) -> Counts:
    """Returns the numbers of lines with equal replies of a follower that takes over and of the leader that continues,
    and of others."""
    chance = random.Random(seed)
    leader = Store(size)
    author = Commands(leader, seed, 60)
    lines = [author.command() for _ in range(400)]
    answers = [leader.answer(line) for line in lines]
    whole = run(program, ["--lead", "--node-size", str(size)], lines)
    at = chance.randrange(len(lines))
    before = b"\n".join(answers[:at]).split(b"\n")
    told = [line for line in before if NUMBERS.event.fullmatch(line) or DONE.fullmatch(line)]
    following = Store(size, leads=False)
    for line in told:
        following.answer(line)
    goes_on = [b"next %d" % following.next, *answers[at:]]
    done = run(program, ["--node-size", str(size)], [*told, b"lead", *lines[at:]])
    replies = done.stdout.split(b"\n")[len(told) :]
    if whole.stdout != joined(answers) or joined(goes_on) != b"\n".join(replies):
        print(f"seed {seed}, size {size}: after line {at} the follower goes on in another way")
        return Counts(0, 1)
    return Counts(len(goes_on), 0)


def begins_late(program: pathlib.Path, size: int, seed: int) -> Counts:
    """Returns the numbers of followers that begin from a leader's snapshot and lead as it continues, and of others."""
    leader = Store(size)
    author = Commands(leader, seed, 60)
    lines = [author.command() for _ in range(300)]
    for line in lines:
        leader.answer(line)
    given = snapshot(leader.nodes, leader.next, leader.done)
    whole = run(program, ["--lead", "--node-size", str(size)], [*lines, b"snapshot"])
    more = [b"start 9", b"sum", b"lead", b"end 0 0", b"sum", *(author.command() for _ in range(300))]
    answers = [
        *[b"held"] * (len(given) - 1),
        b"next %d" % leader.next,
        b"held",
        *(leader.answer(line) for line in more[1:]),
    ]
    done = run(program, ["--node-size", str(size)], [*given, *more])
    passed = whole.stdout.endswith(b"\n" + joined(given)) and done.stdout == joined(answers)
    if not passed:
        print(f"seed {seed}, size {size}: a follower does not begin from the leader's snapshot")
    return Counts(int(passed), int(not passed))


def cut_lines(program: pathlib.Path) -> Counts:
    """Returns the numbers for commands, reads and `lead` to a leader and a follower that are truncated at each byte."""
    lines = [
        b"put 3 30", b"#17 put 12 120\r", b"done 21 1", b"start 5 17", b"lead\r", b"cut 3", b"range 1 20", b"sum\r",
        b"start 5", b"lead", b"put 4 40", b"follow", b"head 12",
    ]
    leading = cuts(program, joined(lines), ["--lead"], lambda: Store(256))
    following = cuts(program, joined(lines), [], lambda: Store(256, leads=False))
    silent = cuts(
        program,
        joined([b"start 0", b"node 1:1", b"0 create 1:1", *lines]),
        ["--quiet"],
        lambda: Store(256, leads=False, is_quiet=True),
    )
    parts = (leading, following, silent)
    return Counts(sum(it.passed for it in parts), sum(it.failed for it in parts))


def too_large(program: pathlib.Path) -> Counts:
    """Tests that a follower with a node that is too large for a leader stays a follower."""
    lines = [
        *snapshot([[(1, 1), (2, 2), (3, 3)]], 7), b"lead", b"put 1 1", b"7 split 3:3 1", b"lead", b"8 create 9:9",
        b"put 9 9", b"nodes",
    ]
    wanted = [b"held", b"held", b"next 7", b"unfit 7 size", b"bad", b"next 8", b"next 8", b"bad"]
    wanted += [b"new", b"8 split 3:3 1", b"9 insert 3:3 9:9 1", b"next 10", b"1:1", b"2:2", b"3:3 9:9", b"next 10"]
    done = run(program, ["--node-size", "2"], lines)
    passed = done.stdout == joined(wanted)
    if not passed:
        print(f"nodes that are too large: {done.stdout!r}, not {joined(wanted)!r}")
    return Counts(int(passed), int(not passed))


def no_number(program: pathlib.Path) -> Counts:
    """Tests that a leader without numbers for an event ends with a fault, after its replies to the lines before."""
    done = run(program, [], [*snapshot([], MOST), b"lead", b"cut 1", b"put 1 1", b"len"])
    passed = (done.returncode, done.stdout, done.stderr) == (
        2,
        b"held\nnext %d\nnext %d\nnone\nnext %d\n" % (MOST, MOST, MOST),
        b"numbers\n",
    )
    if not passed:
        print(f"no number left: status {done.returncode}, {done.stdout!r} {done.stderr!r}")
    return Counts(int(passed), int(not passed))


# The message for wrong arguments, without `error: ` and without the last line.
NO_VALUE = "a value is required for '--{} <{}>' but none was supplied"
WRONG_VALUE = "invalid value '{}' for '--{} <N>': {}"
TWICE = "the argument '--{}' cannot be used multiple times"
UNKNOWN = "unexpected argument '{}' found"
BOTH = "the argument '--{}' cannot be used with '--{}'"
KINDS = "\n  [possible values: numbers, text]"
WRONG: dict[tuple[str | bytes, ...], str] = {
    ("--node-size",): NO_VALUE.format("node-size", "N"),
    ("--lead", "--node-size"): NO_VALUE.format("node-size", "N"),
    ("--node-size", "--quiet"): NO_VALUE.format("node-size", "N"),
    ("--node-size=",): WRONG_VALUE.format("", "node-size", "cannot parse integer from empty string"),
    ("--node-size", "1"): WRONG_VALUE.format(1, "node-size", "1 is not in 2..=65535"),
    ("--node-size=1",): WRONG_VALUE.format(1, "node-size", "1 is not in 2..=65535"),
    ("--node-size", "65536"): WRONG_VALUE.format(65536, "node-size", "65536 is not in 2..=65535"),
    ("--node-size", "x"): WRONG_VALUE.format("x", "node-size", "invalid digit found in string"),
    ("--window",): NO_VALUE.format("window", "N"),
    ("--window", "x"): WRONG_VALUE.format("x", "window", "invalid digit found in string"),
    ("--window", str(MOST + 1)): WRONG_VALUE.format(
        MOST + 1, "window", "number too large to fit in target type"
    ),
    ("--keep",): NO_VALUE.format("keep", "FILE"),
    ("--keys",): NO_VALUE.format("keys", "KEYS") + KINDS,
    ("--keys", "x"): "invalid value 'x' for '--keys <KEYS>'" + KINDS,
    ("--keys=tex",): "invalid value 'tex' for '--keys <KEYS>'" + KINDS + "\n\n  tip: a similar value exists: 'text'",
    ("--leads",): UNKNOWN.format("--leads") + "\n\n  tip: a similar argument exists: '--lead'",
    ("--windw", "1"): UNKNOWN.format("--windw") + "\n\n  tip: a similar argument exists: '--window'",
    ("--lead", "-"): UNKNOWN.format("-"),
    ("--lead", "stray"): UNKNOWN.format("stray"),
    ("-x",): UNKNOWN.format("-x"),
    ("",): UNKNOWN.format(""),
    ("--lead", "--help="): "unexpected value '' for '--help' found; no more were expected",
    ("--lead=yes",): "unexpected value 'yes' for '--lead' found; no more were expected",
    (b"--lead\xff",): "the argument '--lead\\xff' is not UTF-8",
    ("--lead", "--keep", b"\xc3\xa9\xff.db", b"\xfe"): "the argument '\\xc3\\xa9\\xff.db' is not UTF-8",
    ("--lead", "--follow"): BOTH.format("lead", "follow"),
    ("--follow", "--lead"): BOTH.format("follow", "lead"),
    **{(f"--{it}", f"--{it}"): TWICE.format(it) for it in ("lead", "follow", "pass-others", "quiet")},
    **{
        (f"--{it}", value, f"--{it}={value}"): TWICE.format(f"{it} <{name}>")
        for it, value, name in (
            ("node-size", "2", "N"), ("window", "1", "N"), ("keys", "text", "KEYS"), ("keep", "x", "FILE"),
        )
    },
}
RIGHT = [
    ["--lead"], ["--follow"], ["--quiet", "--lead"], ["--node-size", "2"], ["--node-size", "65535", "--pass-others"],
    ["--node-size=4"], ["--node-size=+4"], ["--node-size", "0256"], ["--window", "0"], ["--window", str(MOST)],
    ["--window=7", "--node-size=4"], ["--keys", "text"], ["--keys", "numbers", "--lead"], ["--keys=text"],
]
HELP = [["--help"], ["-h"], ["--lead", "--help"], ["--lead", "-h"]]
VERSION = [["--version"], ["-V"], ["--quiet", "--version"], ["--quiet", "-V"]]
END = "For more information, try '--help'.\n"


def arguments(program: pathlib.Path) -> Counts:
    """Tests valid and invalid arguments."""
    project = (HERE.parent.parent / "bindings/python/pyproject.toml").read_text()
    version = f"indexset_store {project.split('version = ')[1].split()[0].strip(chr(34))}\n"
    found = [(words, run(program, words, [])) for words in (*WRONG, *RIGHT, *HELP, *VERSION)]
    wrong = [(words, it) for words, it in found if not is_answered([*words], it, version)]
    for words, done in wrong:
        print(f"{words}: status {done.returncode}, {done.stdout!r} {done.stderr!r}")
    return Counts(len(found) - len(wrong), len(wrong))


def is_answered(words: list[str | bytes], done: subprocess.CompletedProcess[bytes], version: str) -> bool:
    """Returns whether a run without input has ended as its arguments say."""
    out, message = done.stdout.decode(), done.stderr.decode()
    if words in RIGHT:
        return (done.returncode, out, message) == (0, "", "")
    if words in VERSION:
        return (done.returncode, out, message) == (0, version, "")
    if words in HELP:
        return done.returncode == 0 and not message and is_help(out)
    begins = f"error: {WRONG[tuple(words)]}\n\n"
    usage = message.removeprefix(begins).removesuffix(END)
    is_usage = not usage or usage.startswith("Usage: indexset_store ") and usage.endswith("\n\n")
    return (done.returncode, out) == (5, "") and message == begins + usage + END and is_usage


def is_help(text: str) -> bool:
    """Returns whether a text is the help: it has the usage, each option and each default."""
    options = re.findall(r"(?m)^  (?:-\w, |    )--(\S+)", text)
    wanted = "follow lead keys keep node-size window pass-others quiet help version".split()
    defaults = re.findall(r"default: (\w+)", text)
    is_narrow = all(len(line) <= 100 for line in text.splitlines())
    has_usage = "\nUsage: indexset_store [OPTIONS]\n" in text
    return has_usage and is_narrow and options == wanted and defaults == ["numbers", "256", "4096"]


def full_output(program: pathlib.Path) -> Counts:
    """Tests the help and the version where nothing can be written."""
    failed = 0
    for word in ("--help", "--version"):
        with open("/dev/full", "wb") as full:
            done = subprocess.run([program, word], stdout=full, stderr=subprocess.PIPE, timeout=SECONDS)
        if (done.returncode, done.stderr) != (4, b"write\n"):
            print(f"{word} on a full disk: status {done.returncode}, {done.stderr!r}")
            failed += 1
    return Counts(2 - failed, failed)


def main() -> int:
    ask = argparse.ArgumentParser(description="Compares a map that leads with a model.")
    ask.add_argument("--seed", type=int, default=1)
    given = ask.parse_args()
    program = built("indexset_store")
    counts = [compare(program, size, keys, given.seed + size) for size, keys in ((2, 3), (3, 12), (4, 60), (9, 60))]
    counts += [
        take_over(program, random.Random(given.seed + turn).randrange(2, 9), given.seed + turn) for turn in range(TURNS)
    ]
    counts += [begins_late(program, random.Random(turn).randrange(2, 9), given.seed + turn) for turn in range(TURNS)]
    counts += [quiet(program, leads, given.seed) for leads in (True, False)]
    counts += [cut_lines(program), too_large(program), no_number(program), arguments(program), full_output(program)]
    passed, failed = sum(it.passed for it in counts), sum(it.failed for it in counts)
    print(f"{passed} passed, {failed} failed")
    return 1 if failed else 0


if __name__ == "__main__":
    sys.exit(main())

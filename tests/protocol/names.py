#!/usr/bin/env python3
"""Compares a leader of a map of texts with a model, and a follower with the leader that it follows.

Keys and values have spaces, colons, percent signs, line ends and bytes of any kind, and some are empty. The model is a
Python dictionary, written from docs/protocol.md: a text is encoded by `%` and two upper-case hexadecimal digits for
each byte except letters, digits and `-._~`, and keys are ordered by their bytes. A follower gets the events of the
leader and must then write the same snapshot, and lead as the leader continues. The reply to a text in another encoding
is `bad`. Some lines are truncated at every byte.

Run it once the program is built. The last line is 'N passed, M failed'.
"""

from __future__ import annotations

import argparse
import pathlib
import random
import re
import subprocess
import sys
import tempfile
import urllib.parse

sys.dont_write_bytecode = True
HERE = pathlib.Path(__file__).resolve().parent
sys.path[:0] = [str(HERE.parent.parent / "scripts")]
from hostile import Counts, joined  # noqa: E402
from programs import built  # noqa: E402

LINES = 4_000
SECONDS = 1200  # for one run, on a busy machine
EVENT = re.compile(rb"\d+ (?:create|drop|insert|remove|split|merge) .*")
PLAIN = b"abcdefghijklmnopqrstuvwxyzABCDEFGHIJKLMNOPQRSTUVWXYZ0123456789-._~"
POOL = [
    b"", b"a", b"b", b"ab", b"alice", b"J\xc3\xbcrgen", b"a b", b"a:b", b":", b" ", b"%", b"%41", b"\n", b"\r\n",
    b"\x00", b"\xff", b"5", b"05", b"lead", b"#1",
]


def spelled(text: bytes) -> bytes:
    """Returns the encoding of a text in a line."""
    return urllib.parse.quote_from_bytes(text, safe="").encode()


def shown(items: list[tuple[bytes, bytes]]) -> bytes:
    return b" ".join(spelled(key) + b":" + spelled(value) for key, value in items)


class Model:
    """The expected replies of a leader of a map of texts, without its events."""

    def __init__(self) -> None:
        self.held: dict[bytes, bytes] = {}

    def items(self) -> list[tuple[bytes, bytes]]:
        return sorted(self.held.items())

    def put(self, key: bytes, value: bytes) -> bytes:
        old = self.held.get(key)
        self.held[key] = value
        return b"new" if old is None else b"old " + spelled(old)

    def cut(self, key: bytes) -> bytes:
        gone = self.held.pop(key, None)
        return b"none" if gone is None else b"gone " + spelled(gone)

    def read(self, word: bytes, *keys: bytes) -> bytes:
        items = self.items()
        match word:
            case b"get":
                return shown([it for it in items if it[0] == keys[0]]) or b"none"
            case b"rank":
                return b"%d" % sum(key < keys[0] for key, _ in items)
            case b"range":
                return shown([it for it in items if keys[0] <= it[0] <= keys[1]]) or b"none"
            case b"len":
                return b"%d" % len(items)
            case b"first":
                return shown(items[:1]) or b"none"
            case _:
                return shown(items[-1:]) or b"none"


class Author:
    """Lines to a map of texts, and the first lines of the replies to them."""

    def __init__(self, seed: int) -> None:
        self.chance, self.model = random.Random(seed), Model()

    def text(self) -> bytes:
        chance = self.chance
        if chance.random() < 0.7:
            return chance.choice(POOL)
        return bytes(chance.choices(range(256), k=chance.randrange(4)))

    def line(self) -> tuple[bytes, bytes]:
        chance, model = self.chance, self.model
        key, other = self.text(), self.text()
        kind = chance.random()
        if kind < 0.4:
            return b"put %b %b" % (spelled(key), spelled(other)), model.put(key, other)
        if kind < 0.6:
            return b"cut " + spelled(key), model.cut(key)
        if kind < 0.7:
            return b"get " + spelled(key), model.read(b"get", key)
        if kind < 0.8:
            return b"rank " + spelled(key), model.read(b"rank", key)
        if kind < 0.9:
            return b"range %b %b" % (spelled(key), spelled(other)), model.read(b"range", key, other)
        word = chance.choice([b"len", b"first", b"last"])
        return word, model.read(word)


def run(program: pathlib.Path, words: list[str], given: bytes) -> subprocess.CompletedProcess[bytes]:
    return subprocess.run([program, "--keys", "text", *words], input=given, capture_output=True, timeout=SECONDS)


def compare(program: pathlib.Path, size: int, seed: int) -> Counts:
    """Returns the numbers of lines with the replies of the model, and of followers with the leader's state that
    continue as it does."""
    author = Author(seed)
    pairs = [author.line() for _ in range(LINES)]
    given, wanted = [line for line, _ in pairs], [answer for _, answer in pairs]
    node_size = ["--node-size", str(size)]
    done = run(program, ["--lead", *node_size], joined([*given, b"snapshot"]))
    lines = done.stdout.split(b"\n")[:-1]
    told = [line for line in lines if EVENT.fullmatch(line)]
    begin = next((at for at, line in enumerate(lines) if line.startswith(b"start ")), len(lines))
    replies = [line for line in lines[:begin] if not EVENT.fullmatch(line) and not line.startswith(b"next ")]
    if (done.returncode, replies) != (0, wanted):
        at = next((at for at, (a, b) in enumerate(zip(replies, wanted)) if a != b), -1)
        print(f"seed {seed}, size {size}: {given[at]!r}: {replies[at]!r}, not {wanted[at]!r}")
        return Counts(0, 1)
    shuffled = told[:]
    for at in range(0, len(shuffled), 9):
        shuffled[at : at + 9] = random.Random(at).sample(shuffled[at : at + 9], len(shuffled[at : at + 9]))
    follower = run(program, node_size, joined([*shuffled, b"snapshot"]))
    if follower.stdout.split(b"\n")[len(told) :] != [*lines[begin:], b""]:
        print(f"seed {seed}, size {size}: the follower holds something else")
        return Counts(LINES, 1)
    more = [author.line()[0] for _ in range(200)]
    goes_on = run(program, ["--lead", *node_size], joined([*given, *more])).stdout
    takes_over = run(program, node_size, joined([*lines[begin:], b"lead", *more])).stdout
    held = b"held\n" * (len(lines) - begin - 1)
    last = b"next %d\n" % len(told)
    if takes_over != held + last * 2 + goes_on[len(b"\n".join(lines[:begin])) + 1 :]:
        print(f"seed {seed}, size {size}: the follower goes on in another way")
        return Counts(LINES, 1)
    return Counts(LINES + 2, 0)


def misspelled(program: pathlib.Path) -> Counts:
    """Tests that texts in another encoding are not texts."""
    wrong = [
        b"%41", b"%2", b"%", b"%zz", b"%2d", b"%c3%bc", b"%7e", b"a+b%", b"\xc3\xbc", b"a/b", b"a+b", b"%%", b"%2%30",
        b"a\tb", b"%5F", b"%GG", b"%0a", b"a:b",
    ]
    forms = [
        b"put W 1", b"put 1 W", b"cut W", b"get W", b"rank W", b"range W z", b"range a W", b"0 create W:1",
        b"0 create 1:W", b"0 insert W:1 1:1 0", b"node 1:1 W:1", b"put W W",
    ]
    lines = [form.replace(b"W", word) for word in wrong for form in forms]
    right = [b"put %25 %0A", b"get %25", b"put - ~", b"get -", b"put  ", b"get ", b"put a ", b"get a"]
    done = run(program, ["--lead"], joined([*lines, *right]))
    told = done.stdout.split(b"\n")
    passed = (
        told[: len(lines)] == [b"bad"] * len(lines)
        and b"%25:%0A" in told
        and b"-:~" in told
        and b":" in told
        and b"a:" in told
    )
    if not passed:
        print(f"misspelled: {[line for line, answer in zip(lines, told) if answer != b'bad']}, {told[len(lines) :]}")
    follower = run(program, [], joined([line for line in lines if line[:1].isdigit() or line.startswith(b"node")]))
    follows = set(follower.stdout.split(b"\n")) == {b"bad", b""}
    return Counts((len(lines) if passed else 0) + int(follows), int(not passed) + int(not follows))


READ = re.compile(
    rb"(?:get|rank) WORD|range WORD WORD|len|first|last|nodes|next|sum|snapshot|compact".replace(
        b"WORD", rb"((?:[A-Za-z0-9._~-]|%[0-9A-F]{2})*)"
    )
)


def is_read(line: bytes) -> bool:
    """Returns whether a line is a read."""
    found = READ.fullmatch(line)
    return found is not None and all(
        spelled(urllib.parse.unquote_to_bytes(word)) == word for word in found.groups() if word is not None
    )


def cuts(program: pathlib.Path, words: list[str], given: bytes) -> Counts:
    """Returns the numbers for lines that are truncated at each byte: a truncated read gets a reply, and no truncated
    line changes anything."""
    failed = 0
    for end in range(len(given) + 1):
        whole, _, rest = given[:end].rpartition(b"\n")
        whole += b"\n" if whole else b""
        before = run(program, words, whole).stdout
        if rest and is_read(rest):
            before = run(program, words, whole + rest + b"\n").stdout
        elif rest:
            before += b"bad\n"
        done = run(program, words, given[:end])
        if (done.returncode, done.stdout) != (0, before):
            print(f"cut at {end}, {rest!r}: {done.stdout[-80:]!r}, not {before[-80:]!r}")
            failed += 1
    return Counts(len(given) + 1 - failed, failed)


def kept(program: pathlib.Path) -> Counts:
    """Tests that a file of texts is continued, and is refused if keys are numbers, and the other way round."""
    failed = 0
    with tempfile.TemporaryDirectory() as room:
        texts, numbers = f"{room}/texts", f"{room}/numbers"
        run(program, ["--lead", "--keep", texts], b"put alice 12\nput J%C3%BCrgen a%20b\ncut alice\nput  %25\n")
        again = run(program, ["--keep", texts], b"nodes\n")
        subprocess.run(
            [program, "--lead", "--keep", numbers],
            input=b"put 9 1\nput 10 2\ncompact\n",
            capture_output=True,
            timeout=SECONDS,
        )
        wrong = [
            subprocess.run([program, *words], input=b"", capture_output=True, timeout=SECONDS)
            for words in (["--keep", texts], ["--keys", "text", "--keep", numbers])
        ]
        if again.stdout != b":%25 J%C3%BCrgen:a%20b\nnext 4\n":
            print(f"a file of texts: {again.stdout!r} {again.stderr!r}")
            failed += 1
        for done in wrong:
            if (done.returncode, done.stdout) != (6, b""):
                print(f"a file of other keys: status {done.returncode}, {done.stdout!r} {done.stderr!r}")
                failed += 1
    return Counts(3 - failed, failed)


def main() -> int:
    ask = argparse.ArgumentParser(description="Compares a map of texts with a model.")
    ask.add_argument("--seed", type=int, default=1)
    given = ask.parse_args()
    program = built("indexset_store")
    counts = [compare(program, size, given.seed + size) for size in (2, 3, 8, 256)]
    counts += [misspelled(program), kept(program)]
    leading = [
        b"put alice 12", b"put J%C3%BCrgen a%20b", b"#7 put %3A %25", b"get %3A", b"range a z", b"cut J%C3%BCrgen",
        b"put  ", b"first",
    ]
    following = [
        b"0 create alice:12", b"1 insert alice:12 J%C3%BCrgen:a%20b 0", b"start 3", b"node %25:%3A a:b", b"get alice",
        b"done 7 1",
    ]
    counts += [cuts(program, ["--lead"], joined(leading)), cuts(program, [], joined(following))]
    passed, failed = sum(it.passed for it in counts), sum(it.failed for it in counts)
    print(f"{passed} passed, {failed} failed")
    return 1 if failed else 0


if __name__ == "__main__":
    sys.exit(main())

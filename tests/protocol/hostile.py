#!/usr/bin/env python3
"""Fuzzes the follower with adversarial lines, and compares each reply with that of a model: 100,000 lines at its
window, 10,000 at each of others, and 20,000 of a map of texts.

The lines are events in turn and out of turn, events with a number, a name, an item, an index or a word altered, whole
nodes that do not fit, truncated snapshots, requests, and bytes of any kind. The model is written from docs/protocol.md,
and shares nothing with the program. Events of one map are also sent with losses and repeats, in any order. Some lines
are then truncated at every byte: an unterminated last line changes nothing. Lines of megabytes follow, each in a run of
its own with bounded memory.

Run it once the program is built. With `--sanitized` the sanitizer in the program bounds the memory, which needs
address space for its own. The last line is 'N passed, M failed'.
"""

from __future__ import annotations

import argparse
import collections
import dataclasses
import os
import pathlib
import random
import subprocess
import sys
from collections.abc import Callable

HERE = pathlib.Path(__file__).resolve().parent
sys.dont_write_bytecode = True
sys.path.insert(0, str(HERE.parent.parent / "scripts"))
from answers import MOST, NUMBERS, TEXTS, WINDOW, Key, Model, shown, snapshot, spelled  # noqa: E402
from programs import built  # noqa: E402

LINES = 100_000
WINDOWS = (0, 1, 5, 64, WINDOW)
SECONDS = 1200  # for one run, on a busy machine
Run = Callable[[pathlib.Path, bytes, int], subprocess.CompletedProcess[bytes]]


@dataclasses.dataclass(frozen=True)
class Counts:
    """The numbers of right and wrong replies."""

    passed: int
    failed: int


class Hostile:
    """Adversarial lines, some of them from the state of the model."""

    def __init__(self, model: Model, seed: int) -> None:
        self.model, self.random = model, random.Random(seed)
        self.sent: list[bytes] = []

    def some_number(self) -> int:
        return self.random.choice([0, 1, 2, 3, 7, self.random.randrange(60), MOST, MOST + 1, 10**30])

    def key(self, number: int) -> Key:
        """Returns the key of a number. The keys ascend with the numbers."""
        return number

    def value(self) -> Key:
        return self.key(self.random.randrange(9))

    def some_key(self) -> bytes:
        """Returns the text of a key."""
        return spelled(self.key(self.some_number()))

    def some_pair(self) -> bytes:
        number = self.random.randrange(60) if self.random.random() < 0.9 else self.some_number()
        return shown([(self.key(number), self.key(self.random.randrange(5)))])

    def likely(self) -> bytes:
        """Returns an event that probably applies."""
        model, random = self.model, self.random
        if not model.nodes or random.random() < 0.1:
            return b"create " + self.some_pair()
        at = random.randrange(len(model.nodes))
        node = model.nodes[at]
        name, place = shown([node[-1]]), random.randrange(len(node))
        kind = random.random()
        if kind < 0.45:
            key = self.key_between(self.key_below(at, place), node[place][0])
            if key is not None:
                return b"insert %b %b %d" % (name, shown([(key, self.value())]), place)
        if kind < 0.65:
            return b"remove %b %b %d" % (name, shown([node[place]]), place)
        if kind < 0.75:
            return b"drop " + name
        if kind < 0.9 or at + 1 == len(model.nodes):
            return b"split %b %d" % (name, place)
        return b"merge %b %b" % (name, shown([model.nodes[at + 1][-1]]))

    def key_below(self, at: int, place: int) -> Key | None:
        """Returns the key before a place of a node, or None."""
        if place:
            return self.model.nodes[at][place - 1][0]
        return self.model.nodes[at - 1][-1][0] if at else None

    def key_between(self, low: Key | None, high: Key) -> Key | None:
        """Returns a key above the one, if any, and below the other, or None."""
        first = 0 if low is None else low + 1
        return self.random.randrange(first, high) if first < high else None

    def altered(self, line: bytes) -> bytes:
        """Returns a line with one of its words changed, doubled or left out, or one of its bytes changed."""
        random, words = self.random, line.split(b" ")
        at, kind = random.randrange(len(words)), random.randrange(6)
        if kind == 0:
            words[at] = b"%d" % self.some_number()
        elif kind == 1:
            words[at] = self.some_pair()
        elif kind == 2:
            words[at] = random.choice([b"create", b"drop", b"insert", b"remove", b"split", b"merge", b"node", b""])
        elif kind == 3:
            words.insert(at, words[at])
        elif kind == 4:
            del words[at]
        else:
            place = random.randrange(len(line))
            byte = random.choice([0, 9, 13, 32, 43, 45, 48, 58, 255, random.randrange(256)])
            return (line[:place] + bytes([byte]) + line[place + 1 :]).replace(b"\n", b" ")
        return b" ".join(words)

    def whole_node(self) -> bytes:
        keys = [self.random.randrange(60) for _ in range(self.random.randrange(1, 4))]
        if self.random.random() < 0.7:
            keys = sorted(set(keys))
        return b"node " + shown([(self.key(number), self.key(self.random.randrange(5))) for number in keys])

    def end(self) -> bytes:
        """Returns the end of a snapshot, most often the right one, sometimes without a sum."""
        came = snapshot(self.model.coming or [], self.model.coming_next, self.model.coming_done)[-1]
        came = came if self.random.random() < 0.8 else came.rpartition(b" ")[0]
        return came if self.random.random() < 0.7 else self.altered(came)

    def done(self) -> bytes:
        """Returns a line of finished commands, most often those of present events."""
        end = self.model.next + self.random.randrange(-3, 3) if self.random.random() < 0.9 else self.some_number()
        done = self.model.done + self.random.randrange(-3, 4) if self.random.random() < 0.98 else self.some_number()
        return b"done %d %d" % (max(done, 0), max(end, 0))

    def read(self) -> bytes:
        number, key = self.some_number, self.some_key
        words = [b"nodes", b"len", b"first", b"last", b"next", b"sum"]
        asked = [b"get " + key(), b"rank " + key(), b"at %d" % number(), self.head()]
        return self.random.choice(
            words + asked * 2 + [b"range %b %b" % (key(), key()), b"page %d %d" % (number(), number())] * 3
        )

    def head(self) -> bytes:
        return b"head %d" % self.random.choice([self.some_number(), self.model.next, self.model.next + 1])

    def request(self) -> bytes:
        return b"snapshot" if self.random.random() < 0.05 else self.read()

    def given(self) -> bytes:
        """Returns a line, now and then with a byte 13 before its end, or two."""
        return self.line() + self.random.choice([b""] * 18 + [b"\r", b"\r\r"])

    def line(self) -> bytes:
        random = self.random
        kind = random.random()
        if kind < 0.45:
            line = b"%d %b" % (self.model.next, self.likely())
            self.sent.append(line)
            return line
        if kind < 0.6:
            return self.altered(b"%d %b" % (self.model.next, self.likely()))
        if kind < 0.7 and self.sent:
            return random.choice(self.sent[-50:])
        if kind < 0.75:
            return b"%d %b" % (self.model.next + random.randrange(1, 9), self.likely())
        if kind < 0.8:
            return self.whole_node()
        if kind < 0.82:
            return self.altered(self.whole_node())
        if kind < 0.83:
            return b"start %d" % random.choice([0] * 9 + [5, MOST - 3, MOST]) + random.choice(
                [b"", b"", b" 7", b" 0", b" %d" % self.some_number()]
            )
        if kind < 0.84:
            return self.end()
        if kind < 0.86:
            return random.choice([self.done(), self.done(), self.altered(self.done())])
        if kind < 0.92:
            return self.request()
        if kind < 0.95:
            return self.altered(self.request())
        return bytes(random.choices(range(256), k=random.randrange(40))).replace(b"\n", b"")


class HostileTexts(Hostile):
    """Lines to a map of texts."""

    def key(self, number: int) -> bytes:
        return b"" if number == 0 else bytes([4 * number]) if number < 60 else b"\xff" + number.to_bytes(16, "big")

    def key_between(self, low: Key | None, high: Key) -> Key | None:
        keys = [key for key in map(self.key, range(60)) if (low is None or low < key) and key < high]
        return self.random.choice(keys) if keys else None

    def altered(self, line: bytes) -> bytes:
        """Returns an altered line, or one of whose texts is encoded in another way."""
        at = line.find(b"%", self.random.randrange(len(line)))
        if at < 0 or self.random.random() < 0.6:
            return super().altered(line)
        code = self.random.choice(
            [line[at : at + 3].lower(), line[at : at + 2], b"%41", b"%2D", b"%%", b"%", b"+", b"%3A", b"%20"]
        )
        return line[:at] + code + line[at + 3 :]


LIMITED = """
import resource, subprocess, sys
resource.setrlimit(resource.RLIMIT_AS, (int(sys.argv[2]), int(sys.argv[2])))
sys.exit(subprocess.run([sys.argv[1]], stdin=sys.stdin).returncode)
"""


def limited(program: pathlib.Path, given: bytes, memory: int) -> subprocess.CompletedProcess[bytes]:
    """Returns the output of the follower for these bytes, within that much memory."""
    return subprocess.run(
        [sys.executable, "-c", LIMITED, program, str(memory)], input=given, capture_output=True, timeout=SECONDS
    )


def sanitized(program: pathlib.Path, given: bytes, memory: int) -> subprocess.CompletedProcess[bytes]:
    """Returns the output of a program that the sanitizer checks."""
    options = f"hard_rss_limit_mb={memory // 1_000_000}:quarantine_size_mb=1:allocator_release_to_os_interval_ms=0"
    return subprocess.run(
        [program], input=given, capture_output=True, timeout=SECONDS, env={**os.environ, "ASAN_OPTIONS": options}
    )


def joined(lines: list[bytes]) -> bytes:
    return b"".join(line + b"\n" for line in lines)


def agreed(lines: list[bytes], answers: list[bytes], told: list[bytes]) -> int:
    """Returns the number of right lines of output, up to the first reply that differs, which is shown."""
    at = 0
    for line, answer in zip(lines, answers):
        end = at + answer.count(b"\n") + 1
        if b"\n".join(told[at:end]) != answer:
            print(f"{line!r}: {told[at:end]!r}, not {answer!r}")
            return at
        at = end
    return at


def kind(answer: bytes) -> str:
    """Returns the first word of a reply, if it is one."""
    return answer.split(b" ")[0].decode() if answer[:1].isalpha() else "others"


def told(program: pathlib.Path, words: list[str], window: int, lines: list[bytes], answers: list[bytes]) -> Counts:
    """Returns the numbers of lines with these replies of the follower, and of others."""
    done = subprocess.run(
        [program, *words, "--window", str(window)], input=joined(lines), capture_output=True, timeout=SECONDS
    )
    kinds = collections.Counter(map(kind, answers))
    print(f"window {window}: " + ", ".join(f"{word} {count}" for word, count in sorted(kinds.items())))
    if (done.returncode, done.stdout, done.stderr) == (0, joined(answers), b""):
        return Counts(len(lines), 0)
    return Counts(agreed(lines, answers, done.stdout.split(b"\n")), 1)


def compare(program: pathlib.Path, window: int, count: int, seed: int, of_texts: bool = False) -> Counts:
    """Returns the numbers of lines with the replies of the model, and of others."""
    model = Model(window=window, spelling=TEXTS if of_texts else NUMBERS)
    hostile = HostileTexts(model, seed) if of_texts else Hostile(model, seed)
    lines: list[bytes] = []
    answers: list[bytes] = []
    for _ in range(count):
        lines.append(hostile.given())
        answers.append(model.answer(lines[-1]))
    return told(program, ["--keys", "text"] if of_texts else [], window, lines, answers)


def of_one_map(count: int, seed: int) -> list[bytes]:
    """Returns events of one map, in their order."""
    model = Model()
    hostile = Hostile(model, seed)
    events: list[bytes] = []
    while len(events) < count:
        line = b"%d %b" % (model.next, hostile.likely())
        if model.answer(line).startswith(b"next"):
            events.append(line)
    return events


def disordered(program: pathlib.Path, window: int, count: int, seed: int) -> Counts:
    """Returns the numbers for events of one map that are lost, repeated and out of order. The next event to apply must
    be the first that never arrived within the window."""
    events, chance, model = of_one_map(count, seed), random.Random(seed), Model(window=window)
    lines: list[bytes] = []
    answers: list[bytes] = []
    came: set[int] = set()
    first = 0
    while len(lines) < count and model.next < len(events):
        ahead = chance.choice([0, 0, 1, 2, chance.randrange(9), chance.randrange(window + 3), -chance.randrange(9)])
        at = min(max(model.next + ahead, 0), len(events) - 1)
        if at - model.next <= window:
            came.add(at)
        while first in came:
            first += 1
        lines.append(events[at])
        answers.append(model.answer(lines[-1]))
        if model.next != first:
            print(f"window {window}: event {model.next} is awaited, and {first} is the first that never came")
            return Counts(len(lines) - 1, 1)
    lines.append(b"sum")
    answers.append(model.answer(lines[-1]))
    return told(program, [], window, lines, answers)


def long_lines(program: pathlib.Path, run: Run) -> Counts:
    """Returns the numbers for lines of megabytes, with bounded memory."""
    size = (1 << 22) + 4_096  # (so that a buffer that doubles has just doubled)
    cases = {
        "spaces": (b" " * size, b"bad"),
        "NULs": (b"\0" * size, b"bad"),
        "no UTF-8": (b"\xff" * size, b"bad"),
        "digits": (b"9" * size, b"bad"),
        "a node of one key": (b"node" + b" 1:1" * (size // 4), b"unfit 0 start"),
        "a node with a bad end": (b"node" + b" 1:1" * (size // 4) + b" ", b"bad"),
        "an event with a long index": (b"0 insert 1:1 1:1 " + b"1" * size, b"bad"),
    }
    failed = 0
    for name, (line, answer) in cases.items():
        done = run(program, line + b"\nlen\n" + line, 90_000_000)
        if (done.returncode, done.stdout) != (0, answer + b"\n0\nbad\n"):
            print(f"{name}: status {done.returncode}, {done.stdout[:80]!r} {done.stderr[:80]!r}")
            failed += 1
    return Counts(len(cases) - failed, failed)


def cuts(program: pathlib.Path, given: bytes, words: list[str], first: Callable[[], Model]) -> Counts:
    """Returns the numbers for inputs that end at each byte of some lines: the truncated line gets a reply, and changes
    nothing."""
    failed = 0
    for end in range(len(given) + 1):
        model = first()
        *whole, rest = given[:end].split(b"\n")
        answers = [it for line in whole for it in model.written(line)]
        if rest:
            answers += model.written_cut(rest)
        done = subprocess.run([program, *words], input=given[:end], capture_output=True, timeout=SECONDS)
        if (done.returncode, done.stdout, done.stderr) != (0, joined(answers), b""):
            print(f"cut at {end}, {rest!r}: {done.stdout[-80:]!r}, not {answers[-1:]}")
            failed += 1
    return Counts(len(given) + 1 - failed, failed)


def main() -> int:
    ask = argparse.ArgumentParser(description="Fuzzes the follower with adversarial lines.")
    ask.add_argument("--seed", type=int, default=1)
    ask.add_argument("--sanitized", action="store_true", help="the program is one that the sanitizer checks")
    given = ask.parse_args()
    program = built("indexset_store")
    lines = (HERE.parent / "faults" / "follower_lines").read_bytes()
    counts = [compare(program, window, LINES if window == WINDOW else LINES // 10, given.seed) for window in WINDOWS]
    counts += [compare(program, window, LINES // 10, given.seed, True) for window in (1, WINDOW)]
    counts += [disordered(program, window, LINES // len(WINDOWS), given.seed + window) for window in WINDOWS]
    counts += [cuts(program, lines, [], Model), long_lines(program, sanitized if given.sanitized else limited)]
    passed, failed = sum(it.passed for it in counts), sum(it.failed for it in counts)
    print(f"{passed} passed, {failed} failed")
    return 1 if failed else 0


if __name__ == "__main__":
    sys.exit(main())

"""Tests of former defects: plain Python could crash the package, read wrong values, or lose data."""
import copy
import gc
import itertools
import math
import os
import pickle
import subprocess
import sys
import threading
import unittest

try:
    import _testcapi
except ImportError:
    _testcapi = None

import counted
import indexset
from indexset import LoggedDict, Replica, SortedDict, SortedKeyList, SortedList, SortedMultiDict, SortedSet

# A cycle of each class with an object whose `__del__` reads it, collected, and at the exit of the interpreter.
CYCLES = """
import gc, sys
import indexset
from indexset import *

class Owner:
    def __init__(self, held):
        self.held, self.me = held, self
    def __del__(self):
        print(type(self.held).__name__, len(self.held), list(self.held))

def made():
    log = LoggedDict(entries={1: 2})
    yield from (SortedSet([1, 2]), SortedSet(["a"]), SortedSet([(1,)]), SortedDict({1: 2}), SortedDict({"a": 2}))
    yield from (SortedList([1, 1]), SortedKeyList([3, 4], key=lambda it: -it), SortedMultiDict([(1, 2)]))
    yield from (SortedMultiDict([("a", "b")]), log, Replica(log), LoggedDict(entries={"a": "b"}))

class Cycled(SortedSet):
    pass

gc.disable()
for held in made():
    Owner(held)
own = Cycled([7])
own.owner = Owner(own)
del held, own
gc.collect()
print("--")
kept = [Owner(held) for held in made()]
"""


class Thing:
    """An object with a function that runs when it is released."""

    def __init__(self, call):
        self.call = call

    def __del__(self):
        self.call()


class Negative(SortedSet):
    """A subclass with a field."""


def examples():
    """An object of each class and form."""
    log = LoggedDict(None, {3: 30, 1: 10}, size=2)
    names = LoggedDict(None, {"b": "x", "a": None}, values="object", size=2)
    return [
        SortedSet([2, 1]),
        SortedSet([0.5], keys="float64"),
        SortedSet(["b", "a"]),
        SortedSet([(2, "a"), (1, None)]),
        SortedSet([1, 2], key=abs),
        SortedSet([None, 3, "x"], keys="any"),
        SortedDict({2: "b", 1: "a"}),
        SortedDict({"b": [2], "a": [1]}),
        SortedDict(abs, {-2: 1, 1: 2}),
        SortedDict({b"a": 1}, keys="bytes"),
        SortedList([2, 1, 2]),
        SortedList(["b", "a", "b"]),
        SortedKeyList([-3, 2], key=abs),
        SortedMultiDict([(2, 1), (1, 5), (2, 0)]),
        SortedMultiDict([("b", "x"), ("a", "y"), ("b", "w")]),
        log,
        names,
        Replica(log),
        Replica(names),
    ]


class Collected(unittest.TestCase):
    def test_cycles(self):
        where = {**os.environ, "PYTHONPATH": os.path.dirname(os.path.dirname(indexset.__file__))}
        done = subprocess.run([sys.executable, "-c", CYCLES], capture_output=True, text=True, env=where)
        self.assertEqual((done.returncode, done.stderr), (0, ""))
        first, last = (part.split("\n") for part in done.stdout.split("--\n"))
        wanted = ["SortedSet 2 [1, 2]", "SortedSet 1 ['a']", "SortedSet 1 [(1,)]", "SortedDict 1 [1]"]
        wanted += ["SortedDict 1 ['a']", "SortedList 2 [1, 1]", "SortedKeyList 2 [4, 3]", "SortedMultiDict 1 [(1, 2)]"]
        wanted += ["SortedMultiDict 1 [('a', 'b')]", "LoggedDict 1 [1]", "Replica 1 [1]", "LoggedDict 1 ['a']", ""]
        self.assertEqual(sorted(last), sorted(wanted))
        self.assertEqual(sorted(first), sorted([*wanted, "Cycled 1 [7]"]))

    def test_memory_is_freed(self):
        def held():
            return len(indexset._library._slots)

        gc.collect()
        before = held()
        made = examples()
        made.append(made)
        self.assertGreater(held(), before)
        del made
        gc.collect()
        self.assertEqual(held(), before)


class Copies(unittest.TestCase):
    def check(self, ours, other):
        self.assertIs(type(other), type(ours))
        self.assertEqual((other, repr(other)), (ours, repr(ours)))
        self.assertEqual(list(other), list(ours))
        self.assertEqual(getattr(other, "kind", None), getattr(ours, "kind", None))
        if isinstance(ours, Replica):
            self.assertEqual((other.nodes(), other.next), (ours.nodes(), ours.next))

    def test_each(self):
        for ours in examples():
            before = repr(ours)
            self.check(ours, pickle.loads(pickle.dumps(ours))) if getattr(ours, "key", None) is None else None
            self.check(ours, copy.deepcopy(ours))
            other = copy.copy(ours)
            self.check(ours, other)
            self.check(ours, ours.copy())
            other.clear() if hasattr(other, "clear") else None
            del other
            gc.collect()
            self.assertEqual(repr(ours), before)
        self.assertEqual(pickle.loads(pickle.dumps(SortedSet([-2, 1], key=abs))).key, abs)

    def test_changes_after_a_copy(self):
        ours = LoggedDict(None, {1: 2})
        copy.copy(ours)
        ours[5] = 5
        self.assertEqual(dict(ours), {1: 2, 5: 5})
        told = []
        ours = LoggedDict(told.append, {1: 2, 3: 4})
        replica = Replica(ours)
        other = copy.copy(replica)
        ours[7] = 8
        del ours[1]
        for one in (replica, other, pickle.loads(pickle.dumps(other))):
            one.apply_all(told)
            self.assertEqual((one.nodes(), one.next), (ours.nodes(), ours.next))

    def test_subclasses(self):
        ours = Negative([2, 1])
        ours.field = [1]
        for other in (copy.copy(ours), copy.deepcopy(ours), pickle.loads(pickle.dumps(ours))):
            self.assertIs(type(other), Negative)
            self.assertEqual((other, other.field), (ours, [1]))
        for other in (ours | [3], ours & [1], ours - [1], ours ^ [5], ours.copy(), [9] - ours):
            self.assertIs(type(other), Negative)
        self.assertEqual(eval(repr(ours)), ours)


class Threads(unittest.TestCase):
    def run_beside(self, ours, reads, rounds=3000):
        wrong = []

        def read(start):
            for at in range(rounds):
                for call, wanted in reads[start:] + reads[:start]:
                    if call() != wanted:
                        wrong.append((at, wanted))

        interval = sys.getswitchinterval()
        sys.setswitchinterval(1e-6)
        try:
            threads = [threading.Thread(target=read, args=(start,)) for start in range(3)]
            for thread in threads:
                thread.start()
            for thread in threads:
                thread.join()
        finally:
            sys.setswitchinterval(interval)
        self.assertEqual(wrong, [])

    def test_reads(self):
        numbers = SortedSet(range(0, 200, 2))
        self.run_beside(
            numbers,
            [
                (lambda: numbers[7], 14),
                (lambda: numbers[90], 180),
                (lambda: numbers.bisect_left(41), 21),
                (lambda: next(numbers.irange(33)), 34),
                (lambda: 5 in numbers, False),
            ],
        )
        ages = SortedDict({f"{at:3}": at for at in range(100)})
        self.run_beside(
            ages,
            [
                (lambda: ages[" 12"], 12),
                (lambda: ages.peekitem(70), (" 70", 70)),
                (lambda: ages.index("  9"), 9),
            ],
        )
        log = LoggedDict(entries={at: -at for at in range(100)})
        replica = Replica(log)
        tags = SortedMultiDict((at % 10, at) for at in range(100))
        self.run_beside(
            log,
            [
                (lambda: log[12], -12),
                (lambda: replica[70], -70),
                (lambda: tags[3], list(range(3, 100, 10))),
                (lambda: tags.last(), (9, 99)),
                (lambda: list(log.irange(8, 9)), [(8, -8), (9, -9)]),
                (lambda: log.bisect_left(50), 50),
                (lambda: replica.peekitem(), (99, -99)),
                (lambda: tags.peekitem(11), (1, 11)),
            ],
            1000,
        )

    def test_changes_beside_walks(self):
        """An iterator that is used between changes returns keys in order or raises."""
        ours, ends = SortedDict((at, at) for at in range(100)), threading.Event()

        def change():
            for at in range(20000):
                ours[200 + at % 50] = at
                ours.pop(200 + (at + 25) % 50, None)
            ends.set()

        thread = threading.Thread(target=change)
        thread.start()
        while not ends.is_set():
            try:
                keys = [key for key, _ in ours.items()]
                self.assertEqual(keys, sorted(set(keys)))
            except (RuntimeError, KeyError):
                pass
        thread.join()
        self.assertEqual(list(ours), sorted(dict.keys(ours)))


class Changed(unittest.TestCase):
    """A change while another operation runs."""

    def test_walks(self):
        for make in (
            lambda: SortedSet(range(9)),
            lambda: SortedSet("abcdefghi"),
            lambda: SortedSet(zip(range(9))),
            lambda: SortedList([1, 1, 2, 3]),
            lambda: SortedDict(zip("abcdef", range(6))),
        ):
            for begin in (
                iter,
                reversed,
                lambda it: it.irange(it[1] if not isinstance(it, dict) else "b"),
                lambda it: it.islice(1),
            ):
                ours = make()
                walk = begin(ours)
                next(walk)
                ours.pop("c") if isinstance(ours, dict) else ours.pop(2)
                self.assertRaises(RuntimeError, next, walk)
            ours = make()
            with self.assertRaises(RuntimeError):
                for _ in ours:
                    ours.clear()

    def test_within_a_walk(self):
        for ours in (
            SortedSet(range(900)),
            SortedSet(map(str, range(900))),
            SortedDict.fromkeys(range(900)),
            SortedList("ab" * 450),
            SortedList([at // 3 for at in range(900)]),
            SortedList(range(900), key=float),
        ):
            for begin in (iter, reversed):
                for steps in (5, 70, 600):
                    walk, other = begin(ours), begin(ours)
                    for _ in range(steps):
                        next(walk), next(other)
                    next(other)
                    taken = ours.pop(300)
                    self.assertRaises(RuntimeError, next, walk)
                    self.assertRaises(RuntimeError, list, other)
                    ours.update({300: taken} if isinstance(ours, dict) else [taken])

    def test_widened(self):
        ours = SortedSet([1, 2, 3])
        walk = iter(ours)
        next(walk)
        ours.add(2.5)
        self.assertRaises(RuntimeError, next, walk)

    def test_items(self):
        ages = SortedDict({1: "a", 2: "b", 3: "c"})
        walk = iter(ages.items())
        next(walk)
        del ages[2]
        ages[2.5] = "x"
        self.assertRaises(RuntimeError, next, walk)
        seen = []
        for key, value in ages.items():
            ages[key] = value * 2
            seen.append((key, value))
        self.assertEqual(seen, [(1, "a"), (2.5, "x"), (3, "c")])
        self.assertEqual(list(ages.values()), ["aa", "xx", "cc"])

    def test_values_that_go(self):
        ages = SortedDict()
        ages.update({1: Thing(lambda: ages.pop(3, None)), 2: Thing(lambda: ages.pop(1, None)), 3: "c"})
        peer = {}
        peer.update({1: Thing(lambda: peer.pop(3, None)), 2: Thing(lambda: peer.pop(1, None)), 3: "c"})
        ages.update({1: "x", 2: "y", 4: "z"})
        peer.update({1: "x", 2: "y", 4: "z"})
        self.assertEqual((ages, list(ages)), (peer, sorted(peer)))
        ages[5] = Thing(lambda: ages.clear())
        ages[5] = 1
        self.assertEqual((ages, list(ages), len(ages)), ({}, [], 0))

    def test_items_that_go(self):
        ours = SortedList(key=lambda it: 0)
        for _ in range(3):
            ours.add(Thing(lambda: list(ours) and ours.clear()))
        del ours[0]
        ours.clear()
        self.assertEqual(list(ours), [])


def changed(ours, items):
    """Changes a set, list or dictionary by calls on one item that the module makes itself."""
    for item in items:
        if isinstance(ours, dict):
            ours[item] = None
        else:
            ours.add(item)
    ours.bisect_left(items[3])
    for item in items[::2] if isinstance(ours, dict) else ():
        del ours[item]
    list(ours), ours.copy(), ours[items[1] if isinstance(ours, dict) else slice(2, 9)]


def changed_together(ours, items):
    """Changes a set, list or dictionary by calls on many items, and by those that remove one."""
    half = len(items) // 2
    ours.update(dict.fromkeys(items[:half]) if isinstance(ours, dict) else items[:half])
    ours.update(dict.fromkeys(items[half:]) if isinstance(ours, dict) else items[half:])
    if isinstance(ours, dict):
        ours.pop(items[5]), ours.popitem(2), ours.pop(items[half])
    else:
        ours.pop(2), ours.remove(items[5]), ours.discard(items[half]), ours.pop()


class Refused(unittest.TestCase):
    """An item that does not fit leaves everything unchanged."""

    def test_many(self):
        for keys, good, bad in (
            ("int64", [5, 6], 1.5),
            ("str", ["x"], 5),
            ("any", [None, (1,)], {1}),
            ("object", [7], "a"),
            ("float64", [0.5], math.nan),
            ("bytes", [b""], "a"),
            ("uint64", [3], -1),
        ):
            for cls in (SortedSet, SortedList):
                ours = cls(good, keys=keys)
                before = list(ours)
                for call in (lambda: ours.update([*good, bad]), lambda: ours.update([bad])):
                    self.assertRaises((TypeError, ValueError, OverflowError), call)
                    self.assertEqual((list(ours), len(ours)), (before, len(before)))
            ages = SortedDict(((key, 1) for key in good), keys=keys)
            for call in (lambda: ages.update([(good[0], 2), (bad, 3)]), lambda: ages.__setitem__(bad, 3)):
                self.assertRaises((TypeError, ValueError, OverflowError), call)
                self.assertEqual(
                    (dict(ages), sorted(map(repr, ages))), ({key: 1 for key in good}, sorted(map(repr, good)))
                )

    def test_found_kinds(self):
        ours = SortedSet([1, 2])
        self.assertRaises(TypeError, ours.add, "a")
        self.assertRaises(TypeError, ours.update, [3, "a"])
        self.assertEqual((list(ours), ours.kind), ([1, 2], "int64"))

    @unittest.skipUnless(_testcapi and indexset.BACKEND == "extension", "the interpreter cannot refuse memory")
    def test_memory(self):
        """Each allocation of Python fails in turn: the order and the hash table agree."""
        texts = [f"{at}" for at in range(40)]
        numbers = range(10**12, 10**12 + 40)
        kinds = (
            (SortedDict, texts),
            (SortedSet, texts),
            (SortedSet, numbers),
            (SortedDict, numbers),
            (SortedList, range(40)),
            (SortedList, [at // 4 for at in range(40)]),
            (lambda: SortedSet(key=int), numbers),
            (lambda: SortedDict(int), numbers),
        )
        for (make, items), change in itertools.product(kinds, (changed, changed_together)):
            for start in range(1, 200):
                ours = make()
                _testcapi.set_nomemory(start, start + 1)
                try:
                    change(ours, items)
                except MemoryError:
                    pass
                finally:
                    _testcapi.remove_mem_hooks()
                held = list(ours)
                self.assertEqual((len(ours), held), (len(held), sorted(held)))
                self.assertEqual([item in ours for item in items], [item in held for item in items])

    def test_logged(self):
        told = []
        ours = LoggedDict(told.append, {"a": 1, "b": 2})
        count = len(told)
        self.assertRaises(TypeError, ours.__setitem__, 5, 1)
        self.assertRaises(TypeError, ours.__setitem__, "c", "x")
        self.assertRaises(KeyError, ours.__delitem__, 5)
        self.assertEqual((dict(ours), len(told)), ({"a": 1, "b": 2}, count))
        ours["c"] = 3
        self.assertEqual(list(ours), ["a", "b", "c"])


if __name__ == "__main__":
    counted.main(indexset.BACKEND)

"""Compares the package with `sortedcontainers`, or with a sorted list if that is not installed."""
import copy
import doctest
import math
import os
import pathlib
import pickle
import random
import sys
import unittest
import weakref
from array import array
from bisect import bisect_left, insort

import counted
import indexset
from indexset import SortedDict, SortedList, SortedSet, _dict, _set

try:
    from sortedcontainers import SortedSet as Peer
except ImportError:

    class Peer:
        """The part of a sorted set that the tests use."""

        def __init__(self):
            self.items = []

        def add(self, key):
            if key not in self:
                insort(self.items, key)

        def discard(self, key):
            if key in self:
                self.items.remove(key)

        def pop(self, index=-1):
            return self.items.pop(index)

        def bisect_left(self, key):
            return bisect_left(self.items, key)

        def __contains__(self, key):
            at = bisect_left(self.items, key)
            return at < len(self.items) and self.items[at] == key

        def __len__(self):
            return len(self.items)

        def __getitem__(self, at):
            return self.items[at]

        def __iter__(self):
            return iter(self.items)


EDGES = {
    "int64": [-(1 << 63), -(1 << 63) + 1, -1, 0, 1, (1 << 63) - 1],
    "uint64": [0, 1, (1 << 63) - 1, 1 << 63, (1 << 64) - 1],
    "float64": [-math.inf, -1.5, -5e-324, 0.0, 5e-324, 0.1, 1e308, math.inf],
}


def drawn(kind, rng):
    if rng.random() < 0.02:
        return rng.choice(EDGES[kind])
    if kind == "float64":
        return rng.randrange(-400, 400) / 8
    return rng.randrange(800) - (400 if kind == "int64" else 0)


class Random(unittest.TestCase):
    def run_kind(self, kind):
        rng = random.Random(kind)
        ours, peer = SortedSet(keys=kind), Peer()
        for step in range(6000):
            key = drawn(kind, rng)
            action = rng.randrange(12)
            if action < 5:
                ours.add(key)
                peer.add(key)
            elif action < 8:
                ours.discard(key)
                peer.discard(key)
            elif action == 8 and len(peer):
                at = rng.randrange(-len(peer), len(peer))
                self.assertEqual(ours.pop(at), peer.pop(at))
            elif action == 9 and len(peer):
                at = rng.randrange(-len(peer), len(peer))
                self.assertEqual(ours[at], peer[at])
                self.assertEqual(ours.index(ours[at]), at % len(peer))
            else:
                self.assertEqual(key in ours, key in peer)
                self.assertEqual(ours.bisect_left(key), peer.bisect_left(key))
                self.assertEqual(ours.bisect_right(key), peer.bisect_left(key) + (key in peer))
            self.assertEqual(len(ours), len(peer))
            if step % 100 == 0:
                self.compare(ours, list(peer), kind, rng)

    def compare(self, ours, wanted, kind, rng):
        self.assertEqual(list(ours), wanted)
        self.assertEqual(list(reversed(ours)), wanted[::-1])
        for _ in range(10):
            start, stop = (rng.choice([None, rng.randrange(-900, 900)]) for _ in "ab")
            step = rng.choice([None, 1, -1, 3, -7])
            self.assertEqual(ours[start:stop:step], wanted[start:stop:step])
            self.assertEqual(list(ours.islice(start, stop, True)), wanted[start:stop][::-1])
            low, high = drawn(kind, rng), drawn(kind, rng)
            self.assertEqual(list(ours.irange(low, high)), [k for k in wanted if low <= k <= high])
            inside = [k for k in wanted if low < k < high]
            self.assertEqual(list(ours.irange(low, high, (False, False), True)), inside[::-1])
        keys = [drawn(kind, rng) for _ in range(50)]
        self.assertEqual(ours.ranks(keys).tolist(), [bisect_left(wanted, key) for key in keys])
        if wanted:
            positions = [rng.randrange(-len(wanted), len(wanted)) for _ in range(50)]
            self.assertEqual(ours.at_all(positions), [wanted[at] for at in positions])

    def test_int64(self):
        self.run_kind("int64")

    def test_uint64(self):
        self.run_kind("uint64")

    def test_float64(self):
        self.run_kind("float64")


class Keys(unittest.TestCase):
    def test_edges(self):
        for kind, edges in EDGES.items():
            self.assertEqual(list(SortedSet(reversed(edges), keys=kind)), edges)

    def test_refused(self):
        cases = [
            ("int64", 1 << 63, OverflowError),
            ("int64", -(1 << 63) - 1, OverflowError),
            ("uint64", -1, OverflowError),
            ("uint64", 1 << 64, OverflowError),
            ("int64", 1.5, TypeError),
            ("int64", "1", TypeError),
            ("uint64", None, TypeError),
            ("float64", "1", TypeError),
            ("float64", (1 << 53) + 1, OverflowError),
            ("float64", math.nan, ValueError),
        ]
        for kind, key, error in cases:
            numbers = SortedSet([1, 2], keys=kind)
            for call in (numbers.add, lambda k: numbers.update([5, k])):
                self.assertRaises(error, call, key)
            self.assertEqual(list(numbers), [1, 2])
            self.assertNotIn(key, numbers)
            numbers.discard(key)
            self.assertRaises(KeyError, numbers.remove, key)
            self.assertRaises(ValueError, numbers.index, key)
        self.assertRaises(ValueError, SortedSet, keys="text")
        self.assertRaises(OverflowError, SortedSet(keys="float64").add, 10**400)

    def test_zero(self):
        numbers = SortedSet([-0.0], keys="float64")
        self.assertIn(0.0, numbers)
        self.assertEqual(str(numbers[0]), "-0.0")

    def test_numbers_of_other_types(self):
        self.assertIn(2.0, SortedSet([2]))
        self.assertNotIn(2.5, SortedSet([2]))
        self.assertIn(True, SortedSet([1]))
        self.assertEqual(list(SortedSet([True, 2], keys="float64")), [1.0, 2.0])

    def test_buffers(self):
        for kind, code in (("uint64", "Q"), ("int64", "q"), ("float64", "d"), ("int64", "i"), ("uint64", "B")):
            values = array(code, [3, 1, 2, 3])
            self.assertEqual(list(SortedSet(values, keys=kind)), [1, 2, 3])
            self.assertEqual(list(SortedSet(memoryview(values), keys=kind)), [1, 2, 3])
        self.assertEqual(list(SortedSet(memoryview(array("Q", range(10)))[::3], keys="uint64")), [0, 3, 6, 9])
        self.assertEqual(list(SortedSet(b"ba")), [97, 98])


class Calls(unittest.TestCase):
    def test_errors(self):
        empty = SortedSet()
        for call in (empty.pop, lambda: empty.pop(0), lambda: empty.pop(3), lambda: empty[0], lambda: empty[1 << 70]):
            self.assertRaises(IndexError, call)
        self.assertRaises(KeyError, empty.remove, 1)
        self.assertRaises(IndexError, SortedSet([1]).at_all, [0, 1])
        self.assertRaises(TypeError, hash, empty)
        self.assertEqual((empty[:], empty.ranks([]).tolist(), empty.at_all([])), ([], [], []))
        self.assertRaises(ValueError, SortedSet([1, 2]).index, 1, 1)

    def test_operators(self):
        rng = random.Random(3)
        for _ in range(100):
            a, b = ({rng.randrange(30) for _ in range(12)} for _ in "ab")
            ours = SortedSet(a)
            for other in (b, SortedSet(b), sorted(b)):
                self.assertEqual(list(ours | other), sorted(a | b))
                self.assertEqual(list(ours & other), sorted(a & b))
                self.assertEqual(list(ours - other), sorted(a - b))
                self.assertEqual(list(ours ^ other), sorted(a ^ b))
                self.assertEqual(ours.issubset(other), a <= b)
                self.assertEqual(ours.issuperset(other), a >= b)
                self.assertEqual(ours.isdisjoint(other), not a & b)
            self.assertEqual((ours <= SortedSet(b), ours < b, ours >= b, ours > b), (a <= b, a < b, a >= b, a > b))
            self.assertEqual(b - ours, b - a)
            changed = SortedSet(a)
            changed |= b
            changed &= a
            changed -= b
            changed ^= a
            self.assertEqual(changed, a & b)

    def test_object(self):
        numbers = SortedSet([2, 1])
        self.assertEqual(repr(numbers), "SortedSet([1, 2])")
        self.assertEqual(repr(SortedSet(keys="uint64")), "SortedSet([], keys='uint64')")
        self.assertEqual(numbers, {1, 2})
        self.assertNotEqual(numbers, [1, 2])
        other = copy.copy(numbers)
        other.add(3)
        self.assertEqual((list(numbers), list(other)), ([1, 2], [1, 2, 3]))
        floats = SortedSet([0.5], keys="float64")
        back = pickle.loads(pickle.dumps(floats))
        self.assertEqual((back, back.kind), (floats, "float64"))
        self.assertEqual(eval(repr(floats)), floats)
        del other[0], other[:1]
        self.assertEqual(list(other), [3])
        other.clear()
        self.assertFalse(other)

    def test_long(self):
        numbers = SortedSet(range(5000))
        self.assertEqual(list(numbers), list(range(5000)))
        self.assertEqual(list(numbers.irange(reverse=True)), list(range(4999, -1, -1)))

    def test_version(self):
        """The library, the package and the changelog have one version number."""
        top = next(it for it in pathlib.Path(__file__).resolve().parents if (it / "CHANGELOG.md").exists())
        number = ".".join(map(str, indexset.version()))
        self.assertIn(f'version = "{number}"\n', (top / "bindings/python/pyproject.toml").read_text())
        self.assertIn(f"\n## [{number}]", (top / "CHANGELOG.md").read_text())

    def test_proved(self):
        """A library that was built without proofs is not marked as proved."""
        self.assertEqual(indexset.PROVED, "unproved" not in os.environ.get("INDEXSET_LIBRARY", "").split("/"))

    def test_examples(self):
        for module in (indexset, _set, _dict):
            self.assertEqual(doctest.testmod(module).failed, 0)


class Dictionaries(unittest.TestCase):
    def run_kind(self, kind):
        rng = random.Random(kind)
        ours, peer = SortedDict(keys=kind), {}
        for step in range(5000):
            key = drawn(kind, rng)
            action = rng.randrange(10)
            if action < 5:
                ours[key] = peer[key] = object()
            elif action < 7:
                self.assertIs(ours.pop(key, None), peer.pop(key, None))
            elif action == 7 and peer:
                at = rng.randrange(-len(peer), len(peer))
                wanted = sorted(peer)[at]
                self.assertEqual(ours.peekitem(at), (wanted, peer[wanted]))
                self.assertEqual(ours.popitem(at), (wanted, peer.pop(wanted)))
            elif action == 8:
                self.assertIs(ours.setdefault(key, step), peer.setdefault(key, step))
            else:
                self.assertIs(ours.get(key), peer.get(key))
                self.assertEqual(key in ours, key in peer)
            self.assertEqual(len(ours), len(peer))
            if step % 50 == 0:
                keys = [drawn(kind, rng) for _ in range(6)]
                self.assertEqual(ours.get_all(keys, step), [peer.get(key, step) for key in keys])
                entries = [(key, object()) for key in keys + keys[:2]]
                ours.update(entries)
                peer.update(entries)
            if step % 250 == 0:
                self.compare(ours, sorted(peer.items()), kind, rng)

    def compare(self, ours, wanted, kind, rng):
        self.assertEqual(list(ours.items()), wanted)
        self.assertEqual(list(ours), [key for key, _ in wanted])
        self.assertEqual(list(ours.values()), [value for _, value in wanted])
        self.assertEqual(list(reversed(ours.keys())), [key for key, _ in reversed(wanted)])
        self.assertEqual(ours.items()[3:40:2], wanted[3:40:2])
        low, high = drawn(kind, rng), drawn(kind, rng)
        self.assertEqual(list(ours.irange(low, high)), [key for key, _ in wanted if low <= key <= high])
        self.assertEqual(ours.bisect_left(low), sum(key < low for key, _ in wanted))
        self.assertEqual(ours, dict(wanted))

    def test_int64(self):
        self.run_kind("int64")

    def test_uint64(self):
        self.run_kind("uint64")

    def test_float64(self):
        self.run_kind("float64")

    def test_object(self):
        ages = SortedDict([(2, "b"), (1, "a")])
        named = SortedDict(ages, keys="int64")
        self.assertRaises(OverflowError, named.update, {3: "c", 1 << 70: "d"})
        self.assertEqual((named, list(named)), (ages, [1, 2]))
        ages.update({})
        self.assertEqual((len(ages), ages.get_all([])), (2, []))
        self.assertEqual(repr(ages), "SortedDict({1: 'a', 2: 'b'})")
        self.assertEqual(repr(SortedDict(keys="float64")), "SortedDict({}, keys='float64')")
        self.assertEqual(eval(repr(ages)), ages)
        self.assertEqual(pickle.loads(pickle.dumps(ages)), {1: "a", 2: "b"})
        other = copy.copy(ages) | {0: "z"}
        self.assertEqual((list(ages), list(other)), ([1, 2], [0, 1, 2]))
        self.assertEqual((other.keys()[-1], other.values()[0], other.index(1)), (2, "z", 1))
        self.assertEqual(other.keys() & {1, 5}, {1})
        del other[0]
        self.assertRaises(KeyError, other.__delitem__, 0)
        self.assertRaises(KeyError, other.__getitem__, "1")
        self.assertRaises(OverflowError, named.__setitem__, 1 << 63, 1)
        self.assertRaises(TypeError, named.__setitem__, "1", 1)
        self.assertRaises(TypeError, other.__setitem__, "1", 1)
        self.assertEqual(other, {1: "a", 2: "b"})
        other.clear()
        self.assertRaises(KeyError, other.popitem)
        self.assertRaises(IndexError, other.peekitem)
        self.assertRaises(TypeError, hash, other)

    def test_classes_below(self):
        """The methods of a subclass for missing keys, `in` and `[key]` take precedence."""

        class Doubled(SortedDict):
            def __missing__(self, key):
                return key * 2

        class Odd(SortedDict):
            def __contains__(self, key):
                return key == 7

            def __getitem__(self, key):
                return "odd"

        doubled, odd = Doubled({1: "a"}), Odd({1: "a"})
        self.assertEqual(
            (doubled[1], doubled[5], doubled.get(5), 5 in doubled, list(doubled)), ("a", 10, None, False, [1])
        )
        self.assertEqual((odd[1], odd[5], 7 in odd, 1 in odd, list(odd)), ("odd", "odd", True, False, [1]))

    def test_references(self):
        """References to a number are released with the number, and with the object."""
        number = 10**15 + len(repr(self))
        before = sys.getrefcount(number)
        for make in (SortedSet, SortedList, SortedDict.fromkeys):
            for end in (
                list,
                len,
                lambda it: it.clear(),
                lambda it: it.copy(),
                lambda it: isinstance(it, dict) and it.pop(number, 0),
            ):
                ours = make([number])
                ours.update({number: 1, 5: 2})
                end(ours), end(ours.copy())
                ours.update([(number, 3)] if isinstance(ours, dict) else [number])
                if indexset.BACKEND == "extension":
                    self.assertIs(list(ours)[-1], number)
                del ours
                self.assertEqual(sys.getrefcount(number), before)

    def test_zero_is_one(self):
        """Both zeros are one key, and the first one added is returned."""
        for zeros in ([0.0, -0.0], [-0.0, 0.0]):
            for ours in (SortedSet(zeros), SortedSet(zeros[:1], keys="float64"), SortedSet([-1.5, *zeros])):
                ours.add(zeros[1])
                ours.update(zeros[::-1])
                self.assertEqual((str(ours[-1]), sum(it == 0 for it in ours)), (str(zeros[0]), 1))
                self.assertEqual(str(ours.copy()[-1]), str(zeros[0]))
                ours.remove(0.0)
                ours.add(zeros[1])
                self.assertEqual(str(ours[-1]), str(zeros[1]))

    def test_objects_are_let_go(self):
        class Thing:
            pass

        thing = Thing()
        seen = weakref.ref(thing)
        ages = SortedDict({1: thing})
        del thing
        ages[1] = None
        self.assertIsNone(seen())


if __name__ == "__main__":
    counted.main(indexset.BACKEND)

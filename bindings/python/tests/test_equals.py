"""Tests that equal numbers are equal keys, of any types, and of bounds and arrays of other types."""
import decimal
import fractions
import math
import numbers
import unittest
from array import array
from bisect import bisect_left, bisect_right

import counted
import indexset
from indexset import LoggedDict, Replica, SortedDict, SortedList, SortedMultiDict, SortedSet

try:
    import numpy
except ImportError:
    numpy = None


class Whole:
    """An integer of another type, such as numpy's."""

    def __init__(self, number):
        self.number = number

    def __index__(self):
        return self.number

    def __hash__(self):
        return hash(self.number)

    def __eq__(self, other):
        return self.number == other


class Single:
    """A floating-point number of another type."""

    def __init__(self, number):
        self.number = number

    def __float__(self):
        return self.number

    def __hash__(self):
        return hash(self.number)

    def __eq__(self, other):
        return self.number == other

    def __lt__(self, other):
        return self.number < other

    def __gt__(self, other):
        return self.number > other


class Equals(unittest.TestCase):
    """Equal numbers are equal keys, as in a set and a dict."""

    def values(self):
        found = [1, 1.0, True, 1 + 0j, fractions.Fraction(1), decimal.Decimal(1), Whole(1), Single(1.0)]
        found += [1.5, 2, 1 + 1j, fractions.Fraction(1, 3), decimal.Decimal("0.1"), "1", b"1", None, (1,), math.nan]
        if numpy:
            names = "int8 int16 int32 int64 uint8 uint16 uint32 uint64 float16 float32 float64 bool_ complex64".split()
            found += [getattr(numpy, name)(number) for name in names for number in (0, 1, 3)] + [numpy.float32(1.5)]
        return found

    def test_reads(self):
        for keys in (None, "int64", "uint64", "float64", "any", "object"):
            ours, wanted = SortedSet([1], keys=keys), {1}
            ages, peer = SortedDict({1: "a"}, keys=keys), {1: "a"}
            tags = SortedMultiDict([(1, 1)], keys=keys)
            log = LoggedDict(entries={1: 1}, keys=keys)
            for value in self.values():
                with self.subTest(keys=keys, value=value):
                    self.assertEqual((value in ours, value in ages), (value in wanted, value in wanted))
                    self.assertEqual((ages.get(value), log.get(value)), (peer.get(value), {1: 1}.get(value)))
                    self.assertEqual(tags.count(value), int(value in wanted))
                    self.assertEqual(ours.count(value), int(value in wanted))

    def test_lists(self):
        for keys in (None, "int64", "float64", "any"):
            ours = SortedList([1, 1, 2], keys=keys)
            for value in self.values():
                if isinstance(value, (int, float)) or isinstance(value, numbers.Real):
                    with self.subTest(keys=keys, value=value):
                        self.assertEqual(value in ours, value in [1, 1, 2])
                        self.assertEqual(ours.count(value) if value in ours else 0, [1, 1, 2].count(value))

    def test_changes(self):
        for value in self.values():
            ours, peer = SortedSet([1, 4]), {1, 4}
            if isinstance(value, numbers.Real) and value == value:
                ours.add(value)
                peer.add(value)
                self.assertEqual((list(ours), len(ours)), (sorted(peer), len(peer)))
            ours.discard(value)
            peer.discard(value)
            self.assertEqual(ours, peer)

    def test_nested(self):
        ours = SortedSet([(1, (2, 0)), ("a", None)], keys="any")
        for value in ((1.0, (2, 0)), (True, (2.0, False)), (1, (2, 0.0))):
            self.assertIn(value, ours)
            ours.add(value)
            self.assertEqual(len(ours), 2)
            ours.discard(value)
            self.assertEqual(len(ours), 1)
            ours.add((1, (2, 0)))

    def test_unhashable(self):
        for ours in (SortedSet([1]), SortedSet(["a"]), SortedSet([None], keys="any"), SortedDict({1: 2})):
            self.assertRaises(TypeError, ours.__contains__, [1])
            self.assertRaises(TypeError, ours.__contains__, {})


class Bounds(unittest.TestCase):
    """Reads with any number return what a list would return."""

    def test_numbers(self):
        items = {
            "int64": [-5, 0, 1, 3, (1 << 63) - 1],
            "uint64": [0, 1, 7, (1 << 64) - 1],
            "float64": [-math.inf, -1.5, 0.0, 0.1, 2.0**60],
        }
        bounds = [1.5, -0.5, 2**70, -(2**70), math.inf, -math.inf, 0, 1, 10**400, -(10**400), 2**53 + 1, 0.1]
        bounds += [
            fractions.Fraction(1, 3),
            decimal.Decimal("0.1"),
            True,
            2**64,
            2**63,
            -(2**63) - 1,
            2.0**60 + 1,
            2**60 + 1,
        ]
        for keys, wanted in items.items():
            for ours in (SortedSet(wanted, keys=keys), SortedDict.fromkeys(wanted), SortedList(wanted, keys=keys)):
                for low in bounds:
                    self.assertEqual(ours.bisect_left(low), bisect_left(wanted, low), (keys, low))
                    self.assertEqual(ours.bisect_right(low), bisect_right(wanted, low), (keys, low))
                    for high in bounds:
                        inside = [key for key in wanted if low <= key <= high]
                        self.assertEqual(list(ours.irange(low, high)), inside)
                        inside = [key for key in wanted if low < key < high]
                        self.assertEqual(list(ours.irange(low, high, (False, False))), inside)
                if ours.kind != "object":
                    self.assertRaises(ValueError, ours.bisect_left, math.nan)
                self.assertRaises(TypeError, ours.bisect_left, "a")

    def test_pairs(self):
        tags, log = SortedMultiDict([(1, 2), (3, 4)]), LoggedDict(entries={1: 2, 3: 4})
        for low, high in ((1.5, 2**70), (-math.inf, math.inf), (3.5, 9), (0, 0.5), (-(2**70), 1), (4, 2)):
            inside = [pair for pair in ((1, 2), (3, 4)) if low <= pair[0] <= high]
            for ours in (tags, log, Replica(log)):
                self.assertEqual(list(ours.irange(low, high)), inside)


class Arrays(unittest.TestCase):
    def test_refused(self):
        for values in (memoryview(b"abcd").cast("c"), array("u", "ab"), memoryview(bytes(16)).cast("B", (4, 4))):
            with self.assertRaisesRegex(TypeError, "an array"):
                SortedSet(values)
        self.assertRaises(TypeError, SortedSet, array("d", [1.5]), keys="int64")
        self.assertEqual(list(SortedSet(array("d", [2.0, 1.0]), keys="int64")), [1, 2])
        self.assertEqual(SortedSet(array("f", [0.5])).kind, "float64")

    @unittest.skipUnless(numpy, "numpy is not installed")
    def test_numpy(self):
        for (
            name
        ) in "int8 int16 int32 int64 uint8 uint16 uint32 uint64 float16 float32 float64 bool >i8 >f4 <u2".split():
            values = numpy.array([1, 0, 1], dtype=name)
            ours = SortedSet(values)
            self.assertEqual(list(ours), [0, 1])
            self.assertEqual(list(SortedSet(values, keys="float64")), [0.0, 1.0])
            self.assertEqual(list(SortedSet(values, keys="int64")), [0, 1])
            self.assertEqual(list(SortedList(values)), [0, 1, 1])
        self.assertEqual(list(SortedSet(numpy.arange(10)[::3])), [0, 3, 6, 9])
        for values in (numpy.array([1j]), numpy.eye(2), numpy.array([["a"]])):
            with self.assertRaisesRegex(TypeError, "an array"):
                SortedSet(values)
        self.assertEqual(SortedSet([1, 2, 3])[numpy.int64(1)], 2)
        self.assertEqual(list(SortedSet([numpy.int64(3), numpy.int8(1)])), [1, 3])


if __name__ == "__main__":
    counted.main(indexset.BACKEND)

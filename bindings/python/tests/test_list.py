"""Compares sorted lists with plain lists that are sorted."""
import copy
import gc
import math
import random
import unittest
import weakref
from bisect import bisect_left, bisect_right, insort
from unittest import mock

import counted
import indexset
from indexset import SortedDict, SortedKeyList, SortedList, SortedSet

DRAWN = {
    "int64": lambda rng: rng.choice([rng.randrange(-30, 30), rng.randrange(-(1 << 63), 1 << 63)]),
    "uint64": lambda rng: rng.choice([rng.randrange(30), (1 << 64) - rng.randrange(1, 4), rng.randrange(1 << 64)]),
    "float64": lambda rng: rng.randrange(-60, 60) / 4,
    "str": lambda rng: "".join(rng.choices("ab\0", k=rng.randrange(4))),
    "bytes": lambda rng: bytes(rng.choices([0, 254, 255], k=rng.randrange(4))),
    "object": lambda rng: (rng.randrange(3), rng.choice([0.5, 1, 2])),
}


class Random(unittest.TestCase):
    def run_kind(self, kind, named):
        rng = random.Random(kind)
        ours, wanted = SortedList(keys=kind if named else None), []
        for step in range(2500):
            item, action = DRAWN[kind](rng), rng.randrange(12)
            if action < 5:
                ours.add(item)
                insort(wanted, item)
            elif action < 7:
                ours.discard(item)
                if item in wanted:
                    wanted.remove(item)
            elif action == 7 and wanted:
                at = rng.randrange(-len(wanted), len(wanted))
                self.assertEqual(ours.pop(at), wanted.pop(at))
            elif action == 8 and wanted:
                chosen = rng.choice(wanted)
                ours.remove(chosen)
                wanted.remove(chosen)
            else:
                self.assertEqual((item in ours, ours.count(item)), (item in wanted, wanted.count(item)))
                self.assertEqual(ours.bisect_left(item), bisect_left(wanted, item))
                self.assertEqual(ours.bisect_right(item), bisect_right(wanted, item))
            self.assertEqual(len(ours), len(wanted))
            if step % 100 == 0:
                self.compare(ours, wanted, [DRAWN[kind](rng) for _ in range(6)], rng)
        self.assertTrue(named or not wanted or ours.kind == kind)

    def compare(self, ours, wanted, items, rng):
        self.assertEqual((list(ours), list(reversed(ours)), ours), (wanted, wanted[::-1], wanted))
        for _ in range(5):
            start, stop = (rng.choice([None, rng.randrange(-300, 300)]) for _ in "ab")
            step = rng.choice([None, 1, -1, 3, -7])
            self.assertEqual(ours[start:stop:step], wanted[start:stop:step])
            self.assertEqual(list(ours.islice(start, stop, True)), wanted[start:stop][::-1])
            low, high = rng.sample(items, 2)
            self.assertEqual(list(ours.irange(low, high)), [it for it in wanted if low <= it <= high])
            self.assertEqual(
                list(ours.irange(low, high, (False, False), True)), [it for it in wanted if low < it < high][::-1]
            )
        if wanted:
            chosen = rng.choice(wanted)
            first = wanted.index(chosen)
            self.assertEqual(ours.index(chosen), first)
            for start in (first, first + 1):
                if chosen in wanted[start:]:
                    self.assertEqual(ours.index(chosen, start), wanted.index(chosen, start))
                else:
                    self.assertRaises(ValueError, ours.index, chosen, start)
        ours.update(items)
        wanted += items
        wanted.sort()
        part = slice(rng.randrange(5), rng.randrange(40), rng.choice([1, 2, -1]))
        del ours[part], wanted[part]
        self.assertEqual((list(ours), list(copy.copy(ours))), (wanted, wanted))

    def test_found(self):
        for kind in set(DRAWN) - {"uint64"}:
            self.run_kind(kind, False)

    def test_named(self):
        for kind in DRAWN:
            self.run_kind(kind, True)


class Item:
    """An object that is released with its last reference."""

    def __init__(self, number):
        self.number = number


class Told(int):
    """An integer that counts its comparisons."""

    compared = 0

    def __eq__(self, other):
        Told.compared += 1
        return int(self) == int(other)

    __hash__ = int.__hash__


class Repeated(unittest.TestCase):
    """Numbers that repeat, and sort keys that are numbers."""

    def test_other_types(self):
        for kind, items in (
            ("int64", [1, True, 1.0, 0, False]),
            ("uint64", [7, 7.0, 3]),
            ("float64", [1, 1.0, True, -0.0, 0]),
        ):
            ours = SortedList(items + items, keys=kind)
            wanted = sorted(items + items)
            self.assertEqual([(it, type(it)) for it in ours], [(it, type(it)) for it in wanted])
            self.assertEqual((ours.kind, [ours.count(it) for it in items]), (kind, [wanted.count(it) for it in items]))
            for value in (0.5, "x", None, 1 << 70, -1, float("nan"), float("inf")):
                self.assertEqual((value in ours, ours.count(value)), (False, 0))
                ours.discard(value)
            self.assertEqual(
                (ours.bisect(0.5), ours.bisect_left(1 << 70), len(ours)),
                (bisect_right(wanted, 0.5), len(wanted), len(wanted)),
            )
            for item in items:
                ours.remove(item)
                wanted.remove(item)
            self.assertEqual([(it, type(it)) for it in ours], [(it, type(it)) for it in wanted])

    def test_ends(self):
        for kind, least, greatest in (
            ("int64", -(1 << 63), (1 << 63) - 1),
            ("uint64", 0, (1 << 64) - 1),
            ("float64", -math.inf, math.inf),
        ):
            ours = SortedList([least, greatest] * 3, keys=kind)
            self.assertEqual(
                [ours.bisect_left(least), ours.bisect(least), ours.bisect_left(greatest), ours.bisect(greatest)],
                [0, 3, 3, 6],
            )
            self.assertEqual(
                (list(ours.irange(greatest)), list(ours.irange(None, least))), ([greatest] * 3, [least] * 3)
            )
            self.assertEqual(
                (ours.count(greatest), ours.index(greatest, 4), ours.pop(), ours.pop(0)), (3, 4, greatest, least)
            )

    def test_not_compared(self):
        """Equal items are not compared one by one."""
        ours = SortedList((Told(5) for _ in range(3000)), keys="int64")
        before = Told.compared
        ours.add(Told(5))
        found = ours.count(5), 5 in ours, ours.index(5), ours.index(5, 2000), ours.bisect(5), ours.bisect_left(Told(5))
        ours.remove(5)
        ours.discard(Told(5))
        self.assertEqual((found, len(ours), Told.compared - before < 10), ((3001, True, 0, 2000, 3001, 0), 2999, True))

    def test_refused(self):
        for ours in (
            SortedList([5, 5, 1]),
            SortedList([5, 5, 1], keys="int64"),
            SortedKeyList([5, 5, 1], key=abs, keys="int64"),
        ):
            for items in ([5, 5, "x"], [2, 5, None]):
                self.assertRaises(TypeError, ours.update, items)
                self.assertEqual(list(ours), [1, 5, 5])

    @unittest.skipUnless(indexset.BACKEND == "ctypes", "the library's calls are not seen")
    def test_refused_memory(self):
        """A call for which memory runs out in the library changes nothing."""
        ours, key = SortedList([5, 5, 1]), SortedKeyList([-5, 5, 1], key=abs)
        changes = [
            ("push", lambda: ours.add(7)),
            ("push", lambda: key.update([7, 8])),
            ("push", ours.copy),
            ("push", key.copy),
            ("remove_at", ours.pop),
            ("remove_at", lambda: key.remove(5)),
            ("remove_first", lambda: ours.remove(5)),
        ]
        for call, change in changes:
            with mock.patch.object(indexset._library.lib, f"indexset_multi_{call}", lambda *words: 2):
                self.assertRaises(MemoryError, change)
            self.assertEqual((list(ours), list(key)), ([1, 5, 5], [1, -5, 5]))

    def test_items_go(self):
        """Each call that removes an item releases it."""
        items = [Item(at // 3) for at in range(60)]
        seen = [weakref.ref(item) for item in items]
        ours = SortedKeyList(items, key=lambda it: it.number)
        other = copy.copy(ours)
        del items
        self.assertEqual([ours.index(ref()) for ref in seen], list(range(60)))
        for one in (other, ours):
            self.assertIs(one.pop(4), seen[4]())
            one.remove(seen[5]())
            one.discard(seen[6]())
            del one[30:]
            list(one), one[2:5], list(reversed(one))
        gc.collect()
        self.assertEqual([at for at, ref in enumerate(seen) if ref() is None], [4, 5, 6, *range(33, 60)])
        del other
        ours.clear()
        gc.collect()
        self.assertEqual([ref for ref in seen if ref() is not None], [])

    def test_sets_and_dictionaries(self):
        """Sort keys that are numbers, of items that do not repeat."""
        rng = random.Random(3)
        ours, ages, wanted = SortedSet(key=abs), SortedDict(abs), []
        for step in range(3000):
            item = rng.randrange(-40, 40)
            if rng.random() < 0.6:
                ours.add(item)
                ages[item] = step
                wanted += [item] if item not in wanted else []
            elif item in wanted:
                ours.remove(item)
                del ages[item]
                wanted.remove(item)
            if step % 50 == 0:
                in_order = sorted(wanted, key=abs)
                self.assertEqual((list(ours), list(ages), list(ours.copy())), (in_order,) * 3)
                self.assertEqual([ours.index(it) for it in in_order], list(range(len(wanted))))
                self.assertEqual(list(ours.irange_key(5, 9)), [it for it in in_order if 5 <= abs(it) <= 9])


class Calls(unittest.TestCase):
    def test_refused(self):
        ours = SortedList([3, 1])
        for call, words in (
            (ours.append, (1,)),
            (ours.extend, ([1],)),
            (ours.insert, (0, 1)),
            (ours.reverse, ()),
            (ours.__setitem__, (0, 1)),
        ):
            self.assertRaises(NotImplementedError, call, *words)
        for call in (lambda: ours[2], lambda: ours[-3], lambda: ours.pop(2), lambda: ours[1 << 70]):
            self.assertRaises(IndexError, call)
        self.assertRaises(ValueError, ours.remove, 2)
        self.assertRaises(ValueError, ours.index, 2)
        self.assertRaises(TypeError, hash, ours)
        self.assertRaises(TypeError, ours.add, "a")
        self.assertEqual((list(ours), list(ours)), ([1, 3], [1, 3]))

    def test_beside_lists(self):
        ours = SortedList([2, 1, 2])
        self.assertEqual(
            (ours, ours + [0], ours * 2, 2 * ours), ([1, 2, 2], [0, 1, 2, 2], [1, 1, 2, 2, 2, 2], [1, 1, 2, 2, 2, 2])
        )
        self.assertTrue(ours < [1, 3] and ours <= [1, 2, 2] and ours > [1] and ours >= (1, 2) and ours != {1, 2})
        ours += [5, 0]
        ours *= 2
        self.assertEqual(ours, [0, 0, 1, 1, 2, 2, 2, 2, 5, 5])

    def test_order_of_equals(self):
        ours = SortedKeyList(key=lambda it: it[0])
        rng = random.Random(2)
        items = [(rng.randrange(5), at) for at in range(200)]
        for item in items:
            ours.add(item)
        self.assertEqual(list(ours), sorted(items, key=lambda it: it[0]))
        ours.remove(items[7])
        items.pop(7)
        self.assertEqual(list(ours), sorted(items, key=lambda it: it[0]))

    def test_unhashable(self):
        ours = SortedList([[2], [1], [1, 5]])
        self.assertEqual(
            (list(ours), ours.index([1, 5]), [2] in ours, ours.kind), ([[1], [1, 5], [2]], 1, True, "object")
        )
        ours = SortedKeyList([{"a": 2}, {"a": 1}], key=lambda it: it["a"])
        self.assertEqual((list(ours), ours.count({"a": 2}), ours.kind), ([{"a": 1}, {"a": 2}], 1, "int64"))

    def test_labels(self):
        """Objects are added between two others, from either side, again and again."""
        for step in (1, -1):
            ours, wanted = SortedList([(0,), (10**6,)], keys="object"), [(0,), (10**6,)]
            for at in range(3000):
                item = (5000 + step * at,)
                ours.add(item)
                insort(wanted, item)
            self.assertEqual(list(ours), wanted)


if __name__ == "__main__":
    counted.main(indexset.BACKEND)

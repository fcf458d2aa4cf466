"""Tests of many items at once: adding, removing, joining and copying, compared with plain lists that are sorted."""
import copy
import gc
import itertools
import pickle
import random
import unittest
import weakref
from bisect import bisect_left, bisect_right, insort
from datetime import datetime, timedelta
from decimal import Decimal

try:
    import _testcapi
except ImportError:
    _testcapi = None

import counted
import indexset
from indexset import SortedDict, SortedKeyList, SortedList, SortedSet

MADE = {
    "int64": lambda number: number - 3000,
    "float64": lambda number: number / 4 - 500,
    "str": lambda number: f"{number * 7919 % 6007}\u00e9",
    "bytes": lambda number: b"%d" % (number * 7919 % 6007),
    "tuple": lambda number: (number // 7, str(number)),
    "Decimal": lambda number: Decimal(number) / 8,
    "datetime": lambda number: datetime(2020, 1, 1) + timedelta(hours=number),
    "int and float": lambda number: number if number % 2 else number + 0.5,
}


class Counted:
    """An object that only `<` compares, which counts the comparisons."""

    compared = 0

    def __init__(self, number):
        self.number = number

    def __lt__(self, other):
        Counted.compared += 1
        return self.number < other.number


class Many(unittest.TestCase):
    """Changes of many items and of one, alternating."""

    def check(self, ours, wanted, rng):
        self.assertEqual((len(ours), list(ours), list(reversed(ours))), (len(wanted), wanted, wanted[::-1]))
        for _ in range(4):
            first, past = rng.randrange(-900, 3000), rng.randrange(-900, 3000)
            self.assertEqual(
                (ours[first:past], list(ours.islice(first, past, True))), (wanted[first:past], wanted[first:past][::-1])
            )
        for at in rng.sample(range(len(wanted)), min(20, len(wanted))):
            item = wanted[at]
            self.assertEqual((ours[at], ours[at - len(wanted)], item in ours), (item, item, True))
            self.assertEqual(
                (ours.bisect_left(item), ours.bisect_right(item)),
                (bisect_left(wanted, item), bisect_right(wanted, item)),
            )
            self.assertEqual((ours.index(item), ours.count(item)), (wanted.index(item), wanted.count(item)))

    def change(self, ours, wanted, make, rng):
        action = rng.randrange(8)
        if action == 0:
            items = [make(rng.randrange(6000)) for _ in range(rng.choice([3, 100, 2000]))]
            ours.update(items)
            wanted += items
            wanted.sort()
        elif action == 1:
            part = slice(rng.randrange(-50, 3000), rng.randrange(-50, 3000), rng.choice([1, 1, 1, -1, 3]))
            del ours[part], wanted[part]
        elif action == 2 and len(wanted) < 4000:
            ours += ours[:700]
            wanted += wanted[:700]
            wanted.sort()
        elif action == 3:
            ours = rng.choice(
                [copy.copy, SortedList.copy, lambda it: pickle.loads(pickle.dumps(it)), lambda it: it + []]
            )(ours)
        else:
            for _ in range(rng.choice([1, 40])):
                item = make(rng.randrange(6000))
                ours.add(item)
                insort(wanted, item)
                if rng.random() < 0.5:
                    at = rng.randrange(len(wanted))
                    ours.remove(wanted[at]) if rng.random() < 0.5 else ours.pop(at)
                    wanted.pop(at)
        return ours, wanted

    def test_each_kind(self):
        for kind, make in MADE.items():
            rng = random.Random(kind)
            wanted = sorted(make(rng.randrange(6000)) for _ in range(3000))
            ours = SortedList(rng.sample(wanted, len(wanted)))
            for _ in range(25):
                self.check(ours, wanted, rng)
                ours, wanted = self.change(ours, wanted, make, rng)
            self.assertEqual(ours * 2, sorted(wanted * 2))

    def test_sets_and_dictionaries(self):
        for kind, make in MADE.items():
            rng = random.Random(kind)
            items = [make(rng.randrange(6000)) for _ in range(3000)]
            ours, ages, peer = SortedSet(items), SortedDict.fromkeys(items, 0), set(items)
            for _ in range(5):
                others = {make(rng.randrange(6000)) for _ in range(rng.choice([5, 3000]))}
                self.assertEqual((ours, list(ours), list(ages)), (peer, sorted(peer), sorted(peer)))
                for mine, theirs in (
                    (ours & others, peer & others),
                    (ours | others, peer | others),
                    (ours - others, peer - others),
                    (ours ^ others, peer ^ others),
                ):
                    self.assertEqual((list(mine), len(mine._members)), (sorted(theirs), len(theirs)))
                ours.update(others)
                ages.update(dict.fromkeys(others, 1))
                peer |= others
                gone = ours[200:500]
                del ours[200:500]
                for item in gone:
                    del ages[item]
                peer -= set(gone)
                item = make(rng.randrange(6000))
                ours.add(item)
                ages[item] = 2
                peer.add(item)
                self.assertEqual(ages.copy(), dict(ages))

    def test_stable(self):
        """Equal items are in insertion order, however many were added at once."""
        for order in (lambda it: it[0], lambda it: str(it[0]), lambda it: (it[0],), lambda it: it[0] / 2):
            rng, number = random.Random(5), itertools.count()
            ours, wanted = SortedKeyList(key=order), []
            for _ in range(30):
                items = [(rng.randrange(9), next(number)) for _ in range(rng.choice([1, 5, 600]))]
                ours.update(items) if rng.random() < 0.7 or len(items) > 5 else [ours.add(item) for item in items]
                wanted = sorted(wanted + items, key=order)
                if rng.random() < 0.3:
                    del ours[50:300], wanted[50:300]
                if wanted and rng.random() < 0.5:
                    item = rng.choice(wanted)
                    self.assertEqual((ours.index(item), ours.count(item)), (wanted.index(item), 1))
                    ours.remove(item)
                    wanted.remove(item)
                self.assertEqual((list(ours), list(ours.copy())), (wanted, wanted))
                for sort_key in map(order, wanted[::97]):
                    places = [ours.bisect_key_left(sort_key), ours.bisect_key_right(sort_key)]
                    self.assertEqual(
                        places,
                        [
                            bisect_left(list(map(order, wanted)), sort_key),
                            bisect_right(list(map(order, wanted)), sort_key),
                        ],
                    )

    @unittest.skipUnless(indexset.BACKEND == "extension", "by ctypes it is called again where many come")
    def test_key_is_called_once(self):
        """The key function is called once for each new item, and for no item of the collection."""
        called = []

        def order(item):
            called.append(item)
            return (item,)

        ours = SortedKeyList(range(1000, 0, -1), key=order)
        ours.update(range(5))
        ours.update(range(2000, 3000))
        ours.add(7)
        self.assertEqual((ours.pop(0), ours[2], len(list(ours.irange_key((3,), (9,))))), (0, 2, 10))
        self.assertLess(len(called), 2 * (1000 + 5 + 1000 + 1) + 5)

    @unittest.skipUnless(indexset.BACKEND == "extension", "by ctypes it is called again where many come")
    def test_key_of_a_new_list(self):
        """A new list calls the key function once for each item, with sort keys of each kind."""
        for order in (lambda it: (it,), lambda it: it, str, lambda it: it + 0.5 if it % 3 else it):
            called = []
            ours = SortedKeyList(range(100), key=lambda it: called.append(it) or order(it))
            self.assertEqual((list(ours), called), (sorted(range(100), key=order), list(range(100))))

    def test_comparisons(self):
        """A search makes as many comparisons as a binary search."""
        items = [Counted(number) for number in range(20000)]
        ours = SortedList(random.Random(1).sample(items, len(items)))
        for call, most in (
            (ours.bisect_left, 17),
            (ours.bisect_right, 17),
            (ours.add, 17),
            (ours.remove, 17),
            (ours.__contains__, 17),
        ):
            Counted.compared = 0
            call(items[777])
            self.assertLessEqual(Counted.compared, most, call)
        Counted.compared = 0
        ours[5], ours.pop(9), ours[4:900], list(ours), ours.copy(), len(ours)
        del ours[50:19000]
        self.assertEqual(Counted.compared, 0)


class Changes(unittest.TestCase):
    """Changes that are interrupted."""

    def test_walks(self):
        """An iterator ends after a change, also after the first one of items that were added at once."""
        for items in (range(3000), list(map(str, range(3000))), [(number,) for number in range(3000)], [1, 1, 2] * 900):
            for change in (
                lambda it: it.add(it[0]),
                lambda it: it.remove(it[5]),
                lambda it: it.pop(),
                lambda it: it.clear(),
                lambda it: it.update(it[:5]),
                lambda it: it.update(it[:]),
                lambda it: it.__delitem__(slice(5, 2000)),
                lambda it: it.__delitem__(3),
                lambda it: it.__imul__(2),
            ):
                ours = SortedList(items)
                walk, back = iter(ours), reversed(ours)
                next(walk), next(back)
                change(ours)
                self.assertRaises(RuntimeError, next, walk)
                self.assertRaises(RuntimeError, next, back)
                self.assertRaises(StopIteration, next, walk)
            ours = SortedList(items)
            walk = iter(ours)
            ours.discard(None)
            self.assertRaises(IndexError, ours.pop, 5000)
            self.assertEqual(list(walk), sorted(items))

    def test_refused(self):
        """If an item cannot be compared with the others, none is added."""
        for start, wrong in (
            ([(number,) for number in range(2000)], ("a",)),
            (list(range(2000)), "a"),
            (list(map(str, range(2000))), 5),
        ):
            ours = SortedList(start)
            for items in ([start[0], wrong], start + [wrong], [wrong] * 3):
                self.assertRaises(TypeError, ours.update, items)
                self.assertRaises(TypeError, ours.add, wrong)
                self.assertEqual(list(ours), sorted(start))
            ours, ages = SortedSet(start), SortedDict.fromkeys(start)
            for items in ([start[0], wrong], start + [wrong]):
                self.assertRaises(TypeError, ours.update, items)
                self.assertRaises(TypeError, ages.update, dict.fromkeys(items))
                self.assertEqual((list(ours), list(ages), len(ages)), (sorted(start), sorted(start), len(start)))
            self.assertNotIn(wrong, ours)

    def test_changed_in_a_comparison(self):
        """A comparison that changes the list raises an error, and changes nothing else."""

        class Sly:
            held, other = None, None

            def __init__(self, number):
                self.number = number

            def __lt__(self, other):
                if Sly.other is not None:
                    change, Sly.other = Sly.other, None
                    change(Sly.held)
                return self.number < other.number

        for change in (
            SortedList.clear,
            lambda it: it.__delitem__(slice(1, None)),
            lambda it: it.add(Sly(-1)),
            lambda it: it.pop(7),
        ):
            for call in (
                lambda it: it.add(Sly(5)),
                lambda it: it.update([Sly(6), Sly(3)]),
                lambda it: it.update([Sly(number) for number in range(2000)]),
                lambda it: it.bisect_left(Sly(3)),
                lambda it: it.remove(Sly(4)),
                lambda it: it.index(Sly(4)),
                lambda it: Sly(9) in it,
            ):
                Sly.held, Sly.other = SortedList(map(Sly, range(1000))), None
                Sly.other = change
                try:
                    call(Sly.held)
                except (RuntimeError, ValueError):
                    pass
                Sly.other = None
                numbers = [it.number for it in Sly.held]
                self.assertEqual((len(numbers), numbers), (len(Sly.held), sorted(numbers)))

    def test_items_go(self):
        """Removed items and their sort keys are released."""

        class Item:
            def __init__(self, number):
                self.number = number

            def __lt__(self, other):
                return self.number < other.number

        for key in (None, lambda it: Item(it.number), lambda it: it.number, lambda it: str(it.number)):
            items = list(map(Item, range(3000)))
            seen = list(map(weakref.ref, items))
            ours = SortedKeyList(items, key=key) if key else SortedList(items)
            del items
            other = ours.copy()
            for one in (ours, other):
                del one[100:2900]
                one.pop(0)
                one.remove(one[0])
                one += [Item(5000)]
                one.remove(next(it for it in one if it.number == 5000))
            gc.collect()
            self.assertEqual(sum(ref() is not None for ref in seen), 198)
            del one, other
            ours.clear()
            gc.collect()
            self.assertEqual(sum(ref() is not None for ref in seen), 0)

    @unittest.skipUnless(_testcapi and indexset.BACKEND == "extension", "the interpreter cannot refuse memory")
    def test_memory(self):
        """Each allocation fails in turn: a change is made as a whole, or not at all."""
        kinds = (
            [(number,) for number in range(900)],
            list(range(10**12, 10**12 + 900)),
            list(map(str, range(900))),
            [number // 3 for number in range(900)],
        )
        changes = (
            lambda it, more: it.update(more),
            lambda it, more: it.update(more[:9]),
            lambda it, more: it.__delitem__(slice(10, 800)),
            lambda it, more: it.copy(),
            lambda it, more: it + more,
            lambda it, more: it.add(more[0]),
            lambda it, more: it.remove(it[3]),
        )
        for items, change, make in itertools.product(
            kinds, changes, (SortedList, lambda it: SortedKeyList(it, key=lambda item: item))
        ):
            for start in itertools.count(1):
                ours, more = make(items), [items[0], *items[::3]]
                before = list(ours)
                _testcapi.set_nomemory(start, start + 1)
                try:
                    change(ours, more)
                    done = True
                except MemoryError:
                    done = False
                finally:
                    _testcapi.remove_mem_hooks()
                held = list(ours)
                self.assertEqual((len(ours), held), (len(held), sorted(held)))
                if not done:
                    self.assertEqual(held, before)
                if done or start > 60:
                    break


@unittest.skipUnless(indexset.BACKEND == "extension", "only the compiled module keeps numbers in blocks")
class Due(unittest.TestCase):
    """Numbers that arrived at once stay in blocks, and move into the library once a fourth as many have changed."""

    def check(self, ours, wanted):
        self.assertEqual((len(ours), list(ours), ours[3:7]), (len(wanted), wanted, wanted[3:7]))
        for at in range(0, len(wanted), 37):
            item = wanted[at]
            self.assertEqual(
                (ours[at], ours.bisect_left(item), ours.bisect_right(item), ours.index(item), item in ours),
                (item, bisect_left(wanted, item), bisect_right(wanted, item), wanted.index(item), True),
            )
            self.assertEqual(
                (ours.bisect_left(item + 0.1), item + 0.1 in ours), (bisect_left(wanted, item + 0.1), False)
            )

    def test_lists(self):
        for items in (list(range(-500, 1500)), [number / 4 for number in range(2000)], [at // 3 for at in range(2000)]):
            rng, kind = random.Random(1), type(items[0])
            ours, wanted = SortedList(rng.sample(items, len(items))), items[:]
            for turn in range(800):
                item = kind(rng.randrange(-600, 1600))
                if turn % 3 < 2:
                    ours.add(item)
                    insort(wanted, item)
                elif rng.random() < 0.5:
                    at = rng.randrange(len(wanted))
                    self.assertEqual(ours.pop(at), wanted.pop(at))
                else:
                    ours.discard(item)
                    wanted.remove(item) if item in wanted else None
                if turn == 400:
                    self.assertEqual(type(ours._order).__name__, "Run")
                if turn % 50 == 0:
                    self.check(ours, wanted)
            self.check(ours, wanted)
            self.assertNotEqual(type(ours._order).__name__, "Run")

    def test_sets_and_dictionaries(self):
        rng = random.Random(2)
        items = [rng.randrange(10**6) for _ in range(2000)]
        ours, ages, peer = SortedSet(items), SortedDict.fromkeys(items), set(items)
        for turn in range(800):
            item = rng.choice(items) if turn % 2 else rng.randrange(10**6)
            if item in peer:
                ours.remove(item)
                del ages[item]
                peer.remove(item)
            else:
                ours.add(item)
                ages[item] = turn
                peer.add(item)
            if turn % 80 == 0:
                self.check(ours, sorted(peer))
                self.assertEqual((list(ages), ages.peekitem(5)[0]), (sorted(peer), sorted(peer)[5]))
        self.assertEqual((type(ours._order).__name__, type(ages._order).__name__), ("Numbers", "Numbers"))

    def test_many(self):
        """An update by few numbers, a cut, and items of other types."""
        ours, wanted = SortedList(range(0, 4000, 2)), list(range(0, 4000, 2))
        for more in ([5, 7, 5], list(range(1, 90, 2)), [10**15]):
            ours.update(more)
            wanted = sorted(wanted + more)
            del ours[100:130], wanted[100:130]
            self.check(ours, wanted)
        self.assertEqual(type(ours._order).__name__, "Run")
        self.assertRaises(TypeError, ours.update, [1, "a"])
        self.check(ours, wanted)
        ours.add(True)
        insort(wanted, True)
        ours.add(2.5)
        insort(wanted, 2.5)
        self.assertEqual((list(map(repr, ours)), ours.kind), (list(map(repr, wanted)), "object"))
        for other in ([1.5], [1 << 63], [True]):
            ours = SortedSet(range(0, 100, 2))
            ours.update(other)
            self.assertEqual((list(ours), ours.kind), (sorted([*range(0, 100, 2), *other]), "object"))
        ours = SortedSet(range(100), keys="int64")
        ours.add(100.0)
        self.assertEqual(repr(ours[-1]), "100")
        self.assertRaises(OverflowError, ours.add, 1 << 63)
        walk = iter(ours)
        next(walk)
        ours.add(200)
        self.assertRaises(RuntimeError, next, walk)


if __name__ == "__main__":
    counted.main(indexset.BACKEND)

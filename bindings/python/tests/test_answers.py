"""Tests of single results, which equal those of `sortedcontainers`."""
import copy
import enum
import pickle
import unittest
from array import array

import counted
import indexset
from indexset import (
    Change,
    LoggedDict,
    Refused,
    Replica,
    SortedDict,
    SortedKeyList,
    SortedList,
    SortedListWithKey,
    SortedMultiDict,
    SortedSet,
)

try:
    import numpy
except ImportError:
    numpy = None


class Level(enum.IntEnum):
    LOW = 1
    HIGH = 2


class Flag(enum.IntFlag):
    READ = 1
    WRITE = 2


class Metres(int):
    """An integer of another class."""


class Backwards(int):
    """Integers in another order than that of int."""

    def __lt__(self, other):
        return int(self) > int(other)


class Seconds(float):
    """A floating-point number of another class."""


class Index(unittest.TestCase):
    def test_beyond_an_unequal_item(self):
        ours = SortedKeyList(["a", "b", "a"], key=len)
        self.assertEqual((ours.index("a"), ours.index("a", 1), ours.index("b", 1), ours.index("a", 2, 3)), (0, 2, 1, 2))
        self.assertRaises(ValueError, ours.index, "a", 1, 2)
        self.assertRaises(ValueError, ours.index, "b", 2)
        self.assertRaises(ValueError, ours.index, "c")
        ours = SortedKeyList([(1, "a"), (1, "b"), (1, "a")], key=lambda it: (it[0],))
        self.assertEqual(ours.index((1, "a"), 1), 2)
        ours = SortedKeyList(["xa", "xb", "xa"], key=lambda it: it[0])
        self.assertEqual(ours.index("xa", 1), 2)


class Given(unittest.TestCase):
    """The objects returned are those given."""

    def check(self, items):
        for make in (SortedDict.fromkeys, SortedSet, SortedList, lambda it: SortedKeyList(it, key=lambda item: item)):
            found = list(make(items))
            self.assertEqual(
                [(it, type(it), repr(it)) for it in found], [(it, type(it), repr(it)) for it in sorted(items)]
            )
            one_by_one = make(items[:1])
            for item in items[1:]:
                if isinstance(one_by_one, dict):
                    one_by_one[item] = None
                else:
                    one_by_one.add(item)
            self.assertEqual(list(map(repr, one_by_one)), list(map(repr, found)))
            self.assertEqual(list(map(repr, pickle.loads(pickle.dumps(found)))), list(map(repr, found)))

    def test_subclasses_of_numbers(self):
        self.check([Level.HIGH, Level.LOW])
        self.check([Flag.WRITE, Flag.READ])
        self.check([Metres(3), 1, Metres(2)])
        self.check([3, Metres(1), 2])
        self.check([Seconds(1.5), 0.5, Seconds(0.25)])

    def test_order_of_a_subclass(self):
        self.assertEqual(list(SortedList([Backwards(1), Backwards(3), Backwards(2)])), [3, 2, 1])

    def test_zero(self):
        self.check([-0.0, 1.5])
        self.check([2.5, -0.0])
        for first, second in ((0.0, -0.0), (-0.0, 0.0)):
            ours = SortedSet([first, second])
            ours.add(second)
            self.assertEqual(list(map(repr, ours)), [repr(first)])

    def test_zero_of_logged(self):
        told = []
        ours = LoggedDict(told.append, {-0.0: -0.0, 1.5: 0.0}, size=2)
        self.assertEqual(repr(ours), "LoggedDict({-0.0: -0.0, 1.5: 0.0})")
        ours[0.0] = 0.0
        self.assertEqual(repr(ours), "LoggedDict({-0.0: 0.0, 1.5: 0.0})")
        ours[1.5] = -0.0
        late = Replica(ours)
        del ours[0]
        ours[0.0] = -0.0
        ours[2.5] = 1.0
        every, one_by_one = Replica(keys="float64", values="float64"), Replica()
        every.apply_all(told)
        for change in told:
            one_by_one.apply(change)
        late.apply_all(told)
        for replica in (every, one_by_one, late, pickle.loads(pickle.dumps(late))):
            self.assertEqual(repr(replica), "Replica({0.0: -0.0, 1.5: -0.0, 2.5: 1.0})")
        self.assertEqual(repr(pickle.loads(pickle.dumps(ours))), repr(ours))
        del ours[0.0]
        ours[-0.0] = 5.0
        late.apply_all(told)
        self.assertEqual((repr(late.peekitem(0)), repr(ours.peekitem(0))), ("(-0.0, 5.0)", "(-0.0, 5.0)"))
        self.assertEqual(repr(LoggedDict(None, {Level.LOW: Flag.READ}).items()[0]), repr((Level.LOW, Flag.READ)))

    def test_zero_of_pairs(self):
        for named in ({}, {"keys": "float64", "values": "float64"}):
            ours = SortedMultiDict([(1.5, 0.0), (-0.0, -0.0), (0.0, 2.5)], **named)
            self.assertEqual(repr(list(ours.items())), "[(-0.0, -0.0), (0.0, 2.5), (1.5, 0.0)]")
            self.assertFalse(ours.add(0, 0.0))
            self.assertIn((0.0, 0.0), ours)
            self.assertEqual(ours.get(0), [0, 2.5])
        self.assertEqual(repr(SortedMultiDict([(Level.LOW, Flag.READ)]).first()), repr((Level.LOW, Flag.READ)))

    @unittest.skipUnless(numpy, "numpy is not installed")
    def test_items_of_arrays(self):
        self.check([numpy.int64(3), numpy.int64(1)])
        self.check([numpy.float64(1.5), numpy.float64(0.5)])
        self.check([numpy.str_("b"), numpy.str_("a")])

    @unittest.skipUnless(numpy, "numpy is not installed")
    def test_arrays(self):
        self.assertEqual(list(SortedSet(numpy.array(["b", "a", "b"]))), ["a", "b"])
        self.assertEqual(list(SortedList(numpy.array([b"b", b"a"]))), [b"a", b"b"])
        self.assertEqual(list(SortedList(numpy.array([2, "x"], dtype=object)[:1])), [2])
        for unit in ("D", "s", "ns"):
            days = numpy.array(["2020-01-02", "2020-01-01"], dtype=f"M8[{unit}]")
            self.assertEqual(list(SortedSet(days)), sorted(days))
            self.assertEqual(SortedList(days)[0], days[1])
        spans = numpy.array([3, 1], dtype="m8[s]")
        self.assertEqual(list(SortedSet(spans)), sorted(spans))


class Buffers(unittest.TestCase):
    """The items as numbers in memory."""

    def test_each_kind(self):
        top = 1 << 63
        cases = [
            ("int64", "q", [-top, -1, 0, 5, top - 1]),
            ("uint64", "Q", [0, 7, top, 2 * top - 1]),
            ("float64", "d", [float("-inf"), -0.5, 0.0, 2.5]),
        ]
        for kind, code, items in cases:
            for make in (SortedSet, SortedList):
                ours = make(items, keys=kind)
                self.assertEqual(ours.to_array(), array(code, items))
                ours.discard(items[1])  # (from here on the library has them)
                self.assertEqual(ours.to_array(), array(code, items[:1] + items[2:]))
            repeated = SortedList(items * 2, keys=kind)
            repeated.add(items[0])
            self.assertEqual(repeated.to_array(), array(code, sorted(items * 2 + items[:1])))
        self.assertEqual(SortedSet(range(5000)).to_array(), array("q", range(5000)))
        self.assertEqual(SortedSet().to_array(), array("q"))
        for ours in (SortedSet([-0.0, 1.0]), SortedList([-0.0, 1.0])):
            self.assertEqual(str(ours.to_array()[0]), "-0.0")
            ours.add(2.0)
            self.assertEqual(str(ours.to_array()[0]), "-0.0")

    def test_refused(self):
        for ours in (SortedSet(["a"]), SortedList([(1,)]), SortedSet([1], key=abs), SortedList([1, 0.5])):
            self.assertRaises(TypeError, ours.to_array)

    @unittest.skipUnless(numpy, "numpy is not installed")
    def test_numpy(self):
        ours = SortedList([3, 1, 2, 1])
        self.assertEqual((numpy.asarray(ours).tolist(), numpy.asarray(ours).dtype), ([1, 1, 2, 3], numpy.int64))
        self.assertEqual(numpy.asarray(ours.to_array()).tolist(), [1, 1, 2, 3])
        self.assertEqual(numpy.array(ours, dtype="float32").dtype, numpy.float32)
        self.assertEqual(
            (numpy.asarray(SortedSet([0.5])).dtype, numpy.asarray(SortedSet(["b", "a"])).tolist()),
            (numpy.float64, ["a", "b"]),
        )


class Empty(unittest.TestCase):
    """An empty collection has no kind, and compares nothing."""

    def test_sort_keys(self):
        emptied = SortedKeyList([1], key=abs), SortedSet([1], key=abs), SortedDict(abs, {1: 2})
        for ours in emptied:
            ours.clear()
        popped = SortedKeyList([1], key=abs), SortedSet([1], key=abs)
        for ours in popped:
            ours.pop()
        for ours in (SortedKeyList(key=len), SortedSet(key=len), SortedDict(len), *emptied, *popped):
            self.assertEqual((ours.bisect_key("x"), ours.bisect_key_left("x"), ours.bisect_key_right(None)), (0, 0, 0))
            self.assertEqual((list(ours.irange_key("x")), list(ours.irange_key(None, "x"))), ([], []))

    def test_lists(self):
        popped, removed = SortedList(["a"]), SortedList([1.5])
        popped.pop(), removed.remove(1.5)
        for ours in (SortedList(), SortedList(keys="str"), SortedKeyList(key=len), popped, removed):
            self.assertNotIn([1], ours)
            self.assertEqual((ours.count([1]), ours.bisect([1])), (0, 0))
            ours.discard([1])
            self.assertRaises(ValueError, ours.remove, [1])
            self.assertRaises(ValueError, ours.index, [1])
        self.assertRaises(TypeError, SortedSet().__contains__, [1])


class Tagged(SortedSet):
    def __init__(self, iterable=None, key=None):
        super().__init__(iterable, key)
        self.tag = "set"


class TaggedList(SortedList):
    def __init__(self, iterable=None):
        super().__init__(iterable)
        self.tag = "list"


class TaggedKeyList(SortedKeyList):
    def __init__(self, iterable=None, key=None):
        super().__init__(iterable, key)
        self.tag = "key list"


class TaggedDict(SortedDict):
    def __init__(self, *given):
        super().__init__(*given)
        self.tag = "dict"


class Subclasses(unittest.TestCase):
    def check(self, made, of, items):
        self.assertIs(type(made), type(of))
        self.assertEqual((made.tag, list(made), made.key), (of.tag, items, of.key))

    def test_attributes(self):
        for ours in (Tagged([2, 1]), Tagged([2, 1], abs)):
            for made, items in (
                (ours.copy(), [1, 2]),
                (ours | [3], [1, 2, 3]),
                (ours & [1], [1]),
                (ours - [1], [2]),
                (ours ^ [1], [2]),
                ([3, 1] - ours, [3]),
                (ours.union([0]), [0, 1, 2]),
                (ours.intersection([2]), [2]),
                (ours.difference([2]), [1]),
            ):
                self.check(made, ours, items)
        ours = TaggedList([2, 1])
        for made, items in (
            (ours.copy(), [1, 2]),
            (ours + [0], [0, 1, 2]),
            ([0] + ours, [0, 1, 2]),
            (ours * 2, [1, 1, 2, 2]),
        ):
            self.check(made, ours, items)
        ours = TaggedKeyList([-2, 1], abs)
        for made, items in ((ours.copy(), [1, -2]), (ours + [0], [0, 1, -2]), (ours * 2, [1, 1, -2, -2])):
            self.check(made, ours, items)
        for ours in (TaggedDict({2: 0, 1: 0}), TaggedDict(abs, {2: 0, 1: 0})):
            for made, items in ((ours.copy(), [1, 2]), (ours | {3: 0}, [1, 2, 3]), ({3: 0} | ours, [1, 2, 3])):
                self.check(made, ours, items)

    def test_pairs(self):
        class TaggedMulti(SortedMultiDict):
            pass

        class TaggedLog(LoggedDict):
            pass

        class TaggedReplica(Replica):
            pass

        log = TaggedLog(None, {1: "a"})
        for ours in (TaggedMulti([(1, 2)]), log, TaggedReplica(log)):
            ours.tag = ["x"]
            for made in (ours.copy(), copy.copy(ours)):
                self.assertEqual((type(made), made.tag, repr(made)), (type(ours), ["x"], repr(ours)))
                self.assertIs(made.tag, ours.tag)

    def test_setdefault(self):
        class Loud(SortedDict):
            def __setitem__(self, key, value):
                raise AssertionError

        ours = Loud({1: "a"})
        self.assertEqual((ours.setdefault(1, "b"), ours.setdefault(0, "c"), ours.setdefault(5)), ("a", "c", None))
        self.assertEqual(list(ours.items()), [(0, "c"), (1, "a"), (5, None)])
        ours.update({7: 8})
        self.assertEqual(ours.peekitem(), (7, 8))


class Values(unittest.TestCase):
    """A value of a kind that has a name fits it, for keys of each kind."""

    def test_kinds(self):
        for values, good, bad in (
            ("int64", 5, "x"),
            ("uint64", 5, -1),
            ("float64", 0.5, "x"),
            ("str", "x", b"x"),
            ("bytes", b"x", "x"),
            ("any", (1, "x"), {1}),
        ):
            for keys, key in (("str", "a"), ("int64", 1), ("object", (1,))):
                ours = SortedMultiDict(keys=keys, values=values)
                self.assertTrue(ours.add(key, good))
                self.assertRaises((TypeError, OverflowError), ours.add, key, bad)
                self.assertEqual(list(ours), [(key, good)])
                log = LoggedDict(None, {key: good}, keys=keys, values=values)
                self.assertRaises((TypeError, OverflowError), log.__setitem__, key, bad)
                self.assertEqual(dict(log), {key: good})
        self.assertEqual(repr(SortedMultiDict([("a", 1)], keys="str", values="float64").first()), "('a', 1.0)")


class Corrupted(unittest.TestCase):
    """A change that does not fit is refused, for any of its parts."""

    def test_texts(self):
        told = []
        ours = LoggedDict(told.append, {"a": 1, "b": 2, "c": 3}, size=2)
        ours["d"] = 4
        wrong = [5, 0.5, None, b"a", ("a",), [1], {}, object()]
        for change in told:
            for field in ("node", "pair"):
                for value in wrong:
                    replica = Replica(keys="str", values="int64")
                    replica.apply_all(told[: change.number])
                    before = replica.nodes()
                    corrupted = change._replace(**{field: (value, getattr(change, field)[1])})
                    if field == "pair" and change.kind not in ("insert", "remove", "merge"):
                        continue
                    with self.subTest(change=corrupted), self.assertRaises(Refused) as refused:
                        replica.apply(corrupted)
                    self.assertEqual((replica.nodes(), refused.exception.taken), (before, 0))
                    self.assertEqual(replica.apply_all(told), len(told))
                    self.assertEqual(replica.nodes(), ours.nodes())

    def test_values(self):
        replica = Replica(keys="str", values="int64")
        self.assertRaises(Refused, replica.apply, Change(0, "create", ("a", "x"), (0, 0), 0, 1 << 32))
        replica = Replica(keys="int64", values="int64")
        self.assertRaises(Refused, replica.apply, Change(0, "create", ("a", 1), (0, 0), 0))
        self.assertRaises(Refused, replica.apply_all, [Change(0, "create", (1, "a"), (0, 0), 0)])
        self.assertEqual(len(replica), 0)


class Names(unittest.TestCase):
    def test_former_name(self):
        self.assertIs(SortedListWithKey, SortedKeyList)


if __name__ == "__main__":
    counted.main(indexset.BACKEND)

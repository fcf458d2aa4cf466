"""Compares keys of every kind with plain sorted lists, and their encoding with published examples."""
import copy
import doctest
import importlib
import inspect
import math
import pickle
import random
import unittest
from bisect import bisect_left, bisect_right
from functools import total_ordering

import counted
import indexset
from indexset import SortedDict, SortedKeyList, SortedList, SortedMultiDict, SortedSet, pack, unpack

from test_numbers import positions

# The examples of the tuple layer's specification and, from `-5551212` on, of its text.
PACKED = [
    (b"foo\x00bar", "01666f6f00ff62617200"),
    ("F\u00d4O\u0000bar", "0246c3944f00ff62617200"),
    ((b"foo\x00bar", None, ()), "0501666f6f00ff6261720000ff050000"),
    (-5551212, "11ab4b93"),
    (0, "14"),
    (None, "00"),
    (False, "26"),
    (True, "27"),
    (1, "1501"),
    (-1, "13fe"),
    (255, "15ff"),
    (256, "160100"),
    ((1 << 64) - 1, "1cffffffffffffffff"),
    (1 << 64, "1d09010000000000000000"),
    (-(1 << 64), "0bf6feffffffffffffffff"),
    (3.14, "21c0091eb851eb851f"),
    (-3.14, "213ff6e147ae147ae0"),
    (0.0, "218000000000000000"),
    ("", "0200"),
    ((), "0500"),
]


def any_key(rng, depth=0):
    kind = rng.randrange(8 if depth < 2 else 6)
    if kind == 0:
        return None
    if kind == 1:
        return rng.choice([-1, 1]) * rng.randrange(1 << rng.choice([1, 3, 8, 9, 64, 65, 300]))
    if kind == 2:
        return rng.choice([0.5, -0.5, 1e300, -math.inf, 2.25, rng.random()])
    if kind == 3:
        return "".join(rng.choices("\0a\u00e9\uffff\U00010000", k=rng.randrange(3)))
    if kind == 4:
        return bytes(rng.choices([0, 1, 97, 255], k=rng.randrange(3)))
    if kind == 5:
        return rng.randrange(-5, 5)
    return tuple(any_key(rng, depth + 1) for _ in range(rng.randrange(3)))


def rank_of(key):
    """The order of the tuple layer, by Python's own order of plain values."""
    if isinstance(key, tuple):
        return (3, tuple(map(rank_of, key)))
    if key is None:
        return (0,)
    if isinstance(key, bool):
        return (6, key)
    places = {bytes: 1, str: 2, int: 4, float: 5}
    return (places[type(key)], key)


@total_ordering
class Version:
    """An object with an order of its own."""

    def __init__(self, text):
        self.parts = [int(part) for part in text.split(".")]

    def __lt__(self, other):
        return self.parts < other.parts

    def __eq__(self, other):
        return isinstance(other, Version) and self.parts == other.parts

    def __hash__(self):
        return hash(tuple(self.parts))

    def __repr__(self):
        return f"Version({'.'.join(map(str, self.parts))!r})"


DRAWN = {
    "str": lambda rng: "".join(rng.choices("ab\0\u00e9\U00010000", k=rng.randrange(4))),
    "bytes": lambda rng: bytes(rng.choices([0, 1, 255], k=rng.randrange(4))),
    "any": any_key,
    "object": lambda rng: Version(f"{rng.randrange(12)}.{rng.randrange(9)}"),
    "int64": lambda rng: rng.randrange(-60, 60),
    "float64": lambda rng: rng.randrange(-60, 60) / 4,
}


# The errors of each call that raises some, except MemoryError.
RAISED = {
    "add": "TypeError",
    "apply": "Gap Refused",
    "apply_all": "Gap Refused",
    "append": "NotImplementedError",
    "at_all": "IndexError",
    "bisect": "TypeError",
    "bisect_key": "TypeError",
    "bisect_key_left": "TypeError",
    "bisect_key_right": "TypeError",
    "bisect_right": "TypeError",
    "extend": "NotImplementedError",
    "first": "IndexError",
    "fromkeys": "TypeError",
    "index": "ValueError",
    "insert": "NotImplementedError",
    "irange_key": "RuntimeError TypeError",
    "last": "IndexError",
    "peekitem": "IndexError",
    "pop": "Error",
    "popitem": "KeyError",
    "remove": "Error",
    "reverse": "NotImplementedError",
    "setdefault": "TypeError",
    "to_array": "TypeError",
    "update": "TypeError",
}


class Encoding(unittest.TestCase):
    def test_published(self):
        for key, wanted in PACKED:
            self.assertEqual((pack(key).hex(), unpack(bytes.fromhex(wanted))), (wanted, key))

    def test_order_and_back(self):
        rng = random.Random(1)
        keys = [any_key(rng) for _ in range(5000)]
        for key in keys:
            self.assertEqual(repr(unpack(pack(key))), repr(key))
        self.assertEqual(sorted(keys, key=pack), sorted(keys, key=rank_of))
        followed = [(pack(key) + bytes(8), rank_of(key)) for key in keys]
        self.assertEqual([rank for _, rank in sorted(followed)], sorted(map(rank_of, keys)))

    def test_refused(self):
        for key, error in (
            ({}, TypeError),
            (math.nan, ValueError),
            (1 << 2040, OverflowError),
            ([1], TypeError),
            (object(), TypeError),
        ):
            self.assertRaises(error, pack, key)
            self.assertRaises(error, pack, (1, key))
        self.assertEqual(unpack(pack((1 << 2040) - 1)), (1 << 2040) - 1)
        for data in (b"", b"\x01a", b"\x05\x15", b"\x21abc", b"\xff", b"\x14\x14", b"\x1d", b"\x15", b"\x05\x00\xff"):
            self.assertRaises(ValueError, unpack, data)


class Kinds(unittest.TestCase):
    """Compares sets and dictionaries of each kind, found or named, with and without a key, with a sorted list."""

    def run_kind(self, kind, named, key=None):
        rng = random.Random(f"{kind} {named}")
        drawn, order = DRAWN[kind], key or (rank_of if kind == "any" else None)
        keys = kind if named else None
        ours, ages = SortedSet(key=key, keys=keys), SortedDict(key, keys=keys)
        members = {}
        for step in range(1500):
            item, action = drawn(rng), rng.randrange(10)
            if action < 5:
                ours.add(item)
                ages[item] = step
                members[item] = step
            elif action < 8:
                ours.discard(item)
                self.assertEqual(ages.pop(item, None), members.pop(item, None))
            elif members:
                at = rng.randrange(-len(members), len(members))
                wanted = ours[at]
                self.assertEqual(ages.popitem(at), (wanted, members[wanted]))
                self.assertEqual(ours.pop(at), wanted)
                del members[wanted]
            self.assertEqual(
                (len(ours), item in ours, ages.get(item)), (len(members), item in members, members.get(item))
            )
            if step % 100 == 0:
                self.compare(ours, ages, members, order, drawn(rng), drawn(rng))
        self.assertEqual(ours.kind, ages.kind)
        if members and key is None:
            self.assertEqual(ours.kind, kind)

    def compare(self, ours, ages, members, order, low, high):
        wanted = sorted(members, key=order) if order is rank_of or order is None else list(ours)
        self.assertEqual((list(ours), list(ages)), (wanted, wanted))
        self.assertEqual(
            [order(it) if order else it for it in wanted], sorted(order(it) if order else it for it in wanted)
        )
        self.assertEqual((list(reversed(ours)), ours[2:9], ours[9:2:-2]), (wanted[::-1], wanted[2:9], wanted[9:2:-2]))
        self.assertEqual(list(ages.items()), [(item, members[item]) for item in wanted])
        ranks, edges = ([order(it) if order else it for it in items] for items in (wanted, (low, high)))
        for one in (ours, ages):
            self.assertEqual([one.bisect_left(it) for it in (low, high)], [bisect_left(ranks, edge) for edge in edges])
            self.assertEqual(
                [one.bisect_right(it) for it in (low, high)], [bisect_right(ranks, edge) for edge in edges]
            )
            inside = [it for it, rank in zip(wanted, ranks) if edges[0] <= rank <= edges[1]]
            if None not in (low, high):
                self.assertEqual(list(one.irange(low, high)), inside)
            for at in range(0, len(wanted), 7):
                self.assertEqual(one.index(wanted[at]), at)
        self.assertEqual((ours, ours.copy(), ages.copy()), (set(members), ours, members))

    def test_found(self):
        for kind in ("str", "bytes", "object", "int64", "float64"):
            self.run_kind(kind, False)

    def test_named(self):
        for kind in DRAWN:
            self.run_kind(kind, True)

    def test_keys(self):
        self.run_kind("int64", False, abs)
        self.run_kind("float64", False, lambda it: it % 3)
        self.run_kind("str", False, len)
        self.run_kind("str", False, lambda it: it[::-1])
        self.run_kind("bytes", False, lambda it: (len(it), it))
        self.run_kind("object", False, lambda it: it.parts[1])

    def test_names(self):
        cases = [
            ([1], "int64"),
            ([True], "object"),
            ([1 << 63], "object"),
            ([0.5], "float64"),
            (["a"], "str"),
            ([b"a"], "bytes"),
            ([(1, 2)], "object"),
            ([1, 0.5], "object"),
            ([-1, 1 << 62], "int64"),
            ([], "int64"),
        ]
        for items, kind in cases:
            self.assertEqual(
                (SortedSet(items).kind, SortedDict.fromkeys(items).kind, SortedList(items).kind), (kind,) * 3
            )
            self.assertEqual(repr(SortedSet(items)), f"SortedSet({sorted(items)})")
        self.assertEqual(repr(SortedSet(["a", None], keys="any")), "SortedSet([None, 'a'], keys='any')")
        self.assertEqual(repr(SortedList([2, 1], keys="uint64")), "SortedList([1, 2], keys='uint64')")
        self.assertEqual(repr(SortedDict(None, {2: 1}, keys="float64")), "SortedDict({2.0: 1}, keys='float64')")
        self.assertEqual((SortedSet([1, 2], key=abs).kind, SortedSet(["ab"], key=len).kind), ("int64", "int64"))

    def test_widened(self):
        """A kind without a name widens with new items, and the objects returned are those given."""
        items = [3, 0.5, 1 << 70, -2, True, 2.0, 4]
        ours, ages, rest, seen = SortedSet(), SortedDict(), SortedList(), []
        for item in items:
            ours.add(item)
            ages[item] = item
            rest.add(item)
            seen.append(item)
            self.assertEqual([repr(it) for it in ours], [repr(it) for it in sorted(seen)])
            self.assertEqual((list(ages), list(rest)), (sorted(seen), sorted(seen)))
        ours.clear()
        ours.add("a")
        self.assertEqual((list(ours), ours.kind), (["a"], "str"))

    def test_examples(self):
        for name in (
            "",
            "._dict",
            "._list",
            "._log",
            "._multi",
            "._nodes",
            "._placed",
            "._replica",
            "._set",
            "._sorted",
            "._tuple",
            "._views",
        ):
            result = doctest.testmod(importlib.import_module(f"indexset{name}"))
            self.assertEqual((name, result.failed), (name, 0))
            self.assertGreater(result.attempted, 0, name)

    def test_help(self):
        """Each public class states its cost and has an example; each public call has an example and names what it
        raises."""
        for name in (
            "LoggedDict",
            "Replica",
            "SortedDict",
            "SortedKeyList",
            "SortedList",
            "SortedMultiDict",
            "SortedSet",
        ):
            found = getattr(indexset, name)
            self.assertRegex(found.__doc__, "(?i)cost", name)
            self.assertIn(">>>", found.__doc__, name)
            for call in dir(found):
                own = any(call in vars(base) for base in found.__mro__ if base.__module__.startswith("indexset"))
                if not call.startswith("_") and own:
                    text = getattr(found, call).__doc__ or ""
                    self.assertIn(">>>", text, (name, call))
                    for error in RAISED.get(call, "").split():
                        self.assertIn(error, text, (name, call))

    def test_help_of_the_rest(self):
        """Each other public class and function has an example."""
        for name in indexset.__all__:
            found = getattr(indexset, name)
            if callable(found):
                self.assertIn(">>>", found.__doc__ or "", name)

    def test_signatures(self):
        """No signature of a public function, of a class or of one that it is of contains Any."""
        for name in indexset.__all__:
            found = getattr(indexset, name)
            if inspect.isfunction(found):
                self.assertNotIn("Any", str(inspect.signature(found)), name)
            bases = found.__mro__ if isinstance(found, type) else ()
            own = {call for base in bases if base.__module__.startswith("indexset") for call in vars(base)}
            for call in sorted(own):
                try:
                    shown = str(inspect.signature(getattr(found, call)))
                except (TypeError, ValueError):
                    continue
                public = not call.startswith("_") or call.startswith("__")
                self.assertFalse(public and "Any" in shown, (name, call, shown))


class Multi(unittest.TestCase):
    def test_beside_lists(self):
        rng = random.Random(4)
        for kind in ("str", "any", "object", "bytes"):
            ours, wanted = SortedMultiDict(keys=None if kind != "any" else "any"), {}
            for step in range(1500):
                key, value = DRAWN[kind](rng), rng.choice(["x", None, 3, (1, 2)])
                values = wanted.setdefault(key, [])
                action = rng.randrange(10)
                if action < 6:
                    self.assertEqual(ours.add(key, value), value not in values)
                    values += [value] * (value not in values)
                elif action < 9:
                    self.assertEqual(ours.discard(key, value), value in values)
                    wanted[key] = [other for other in values if other != value]
                elif values:
                    self.assertEqual(ours.pop(key), values.pop(0))
                else:
                    self.assertRaises(KeyError, ours.pop, key)
                self.assertEqual(
                    (ours.get(key), ours.count(key), (key, value) in ours),
                    (wanted[key], len(wanted[key]), value in wanted[key]),
                )
                if step % 200 == 0:
                    order = rank_of if kind == "any" else None
                    pairs = [(key, value) for key in sorted(wanted, key=order) for value in wanted[key]]
                    self.assertEqual((list(ours), len(ours)), (pairs, len(pairs)))
                    positions(self, ours, pairs, key, order or (lambda key: key))
                    self.assertEqual(list(copy.copy(ours)), pairs)
                    self.assertEqual(list(pickle.loads(pickle.dumps(ours))), pairs)
                    if pairs:
                        at = rng.randrange(-len(pairs), len(pairs))
                        wanted[pairs[at][0]].remove(pairs[at][1])
                        self.assertEqual((ours.popitem(at), list(ours)), (pairs.pop(at), pairs))
            self.assertEqual(ours.kinds[0], kind)


class KeyLists(unittest.TestCase):
    def test_key_of_any_kind(self):
        rng = random.Random(5)
        for kind in ("any", "str", "object"):
            made = DRAWN[kind]
            items = [(made(rng), at) for at in range(400)]
            ours = SortedKeyList(items, key=lambda it: it[0], keys=kind if kind == "any" else None)
            order = rank_of if kind == "any" else lambda it: it
            self.assertEqual(list(ours), sorted(items, key=lambda it: order(it[0])))
            self.assertEqual(ours.kind, kind)
            low = items[7][0]
            self.assertEqual(list(ours.irange_key(low, low)), [it for it in items if it[0] == low])


if __name__ == "__main__":
    counted.main(indexset.BACKEND)

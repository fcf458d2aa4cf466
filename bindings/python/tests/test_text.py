"""Compares dictionaries with texts and byte strings as keys with plain dictionaries and sorted lists."""
import copy
import pickle
import random
import sys
import unittest
import weakref
from bisect import bisect_left, bisect_right

import counted
import indexset
from indexset import SortedDict, SortedKeyList, SortedList, SortedSet

# One to four bytes each in UTF-8, in the order of their code points. In the order of UTF-16 code units, the last but
# one would come last.
LETTERS = "\0aé\u20ac\uffff\U00010000"


def drawn(kind, rng):
    """Returns a short key: many have a common prefix, and some are a prefix of others."""
    size = rng.randrange(5) if rng.random() < 0.98 else 100
    if kind == "str":
        return "".join(rng.choices(LETTERS, k=size))
    return bytes(rng.choices([0, 97, 127, 128, 255], k=size))


class Text(str):
    """A text of another class."""


class Bytes(bytes):
    """A byte string of another class."""


# A key of a subclass moves the order from the blocks of the compiled module into the library's map.
MAPPED = {"str": Text("moved"), "bytes": Bytes(b"moved")}


class Random(unittest.TestCase):
    def run_kind(self, kind, *before):
        rng = random.Random(kind)
        ours, peer = SortedDict(dict.fromkeys(before), keys=kind), dict.fromkeys(before)
        if indexset.BACKEND == "extension":
            self.assertEqual(type(ours._order).__name__, "Encoded" if before else "Run")
        for step in range(5000):
            key = drawn(kind, rng)
            action = rng.randrange(10)
            if action < 5:
                ours[key] = peer[key] = object()
            elif action < 7:
                self.assertIs(ours.pop(key, None), peer.pop(key, None))
            elif action == 7 and peer:
                at = rng.randrange(-len(peer), len(peer))
                wanted = sorted(peer)[at]
                self.assertEqual(ours.peekitem(at), (wanted, peer[wanted]))
                self.assertEqual(ours.popitem(at), (wanted, peer.pop(wanted)))
            elif action == 8:
                self.assertIs(ours.setdefault(key, step), peer.setdefault(key, step))
            else:
                self.assertIs(ours.get(key), peer.get(key))
                self.assertEqual(key in ours, key in peer)
            self.assertEqual(len(ours), len(peer))
            if step % 50 == 0:
                keys = [drawn(kind, rng) for _ in range(6)]
                self.assertEqual(ours.get_all(keys, step), [peer.get(key, step) for key in keys])
                entries = [(key, object()) for key in keys + keys[:2]]
                ours.update(entries)
                peer.update(entries)
            if step % 250 == 0:
                self.compare(ours, sorted(peer.items()), drawn(kind, rng), drawn(kind, rng))

    def compare(self, ours, wanted, low, high):
        keys = [key for key, _ in wanted]
        self.assertEqual(list(ours.items()), wanted)
        self.assertEqual(list(ours), keys)
        self.assertEqual(list(ours.values()), [value for _, value in wanted])
        self.assertEqual(list(reversed(ours.keys())), keys[::-1])
        self.assertEqual(ours.items()[3:40:2], wanted[3:40:2])
        self.assertEqual(list(ours.islice(2, 30, True)), keys[2:30][::-1])
        self.assertEqual(list(ours.irange(low, high)), [key for key in keys if low <= key <= high])
        self.assertEqual(
            (ours.bisect_left(low), ours.bisect_right(low)), (bisect_left(keys, low), bisect_right(keys, low))
        )
        if keys:
            self.assertEqual(ours.index(keys[len(keys) // 2]), len(keys) // 2)
        self.assertEqual(ours, dict(wanted))

    def test_str(self):
        self.run_kind("str")

    def test_bytes(self):
        self.run_kind("bytes")

    def test_in_the_map(self):
        for kind, moved in MAPPED.items():
            self.run_kind(kind, moved)

    def test_sets_and_lists_in_the_map(self):
        for kind, moved in MAPPED.items():
            for make in (SortedSet, SortedList, lambda it, keys: SortedKeyList(it, key=lambda item: item, keys=keys)):
                rng = random.Random(kind)
                ours, wanted = make([moved], keys=kind), [moved]
                for _ in range(3000):
                    key = drawn(kind, rng)
                    if rng.random() < 0.6:
                        ours.add(key)
                        wanted += [key] if isinstance(ours, SortedList) or key not in wanted else []
                    else:
                        ours.discard(key)
                        wanted.remove(key) if key in wanted else None
                wanted.sort()
                self.assertEqual((list(ours), list(reversed(ours)), len(ours)), (wanted, wanted[::-1], len(wanted)))
                self.assertEqual(type(ours._order).__name__, "Encoded")
                for key in (drawn(kind, rng) for _ in range(200)):
                    self.assertEqual((key in ours, ours.count(key)), (key in wanted, wanted.count(key)))
                    self.assertEqual(
                        (ours.bisect_left(key), ours.bisect_right(key)),
                        (bisect_left(wanted, key), bisect_right(wanted, key)),
                    )
                self.assertEqual((list(ours.copy()), ours[5]), (wanted, wanted[5]))
                self.assertEqual(ours.index(wanted[9]), wanted.index(wanted[9]))

    def test_many(self):
        names = [f"name {number}" for number in range(3000)]
        ours = SortedDict(zip(names, range(3000)), keys="str")
        self.assertEqual(list(ours), sorted(names))
        self.assertEqual(list(ours.values()), [int(name[5:]) for name in sorted(names)])


class Calls(unittest.TestCase):
    def test_refused(self):
        cases = [
            ("str", b"a", TypeError),
            ("str", 1, TypeError),
            ("str", None, TypeError),
            ("bytes", "a", TypeError),
            ("bytes", 2.0, TypeError),
        ]
        for kind, key, error in cases:
            ages = SortedDict(keys=kind)
            first = "a" if kind == "str" else b"a"
            ages[first] = 1
            for call in (
                lambda k: ages.__setitem__(k, 2),
                ages.bisect_left,
                ages.bisect_right,
                lambda k: ages.update([(first, 3), (k, 2)]),
            ):
                self.assertRaises(error, call, key)
            self.assertEqual(list(ages.items()), [(first, 1)])
            self.assertNotIn(key, ages)
            self.assertRaises(KeyError, ages.__getitem__, key)
            self.assertRaises(KeyError, ages.__delitem__, key)
            self.assertRaises(ValueError, ages.index, key)
        self.assertRaises(ValueError, SortedDict, keys="text")
        self.assertRaises(ValueError, SortedSet, keys="text")

    def test_object(self):
        ages = SortedDict([("b", 2), ("a", 1)], keys="str")
        self.assertEqual((repr(ages), ages.kind), ("SortedDict({'a': 1, 'b': 2}, keys='str')", "str"))
        self.assertEqual(eval(repr(ages)), ages)
        back = pickle.loads(pickle.dumps(ages))
        self.assertEqual((back, back.kind), ({"a": 1, "b": 2}, "str"))
        other = copy.copy(ages) | {"": 0}
        self.assertEqual((list(ages), list(other)), (["a", "b"], ["", "a", "b"]))
        self.assertEqual((other.keys()[-1], other.values()[0], other.keys() & {"b", "c"}), ("b", 0, {"b"}))
        del other[""]
        self.assertRaises(KeyError, other.__delitem__, "")
        other.clear()
        self.assertEqual((len(other), list(other), other.get_all(["a"])), (0, [], [None]))
        self.assertRaises(KeyError, other.popitem)
        self.assertRaises(IndexError, other.peekitem)
        self.assertRaises(TypeError, hash, other)

    def test_long_keys(self):
        keys = [b"k" * size for size in (0, 63, 64, 65, 1000, 100000)]
        sizes = SortedDict(((key, len(key)) for key in reversed(keys)), keys="bytes")
        self.assertEqual(list(sizes.items()), [(key, len(key)) for key in keys])

    def test_objects_are_let_go(self):
        class Thing:
            pass

        thing = Thing()
        seen = weakref.ref(thing)
        ages = SortedDict({"a": thing}, keys="str")
        del thing
        ages["a"] = None
        self.assertIsNone(seen())

    def test_surrogates(self):
        ages = SortedDict({"\ud800": 1, "\uffff": 2, "\ud7ff": 3}, keys="str")
        self.assertEqual(list(ages), ["\ud7ff", "\ud800", "\uffff"])


class Named(str):
    """A text of another class."""


class Noted(unittest.TestCase):
    """Many changes of one key each, before the order is used."""

    def check(self, ours, peer):
        self.assertEqual((len(ours), list(ours), list(ours.items())), (len(peer), sorted(peer), sorted(peer.items())))

    def change(self, ours, peer, key, value):
        if key in peer and value % 3:
            del ours[key], peer[key]
        else:
            ours[key] = peer[key] = value

    def test_beside_a_dict(self):
        for kind, some, most in (("str", 40, 30000), ("bytes", 20000, 60000)):
            rng = random.Random(kind)
            ours, peer = SortedDict(keys=kind), {}
            for step in range(most):
                name = f"{rng.randrange(some)}" + "long" * 300 * (rng.random() < 0.01)
                key = name if kind == "str" else name.encode()
                self.change(ours, peer, key, step)
                if step % 9973 == 0:
                    self.check(ours, peer)
            self.check(ours, peer)

    def test_reads(self):
        """Each read sees the changes made."""
        reads = [
            lambda it: it.peekitem(1),
            lambda it: it.bisect_left("b"),
            lambda it: it.bisect_right("b"),
            lambda it: it.index("c"),
            list,
            lambda it: list(reversed(it)),
            lambda it: it.keys()[0:2],
            lambda it: list(it.irange("b")),
            lambda it: it.popitem(0),
            lambda it: list(it.copy()),
            lambda it: list(pickle.loads(pickle.dumps(it))),
            lambda it: it.pop("c"),
            len,
            repr,
        ]
        wanted = [
            ("b", 2),
            1,
            2,
            2,
            ["a", "b", "c"],
            ["c", "b", "a"],
            ["a", "b"],
            ["b", "c"],
            ("a", 1),
            ["a", "b", "c"],
            ["a", "b", "c"],
            3,
            3,
            "SortedDict({'a': 1, 'b': 2, 'c': 3})",
        ]
        for read, answer in zip(reads, wanted):
            ours = SortedDict({"x": 0, "b": 0})
            ours["c"], ours["y"], ours["a"], ours["b"] = 3, 4, 1, 2
            del ours["x"], ours["y"]
            self.assertEqual(read(ours), answer)

    def test_other_classes(self):
        ours = SortedDict({"b": 1})
        for key in ("a", Named("c"), "e", Named("d")):
            ours[key] = 2
        del ours[Named("a")], ours["c"]
        self.assertEqual(list(ours), ["b", "d", "e"])
        self.assertIs(type(ours.keys()[1]), Named)

    def test_cleared(self):
        ours = SortedDict({"b": 1})
        ours["a"] = 1
        ours.clear()
        ours["c"] = 1
        self.assertEqual(list(ours), ["c"])

    def test_references(self):
        """References to a key are released with the key, and with the object."""
        key = "".join(["k", "ey"])
        before = sys.getrefcount(key)
        for end in (list, len, lambda it: it.clear(), lambda it: it.copy()):
            ours, names = SortedDict(), SortedSet()
            ours[key] = 1
            names.add(key)
            end(ours), end(names)
            if key in ours:
                del ours[key]
            names.discard(key)
            ours["other"] = ours[key] = 2
            self.assertIs(ours.keys()[0] if end is list else key, key)
            del ours, names
            self.assertEqual(sys.getrefcount(key), before)


if __name__ == "__main__":
    counted.main(indexset.BACKEND)

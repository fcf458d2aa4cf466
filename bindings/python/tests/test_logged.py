"""Compares logged dictionaries and replicas, with keys and values of every kind, with plain lists of nodes."""
import copy
import pickle
import random
import unittest

import counted
import indexset
from indexset import Change, Gap, LoggedDict, Refused, Replica

from test_kinds import DRAWN, Version, rank_of
from test_numbers import made, positions, views

KINDS = ["str", "bytes", "any", "object"]


class Random(unittest.TestCase):
    def run_kind(self, keys, values):
        rng = random.Random(f"{keys} {values}")
        nodes, told, wanted = [], [], {}

        def tell(change):
            told.append(pickle.loads(pickle.dumps(change)))
            made(nodes, change, rank_of if keys == "any" else lambda key: key)

        ours = LoggedDict(tell, keys=keys, values="object", size=4, next=9)
        replica, states = Replica(keys=keys, values="object", next=9), {9: []}
        for step in range(1500):
            key = DRAWN[keys](rng)
            if rng.random() < (0.7 if step < 800 else 0.4):
                ours[key] = wanted[key] = rng.choice([step, None, f"{step}"])
            else:
                self.assertEqual(ours.pop(key, None), wanted.pop(key, None))
            self.assertEqual((len(ours), ours.get(key), key in ours), (len(wanted), wanted.get(key), key in wanted))
            for change in told[replica.next - 9 :]:
                self.assertTrue(replica.apply(change))
                states[replica.next] = replica.nodes()
            self.assertEqual(replica.nodes(), nodes)
            if step % 100 == 0:
                self.compare(ours, replica, wanted, nodes, rank_of if keys == "any" else None, DRAWN[keys](rng))
        self.assertEqual([change.number for change in told], list(range(9, ours.next)))
        late = Replica(keys=keys, values="object", next=9)
        self.assertEqual((late.apply_all(told), late.nodes(), late.next), (len(told), nodes, ours.next))

    def compare(self, ours, replica, wanted, nodes, order, low):
        pairs = [(key, wanted[key]) for key in sorted(wanted, key=order)]
        for one in (ours, replica, Replica(ours)):
            self.assertEqual((list(one.items()), one.nodes()), (pairs, nodes))
            positions(self, one, pairs, low, order or (lambda key: key))
            views(self, one, pairs)
            inside = [pair for pair in pairs if (order(low) <= order(pair[0]) if order else low <= pair[0])]
            if low is not None:
                self.assertEqual(list(one.irange(low)), inside)
        for one in (copy.copy(replica), pickle.loads(pickle.dumps(replica))):
            self.assertEqual((one.nodes(), one.next, one.kinds), (replica.nodes(), replica.next, replica.kinds))
        self.assertEqual(list(copy.copy(ours).items()), pairs)
        self.assertEqual(list(pickle.loads(pickle.dumps(ours.copy())).items()), pairs)

    def test_each(self):
        for keys in KINDS:
            self.run_kind(keys, "object")

    def test_numbers_to_objects(self):
        told = []
        ours = LoggedDict(told.append, {2: "b", 1: "a"}, size=2)
        ours[3] = "c"
        ours[2] = "x"
        del ours[1]
        replica = Replica()
        replica.apply_all(told)
        self.assertEqual((ours.kinds, replica.kinds, replica.nodes()), (("int64", "str"),) * 2 + (ours.nodes(),))

    def test_crowded(self):
        """Keys added between two others, again and again, get labels of their own; a replica follows."""
        for step in (1, -1):
            told = []
            ours = LoggedDict(told.append, {"a": 0, "z": 1}, size=8)
            replica = Replica(ours)
            begun = len(told)
            for at in range(400):
                ours[f"m{500 + step * at}"] = at
            self.assertGreater(len(told) - begun, 500)
            replica.apply_all(told)
            self.assertEqual((replica.nodes(), list(ours)), (ours.nodes(), sorted(ours)))
            self.assertEqual(len(ours), 402)


class Calls(unittest.TestCase):
    def test_found(self):
        ours = LoggedDict(entries={"b": 1})
        self.assertEqual((ours.kinds, repr(ours)), (("str", "int64"), "LoggedDict({'b': 1})"))
        ours = LoggedDict()
        ours[0.5] = "x"
        self.assertEqual(ours.kinds, ("float64", "str"))
        ours = LoggedDict(entries={Version("1.2"): 1, Version("1.10"): 2})
        self.assertEqual(
            (ours.kinds[0], [repr(key) for key in ours]), ("object", ["Version('1.2')", "Version('1.10')"])
        )

    def test_refused(self):
        told = []
        ours = LoggedDict(told.append, {"a": 1, "b": 2, "c": 3}, size=2)
        replica = Replica(keys="str", values="int64")
        self.assertRaises(Gap, replica.apply, told[1])
        replica.apply_all(told)
        number = replica.next
        self.assertFalse(replica.apply(told[0]))
        before = replica.nodes()
        cases = [
            Change(number, "insert", ("x", 0), ("d", 1), 0, 5),
            Change(number, "insert", ("c", 0), ("d", 1), 0, 5),
            Change(number, "insert", ("c", 0), ("b", 1), 0, 1 << 40),
            Change(number, "create", ("b", 0), (0, 0), 0, 1 << 40),
            Change(number, "remove", ("c", 0), ("d", 1), 0),
            Change(number, "remove", ("a", 0), ("a", 1), 0),
            Change(number, "drop", ("x", 0), (0, 0), 0),
            Change(number, "merge", ("a", 0), ("x", 0), 0),
            Change(number, "split", ("c", 0), (0, 0), 9),
        ]
        for change in cases:
            with self.assertRaises(Refused) as refused:
                replica.apply_all([told[0], change])
            self.assertEqual((refused.exception.taken, refused.exception.change), (1, change))
            self.assertEqual((replica.nodes(), replica.next), (before, number))
            again = pickle.loads(pickle.dumps(refused.exception))
            self.assertEqual((str(again), again.status), (str(refused.exception), refused.exception.status))
        self.assertRaises(ValueError, replica.apply, cases[0]._replace(kind="text"))
        self.assertRaises(Refused, replica.apply, cases[0]._replace(pair=(5, 1)))
        self.assertRaises(Refused, replica.apply, cases[0]._replace(node=("c", 0), pair=("d", "x"), label=1 << 60))
        ours["d"] = 4
        replica.apply_all(told)
        self.assertEqual(replica.nodes(), ours.nodes())
        last = LoggedDict(None, keys="str", next=(1 << 64) - 1)
        self.assertRaises(OverflowError, last.__setitem__, "a", 1)
        self.assertEqual((len(last), list(last), "a" in last), (0, [], False))


class Mapping(unittest.TestCase):
    def test_of_a_mapping(self):
        """The calls of a mutable mapping report their changes."""
        told = []
        ours, replica = LoggedDict(told.append, {2: "b", 1: "a", 3: "c"}, size=2), Replica()
        self.assertEqual((ours.popitem(), ours.pop(3), ours.pop(3, None)), ((1, "a"), "c", None))
        self.assertEqual((ours.setdefault(2, "x"), ours.setdefault(4, "d")), ("b", "d"))
        self.assertRaises(KeyError, ours.pop, 9)
        ours.update({5: "e"})
        ours.update([(6, "f"), (5, "g")])
        replica.apply_all(told)
        self.assertEqual((dict(ours), replica.nodes()), ({2: "b", 4: "d", 5: "g", 6: "f"}, ours.nodes()))
        ours.clear()
        self.assertRaises(KeyError, ours.popitem)
        replica.apply_all(told)
        self.assertEqual((len(ours), replica.nodes(), replica.get(2, 7)), (0, [], 7))
        names = LoggedDict(None, {"a": 1})
        names.update(b=2)
        self.assertEqual(dict(names), {"a": 1, "b": 2})


if __name__ == "__main__":
    counted.main(indexset.BACKEND)

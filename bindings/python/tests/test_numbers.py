"""Compares the dictionaries from numbers to numbers with plain lists and dictionaries."""
import copy
import doctest
import math
import pickle
import random
import unittest

import counted
import indexset
from indexset import Gap, LoggedDict, Refused, Replica, SortedMultiDict, _log, _multi, _nodes, _replica


def positions(case, one, pairs, value, order=lambda key: key):
    """Compares the results of a dictionary for positions with a list of its pairs."""
    keys, size = [key for key, _ in pairs], len(pairs)
    left = keys.index(value) if value in keys else sum(order(key) < order(value) for key in keys)
    past = left + keys.count(value)
    case.assertEqual((one.bisect_left(value), one.bisect_right(value), one.bisect(value)), (left, past, past))
    case.assertEqual([one.peekitem(at) for at in range(-size, size)], pairs * 2)
    for outside in (size, -size - 1, 1 << 70):
        case.assertRaises(IndexError, one.peekitem, outside)
    for ends in ((None, None), (left, None), (None, past), (-3, -1), (5, 2), (1, 1 << 70)):
        case.assertEqual(list(one.islice(*ends)), pairs[slice(*ends)])
        case.assertEqual(list(one.islice(*ends, reverse=True)), pairs[slice(*ends)][::-1])


def views(case, one, pairs):
    """Compares the views of a logged dictionary or a replica with lists."""
    size = len(pairs)
    keys, values = [key for key, _ in pairs], [value for _, value in pairs]
    case.assertEqual([one.index(key) for key in keys], list(range(size)))
    for view, wanted in ((one.keys(), keys), (one.values(), values), (one.items(), pairs)):
        case.assertEqual((list(view), list(reversed(view)), len(view)), (wanted, wanted[::-1], size))
        case.assertEqual([view[at] for at in range(-size, size)], wanted * 2)
        case.assertRaises(IndexError, view.__getitem__, size)
        for at in (slice(None), slice(2, -1), slice(None, None, -2), slice(5, 1, -1), slice(9, 3), slice(0, 9, 3)):
            case.assertEqual(view[at], wanted[at])
        for item in wanted[::7]:
            case.assertEqual(
                (view.index(item), view.count(item), item in view), (wanted.index(item), wanted.count(item), True)
            )


class MultiDictionaries(unittest.TestCase):
    def test_beside_lists(self):
        rng = random.Random(1)
        ours, wanted = SortedMultiDict(values="uint64"), {}
        for step in range(5000):
            key, value = rng.randrange(-60, 60), rng.randrange(8)
            values = wanted.setdefault(key, [])
            action = rng.randrange(10)
            if action < 6:
                self.assertEqual(ours.add(key, value), value not in values)
                values += [value] * (value not in values)
            elif action < 9:
                self.assertEqual(ours.discard(key, value), value in values)
                wanted[key] = [other for other in values if other != value]
            elif values:
                self.assertEqual(ours.pop(key), values.pop(0))
            else:
                self.assertRaises(KeyError, ours.pop, key)
            self.assertEqual(ours.get(key), wanted[key])
            self.assertEqual((ours.count(key), ours.has_key(key)), (len(wanted[key]), bool(wanted[key])))
            self.assertEqual((key, value) in ours, value in wanted[key])
            if step % 250 == 0:
                pairs = [(key, value) for key in sorted(wanted) for value in wanted[key]]
                self.assertEqual((list(ours), len(ours)), (pairs, len(pairs)))
                self.assertEqual([ours.first(), ours.last()] if pairs else [], pairs[:1] + pairs[-1:])
                inside = [pair for pair in pairs if -20 <= pair[0] <= 20]
                self.assertEqual(list(ours.irange(-20, 20)), inside)
                positions(self, ours, pairs, key)
                if pairs:
                    at = rng.randrange(-len(pairs), len(pairs))
                    wanted[pairs[at][0]].remove(pairs[at][1])
                    self.assertEqual((ours.popitem(at), list(ours)), (pairs.pop(at), pairs))

    def test_object(self):
        tags = SortedMultiDict([(2, 0.5), (1, -math.inf), (2, -3)], values="float64")
        self.assertEqual(repr(tags), "SortedMultiDict([(1, -inf), (2, 0.5), (2, -3.0)], values='float64')")
        self.assertEqual((tags[2], tags.kinds), ([0.5, -3.0], ("int64", "float64")))
        self.assertEqual(pickle.loads(pickle.dumps(tags)), tags)
        other = copy.copy(tags)
        other.remove(2, 0.5)
        self.assertNotEqual(other, tags)
        self.assertRaises(KeyError, other.remove, 2, 0.5)
        self.assertRaises(KeyError, other.__getitem__, 7)
        named = SortedMultiDict(keys="int64", values="float64")
        self.assertRaises(OverflowError, named.add, 1 << 63, 0)
        self.assertRaises(TypeError, named.add, "1", 0)
        self.assertRaises(TypeError, other.add, "1", 0)
        self.assertRaises(ValueError, SortedMultiDict, keys="text")
        self.assertEqual(((2, "x") in other, 2 in other, other.discard("2", 1)), (False, False, False))
        ends = [other.bisect(at) for at in (-(1 << 80), 1 << 80, 1.5, math.inf)]
        self.assertEqual((ends, other.bisect_left(2)), ([0, 2, 1, 2], 1))
        self.assertRaises(IndexError, other.popitem, 2)
        other.clear()
        self.assertEqual((len(other), list(other), other.bisect(3), list(other.islice())), (0, [], 0, []))
        self.assertRaises(KeyError, other.popitem)
        self.assertRaises(IndexError, other.first)


def made(nodes, change, order=lambda key: key):
    """Applies a change to nodes, which are lists of pairs."""
    at = [node[-1][0] for node in nodes].index(change.node[0]) if change.kind != "create" else None
    if change.kind == "create":
        nodes.insert(sum(order(node[-1][0]) < order(change.node[0]) for node in nodes), [change.node])
    elif change.kind == "insert":
        nodes[at].insert(change.index, change.pair)
    elif change.kind == "remove":
        assert nodes[at].pop(change.index) == change.pair
    elif change.kind == "drop":
        del nodes[at]
    elif change.kind == "split":
        nodes[at : at + 1] = [nodes[at][: change.index], nodes[at][change.index :]]
    else:
        assert nodes[at + 1][-1] == change.pair
        nodes[at : at + 2] = [nodes[at] + nodes[at + 1]]


class LoggedDictionaries(unittest.TestCase):
    def test_beside_nodes(self):
        rng = random.Random(2)
        nodes, numbers, wanted = [], [], {}

        def tell(change):
            numbers.append(change.number)
            made(nodes, change)

        ours = LoggedDict(tell, size=4, next=7)
        for step in range(4000):
            key = rng.randrange(-80, 80)
            if rng.random() < (0.7 if step < 2000 else 0.4):
                ours[key] = wanted[key] = step
            elif key in wanted:
                self.assertEqual(ours.pop(key), wanted.pop(key))
            else:
                self.assertRaises(KeyError, ours.__delitem__, key)
            self.assertEqual((len(ours), ours.get(key), key in ours), (len(wanted), wanted.get(key), key in wanted))
            if step % 100 == 0:
                self.assertEqual(ours.nodes(), nodes)
                self.assertEqual(list(ours.items()), sorted(wanted.items()))
                positions(self, ours, sorted(wanted.items()), key)
                views(self, ours, sorted(wanted.items()))
        self.assertEqual(numbers, list(range(7, ours.next)))
        self.assertEqual(sum(nodes, []), sorted(wanted.items()))

    def test_object(self):
        ages = LoggedDict(entries={2: 20, 1: 10}, values="float64")
        self.assertEqual(repr(ages), "LoggedDict({1: 10.0, 2: 20.0})")
        self.assertEqual((ages, ages.next), ({1: 10, 2: 20}, 2))
        self.assertRaises(OverflowError, ages.__setitem__, 1 << 63, 1)
        self.assertRaises(KeyError, ages.__getitem__, "1")
        self.assertRaises(ValueError, LoggedDict, size=1)
        least, greatest = -(1 << 63), (1 << 63) - 1
        ends = LoggedDict(entries={least: 1, 0: 2, greatest: 3})
        found = [ends.bisect_left(greatest), ends.bisect(greatest), ends.bisect_left(least), ends.bisect(least)]
        self.assertEqual((found, ends.bisect(1 << 80), ends.bisect(-0.5)), ([2, 3, 0, 1], 3, 1))
        for key, start, stop in ((5, None, None), (0, 2, None), (0, None, 1), ("0", None, None)):
            self.assertRaises(ValueError, ends.index, key, start, stop)
        self.assertEqual((ends.index(0, 1, 2), ends.keys() & {0, 5}), (1, {0}))
        self.assertRaises(ValueError, ends.bisect, math.nan)
        self.assertRaises(TypeError, ends.peekitem, "0")
        self.assertRaises(TypeError, ends.index, [])
        last = LoggedDict(next=(1 << 64) - 1)
        self.assertEqual((last.bisect("x"), list(last.islice()), last.keys()[:]), (0, [], []))
        self.assertRaises(IndexError, last.peekitem)
        self.assertRaises(OverflowError, last.__setitem__, 1, 1)
        self.assertEqual((len(last), last.nodes()), (0, []))


class Replicas(unittest.TestCase):
    def test_lost_repeated_and_swapped(self):
        rng = random.Random(3)
        told, states = [], {}
        ours = LoggedDict(told.append, keys="float64", values="uint64", size=4, next=50)
        replica = Replica(keys="float64", values="uint64", next=50)
        exact = Replica(ours)
        states[50] = []
        for step in range(3000):
            key = rng.randrange(-60, 60) / 2
            if rng.random() < (0.7 if step < 1500 else 0.4):
                ours[key] = step
            else:
                ours.pop(key, None)
            for change in told[exact.next - 50 :]:
                self.assertTrue(exact.apply(change))
                states[exact.next] = exact.nodes()
            self.assertEqual(states[ours.next], ours.nodes())
            at = replica.next - 50
            sent = [change for change in told[max(at - 2, 0) : at + 5] if rng.random() < 0.9]
            if rng.random() < 0.2:
                rng.shuffle(sent)
            before = 0
            for change in sent:
                if change.number > at + 50:
                    break
                before, at = before + 1, at + (change.number == at + 50)
            if before == len(sent):
                self.assertEqual(replica.apply_all(sent), before)
            else:
                with self.assertRaises(Gap) as gap:
                    replica.apply_all(sent)
                self.assertEqual((gap.exception.taken, gap.exception.change), (before, sent[before]))
            self.assertEqual((replica.next, replica.nodes()), (at + 50, states[at + 50]))
            if step % 100 == 0:
                held = sum(replica.nodes(), [])
                positions(self, replica, held, key)
                views(self, replica, held)
            if step % 500 == 0:
                self.assertEqual(Replica(ours).nodes(), ours.nodes())
        replica.apply_all(told)
        self.assertEqual((replica.next, replica.nodes()), (ours.next, ours.nodes()))
        self.assertEqual((replica, len(replica), list(replica)), (ours, len(ours), list(ours)))
        self.assertEqual(
            [replica.get(key / 2) for key in range(-60, 60)], [ours.get(key / 2) for key in range(-60, 60)]
        )
        self.assertEqual(list(replica.irange(-3, 3.5)), list(ours.irange(-3, 3.5)))

    def test_refused(self):
        told = []
        ours = LoggedDict(told.append, {1: 10, 2: 20})
        replica = Replica(ours)
        self.assertEqual(
            (repr(replica), replica.next, 1 in replica, "1" in replica), ("Replica({1: 10, 2: 20})", 2, True, False)
        )
        self.assertRaises(KeyError, replica.__getitem__, 3)
        self.assertFalse(replica.apply(told[1]))
        self.assertRaises(Gap, replica.apply, told[1]._replace(number=3))
        wrong = told[1]._replace(number=2, node=(7, 0))
        with self.assertRaises(Refused) as refused:
            replica.apply_all([told[0], wrong])
        self.assertEqual((refused.exception.status, refused.exception.taken), (12, 1))
        self.assertNotIsInstance(refused.exception, Gap)
        self.assertRaises(ValueError, replica.apply, wrong._replace(kind="text"))
        for change in (wrong._replace(node=(1 << 63, 0)), wrong._replace(index=-1)):
            with self.assertRaises(Refused) as refused:
                replica.apply(change)
            self.assertEqual((refused.exception.status, type(refused.exception.__cause__)), (6, OverflowError))
        self.assertEqual((replica.apply_all([]), replica), (0, ours))
        last = Replica(next=(1 << 64) - 1)
        self.assertRaises(OverflowError, last.apply, told[0]._replace(number=last.next))
        self.assertRaises(OverflowError, Replica, next=1 << 64)
        self.assertRaises(ValueError, Replica, keys="text")
        self.assertEqual((len(last), last.nodes()), (0, []))

    def test_examples(self):
        for module in (_log, _multi, _nodes, _replica):
            self.assertEqual(doctest.testmod(module).failed, 0)


if __name__ == "__main__":
    counted.main(indexset.BACKEND)

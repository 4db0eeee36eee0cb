"""A set of the module beside a set of Python: the same calls, and the same answers."""

import collections.abc
import ctypes
import importlib.util
import random
import unittest
from array import array
from itertools import islice
from typing import Optional
from unittest import mock

import nm_set
from nm_set import MOST_KEY, Set


class AsASet(unittest.TestCase):
    def test_it_is_a_mutable_set(self) -> None:
        with Set(64) as numbers, numbers.attach() as worker:
            for own in (numbers, worker):
                self.assertIsInstance(own, collections.abc.MutableSet)
        here = {name for name in dir(set) if callable(getattr(set, name))}
        pickled = {"__reduce__", "__reduce_ex__", "__getstate__"}
        self.assertEqual({n for n in here - pickled if not hasattr(Set, n)}, set())

    def test_it_is_made_of_keys(self) -> None:
        for keys in ([3, 1, 2, 3], iter([3, 1, 2]), {1, 2, 3}, range(1, 4), array("Q", [2, 1, 3])):
            with Set(keys) as numbers:
                self.assertEqual((list(numbers), numbers.capacity), ([1, 2, 3], 10_000))
        with Set(range(40_000)) as numbers:
            self.assertEqual((len(numbers), numbers.capacity), (40_000, 40_000))
        with Set([1, 2, 3], nodes=11, workers=2) as numbers:
            self.assertEqual((numbers.nodes, numbers.workers, numbers.free()), (11, 2, 0))
        with self.assertRaises(nm_set.Full):
            Set([1, 2, 3, 4], nodes=11)
        with Set() as numbers:
            self.assertEqual((list(numbers), numbers.nodes), ([], 20_005))
        for wrong in (None, 5.0, ["5"], [[]], "5"):
            with self.assertRaises(TypeError):
                Set(wrong)  # type: ignore[arg-type]
        with self.assertRaises(TypeError):
            Set(64, nodes=64)
        with self.assertRaisesRegex(ValueError, "the shape is not .*: 'round'"):
            Set(64, shape="round")  # type: ignore[arg-type]

    def test_random_calls_answer_as_a_set_of_python(self) -> None:
        drawn = random.Random(3)
        peer: set[int] = set()
        with Set(1_024, workers=3) as numbers:
            worker = numbers.attach()
            for _ in range(1_000):
                own = drawn.choice([numbers, worker])
                key, others = drawn.randrange(40), drawn.sample(range(40), 8)
                name = drawn.choice(CHANGES)
                before = set(peer)
                if name in ("add", "discard"):
                    getattr(peer, name)(key)
                    told = getattr(own, name)(key)
                    self.assertEqual(told, before != peer)
                elif name[:2] == "__":
                    getattr(peer, name)(set(others))
                    self.assertIs(getattr(own, name)(set(others)), own)
                else:
                    getattr(peer, name)(others)
                    self.assertIsNone(getattr(own, name)(others))
                self.assertEqual(list(own), sorted(peer), name)
                self.assertEqual(len(own), len(peer))
                self.assertEqual(bool(own), bool(peer))
                self.assertEqual(own.first(), min(peer, default=None))
                self.assertEqual(own.last(), max(peer, default=None))
                look = drawn.choice(LOOKS)
                other = set(others) if look[:2] == "__" else others
                self.assertEqual(getattr(own, look)(other), getattr(peer, look)(other), look)
            worker.close()

    def test_an_operator_makes_a_set_of_python(self) -> None:
        with Set([1, 2, 3], nodes=64) as left, Set([2, 3, 4], nodes=64) as right:
            made = [left | right, left & right, left - right, left ^ right, {1} | left, {9} - left]
            self.assertEqual(made, [{1, 2, 3, 4}, {2, 3}, {1}, {1, 4}, {1, 2, 3}, {9}])
            self.assertEqual({type(each) for each in made}, {set})
            self.assertTrue(left != right and left == {1, 2, 3} and {1, 2, 3} == left)
            self.assertTrue(left < {1, 2, 3, 4} and left <= left and not left < left)
            self.assertNotEqual(left, [1, 2, 3])
            for wrong in (lambda: left | [1], lambda: left < 5, lambda: left & range(3)):
                with self.assertRaises(TypeError):
                    wrong()
            left -= left
            right ^= right
            self.assertFalse(left or right)

    def test_an_update_that_is_wrong_changes_nothing(self) -> None:
        with Set([5], nodes=64) as numbers:
            for wrong in ([6, -1], [6, "7"], [6, MOST_KEY + 1], [6, 7.0]):
                for call in (numbers.update, numbers.symmetric_difference_update, numbers.add_many):
                    with self.assertRaises((TypeError, nm_set.OutOfRange)):
                        call(wrong)
                with self.assertRaises((TypeError, nm_set.OutOfRange)):
                    numbers.update([8], wrong)
            self.assertEqual(list(numbers), [5])

    def test_the_text_of_a_set_is_bounded(self) -> None:
        with Set(range(0, 30, 3), nodes=64) as numbers:
            self.assertEqual(repr(numbers), "Set([0, 3, 6, 9, 12, 15, 18, 21, 24, 27])")
            numbers.add(99)
            text = "([0, 3, 6, 9, 12, 15, 18, 21, 24, 27, ...], 11 keys)"
            with numbers.attach() as worker:
                self.assertEqual((repr(numbers), repr(worker)), (f"Set{text}", f"Worker{text}"))
        self.assertEqual((repr(numbers), repr(worker)), ("Set(closed)", "Worker(closed)"))


CHANGES = ["add", "discard", "update", "difference_update", "symmetric_difference_update"]
CHANGES += ["intersection_update", "__ior__", "__isub__", "__ixor__", "__iand__"]
LOOKS = ["union", "intersection", "difference", "symmetric_difference", "issubset", "issuperset"]
LOOKS += ["isdisjoint", "__or__", "__and__", "__sub__", "__xor__", "__eq__", "__ne__", "__le__"]
LOOKS += ["__lt__", "__ge__", "__gt__", "__ror__", "__rand__", "__rsub__", "__rxor__"]


class InOrder(unittest.TestCase):
    def test_keys_are_told_in_order(self) -> None:
        keys = [0, 7, 8, 30, MOST_KEY - 1, MOST_KEY]
        with Set(keys, nodes=64) as numbers:
            self.assertEqual((list(numbers), list(reversed(numbers))), (keys, keys[::-1]))
            bounds = [None, -5, 0, 1, 7, 8, 9, MOST_KEY, MOST_KEY + 1, 2**70]
            for least in bounds:
                for most in bounds:
                    for inclusive in ((True, True), (True, False), (False, True), (False, False)):
                        wanted = [
                            key
                            for key in keys
                            if (least is None or key > least or (inclusive[0] and key == least))
                            and (most is None or key < most or (inclusive[1] and key == most))
                        ]
                        asked = (least, most, inclusive)
                        self.assertEqual(list(numbers.irange(*asked)), wanted, asked)
                        self.assertEqual(list(numbers.irange(*asked, True)), wanted[::-1], asked)
            self.assertEqual((numbers.first(), numbers.last()), (0, MOST_KEY))
            self.assertEqual([numbers.pop_last(), numbers.pop_first()], [keys[-1], keys[0]])
            self.assertEqual([numbers.pop() for _ in keys[1:-1]], keys[1:-1])
            self.assertEqual((numbers.first(), numbers.last()), (None, None))
            with self.assertRaises(KeyError):
                numbers.pop()
            with self.assertRaises(KeyError):
                numbers.pop_last()

    def test_an_iterator_keeps_its_set_open(self) -> None:
        for count in (1, 100):
            self.assertEqual(list(iter(Set(range(count)))), list(range(count)))
            self.assertEqual(list(reversed(Set(range(count)))), list(range(count))[::-1])
            self.assertEqual(list(Set(range(count)).irange(1)), list(range(1, count)))

    def test_a_list_is_read_in_blocks(self) -> None:
        for count, blocks in ((0, 1), (7, 1), (9, 2), (73, 4), (100, 4), (1_000, 7)):
            with Set(range(count), nodes=4_096) as numbers:
                calls = mock.Mock(wraps=numbers._calls)
                with mock.patch.object(numbers, "_calls", calls):
                    self.assertEqual(list(numbers), list(range(count)))
                    self.assertEqual(list(reversed(numbers)), list(range(count))[::-1])
                self.assertEqual(calls.scan.call_count, 2 * blocks, count)

    def test_a_scan_reads_up_to_its_count_and_goes_on(self) -> None:
        keys = [*range(0, 6_000, 3), MOST_KEY]
        with Set(keys) as numbers, numbers.attach() as worker:
            for count in (1, 7, 100, 1_023, 1_024, 1_025, 2_001, 2**70):
                read: list[int] = []
                rest: Optional[int] = -5
                while rest is not None:
                    some, after = numbers.scan(rest, count)
                    self.assertEqual(worker.scan(rest, count), (some, after))
                    self.assertTrue(len(some) == count or after is None)
                    read, rest = read + some, after
                self.assertEqual(read, keys)
            self.assertEqual(numbers.scan(3, 0), ([], 3))
            self.assertEqual(numbers.scan(MOST_KEY, 1), ([MOST_KEY], None))
            self.assertEqual(numbers.scan(2**64, 5), ([], None))
            with self.assertRaises(TypeError):
                numbers.scan(0.5, 1)  # type: ignore[arg-type]

    def test_a_scan_of_1024_keys_is_one_call(self) -> None:
        with Set(range(3_000)) as numbers:
            with mock.patch.object(numbers, "_calls", wraps=numbers._calls) as calls:
                numbers.scan(0, 1_024)
                self.assertEqual(calls.scan.call_count, 1)
                numbers.scan(0, 1_025)
                self.assertEqual(calls.scan.call_count, 3)

    def test_a_key_that_has_gone_before_its_block_is_read_is_not_returned(self) -> None:
        with Set(range(30), nodes=128) as numbers:
            keys = iter(numbers)
            self.assertEqual(next(keys), 0)
            numbers.difference_update((3, 20))
            self.assertEqual(list(keys), [*range(1, 20), *range(21, 30)])

    def test_ranges_are_counted(self) -> None:
        with Set(range(0, 2_000, 2), nodes=4_096) as numbers:
            for least, most in ((None, None), (0, 0), (1, 1), (7, 1_501), (5, 4), (1_998, MOST_KEY)):
                wanted = len(list(numbers.irange(least, most)))
                self.assertEqual(numbers.count_range(least, most), wanted)
            self.assertEqual(numbers.count_range(10, 20, inclusive=(False, False)), 4)


class Counts(unittest.TestCase):
    def test_keys_are_counted_by_workers(self) -> None:
        with Set(4_096, workers=5) as numbers:
            for number in (4, 2, 0):
                with numbers.worker(number) as worker:
                    worker.add_many(range(number * 100, number * 100 + 50))
                    worker.discard_many(range(number * 100, number * 100 + 10))
                    self.assertEqual(len(worker), len(list(numbers)))
            self.assertEqual(len(numbers), 120)
            with numbers.worker(3) as worker:
                worker.discard_many(range(500))
                self.assertEqual((len(numbers), len(worker), list(worker)), (0, 0, []))
            self.assertEqual(numbers.free() + numbers.waiting(), 4_096 - 5)
            told = numbers.free(), numbers.waiting()
            now = nm_set.SetStats(4_096, 0, told[1], told[0], (), (), (), 0, 0.0)
            self.assertEqual(numbers.stats(), now)
            with numbers.worker(3) as worker:
                worker.pin()
                numbers.collect()
                self.assertEqual(numbers.stats().behind, (3,))
                worker.unpin()
            told = numbers.free(), numbers.waiting()
        with self.assertRaises(nm_set.Closed):
            numbers.stats()
        report = numbers.report
        self.assertEqual((report.free, sum(map(len, report.waiting))), told)


class Several(unittest.TestCase):
    def test_several_keys_in_a_call(self) -> None:
        keys = random.Random(5).sample(range(2**40), 20_000)
        words = array("Q", keys)
        signed = array("q", keys)
        with Set(1 << 16, workers=2) as numbers, numbers.attach() as worker:
            for own, each in ((numbers, words), (worker, signed), (numbers, keys)):
                self.assertEqual(own.add_many(each), 20_000)
                self.assertEqual((own.add_many(each), len(own)), (0, 20_000))
                half = each[:10_000]
                self.assertEqual(own.discard_many(half), 10_000)
                self.assertEqual(own.contains_many(each), [False] * 10_000 + [True] * 10_000)
                found = bytearray(20_000)
                self.assertIs(own.contains_many(each, found), found)
                self.assertEqual(found, bytes(10_000) + b"\1" * 10_000)
                self.assertEqual(own.discard_many(memoryview(words)[::2]), 5_000)
                self.assertEqual(own.discard_many(each), 5_000)

    def test_each_key_that_a_call_changed_has_its_answer(self) -> None:
        with Set(128, workers=2) as numbers, numbers.attach() as worker:
            for own in (numbers, worker):
                numbers.add_many([5, 7])
                for keys in ([5, 6, 7, 8, 8], array("Q", [5, 6, 7, 8, 8])):
                    out = bytearray(b"\7" * 5)
                    self.assertEqual(own.add_many(keys, out=out), 2)
                    self.assertEqual(out, b"\0\1\0\1\0")
                    out = bytearray(b"\7" * 5)
                    self.assertEqual(own.discard_many([9, 8, 8, 6, 1], out=out), 2)
                    self.assertEqual(out, b"\0\1\0\1\0")
                for call in (own.add_many, own.discard_many):
                    with self.assertRaisesRegex(ValueError, "there are 2 keys, and room for 3"):
                        call([1, 2], out=bytearray(3))
                    with self.assertRaisesRegex(TypeError, "`out` is read-only"):
                        call([1, 2], out=b"12")
                    self.assertEqual(call([], out=bytearray()), 0)
                self.assertEqual(list(numbers), [5, 7])
            keys = random.Random(7).sample(range(30), 30) * 200
            out = bytearray(len(keys))
            self.assertEqual(numbers.add_many(keys, out), 28)
            added = {key for key, is_new in zip(keys, out) if is_new}
            self.assertEqual(added, {*range(30)} - {5, 7})
        with Set(11, options=nm_set.Options(timeout_ms=0)) as numbers:
            out = bytearray(b"\7" * 6)
            with self.assertRaises(nm_set.Full):
                numbers.add_many([1, 1, 2, 3, 4, 5], out=out)
            self.assertEqual((out, list(numbers)), (b"\1\0\1\1\0\0", [1, 2, 3]))

    def test_other_buffers_are_read_as_their_members(self) -> None:
        with Set(64) as numbers:
            for each in ((ctypes.c_uint64 * 3)(1, 2, 3), (ctypes.c_int16 * 3)(1, 2, 3)):
                self.assertEqual(numbers.add_many(each), 3)
                self.assertEqual(numbers.contains_many(each), [True] * 3)
                self.assertEqual((list(numbers), numbers.discard_many(each)), ([1, 2, 3], 3))

    @unittest.skipUnless(importlib.util.find_spec("numpy"), "there is no numpy")
    def test_arrays_of_numpy(self) -> None:
        import numpy

        with Set(4_096) as numbers:
            for kind in ("uint64", "int64", "int32", ">u8"):
                keys = numpy.arange(0, 1_000, 10).astype(kind)
                self.assertEqual(numbers.add_many(keys), 100)
                found = numpy.zeros(100, dtype=bool)
                self.assertIs(numbers.contains_many(keys + 10, found), found)
                self.assertEqual((int(found.sum()), bool(found[99])), (99, False))
                self.assertEqual(numbers.discard_many(keys[::2]), 50)
                self.assertEqual(numbers.discard_many(keys), 50)
            with self.assertRaises(nm_set.OutOfRange):
                numbers.add_many(numpy.array([5, -5]))
            with self.assertRaises(TypeError):
                numbers.add_many(numpy.array([5.0]))
            self.assertTrue(numbers.add(numpy.int64(7)) and numpy.float64(7) in numbers)
            with Set(numpy.array([3, 1, 2])) as made:
                self.assertEqual(made, {1, 2, 3})

    def test_what_lies_in_a_buffer_is_tested(self) -> None:
        with Set(64) as numbers:
            for wrong, key in ((array("q", [5, -5]), -5), (array("Q", [5, 2**64 - 1]), 2**64 - 1)):
                for call in (numbers.add_many, numbers.discard_many, numbers.contains_many):
                    with self.assertRaisesRegex(nm_set.OutOfRange, f"the key {key} is not"):
                        call(wrong)
            self.assertEqual(numbers.add_many(array("d", [])), 0)
            with self.assertRaises(TypeError):
                numbers.add_many(array("d", [5.0]))
            self.assertEqual(numbers.add_many(b"\5\6"), 2)
            self.assertEqual(numbers.add_many(array("i", [7, 8, 8])), 2)
            self.assertEqual(numbers.add_many([]) + numbers.add_many(array("Q")), 0)
            self.assertEqual(numbers.contains_many(array("Q")), [])
            for wrong_room in (bytearray(1), bytearray(3)):
                with self.assertRaisesRegex(ValueError, "there are 2 keys, and room for"):
                    numbers.contains_many([1, 2], wrong_room)
            with self.assertRaises(TypeError):
                numbers.contains_many([1, 2], b"12")
            self.assertEqual(list(numbers), [5, 6, 7, 8])

    def test_keys_before_a_full_set_are_in_it(self) -> None:
        with Set(25) as numbers:
            with self.assertRaises(nm_set.Full):
                numbers.add_many(range(100))
            self.assertEqual(list(islice(numbers, 20)), list(range(10)))


if __name__ == "__main__":
    unittest.main()

"""Tests of maps: they answer like a dict, each object ends once, and no reader misses its
object."""

from __future__ import annotations

import copy
import ctypes
import gc
import os
import pickle
import random
import signal
import sys
import threading
import time
import unittest
import weakref
from collections.abc import Callable
from contextlib import suppress
from typing import Any
from unittest import mock

import nm_set
from nm_set import Closed, Contention, Forked, Full, Map, NoWorker, Options, OutOfRange
from nm_set import _library as c


class Value:
    """An object that can be referred to weakly, and knows its key."""

    def __init__(self, key: int) -> None:
        self.key = key


def ended(references: list[weakref.ref[Value]]) -> int:
    """Returns how many of these objects have ended."""
    gc.collect()
    return sum(reference() is None for reference in references)


class Answers(unittest.TestCase):
    def test_an_iterator_keeps_its_map_open(self) -> None:
        self.assertEqual(list(iter(Map({3: "c", 1: "a"}))), [1, 3])
        self.assertEqual(list(iter(Map({3: "c", 1: "a"}).values())), ["a", "c"])

    def test_a_map_answers_like_a_dict(self) -> None:
        chance, wanted = random.Random(7), dict[int, int]()
        with Map[int](4_096, workers=2) as found:
            calls: list[Callable[[Any, int, int], Any]] = [
                lambda it, key, value: it.__setitem__(key, value),
                lambda it, key, value: it.pop(key, None),
                lambda it, key, value: it.get(key),
                lambda it, key, value: it.setdefault(key, value),
                lambda it, key, value: key in it,
                lambda it, key, value: len(it),
                lambda it, key, value: sorted(it.items()),
            ]
            for value in range(5_000):
                call, key = chance.choice(calls), chance.randrange(60)
                self.assertEqual(call(found, key, value), call(wanted, key, value))
            self.assertEqual(list(found), sorted(wanted))
            self.assertEqual(list(reversed(found)), sorted(wanted, reverse=True))
            self.assertEqual(list(found.values()), [wanted[key] for key in sorted(wanted)])
            self.assertEqual(found, wanted)
            self.assertEqual(list(found.keys()), sorted(wanted))
            some = [key for key in sorted(wanted) if 10 <= key <= 20]
            self.assertEqual(list(found.irange(10, 20)), some)
            self.assertEqual(found.popitem(), (min(wanted), wanted.pop(min(wanted))))
            found.update({3: 5})
            found.clear()
            self.assertEqual((len(found), bool(found), dict(found)), (0, False, {}))
            self.assertRaises(KeyError, found.popitem)

    def test_a_key_that_is_absent_raises_key_error(self) -> None:
        with Map[str](64, workers=1) as found:
            found[5] = "five"
            self.assertEqual((found[5], found.get(6), found.get(6, "none")), ("five", None, "none"))
            for call in (lambda: found[6], lambda: found.pop(6), lambda: found.__delitem__(6)):
                self.assertRaises(KeyError, call)
            self.assertRaises(KeyError, lambda: found["5"])
            self.assertEqual((found.get(6, default="x"), found.get(5, default="x")), ("x", "five"))
            for words, names in (
                ((), {}), ((5, 6, 7), {}), ((5,), {"other": 6}), ((5, 6), {"default": 7}),
            ):
                self.assertRaises(TypeError, found.get, *words, **names)
            self.assertTrue(5.0 in found and "5" not in found and -1 not in found)
            self.assertEqual(found.pop("5", None), None)
            del found[5]
            self.assertNotIn(5, found)

    def test_an_insert_keeps_the_object_that_is_there(self) -> None:
        with Map[str](64, workers=1) as found:
            self.assertTrue(found.insert(5, "five"))
            self.assertFalse(found.insert(5, "six"))
            self.assertEqual((found[5], found.setdefault(5, "seven")), ("five", "five"))
            self.assertEqual(len(found), 1)
            found[5] = "eight"
            self.assertEqual((found[5], len(found)), ("eight", 1))

    def test_many_keys_are_in_order(self) -> None:
        with Map[int](8_192, workers=1) as found:
            keys = [key * 7919 % 10_007 for key in range(2_000)] + [nm_set.MOST_KEY]
            for key in keys:
                found[key] = -key
            keys.sort()
            self.assertEqual(list(found), keys)
            self.assertEqual(list(reversed(found)), keys[::-1])
            some = list(found.irange(keys[10], keys[20], (False, True), reverse=True))
            self.assertEqual(some, keys[20:10:-1])
            self.assertEqual(list(found.irange(7, 6)), [])
            self.assertEqual(list(found.items()), [(key, -key) for key in keys])

    def test_repr_shows_ten_keys(self) -> None:
        found = Map[str](64, workers=1)
        found[7], found[5] = "seven", "five"
        self.assertEqual(repr(found), "Map({5: 'five', 7: 'seven'})")
        for key in range(20):
            found.setdefault(key, "x")
        self.assertTrue(repr(found).endswith("9: 'x', ...}, 20 keys)"), repr(found))
        found.close()
        self.assertEqual(repr(found), "Map(closed)")

    def test_a_map_may_have_itself(self) -> None:
        with Map[Any](64) as found, nm_set.MapOf(nm_set.signed(), {-5: found}, nodes=64) as typed:
            found[5] = typed
            self.assertEqual(repr(found), "Map({5: MapOf({-5: ...})})")
            self.assertEqual(repr(typed.sub_map()), "SubMap({-5: Map({5: MapOf({-5: ...})})})")
            found.clear()


def nearest(wanted: dict[int, int], keys: list[int]) -> Any:
    """Returns the first of these keys with its object, or None."""
    return (keys[0], wanted[keys[0]]) if keys else None


class InOrder(unittest.TestCase):
    def test_a_map_is_read_like_a_sorted_dict(self) -> None:
        chance, wanted = random.Random(3), dict[int, int]()
        with Map[int](4_096, workers=2) as found:
            for value in range(3_000):
                key, kind = chance.randrange(400), chance.randrange(8)
                if kind < 3:
                    found[key] = wanted[key] = value
                elif kind == 3:
                    self.assertEqual(found.pop(key, None), wanted.pop(key, None))
                elif kind == 4 and wanted:
                    self.assertEqual(found.pop_first(), (min(wanted), wanted.pop(min(wanted))))
                elif kind == 5 and wanted:
                    self.assertEqual(found.pop_last(), (max(wanted), wanted.pop(max(wanted))))
                elif value % 20 == 0:
                    self._reads_like(found, wanted, key, key + chance.randrange(200))
            self._reads_like(found, wanted, 0, 400)

    def _reads_like(self, found: Map[int], wanted: dict[int, int], low: int, high: int) -> None:
        keys = sorted(wanted)
        above = [key for key in keys if key >= low]
        below = [key for key in reversed(keys) if key <= low]
        some = [key for key in above if key < high]
        self.assertEqual(found.at_least(low), nearest(wanted, above))
        self.assertEqual(found.at_most(low), nearest(wanted, below))
        self.assertEqual(found.first(), nearest(wanted, keys))
        self.assertEqual(found.last(), nearest(wanted, keys[::-1]))
        self.assertEqual(found.count_range(low, high, (True, False)), len(some))
        pairs = [(key, wanted[key]) for key in some]
        self.assertEqual(list(found.items_range(low, high, (True, False))), pairs)
        back = found.items_range(low, high, (True, False), reverse=True)
        self.assertEqual(list(back), pairs[::-1])
        self.assertEqual(list(reversed(found.items())), [(key, wanted[key]) for key in keys[::-1]])
        self.assertEqual(list(reversed(found.values())), [wanted[key] for key in keys[::-1]])
        entries = [(key, wanted[key]) for key in above]
        for count in (1, 100, 2_000):
            read, rest = found.scan(low, count)
            self.assertEqual(read, entries[:count])
            self.assertTrue(rest is not None or len(entries) <= count)
            more = [] if rest is None else found.scan(rest, 2**70)[0]
            self.assertEqual(read + more, entries)
        asked = [low, high, *some, 1_000, low]
        self.assertEqual(found.get_many(asked), [wanted.get(key) for key in asked])
        self.assertEqual(found.get_many(asked, -1), [wanted.get(key, -1) for key in asked])

    def test_bounds_of_pops(self) -> None:
        with Map({5: "five", 7: "seven", nm_set.MOST_KEY: "greatest"}, nodes=64) as found:
            for call in (
                lambda: found.pop_first(5), lambda: found.pop_first(-1),
                lambda: found.pop_last(2**70),
            ):
                self.assertRaises(KeyError, call)
            self.assertEqual(found.pop_last(nm_set.MOST_KEY), (nm_set.MOST_KEY, "greatest"))
            self.assertEqual((found.pop_first(6), found.pop_last(7)), ((5, "five"), (7, "seven")))
            self.assertEqual((len(found), found.first(), found.last()), (0, None, None))
            self.assertRaises(KeyError, found.pop_last)

    def test_ends_of_ranges(self) -> None:
        with Map([(0, "least"), (nm_set.MOST_KEY, "greatest")]) as found:
            self.assertEqual(list(found.items_range(-5, 2**80)), list(found.items()))
            self.assertEqual(list(found.items_range(2**80)), [])
            self.assertEqual((found.count_range(-5, 2**80), found.count_range(2**80)), (2, 0))
            self.assertEqual((found.count_range(5, 4), found.count_range(-9, -1)), (0, 0))
            self.assertEqual(found.at_least(1), (nm_set.MOST_KEY, "greatest"))
            self.assertEqual(found.at_most(nm_set.MOST_KEY - 1), (0, "least"))
            self.assertRaises(OutOfRange, lambda: found.at_least(-1))
            self.assertRaises(OutOfRange, lambda: found.get_many([5, 2**64 - 3]))
            self.assertRaises(TypeError, lambda: found.get_many(["5"]))  # type: ignore[list-item]
            self.assertEqual(found.get_many([]), [])
            read, rest = found.scan(-5, 1)
            self.assertEqual(read, [(0, "least")])
            assert rest is not None and 0 < rest <= nm_set.MOST_KEY
            self.assertEqual(found.scan(rest, 5), ([(nm_set.MOST_KEY, "greatest")], None))
            self.assertEqual((found.scan(2**64, 5), found.scan(7, 0)), (([], None), ([], 7)))

    def test_a_map_is_made_of_a_dict_or_of_pairs(self) -> None:
        with Map({5: "five", 7: "seven"}, workers=1) as found:
            self.assertEqual((dict(found), found.nodes), ({5: "five", 7: "seven"}, 65_536))
            with Map(found, nodes=9) as other:
                self.assertEqual((other, other.nodes), (found, 9))
        with Map(((key, -key) for key in (3, 1, 3))) as pairs:
            self.assertEqual(list(pairs.items()), [(1, -1), (3, -3)])
        with Map((key, key) for key in range(20_000)) as many:
            self.assertEqual((len(many), many.nodes), (20_000, 80_000))
        self.assertRaises(TypeError, lambda: Map(64, nodes=64))
        self.assertRaises(Full, lambda: Map({1: 1, 2: 2}, nodes=7, options=Options(timeout_ms=0)))
        self.assertRaises(OutOfRange, lambda: Map({-1: 1}))

    def test_an_object_that_is_popped_is_referred_to_by_the_caller_alone(self) -> None:
        with Map[Value](4_096, workers=1) as found:
            found[5], found[6] = Value(5), Value(6)
            reference = weakref.ref(found[5])
            key, value = found.pop_first()
            self.assertEqual((key, value.key, found.collect()), (5, 5, 1))
            self.assertEqual(ended([reference]), 0)
            del value
            self.assertEqual((ended([reference]), len(found), found.waiting()), (1, 1, 0))

    @unittest.skipIf(nm_set.is_native, "calls in C take an object in one step")
    def test_a_key_that_is_removed_before_its_object_is_read_is_looked_up_again(self) -> None:
        """The token of a scan or of a search comes back before the object is read."""
        with Map[str](4_096, workers=2, options=Options(rounds=1)) as found:
            found[5], found[6], found[7] = "five", "six", "seven"
            lost = dict(found._read)
            found._read.clear()
            self.assertRaises(Contention, lambda: found.first())
            again = ["other", nm_set._map.MISSING, "x"]
            with mock.patch.object(found, "_get", side_effect=again):
                self.assertEqual(list(found.items()), [(5, "other"), (7, "x")])
            found._read.update(lost)
            self.assertEqual(found.first(), (5, "five"))

    def test_an_unfinished_pop_says_which_key_it_removes(self) -> None:
        with Map[str](64, workers=1) as found:
            with mock.patch.object(found, "_pop_from", side_effect=found._fault(c.UNFINISHED, 5)):
                with self.assertRaisesRegex(nm_set.Unfinished, "the key 5 will be removed"):
                    found.pop_first()


@unittest.skipUnless(nm_set.is_native, "by ctypes there is no such module")
class InC(unittest.TestCase):
    """Calls of the library that end in a way in which they hardly ever end under the interpreter's
    lock."""

    def replace(self, name: str, outcome: int) -> None:
        """Lets the calls of a function of the library return another outcome than YES."""
        from nm_set import _map, _native

        function, parameters = getattr(c.quick, name), c.FUNCTIONS[name]

        def call(*arguments: Any) -> int:
            made = int(function(*arguments))
            return outcome if made == c.YES else made

        kept = ctypes.CFUNCTYPE(ctypes.c_int, *parameters)(call)
        address = ctypes.cast(kept, ctypes.c_void_p).value
        others = _map.MISSING, _map.number_of
        _native.bind_map(lambda it: address if it == name else c.address(it), *others)
        self.addCleanup(lambda: (_native.bind_map(c.address, *others), kept))

    def test_an_unfinished_remove_returns_its_object(self) -> None:
        self.replace("nm_map_remove", c.UNFINISHED)
        with Map[Value](64, workers=1) as found:
            found[5] = Value(5)
            value = found.pop(5)
            reference = weakref.ref(value)
            self.assertEqual((value.key, len(found), found.waiting()), (5, 0, 2))
            self.assertEqual((found.collect(), ended([reference])), (1, 0))
            del value
            self.assertEqual((ended([reference]), found.free()), (1, 64 - 5))

    def test_an_unfinished_remove_of_an_expected_object_counts_as_removed(self) -> None:
        self.replace("nm_map_remove_if", c.UNFINISHED)
        with Map[Value](64, workers=1) as found:
            found[5] = Value(5)
            reference = weakref.ref(found[5])
            self.assertFalse(found.compare_remove(5, Value(5)))
            self.assertTrue(found.compare_remove(5, found[5]))
            self.assertEqual((len(found), found.waiting(), ended([reference])), (0, 2, 0))
            self.assertEqual((found.collect(), ended([reference]), found.free()), (1, 1, 64 - 5))

    def test_the_object_of_an_unfinished_pop_ends(self) -> None:
        for name in ("nm_map_pop_first_below", "nm_map_pop_last_from"):
            self.replace(name, c.UNFINISHED)
            with Map[Value](64, workers=1) as found:
                found[5] = Value(5)
                reference = weakref.ref(found[5])
                pop = found.pop_first if "first" in name else found.pop_last
                self.assertRaisesRegex(nm_set.Unfinished, "the key 5 will be removed", pop)
                self.assertEqual((len(found), found.collect(), ended([reference])), (0, 1, 1))

    def test_a_fault_of_the_library_gives_the_object_back(self) -> None:
        self.replace("nm_map_insert", c.NO_MEMORY)
        with Map[Value](64, workers=1) as found:
            value = Value(5)
            before = sys.getrefcount(value)
            self.assertRaises(nm_set.NoMemory, lambda: found.insert(5, value))
            self.assertEqual((sys.getrefcount(value), len(found)), (before, 0))


class Refusals(unittest.TestCase):
    def test_a_map_is_made_once(self) -> None:
        with Map[int](64) as found:
            found[5] = 5
            self.assertRaises(TypeError, lambda: found.__init__(64))  # type: ignore[misc]
            self.assertEqual(dict(found), {5: 5})
        self.assertRaises(Closed, lambda: Map.__new__(Map)[5])

    def test_wrong_numbers_are_refused(self) -> None:
        for nodes, workers in ((6, 1), (2**40, 1), (64, 0), (64, 65)):
            self.assertRaises(OutOfRange, lambda: Map[int](nodes, workers=workers))
        with Map[int](64, workers=1) as found:
            self.assertRaises(OutOfRange, lambda: found.insert(2**64 - 3, 1))
            self.assertRaises(OutOfRange, lambda: found.insert(-1, 1))
            self.assertRaises(TypeError, lambda: found.insert("5", 1))  # type: ignore[arg-type]
            self.assertEqual((found.nodes, found.capacity, found.workers), (64, 29, 1))

    def test_a_full_map_says_so_and_keeps_no_object(self) -> None:
        with Map[Value](9, workers=1, options=Options(timeout_ms=20_000)) as found:
            found[5], found[6] = Value(5), Value(6)
            value, begin = Value(7), time.monotonic()
            with self.assertRaises(Full) as raised:
                found.insert(7, value)
            self.assertLess(time.monotonic() - begin, 10)
            text = "the map is full: its 2 keys take 9 of its 9 nodes, and 0 wait to be freed"
            self.assertEqual(str(raised.exception), text)
            reference = weakref.ref(value)
            del value
            self.assertEqual((ended([reference]), len(found)), (1, 2))
            del found[5]
            found[7] = Value(7)  # it collects the nodes of 5
            self.assertEqual(sorted(found), [6, 7])

    def test_an_insert_waits_for_nodes_that_a_pin_holds_back(self) -> None:
        with Map[int](7, workers=2, options=Options(timeout_ms=20)) as found:
            reader = found._take()
            found[5] = 5
            found._pin(reader)
            del found[5]
            begin = time.monotonic()
            with self.assertRaises(Full) as raised:
                found[6] = 6
            self.assertGreaterEqual(time.monotonic() - begin, 0.02)
            text = "the map is full: its 0 keys take 5 of its 7 nodes, and 2 wait to be freed;"
            text += " worker 0 is in their way, by a pin or in a call"
            self.assertEqual(str(raised.exception), text)
            found._put_back(reader)
            found[6] = 6

    def test_an_object_may_call_the_full_map_at_its_end(self) -> None:
        """It ends by an insert into the full map, whose only worker is then in no call."""
        ends: list[object] = []
        options = Options(timeout_ms=200, collect_after=1_000)
        with Map[Any](9, workers=1, options=options) as found:

            class Caller:
                def __del__(self) -> None:
                    try:
                        ends.append(found.get(7))
                    except nm_set.Fault as error:
                        ends.append(error)

            found[5], found[6] = Caller(), Caller()
            del found[5], found[6]
            self.assertEqual(ends, [])
            found[7] = "seven"
            self.assertEqual(ends, ["seven", "seven"])

    @unittest.skipIf(nm_set.is_native, "the end of a map in C is one step")
    def test_a_close_that_was_interrupted_goes_on(self) -> None:
        """An exception of a signal handler may come before, or after, each step of a close."""
        drop = c.exports.nm_drop

        def interrupt(handle: Any, is_after: bool) -> None:
            if is_after:
                drop(handle)
            raise KeyboardInterrupt

        for is_after in (False, True):
            found = Map[Value](64, workers=1)
            found[5] = Value(5)
            reference = weakref.ref(found[5])
            found._idle.clear()
            with mock.patch.object(c.exports, "nm_drop", lambda it: interrupt(it, is_after)):
                self.assertRaises(KeyboardInterrupt, found.close)
            self.goes_on(found, reference)

    def goes_on(self, found: Map[Value], reference: weakref.ref[Value]) -> None:
        """Closes a map whose close was interrupted."""
        self.assertRaises(Closed, lambda: found.get(5))
        found.close()
        self.assertEqual(ended([reference]), 1)
        found.close()

    def test_a_close_that_was_interrupted_beside_its_end_goes_on(self) -> None:
        for is_after in (False, True):
            found = Map[Value](64, workers=1)
            found[5] = Value(5)
            reference, end = weakref.ref(found[5]), found._end

            def interrupt(is_after: bool = is_after, end: Callable[[], int] = end) -> int:
                if is_after:
                    end()
                raise KeyboardInterrupt

            with mock.patch.object(found, "_end", interrupt):
                self.assertRaises(KeyboardInterrupt, found.close)
            self.goes_on(found, reference)

    def test_a_call_waits_for_a_worker(self) -> None:
        with Map[int](64, workers=1, options=Options(timeout_ms=20)) as found:
            taken = found._take()
            self.assertRaisesRegex(NoWorker, "each of the 1 workers", lambda: found.get(5))
            found._put_back(taken)
            self.assertIsNone(found.get(5))

    @unittest.skipIf(nm_set.is_native, "no worker is lost between two steps of C")
    def test_a_lost_worker_is_returned(self) -> None:
        with Map[int](64, workers=1, options=Options(timeout_ms=0)) as found:
            lost = found._take()
            found._pin(lost)
            del lost
            self.assertIsNone(found.get(5))

    def test_a_closed_map_answers_no_call(self) -> None:
        found = Map[int](64)
        found[5] = 5
        found.close()
        found.close()
        calls: list[Callable[[], Any]] = [
            lambda: found[5], lambda: found.insert(5, 5), lambda: 5 in found, lambda: len(found),
            lambda: list(found), lambda: found.pop(5), found.collect, lambda: found.get("5"),
            found.pop_first, found.last, lambda: list(found.items()), lambda: found.get_many([5]),
            lambda: found.count_range(), lambda: found.items_range(5), lambda: found.get_many([]),
        ]
        for call in calls:
            self.assertRaises(Closed, call)

    def test_no_map_is_copied(self) -> None:
        with Map[int](64) as found:
            for call in (lambda: copy.copy(found), lambda: copy.deepcopy(found)):
                self.assertRaises(TypeError, call)
            self.assertRaises(TypeError, lambda: pickle.dumps(found))
            self.assertRaises(TypeError, lambda: hash(found))

    def test_a_key_that_is_always_inserted_by_others_is_contention(self) -> None:
        with Map[int](64, options=Options(rounds=3)) as found:
            with mock.patch.object(found, "insert", return_value=False) as insert:
                self.assertRaises(Contention, lambda: found.setdefault(5, 5))
            self.assertEqual(insert.call_count, 4)


class Ends(unittest.TestCase):
    def test_each_object_ends_when_its_key_was_removed(self) -> None:
        with Map[Value](4_096, workers=2) as found:
            references = []
            for key in range(200):
                value = Value(key)
                found[key] = value
                references.append(weakref.ref(value))
            del value
            self.assertEqual(ended(references), 0)
            for key in range(0, 200, 2):
                self.assertEqual(found.pop(key).key, key)
            found.collect()
            self.assertEqual((ended(references), len(found)), (100, 100))
            for key in range(1, 200, 2):
                found[key] = Value(key)
            found.collect()
            self.assertEqual(ended(references), 200)
            last = weakref.ref(found[1])
        self.assertEqual(ended([last]), 1)

    def test_an_object_stays_while_a_worker_is_pinned(self) -> None:
        with Map[Value](4_096, workers=3) as found:
            found[5] = Value(5)
            reference, reader = weakref.ref(found[5]), found._take()
            found._pin(reader)
            del found[5]
            self.assertEqual((found.collect(), ended([reference])), (0, 0))
            found._put_back(reader)
            self.assertEqual((found.collect(), ended([reference])), (1, 1))

    def test_a_call_collects_by_itself(self) -> None:
        with Map[Value](4_096, workers=1, options=Options(collect_after=8)) as found:
            references = []
            for key in range(500):
                found[key] = value = Value(key)
                references.append(weakref.ref(value))
                del found[key], value
            self.assertGreaterEqual(ended(references), 490)

    def test_an_object_may_call_the_map_at_its_end(self) -> None:
        found = Map[Any](4_096, workers=1, options=Options(timeout_ms=0, collect_after=2))
        said = []

        class Caller:
            def __del__(self) -> None:
                said.append(found.get(7))

        found[7] = "seven"
        for key in range(10, 20):
            found[key] = Caller()
            del found[key]
        found.collect()
        self.assertEqual(said, ["seven"] * 10)
        found.close()

    def test_an_object_may_change_the_map_at_its_end(self) -> None:
        found = Map[Any](4_096, workers=1, options=Options(timeout_ms=0, collect_after=2))
        depth = 0

        class Putter:
            def __del__(self) -> None:
                nonlocal depth
                depth += 1
                if depth < 50:
                    found[5] = Putter()
                    found.pop(6, None)
                    found[6] = Putter()

        found[5] = Putter()
        for _ in range(30):
            found[5] = None
            found.collect()
        found.clear()
        while found.waiting():
            found.collect()
        self.assertGreaterEqual(depth, 50)
        self.assertEqual((len(found), found.free()), (0, 4_096 - 5))
        found.close()

    def test_an_object_may_close_the_map_at_its_end(self) -> None:
        found = Map[Any](4_096, workers=1, options=Options(collect_after=2))

        class Closer:
            def __del__(self) -> None:
                found.close()

        found[5], found[6], value = Closer(), Value(6), Value(7)
        references = [weakref.ref(found[6]), weakref.ref(value)]
        with suppress(Closed):
            for _ in range(9):
                found[5] = value
        self.assertRaises(Closed, lambda: found.get(5))
        del value
        self.assertEqual(ended(references), 2)

    def test_objects_that_a_close_ends_find_the_map_closed(self) -> None:
        found, said = Map[Any](64), []

        class Caller:
            def __del__(self) -> None:
                for call in (lambda: found[5], lambda: len(found), lambda: found.insert(7, 7)):
                    try:
                        call()
                    except Closed:
                        said.append(True)

        found[5], found[6] = Caller(), Caller()
        found.close()
        self.assertEqual(said, [True] * 6)

    def test_garbage_that_refers_to_its_map_ends(self) -> None:
        found = Map[Any](64)
        value, waits = Value(5), Value(6)
        value.found = waits.found = found  # type: ignore[attr-defined]
        found[5], found[6] = value, waits
        references = [weakref.ref(value), weakref.ref(waits)]
        del found[6], value, waits
        self.assertEqual(ended(references), 0)
        map_reference = weakref.ref(found)
        del found
        self.assertEqual((ended(references), map_reference()), (2, None))

    def test_no_reference_is_lost_and_none_is_left(self) -> None:
        value = object()
        before = sys.getrefcount(value)
        with Map[object](1_024, workers=2) as found:
            found.update((key, value) for key in range(100))
            for key in range(100):
                found[key] = value
                found.replace(key, value)
                found.compare_replace(key, value, value)
                found.compare_replace(key, None, value)
                found.insert(key, value)
                found.setdefault(key + 50, value)
                self.assertIs(found.get(key, value), found.get(-1, value))
            found.get_many([5, 500, 2_000], value)
            self.assertEqual(len(list(found.items()) + found.scan(0, 99)[0] + [found.last()]), 250)
            self.assertEqual((found.pop_first(), found.pop(1)), ((0, value), value))
            self.assertFalse(found.compare_remove(2, None))
            self.assertTrue(found.compare_remove(2, value))
            self.assertEqual(len(found), 147)
            self.assertRaises(TypeError, lambda: found.insert("5", value))  # type: ignore[arg-type]
            while found.waiting():
                found.collect()
            references = 147 if nm_set.is_native else 2 * 147  # by ctypes there are two dicts
            self.assertEqual(sys.getrefcount(value), before + references)
            found.clear()
        self.assertEqual(sys.getrefcount(value), before)

    def test_a_map_that_is_not_closed_ends_its_objects(self) -> None:
        found = Map[Value](64)
        found[5] = Value(5)
        reference = weakref.ref(found[5])
        del found
        self.assertEqual(ended([reference]), 1)

    def test_a_close_waits_for_a_call(self) -> None:
        found = Map[int](64, workers=2)
        worker = found._take()
        timer = threading.Timer(0.05, lambda: found._put_back(worker))
        begin = time.monotonic()
        timer.start()
        found.close()
        self.assertGreaterEqual(time.monotonic() - begin, 0.04)
        timer.join()
        other = Map[int](64, workers=2)
        kept = other._take()
        with mock.patch("nm_set._map._LONGEST", 0.02):
            self.assertRaises(nm_set.InUse, other.close)
        other[5] = 5
        other._put_back(kept)
        other.close()

    def test_a_forked_child_makes_no_call(self) -> None:
        with Map[int](64) as found:
            found[5] = 5
            child = os.fork()
            if child == 0:
                is_refused = 0
                for call in (
                    lambda: found[5], lambda: found.insert(6, 6), found.close, found.pop_first,
                    found.last, lambda: list(found.items()), lambda: found.get_many([5]),
                ):
                    try:
                        call()
                    except Forked:
                        is_refused += 1
                del found
                gc.collect()
                os._exit(is_refused)
            self.assertEqual(os.waitstatus_to_exitcode(os.waitpid(child, 0)[1]), 7)
            self.assertEqual((found[5], found.insert(6, 6)), (5, True))

    def test_a_forked_child_ends_no_object(self) -> None:
        found, ends = Map[Any](64), []

        class Caller:
            def __del__(self) -> None:
                ends.append(True)

        found[5], found[6] = Caller(), Caller()
        found[5].found = found
        del found[6]
        child = os.fork()
        if child == 0:
            del found
            gc.collect()
            os._exit(len(ends))
        self.assertEqual(os.waitstatus_to_exitcode(os.waitpid(child, 0)[1]), 0)
        found.close()
        self.assertEqual(len(ends), 2)


class Threads(unittest.TestCase):
    THREADS, CALLS, RANGE = 16, 8_000, 32

    def setUp(self) -> None:
        """Lets threads take turns as often as possible: between most steps of Python."""
        self.addCleanup(sys.setswitchinterval, sys.getswitchinterval())
        sys.setswitchinterval(1e-5)

    def _work(self, found: Map[Value], seed: int, wrong: list[object]) -> None:
        chance = random.Random(seed)
        try:
            for _ in range(self.CALLS):
                key = chance.randrange(self.RANGE)
                kind = chance.randrange(6)
                if kind == 0:
                    found.insert(key, Value(key))
                elif kind == 4:
                    self._pops_or_finds(found, key, chance.randrange(4))
                elif kind == 5:
                    for each, value in found.items_range(key, key + 4):
                        self.assertEqual(value.key, each)
                elif kind == 1:
                    self.assertIn(getattr(found.pop(key, None), "key", key), (key,))
                elif kind == 2:
                    found[key] = Value(key)
                else:
                    self.assertIn(getattr(found.get(key), "key", key), (key,))
        except BaseException as error:  # noqa: B036
            wrong.append(error)

    def _pops_or_finds(self, found: Map[Value], key: int, kind: int) -> None:
        call = [found.pop_first, found.pop_last, found.at_least, found.at_most][kind]
        with suppress(KeyError, Contention):
            entry = call(key)  # type: ignore[operator]
            self.assertTrue(entry is None or entry[1].key == entry[0])

    def test_threads_find_the_objects_of_their_keys(self) -> None:
        wrong: list[object] = []
        with Map[Value](4_096, workers=8, options=Options(timeout_ms=10_000)) as found:
            threads = [
                threading.Thread(target=self._work, args=(found, seed, wrong))
                for seed in range(self.THREADS)
            ]
            for thread in threads:
                thread.start()
            for thread in threads:
                thread.join()
            self.assertEqual(wrong, [])
            self.assertEqual(len(found), len(list(found)))
            self.assertTrue(all(value.key == key for key, value in found.items()))
            found.collect()
            self.assertEqual(found.waiting(), 0)

    def test_each_object_is_popped_once(self) -> None:
        with Map[int](4_096, workers=8, options=Options(timeout_ms=10_000)) as found:
            for key in range(1_000):
                found[key] = key
            popped: list[list[int]] = [[] for _ in range(4)]

            def pop_all(mine: list[int]) -> None:
                while found:
                    try:
                        mine.append(found.popitem()[1])
                    except Contention:
                        continue
                    except KeyError:
                        return

            threads = [threading.Thread(target=pop_all, args=(mine,)) for mine in popped]
            for thread in threads:
                thread.start()
            for thread in threads:
                thread.join()
            self.assertEqual(sorted(sum(popped, [])), list(range(1_000)))


class Interrupted(Exception):
    pass


class Waits(unittest.TestCase):
    def test_a_look_waits_for_a_lesser_key(self) -> None:
        found, ends = Map[str](1_024), []
        begun = time.monotonic()
        self.assertIsNone(found.wait_first(0.05))
        self.assertGreaterEqual(time.monotonic() - begun, 0.05)

        def look(below: int) -> None:
            ends.append(found.wait_first(below=below))

        looks = [threading.Thread(target=look, args=(below,)) for below in (6, 20)]
        for thread in looks:
            thread.start()
        for key in range(30, 19, -1):
            found[key] = "later"
            time.sleep(0.002)
        self.assertEqual(ends, [])
        found[5] = "now"
        for thread in looks:
            thread.join()
        self.assertEqual((ends, len(found)), ([(5, "now")] * 2, 12))
        self.assertEqual(found.wait_first(), (5, "now"))
        self.assertIsNone(found.wait_first(0, below=5))
        found.close()

    def test_no_lesser_key_is_missed(self) -> None:
        found, seen = Map[int](8_192), [1_000]

        def fill() -> None:
            for key in range(999, -1, -1):
                found[key] = key
                while seen[-1] != key:
                    time.sleep(0)

        thread = threading.Thread(target=fill)
        begun = time.monotonic()
        thread.start()
        for below in range(1_000, 0, -1):
            least = found.wait_first(60, below=below)
            self.assertEqual(least, (below - 1, below - 1))
            seen.append(below - 1)
        thread.join()
        self.assertLess(time.monotonic() - begun, 60)
        found.close()

    def test_waiting_nodes_are_counted(self) -> None:
        found = Map[int](1_024, workers=1)
        found.update((key, key) for key in range(20))
        self.assertEqual((found.waiting(), found.free()), (0, 1_024 - 5 - 40))
        for key in range(4):
            del found[key]
        self.assertEqual(found.waiting() + found.free(), 1_024 - 5 - 32)
        while found.waiting():
            found.collect()
        self.assertEqual((found.waiting(), found.free()), (0, 1_024 - 5 - 32))
        found.close()
        self.assertRaises(Closed, found.waiting)

    def test_a_close_ends_a_look(self) -> None:
        found, ends = Map[int](64), []

        def look() -> None:
            with self.assertRaises(nm_set.Closed):
                found.wait_first()
            ends.append(True)

        thread = threading.Thread(target=look)
        thread.start()
        time.sleep(0.05)
        found.close()
        thread.join()
        self.assertEqual(ends, [True])


class Signals(unittest.TestCase):
    def test_an_exception_of_a_handler_loses_no_worker(self) -> None:
        def interrupt(*_: object) -> None:
            raise Interrupted

        before = signal.signal(signal.SIGALRM, interrupt)
        found, chance, interrupts = Map[int](4_096, workers=2), random.Random(5), 0
        try:
            for _ in range(200):
                try:
                    signal.setitimer(signal.ITIMER_REAL, chance.uniform(0.00005, 0.001))
                    while True:
                        key = chance.randrange(50)
                        found[key] = key
                        found.pop(chance.randrange(50), None)
                except Interrupted:
                    interrupts += 1
        finally:
            signal.setitimer(signal.ITIMER_REAL, 0)
            signal.signal(signal.SIGALRM, before)
        self.assertEqual(interrupts, 200)
        taken = [found._take(), found._take()]
        for worker in taken:
            found._put_back(worker)
        self.assertTrue(all(found[key] == key for key in found))
        found.close()


if __name__ == "__main__":
    unittest.main()

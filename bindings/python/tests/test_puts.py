"""Tests of the calls of maps that replace an object in one step: they answer like a dict, each
object ends once, a reader always finds a key that others set, and a full map goes on."""

from __future__ import annotations

import gc
import os
import sys
import threading
import time
import unittest
import weakref
from typing import Any, Optional
from unittest import mock

import nm_set
from nm_set import Closed, Contention, Forked, Full, Map, MapOf, Options, OutOfRange


class Value:
    """An object that counts how many there are."""

    alive = 0

    def __init__(self, number: int) -> None:
        self.number = number
        Value.alive += 1

    def __del__(self) -> None:
        Value.alive -= 1


class Answers(unittest.TestCase):
    def test_an_object_is_replaced(self) -> None:
        with Map[str](64, workers=1) as found:
            self.assertRaises(KeyError, lambda: found.replace(5, "one"))
            self.assertNotIn(5, found)
            found[5] = "two"
            found[5] = "three"
            self.assertEqual((found[5], found.replace(5, "four"), found[5]), ("three", "three", "four"))
            found.update({5: "five", 6: "six"})
            self.assertEqual(dict(found), {5: "five", 6: "six"})
            self.assertEqual((found.setdefault(5, "x"), found.setdefault(7, "seven")), ("five", "seven"))
            self.assertEqual((found.pop(7, "none"), found.pop(7, "none")), ("seven", "none"))
            self.assertEqual((found.insert(5, "x"), found[5], len(found)), (False, "five", 2))

    def test_an_object_is_compared(self) -> None:
        with Map[Any](64, workers=1) as found:
            self.assertFalse(found.compare_replace(5, None, "one"))
            self.assertNotIn(5, found)
            nan = float("nan")
            found[5] = nan
            self.assertFalse(found.compare_replace(5, float("nan"), "two"))
            self.assertTrue(found.compare_replace(5, nan, [1]))
            self.assertTrue(found.compare_replace(5, [1], "three"))
            self.assertFalse(found.compare_replace(5, [1], "four"))
            self.assertEqual((found[5], len(found)), ("three", 1))

    def test_an_expected_object_is_removed(self) -> None:
        with Map[Any](64, workers=1) as found:
            self.assertFalse(found.compare_remove(5, None))
            found[5] = [1]
            self.assertFalse(found.compare_remove(5, [2]))
            self.assertEqual((found[5], len(found)), ([1], 1))
            self.assertTrue(found.compare_remove(5, [1]))
            self.assertEqual((found.get(5), len(found), found.waiting()), (None, 0, 2))
            self.assertRaises(OutOfRange, lambda: found.compare_remove(-1, None))
            nan = float("nan")
            found[5] = nan
            self.assertFalse(found.compare_remove(5, float("nan")))
            self.assertTrue(found.compare_remove(5, nan))
            self.assertEqual((found.collect(), found.waiting()), (2, 0))

    def test_an_object_may_be_its_own_successor(self) -> None:
        with Map[list[int]](64, workers=1) as found:
            found[5] = same = [5]
            self.assertIs(found.replace(5, same), same)
            self.assertTrue(found.compare_replace(5, same, same))
            found.collect()
            self.assertEqual((found[5], found.waiting(), len(found)), ([5], 0, 1))

    def test_keys_of_a_type_answer_alike(self) -> None:
        with MapOf(nm_set.signed(), {-5: "five"}, nodes=64) as found:
            found[-5] = "cinq"
            self.assertEqual((found.replace(-5, "six"), found[-5]), ("cinq", "six"))
            self.assertTrue(found.compare_replace(-5, "six", "sept"))
            self.assertFalse(found.compare_replace(-5, "six", "huit"))
            self.assertFalse(found.compare_replace(6, "six", "huit"))
            self.assertRaises(KeyError, lambda: found.replace(6, "x"))
            self.assertRaises(KeyError, lambda: found.replace(7, None))
            self.assertEqual(list(found.items()), [(-5, "sept")])
            below = found.sub_map(maximum=0)
            self.assertEqual((below.replace(-5, "huit"), found[-5]), ("sept", "huit"))
            self.assertTrue(below.compare_replace(-5, "huit", "neuf"))
            self.assertEqual((found[-5], len(found)), ("neuf", 1))
            self.assertFalse(found.compare_remove(-5, "huit"))
            self.assertTrue(below.compare_remove(-5, "neuf") and len(found) == 0)

    def test_an_insert_by_a_set_item_wakes(self) -> None:
        with Map[str](64) as found:
            timer = threading.Timer(0.02, lambda: found.__setitem__(5, "five"))
            timer.start()
            begin = time.monotonic()
            self.assertEqual(found.wait_first(10), (5, "five"))
            self.assertLess(time.monotonic() - begin, 0.9)
            timer.join()


class Ends(unittest.TestCase):
    def setUp(self) -> None:
        gc.collect()
        self.assertEqual(Value.alive, 0)

    def test_each_replaced_object_ends_once(self) -> None:
        with Map[Value](4_096, workers=2) as found:
            for number in range(1_000):
                found[number % 10] = Value(number)
                self.assertLessEqual(Value.alive, 10 + 65)
            self.assertEqual((len(found), found.replace(3, Value(0)).number), (10, 993))
            found.collect()
            self.assertEqual((Value.alive, found.waiting(), found.free()), (10, 0, 4_096 - 25))
            self.assertFalse(found.compare_replace(3, None, Value(1)))
            self.assertRaises(KeyError, lambda: found.replace(77, Value(1)))
            self.assertEqual(Value.alive, 10)
        self.assertEqual(Value.alive, 0)

    def test_a_replaced_object_waits_in_one_node(self) -> None:
        with Map[Value](64, workers=1) as found:
            for number in range(4):
                found[5] = Value(number)
            self.assertEqual((found.waiting(), found.free(), Value.alive), (3, 64 - 5 - 2 - 3, 4))
            del found[5]
            self.assertEqual((found.waiting(), len(found)), (5, 0))
            self.assertEqual((found.collect(), found.waiting(), Value.alive), (4, 0, 0))

    def test_an_expected_object_ends_once(self) -> None:
        with Map[Value](64, workers=1) as found:
            found[5] = Value(1)
            expected = found[5]
            before = sys.getrefcount(expected)
            self.assertFalse(found.compare_remove(5, Value(1)))
            self.assertIs(found[5], expected)
            self.assertEqual(sys.getrefcount(expected), before)
            self.assertTrue(found.compare_remove(5, expected))
            self.assertFalse(found.compare_remove(5, expected))
            self.assertEqual((len(found), found.waiting(), found.collect()), (0, 2, 1))
            self.assertEqual((found.waiting(), found.free(), Value.alive), (0, 64 - 5, 1))
            del expected
            self.assertEqual(Value.alive, 0)

    def test_an_expected_object_is_compared_outside_of_the_map(self) -> None:
        """The comparison may call the map. If it changes the key, the map compares again."""
        with Map[Any](64, workers=1) as found:

            class Puts:
                def __eq__(self, other: object) -> bool:
                    if other == "first":
                        found[5] = "second"
                    return True

            found[5] = "first"
            self.assertTrue(found.compare_remove(5, Puts()))
            self.assertEqual((found.get(5), len(found), found.waiting()), (None, 0, 3))
            self.assertEqual((found.collect(), found.waiting()), (2, 0))

    def test_an_old_object_belongs_to_the_caller(self) -> None:
        with Map[Value](64, workers=1) as found:
            found[5] = Value(1)
            old: Optional[Value] = found.replace(5, Value(2))
            found.collect()
            assert old is not None
            reference = weakref.ref(old)
            self.assertEqual((old.number, Value.alive), (1, 2))
            old = None
            self.assertIsNone(reference())


class Refusals(unittest.TestCase):
    def test_wrong_keys_are_refused(self) -> None:
        with Map[int](64) as found:
            for key in (-1, 2**64 - 3):
                self.assertRaises(OutOfRange, lambda: found.__setitem__(key, 1))
                self.assertRaises(OutOfRange, lambda: found.replace(key, 1))
                self.assertRaises(OutOfRange, lambda: found.compare_replace(key, 1, 1))
                self.assertRaises(OutOfRange, lambda: found.compare_remove(key, 1))
            self.assertRaises(TypeError, lambda: found.__setitem__("5", 1))  # type: ignore[index]
            self.assertEqual((len(found), found.waiting()), (0, 0))

    def test_a_closed_map_makes_no_call(self) -> None:
        found = Map[int](64)
        found[5] = 1
        found.close()
        self.assertRaises(Closed, lambda: found.__setitem__(5, 2))
        self.assertRaises(Closed, lambda: found.replace(5, 2))
        self.assertRaises(Closed, lambda: found.compare_replace(5, 1, 2))
        self.assertRaises(Closed, lambda: found.compare_remove(5, 1))

    def test_a_forked_child_makes_no_call(self) -> None:
        with Map[int](64) as found:
            found[5] = 1
            child = os.fork()
            if child == 0:
                is_refused = 0
                for call in (
                    lambda: found.replace(5, 2), lambda: found.__setitem__(5, 2),
                    lambda: found.compare_remove(5, 1),
                ):
                    try:
                        call()
                    except Forked:
                        is_refused += 1
                os._exit(is_refused)
            self.assertEqual(os.waitstatus_to_exitcode(os.waitpid(child, 0)[1]), 3)
            self.assertEqual(found.replace(5, 3), 1)

    def test_an_object_that_always_changes_is_contention(self) -> None:
        with Map[int](64, options=Options(rounds=3)) as found:
            found[5] = 1
            with mock.patch.object(found, "_give", return_value=(6, None)) as give:
                self.assertRaises(Contention, lambda: found.compare_replace(5, 1, 2))
            self.assertEqual(give.call_count, 4)
            with mock.patch.object(found, "_remove_if", return_value=False) as remove:
                self.assertRaises(Contention, lambda: found.compare_remove(5, 1))
            self.assertEqual((remove.call_count, dict(found)), (4, {5: 1}))

    def test_a_map_without_nodes_is_full_at_once(self) -> None:
        with Map[int](9, workers=2, options=Options(timeout_ms=10_000)) as found:
            found[1], found[2] = 1, 2
            begin = time.monotonic()
            for call in (
                lambda: found.__setitem__(2, 3), lambda: found.__setitem__(3, 3),
                lambda: found.replace(2, 3), lambda: found.compare_replace(2, 2, 3),
            ):
                self.assertRaises(Full, call)
            self.assertLess(time.monotonic() - begin, 5)
            self.assertEqual((dict(found), found.waiting()), ({1: 1, 2: 2}, 0))


class FullMaps(unittest.TestCase):
    def test_a_full_map_goes_on_by_replacements(self) -> None:
        """One node that no key takes is enough for any number of them."""
        with Map[int](10, workers=2, options=Options(timeout_ms=1_000)) as found:
            found[1] = found[2] = 0
            for number in range(1_000):
                found[1] = number
                self.assertEqual(found.replace(2, number), max(number - 1, 0))
                self.assertEqual((len(found), found.waiting()), (2, 1))
            self.assertRaises(Full, lambda: found.insert(3, 3))
            self.assertRaises(Full, lambda: found.__setitem__(3, 3))

    def test_replaced_objects_are_waited_for(self) -> None:
        with Map[int](11, workers=2, options=Options(timeout_ms=30)) as found:
            found[1] = found[2] = 0
            found.collect()
            reader = found._take()
            found._pin(reader)
            found[1] = found[2] = 1
            begin = time.monotonic()
            with self.assertRaises(Full) as full:
                found[1] = 2
            self.assertGreater(time.monotonic() - begin, 0.029)
            self.assertIn("take 9 of its 11 nodes, and 2 wait to be freed", str(full.exception))
            self.assertRaises(Full, lambda: found.__setitem__(3, 3))
            found._put_back(reader)
            found[3] = 3
            self.assertEqual(dict(found), {1: 1, 2: 1, 3: 3})


class Threads(unittest.TestCase):
    THREADS, STEPS, PUTS = 4, 500, 100_000

    def setUp(self) -> None:
        """Lets threads take turns as often as possible."""
        self.addCleanup(sys.setswitchinterval, sys.getswitchinterval())
        sys.setswitchinterval(1e-5)

    def _run(self, *works: Any) -> None:
        wrong: list[BaseException] = []

        def run(work: Any) -> None:
            try:
                work()
            except BaseException as error:  # noqa: B036
                wrong.append(error)

        threads = [threading.Thread(target=run, args=(work,)) for work in works]
        for thread in threads:
            thread.start()
        for thread in threads:
            thread.join()
        self.assertEqual(wrong, [])

    def test_a_key_is_never_absent(self) -> None:
        with Map[int](4_096, workers=4, options=Options(timeout_ms=10_000)) as found:
            found[5], has_ended = 0, False

            def read() -> None:
                last = 0
                while not has_ended:
                    for number in (found[5], found.get(5, -1), dict(found.items())[5]):
                        self.assertGreaterEqual(number, last)
                        last = number

            def write() -> None:
                nonlocal has_ended
                try:
                    for number in range(1, self.PUTS + 1):
                        found[5] = number
                finally:
                    has_ended = True

            self._run(read, write)
            self.assertEqual((found[5], len(found)), (self.PUTS, 1))
            found.collect()
            self.assertEqual(found.waiting(), 0)

    def test_an_expected_object_is_removed_by_one_call(self) -> None:
        """Of the threads that expect an object, one removes its key, and then inserts it with the
        next one."""
        with Map[int](4_096, workers=4, options=Options(timeout_ms=10_000)) as found:
            found[5], removed = 0, []

            def remove() -> None:
                for number in range(self.STEPS):
                    if found.compare_remove(5, number):
                        removed.append(number)
                        self.assertTrue(found.insert(5, number + 1))
                    while len(removed) <= number:
                        time.sleep(0)

            self._run(*[remove] * self.THREADS)
            self.assertEqual(removed, list(range(self.STEPS)))
            self.assertEqual((dict(found), len(found)), ({5: self.STEPS}, 1))

    def test_a_counter_loses_no_step(self) -> None:
        with Map[int](4_096, workers=4, options=Options(timeout_ms=10_000)) as found:
            found[5] = 0

            def count() -> None:
                for _ in range(self.STEPS):
                    while not found.compare_replace(5, number := found[5], number + 1):
                        pass

            self._run(*[count] * self.THREADS)
            self.assertEqual((found[5], len(found)), (self.THREADS * self.STEPS, 1))


if __name__ == "__main__":
    unittest.main()

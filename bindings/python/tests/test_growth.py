"""Tests of sets that grow and shrink, and of takes that wait for a key."""

from __future__ import annotations

import threading
import time
import unittest
from collections.abc import Callable
from concurrent.futures import ThreadPoolExecutor
from typing import Optional

import nm_set
from nm_set import Options, Set

LONG = Options(timeout_ms=60_000)


def ran(*calls: Callable[[], object]) -> None:
    """Runs each call in a thread of its own."""
    with ThreadPoolExecutor(len(calls)) as pool:
        for done in [pool.submit(call) for call in calls]:
            done.result()


class Growth(unittest.TestCase):
    def test_a_set_without_a_size_grows_beside_threads(self) -> None:
        numbers = Set(options=LONG)
        self.assertEqual((numbers.nodes, numbers.capacity), (20_005, 10_000))

        def fill(first: int) -> None:
            with numbers.attach() as worker:
                for key in range(first, 40_000, 4):
                    self.assertTrue(worker.add(key) if key % 8 < 4 else numbers.add(key))
                self.assertIn(first, worker)

        ran(*(lambda first=first: fill(first) for first in range(4)))
        self.assertEqual(len(numbers), 40_000)
        self.assertGreaterEqual(numbers.capacity, 40_000)
        numbers.reserve(50_000)
        numbers.shrink_to_fit()
        self.assertEqual(numbers.capacity, 40_000 + numbers.workers)
        self.assertEqual(list(numbers.close().keys), list(range(40_000)))

    def test_sizes_change_beside_threads(self) -> None:
        numbers, is_over, changed = Set(options=LONG), threading.Event(), [0] * 4

        def work(seed: int) -> None:
            turn = 0
            while not is_over.is_set():
                turn, key = turn + 1, (turn * 7 + seed) % 500
                if turn % 3:
                    changed[seed] += numbers.add(key)
                else:
                    changed[seed] -= numbers.discard(key)

        def change() -> None:
            try:
                for keys in range(100):
                    numbers.reserve(1_000 + keys)
                    numbers.shrink_to_fit()
            finally:
                is_over.set()

        ran(change, *(lambda seed=seed: work(seed) for seed in range(4)))
        self.assertEqual(len(numbers.close()), sum(changed))

    def test_a_pinned_worker_prevents_a_new_size(self) -> None:
        with Set(options=Options(timeout_ms=50)) as numbers, numbers.attach() as worker:
            worker.pin()
            with self.assertRaises(nm_set.Pinned) as pinned:
                numbers.reserve(20_000)
            text = "the set gets no new size: worker 0 is pinned"
            self.assertEqual(str(pinned.exception), text)
            with self.assertRaises(nm_set.Full) as full:
                numbers.add_many(range(20_000))
            text = "the set cannot grow while worker 0 is pinned or in a call"
            self.assertIn(text, str(full.exception))
            self.assertEqual(len(numbers), 10_000)
            worker.unpin()
            self.assertTrue(worker.add(20_000) and 9_999 in worker)
            self.assertEqual((numbers.capacity, worker.stats().flags), (15_001, 0))

    def test_a_set_with_a_size_stays(self) -> None:
        with Set(64) as numbers:
            with self.assertRaises(nm_set.Full):
                numbers.update(range(100))
            self.assertEqual(numbers.nodes, 64)
            numbers.reserve(100)
            numbers.update(range(100))
            self.assertEqual((len(numbers), numbers.capacity), (100, 100))
            self.assertEqual(numbers.stats().growths, 1)
            self.assertGreater(numbers.stats().longest_pause, 0)
            for wrong in (-1, 2**28, 2**70):
                with self.assertRaises(nm_set.OutOfRange):
                    numbers.reserve(wrong)


class Waits(unittest.TestCase):
    def test_a_take_waits_for_its_time(self) -> None:
        with Set([7, 5]) as numbers, numbers.attach() as worker:
            self.assertEqual((numbers.wait_pop(0), worker.wait_pop()), (5, 7))
            numbers.update((10, 20, 30, 40))
            self.assertEqual((numbers.pop_first(below=11), worker.pop_last(minimum=40)), (10, 40))
            self.assertEqual(numbers.pop_first_many(9, below=30), [20])
            self.assertEqual((worker.pop_first_many(0), worker.wait_pop(0, below=31)), ([], 30))
            for call in (numbers.pop_first, numbers.pop_last):
                self.assertRaises(KeyError, call, 5)
            self.assertRaises(KeyError, numbers.wait_pop, 0.01, below=3)
            for own in (numbers, worker):
                begun = time.monotonic()
                with self.assertRaisesRegex(KeyError, "no key was added in time"):
                    own.wait_pop(0.05)
                self.assertGreaterEqual(time.monotonic() - begun, 0.05)
            with self.assertRaises(KeyError):
                numbers.wait_pop(0)

    def test_a_look_waits_for_a_lesser_key(self) -> None:
        with Set() as numbers, numbers.attach() as worker:
            found: list[Optional[int]] = []

            def fill() -> None:
                for key in (30, 21, 20):
                    time.sleep(0.03)
                    found.append(None)
                    numbers.add(key)
                time.sleep(0.03)
                numbers.add(5)

            begun = time.monotonic()
            self.assertIsNone(numbers.wait_first(0.05))
            self.assertGreaterEqual(time.monotonic() - begun, 0.05)
            ran(
                lambda: found.append(numbers.wait_first(60, below=20)),
                lambda: found.append(worker.wait_first(below=20)),
                fill,
            )
            self.assertEqual((found, len(numbers)), ([None] * 3 + [5] * 2, 4))
            self.assertEqual((numbers.wait_first(), worker.wait_first(0)), (5, 5))
            self.assertIsNone(numbers.wait_first(0, below=5))

    def test_each_key_is_taken_once(self) -> None:
        numbers, taken = Set(), [0] * 1_000

        def take() -> None:
            for _ in range(500):
                taken[numbers.wait_pop(60)] += 1

        def fill(first: int) -> None:
            for key in range(first, 1_000, 2):
                numbers.add(key)

        ran(take, take, lambda: fill(0), lambda: fill(1))
        self.assertEqual((taken, len(numbers)), ([1] * 1_000, 0))
        numbers.close()

    def test_a_close_ends_a_wait(self) -> None:
        numbers, ends = Set(), []

        def take() -> None:
            with self.assertRaises(nm_set.Closed):
                numbers.wait_pop()
            ends.append(True)

        def look() -> None:
            with self.assertRaises(nm_set.Closed):
                numbers.wait_first()
            ends.append(True)

        def close() -> None:
            time.sleep(0.05)
            numbers.close()

        ran(take, look, close)
        self.assertEqual(ends, [True, True])


if __name__ == "__main__":
    unittest.main()

"""Threads on one set: what they were answered adds up to the report."""

import os
import random
import sys
import threading
import time
import unittest
from typing import Callable, Union

import nm_set
from nm_set import Set, Options, Worker

THREADS, KEYS, CALLS = 4, 64, 2_000
ROUNDS = int(os.environ.get("NM_SET_ROUNDS", "25"))  # of a close beside others
Calls = Union[Set, Worker]


def answered(call: Callable[[int], bool], key: int) -> bool:
    """Makes a call until it has answered. A discard that has begun counts, since its key will
    go."""
    while True:
        try:
            return call(key)
        except (nm_set.Full, nm_set.Contention):
            pass
        except nm_set.Unfinished:
            return True


def work(calls: Calls, seed: int) -> list[int]:
    """Of each key how often it was added, less how often it was discarded."""
    balance, drawn = [0] * KEYS, random.Random(seed)
    for _ in range(CALLS):
        key, kind = drawn.randrange(KEYS), drawn.randrange(4)
        if kind == 0:
            balance[key] += answered(calls.add, key)
        elif kind == 1:
            balance[key] -= answered(calls.discard, key)
        else:
            answered(calls.__contains__, key)
    return balance


def at_once(play: Callable[[int], None], threads: int = THREADS) -> None:
    """Runs a function in so many threads, which begin at the same time, and raises what one of them
    raised."""
    begin, faults = threading.Barrier(threads), []

    def run(number: int) -> None:
        begin.wait()
        try:
            play(number)
        except BaseException as error:  # handed to the caller below
            faults.append(error)

    running = [threading.Thread(target=run, args=(number,)) for number in range(threads)]
    for thread in running:
        thread.start()
    for thread in running:
        thread.join()
    if faults:
        raise faults[0]


class Threads(unittest.TestCase):
    def setUp(self) -> None:
        self.addCleanup(sys.setswitchinterval, sys.getswitchinterval())
        sys.setswitchinterval(1e-5)

    def adds_up(self, numbers: Set, nodes: int, balances: list[list[int]]) -> None:
        """The report has the keys that the balances leave, and each slot once."""
        self.assertEqual(len(balances), THREADS)
        report = numbers.close()
        for key in range(KEYS):
            balance = sum(of[key] for of in balances)
            self.assertEqual(balance, int(key in report), f"key {key}")
        self.assertEqual(report.reached, 2 * len(report))
        self.assertEqual(report.free + report.reached + sum(map(len, report.waiting)), nodes - 5)

    def play(self, nodes: int, numbers: Set, is_attached: bool) -> None:
        balances: list[list[int]] = []

        def thread(seed: int) -> None:
            if is_attached:
                with numbers.attach() as worker:
                    balances.append(work(worker, seed))
            else:
                balances.append(work(numbers, seed))

        at_once(thread)
        self.adds_up(numbers, nodes, balances)

    def test_threads_with_workers_add_up(self) -> None:
        self.play(1_024, Set(1_024), True)

    def test_threads_without_workers_add_up(self) -> None:
        self.play(1_024, Set(1_024), False)

    def test_threads_add_up_where_room_is_scarce_and_tries_are_few(self) -> None:
        options = Options(tries=1, rounds=4, collect_after=16)
        self.play(256, Set(256, workers=5, options=options), True)
        self.play(256, Set(256, workers=5, options=options), False)

    def test_threads_attach_themselves_at_once(self) -> None:
        with Set(1_024) as numbers:
            taken, all_have = [], threading.Barrier(THREADS)

            def thread(_: int) -> None:
                with numbers.attach() as worker:
                    taken.append(worker.number)
                    all_have.wait()

            at_once(thread)
        self.assertEqual(sorted(taken), [0, 1, 2, 3])

    def test_more_threads_than_workers_wait_for_one(self) -> None:
        with Set(4_096, workers=2) as numbers:

            def thread(number: int) -> None:
                for key in range(number * 5, number * 5 + 5):
                    self.assertTrue(numbers.add(key))
                with numbers.attach() as worker:
                    for key in range(number * 5, number * 5 + 4):
                        self.assertTrue(key in worker and worker.discard(key))

            at_once(thread, 200)
            self.assertEqual(len(numbers), 200)
        self.assertEqual(numbers.report.keys, tuple(range(4, 1_000, 5)))

    def test_a_call_waits_for_a_worker_that_is_pinned(self) -> None:
        options = Options(timeout_ms=10_000)
        with Set(64, workers=1, options=options) as numbers:
            taken, may_end, told = threading.Event(), threading.Event(), []

            def hold() -> None:
                with numbers.attach() as worker:
                    worker.add(5)
                    worker.pin()
                    taken.set()
                    may_end.wait()

            holder = threading.Thread(target=hold)
            asker = threading.Thread(target=lambda: told.append(5 in numbers))
            holder.start()
            taken.wait()
            asker.start()
            words = "each of the 1 workers of the set \\(64 at most\\) is attached or in a call"
            for waits in ({"blocking": False}, {"timeout": 0}, {"timeout": 0.05}):
                with self.assertRaisesRegex(nm_set.NoWorker, words):
                    numbers.attach(**waits)  # type: ignore[arg-type]
            for wrong in ({"blocking": False, "timeout": 1}, {"timeout": -2}):
                with self.assertRaises(ValueError):
                    numbers.attach(**wrong)  # type: ignore[arg-type]
            self.assertEqual(told, [])
            may_end.set()
            holder.join()
            asker.join()
            self.assertEqual(told, [True])

    def test_a_thread_that_has_each_worker_itself_is_told(self) -> None:
        numbers = Set(64, workers=2, options=Options(timeout_ms=30))
        words = "each of the 2 workers of the set \\(64 at most\\) is attached or in a call"
        with numbers.attach() as first, numbers.attach() as second:
            with self.assertRaisesRegex(nm_set.NoWorker, words):
                numbers.attach()
            self.assertTrue(numbers.add(6))
            first.pin(), second.pin()
            for call in (numbers.attach, lambda: numbers.add(5), lambda: list(numbers)):
                with self.assertRaisesRegex(nm_set.NoWorker, words):
                    call()
        self.assertTrue(numbers.add(5))

    def test_threads_that_have_all_workers_call_the_set(self) -> None:
        with Set(4_096, workers=THREADS, options=Options(tries=2, rounds=1)) as numbers:
            balances, all_have = [[], [], [], []], threading.Barrier(THREADS)
            some = range(1_000, 2_000)

            def thread(number: int) -> None:
                with numbers.attach() as worker:
                    all_have.wait()
                    balances[number] = [
                        sum(both) for both in zip(work(worker, number), work(numbers, number + 9))
                    ]
                    mine = some[number::THREADS]
                    self.assertFalse(any(numbers.contains_many(mine)))
                    self.assertEqual(numbers.add_many(mine), len(mine))
                    self.assertTrue(all(numbers.contains_many(mine)))
                    self.assertEqual(numbers.discard_many(mine), len(mine))
                    all_have.wait()

            at_once(thread)
            keys = [key for key in range(KEYS) if sum(of[key] for of in balances)]
            self.assertEqual((list(numbers), len(numbers)), (keys, len(keys)))

    def test_each_caller_beside_a_close_is_told_closed(self) -> None:
        for each in range(ROUNDS):
            numbers, told = Set(256, workers=5), []

            def thread(number: int) -> None:
                try:
                    while number != 0:
                        if number % 8 == 1:
                            with numbers.attach() as worker:
                                worker.add(number)
                        elif number % 4 == 2:
                            numbers.add_many([number, number + 20])
                        else:
                            numbers.add(number)
                            numbers.discard(number)
                    close(numbers)
                except nm_set.Fault as error:
                    told.append(error)

            at_once(thread, 17)
            kinds = {type(error) for error in told}
            self.assertEqual((len(told), kinds), (16, {nm_set.Closed}), f"round {each}: {told}")
            self.assertTrue(set(numbers.report) <= set(range(1, 40)))

    def test_a_close_counts_what_callers_were_told(self) -> None:
        for _ in range(20):
            numbers, added = Set(1_024), [0, 0, 0]

            def thread(number: int) -> None:
                if number == 2:
                    numbers.close()
                    return
                try:
                    for each in range(200):
                        added[number] += numbers.add(each * 2 + number)
                except nm_set.Closed:
                    pass

            at_once(thread, 3)
            self.assertEqual(len(numbers.report), sum(added))

    def test_an_add_waits_for_a_pin_that_ends(self) -> None:
        for timeout_ms, is_full in ((10_000, False), (0, True)):
            with Set(7, workers=2, options=Options(timeout_ms=timeout_ms)) as numbers:
                reader = numbers.attach()
                reader.pin()
                self.assertTrue(numbers.add(5) and numbers.discard(5))
                timer = threading.Timer(0.03, reader.close)
                timer.start()
                if is_full:
                    with self.assertRaises(nm_set.Full):
                        numbers.add_many([6])
                else:
                    self.assertEqual(numbers.add_many([6]), 1)
                timer.join()

    def test_each_key_is_popped_by_one_call_where_tries_are_few(self) -> None:
        """With one try and no further round many discards are left unfinished. Another thread asks
        the workers how full the set is, and collects, meanwhile."""
        count, options = 3_000, Options(tries=1, rounds=0)
        numbers, popped = Set(65_536, workers=6, options=options), [[], [], []]
        adding = {0, 1, 2}

        def thread(number: int) -> None:
            if number < 3:
                for each in range(count):
                    self.assertTrue(answered(numbers.add, each * 3 + number))
                adding.discard(number)
            elif number == 6:
                while adding:
                    numbers.waiting(), len(numbers), numbers.collect()
            elif number == 3:
                pop_all(numbers.pop_first, popped[0])
            else:
                with numbers.attach() as worker:
                    pop = worker.pop_first if number == 4 else worker.pop_last
                    pop_all(pop, popped[number - 3])

        def pop_all(pop: Callable[[], int], keys: list[int]) -> None:
            while True:
                was_last = not adding
                try:
                    keys.append(pop())
                except KeyError:
                    if was_last:
                        return
                    time.sleep(0)
                except nm_set.Contention:
                    pass

        at_once(thread, 7)
        self.assertEqual(sorted(sum(popped, [])), list(range(3 * count)))
        self.assertEqual(len(numbers.close()), 0)

    def test_scarce_nodes_are_waited_for(self) -> None:
        with Set(600, workers=16, options=Options(timeout_ms=10_000)) as numbers:
            faults = []

            def thread(number: int) -> None:
                drawn = random.Random(number)
                for _ in range(150):
                    try:
                        numbers.add_many(drawn.choices(range(200), k=50))
                    except nm_set.Full as error:
                        faults.append(error)
                    numbers.discard_many(drawn.choices(range(200), k=50))

            at_once(thread, 16)
            self.assertEqual(faults, [])


def close(numbers: Set) -> None:
    """Closes a set as soon as no worker is out."""
    while True:
        try:
            numbers.close()
            return
        except nm_set.Attached:
            time.sleep(0)


if __name__ == "__main__":
    unittest.main()

"""Exceptions that come in the middle of calls, handlers that close, and forked children."""

import os
import random
import signal
import subprocess
import sys
import threading
import time
import unittest
from typing import Callable

import interrupts
import nm_set
from nm_set import Set

Play = Callable[[], object]


class Interrupts(unittest.TestCase):
    def test_programs_end_by_one_interrupt(self) -> None:
        self.assertEqual(interrupts.programs(12), [])

    def test_nothing_is_left_behind_by_a_handler_that_raises(self) -> None:
        for name, kind in interrupts.KINDS.items():
            with self.subTest(name):
                self.assertEqual(interrupts.by_signals(kind, 600, random.Random(1)), [])

    def test_nothing_is_left_behind_by_an_exception_of_another_thread(self) -> None:
        for name, kind in interrupts.KINDS.items():
            with self.subTest(name):
                self.assertEqual(interrupts.by_another_thread(kind, 200, random.Random(2)), [])

    def test_what_is_left_behind_is_told(self) -> None:
        numbers = Set(interrupts.NODES)
        kept = numbers.worker(3)
        self.assertEqual(interrupts.left_behind(numbers, 0)[0], "worker 3 is out")
        kept.close()


class Handlers(unittest.TestCase):
    """A handler that makes calls in the middle of another one."""

    def interrupt(self, handler: Play, program: Callable[[Play], object], seconds: float) -> None:
        """Runs a program with a handler that is called so much later than the program says."""
        before = signal.signal(signal.SIGALRM, lambda *_: handler())
        try:
            program(lambda: signal.setitimer(signal.ITIMER_REAL, seconds))
        finally:
            signal.setitimer(signal.ITIMER_REAL, 0)
            signal.signal(signal.SIGALRM, before)

    def test_a_handler_closes_the_set(self) -> None:
        for each in range(60):
            numbers = Set(4_096)

            def calls(begin: Play) -> None:
                with self.assertRaisesRegex(nm_set.Closed, "the set is closed"):
                    begin()
                    while True:
                        numbers.add(5)
                        numbers.discard(5)
                        numbers.add_many(range(9))

            self.interrupt(numbers.close, calls, 0.0005 + each * 1e-5)
            self.assertEqual(numbers.close(), numbers.report)

    def test_a_handler_closes_a_worker(self) -> None:
        for each in range(60):
            with Set(4_096) as numbers:
                worker = numbers.attach()

                def calls(begin: Play) -> None:
                    with self.assertRaisesRegex(nm_set.Closed, "the worker is closed"):
                        begin()
                        while True:
                            worker.add(5)
                            worker.discard(5)

                self.interrupt(worker.close, calls, 0.0005 + each * 1e-5)
                self.assertTrue(numbers.add(7))

    def test_a_handler_that_closes_a_set_whose_worker_is_out_is_told(self) -> None:
        numbers = Set(4_096)
        with numbers.attach() as worker:

            def calls(begin: Play) -> None:
                with self.assertRaisesRegex(nm_set.Attached, "worker 0 is attached to a thread"):
                    begin()
                    while True:
                        worker.add(5)
                        worker.discard(5)

            self.interrupt(numbers.close, calls, 0.001)
            worker.add(6)
        self.assertIn(6, numbers.close())

    def test_a_handler_closes_a_set_that_is_being_closed(self) -> None:
        for each in range(60):
            numbers = Set(range(2_000), nodes=8_192)

            def close(begin: Play) -> None:
                begin()
                numbers.close()

            self.interrupt(numbers.close, close, 1e-5 + each * 1e-5)
            self.assertEqual(len(numbers.report), 2_000)

    def test_a_close_that_was_interrupted_is_gone_on_with(self) -> None:
        def stop() -> None:
            raise interrupts.Interrupt

        ended = 0
        for each in range(100):
            numbers = Set(range(2_000), nodes=8_192)
            numbers.discard_many(range(0, 2_000, 2))
            waiting, done = numbers.waiting(), []

            def close(begin: Play) -> None:
                try:
                    begin()
                    done.append(numbers.close())
                    time.sleep(0.1)  # until the signal comes
                except interrupts.Interrupt:
                    pass

            self.interrupt(stop, close, 1e-5 + each * 2e-5)
            ended += len(done)
            report = numbers.close()
            self.assertEqual(report.keys, tuple(range(1, 2_000, 2)))
            self.assertEqual(sum(map(len, report.waiting)), waiting)
            self.assertEqual(report.free + report.reached + waiting, 8_192 - 5)
        self.assertLess(ended, 100)


class Forks(unittest.TestCase):
    def child(self, program: Callable[[], int]) -> int:
        """What a forked child ends with, which runs a function."""
        number = os.fork()
        if number == 0:
            try:
                os._exit(program())
            finally:
                os._exit(99)
        return os.waitstatus_to_exitcode(os.waitpid(number, 0)[1])

    def test_a_forked_child_is_told(self) -> None:
        numbers = Set(4_096)
        numbers.add(5)
        worker = numbers.attach()
        calls = [lambda: numbers.add(6), lambda: 5 in numbers, lambda: numbers.at_least(0)]
        calls += [numbers.attach, lambda: numbers.worker(1), numbers.close, numbers.collect]
        calls += [lambda: len(numbers), lambda: numbers.add_many([1]), lambda: list(numbers)]
        calls += [lambda: worker.add(6), lambda: worker.contains_many([1]), worker.pin]
        calls += [worker.stats, worker.collect, lambda: repr(numbers)]

        def program() -> int:
            told = 0
            for call in calls:
                try:
                    call()
                except nm_set.Forked:
                    told += 1
            worker.close()
            with numbers:
                pass
            with Set([3], nodes=64) as own:
                return told if own == {3} else 98

        self.assertEqual(self.child(program), len(calls))
        self.assertTrue(worker.add(6))
        worker.close()
        self.assertEqual(numbers.close().keys, (5, 6))

    def test_a_child_that_was_forked_beside_threads_is_told(self) -> None:
        program = """
import os, sys, threading
import nm_set

numbers, ended = nm_set.Set(4_096), threading.Event()

def work():
    while not ended.is_set():
        numbers.add_many(range(500))
        numbers.discard_many(range(500))

threads = [threading.Thread(target=work) for _ in range(3)]
for thread in threads:
    thread.start()
for _ in range(20):
    child = os.fork()
    if child == 0:
        try:
            numbers.close()
        except nm_set.Forked:
            os._exit(0)
        os._exit(1)
    assert os.waitpid(child, 0)[1] == 0
ended.set()
for thread in threads:
    thread.join()
numbers.close()
"""
        words = [sys.executable, "-W", "ignore", "-c", program]
        subprocess.run(words, check=True, timeout=60)

    def test_threads_may_end_what_others_made(self) -> None:
        numbers, taken = Set(64, workers=1), []
        thread = threading.Thread(target=lambda: taken.append(numbers.attach()))
        thread.start()
        thread.join()
        with self.assertRaises(nm_set.NoWorker):
            numbers.attach(timeout=0.01)
        taken.pop().close()
        self.assertTrue(numbers.add(5))


if __name__ == "__main__":
    unittest.main()

"""Timers: threads set tasks for a time and cancel some of them, and workers run those that are due.
A task is the object of a key in a map, so no dictionary of tasks is needed.

A key is the microsecond at which a task is due, with a number in the low bits that makes it unique.
So the least key is the task that is due next. The thread that removes a key owns its task, and runs
or cancels it. A worker with nothing to run waits until the next task is due, or an earlier one is set.
"""

import itertools
import time
from collections.abc import Callable
from concurrent.futures import ThreadPoolExecutor
from contextlib import suppress

import nm_set

NUMBER_BITS = 20


def now() -> int:
    return time.monotonic_ns() // 1_000


class Timers:
    def __init__(self, tasks: int) -> None:
        self._due = nm_set.Map[Callable[[], None]](4 * tasks)
        self._numbers = itertools.count()

    def set(self, seconds: float, task: Callable[[], None]) -> int:
        """Sets a task, and returns its key."""
        number = next(self._numbers) % (1 << NUMBER_BITS)
        key = now() + int(seconds * 1e6) << NUMBER_BITS | number
        self._due.insert(key, task)
        return key

    def cancel(self, key: int) -> bool:
        """Returns False if the task has begun or ended; otherwise it will not run."""
        return self._due.pop(key, None) is not None

    def work(self) -> int:
        """Runs tasks that are due, until the shutdown, and returns how many. Several threads may
        call it."""
        ran = 0
        with suppress(nm_set.Closed):
            while True:
                try:
                    _, task = self._due.pop_first(below=now() + 1 << NUMBER_BITS)
                except KeyError:  # no task is due
                    self._wait_until_due()
                else:
                    task()
                    ran += 1
        return ran

    def _wait_until_due(self) -> None:
        """Waits until the next task is due, or an earlier one is set."""
        least = self._due.first()
        if least is None:
            self._due.wait_first()
        else:
            seconds = max((least[0] >> NUMBER_BITS) - now(), 0) / 1e6
            self._due.wait_first(seconds, below=least[0])

    def shut_down(self) -> int:
        """Ends the workers, also those that wait, and returns how many tasks are left."""
        left = len(self._due)
        self._due.close()
        return left


def produce(timers: Timers, count: int) -> int:
    """Sets some tasks, and cancels every fourth. Returns how many did not run because of that."""
    cancelled = 0
    for number in range(count):
        seconds = 3_600 if number % 10 == 9 else number * 37 % 20 / 1_000
        key = timers.set(seconds, lambda: None)
        cancelled += number % 4 == 0 and timers.cancel(key)
    return cancelled


timers = Timers(10_000)
with ThreadPoolExecutor() as threads:
    workers = [threads.submit(timers.work) for _ in range(2)]
    producers = [threads.submit(produce, timers, 1_000) for _ in range(3)]
    cancelled = sum(producer.result() for producer in producers)
    time.sleep(0.1)
    left = timers.shut_down()
    ran = sum(worker.result() for worker in workers)
print(f"{ran} tasks ran, {cancelled} were cancelled, {left} are left")
assert ran + cancelled + left == 3_000 and left >= 300

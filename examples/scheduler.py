"""A scheduler: threads queue tasks for a time and cancel some of them, workers run those that are
due, and a shutdown returns how many are left.

A key is the microsecond at which a task is due, with the task's number in the low bits. So the
least key is the task that is due next. The thread that removes a key owns its task, and runs or
cancels it. A set keeps no values with its keys: the tasks are in a dictionary, by their keys. A
worker with nothing to run waits until the next task is due, or an earlier one is queued.
"""

import itertools
import time
from collections.abc import Callable
from concurrent.futures import ThreadPoolExecutor
from contextlib import suppress

import nm_set

NUMBER_BITS = 20


def now() -> int:
    return time.monotonic_ns() // 1_000


class Scheduler:
    def __init__(self, tasks: int) -> None:
        self._due = nm_set.Set(4 * tasks)
        self._tasks: dict[int, Callable[[], None]] = {}
        self._numbers = itertools.count()

    def run_in(self, seconds: float, task: Callable[[], None]) -> int:
        """Queues a task, and returns its key."""
        number = next(self._numbers) % (1 << NUMBER_BITS)
        key = now() + int(seconds * 1e6) << NUMBER_BITS | number
        self._tasks[key] = task  # the thread that discards the key finds this
        self._due.add(key)
        return key

    def cancel(self, key: int) -> bool:
        """Returns False if the task has begun or ended; otherwise it will not run."""
        return self._due.discard(key) and self._tasks.pop(key) is not None

    def work(self) -> int:
        """Runs tasks that are due, until the shutdown, and returns how many. Several threads may
        call it."""
        ran = 0
        with suppress(nm_set.Closed):
            while True:
                try:
                    key = self._due.pop_first(below=now() + 1 << NUMBER_BITS)
                except KeyError:  # no task is due
                    self._wait_until_due()
                else:
                    self._tasks.pop(key)()
                    ran += 1
        return ran

    def _wait_until_due(self) -> None:
        """Waits until the next task is due, or an earlier one is queued."""
        key = self._due.first()
        seconds = None if key is None else max((key >> NUMBER_BITS) - now(), 0) / 1e6
        self._due.wait_first(seconds, below=key)

    def shut_down(self) -> int:
        """Ends the workers, also those that wait, and returns how many tasks are left."""
        return len(self._due.close())


def produce(scheduler: Scheduler, count: int) -> int:
    """Queues some tasks, and cancels every fourth. Returns how many did not run because of that."""
    cancelled = 0
    for number in range(count):
        seconds = 3_600 if number % 10 == 9 else number * 37 % 20 / 1_000
        key = scheduler.run_in(seconds, lambda: None)
        cancelled += number % 4 == 0 and scheduler.cancel(key)
    return cancelled


scheduler = Scheduler(10_000)
with ThreadPoolExecutor() as threads:
    workers = [threads.submit(scheduler.work) for _ in range(2)]
    producers = [threads.submit(produce, scheduler, 1_000) for _ in range(3)]
    cancelled = sum(producer.result() for producer in producers)
    time.sleep(0.1)
    left = scheduler.shut_down()
    ran = sum(worker.result() for worker in workers)
print(f"3000 tasks: {ran} ran, {cancelled} cancelled, {left} left")
assert ran + cancelled + left == 3_000 and left >= 300

"""Jobs with priorities: an event loop submits them and awaits their answers, and four threads run the
most urgent first.

A key is a priority and a number. Its object is the job: a function, and the future of its answer.
"""

import asyncio
import itertools
import threading
from collections.abc import Callable
from typing import Any

import nm_set

jobs: nm_set.MapOf = nm_set.MapOf(nm_set.pairs(8, 56))
numbers = itertools.count()


async def run(priority: int, function: Callable[..., Any], *arguments: Any) -> Any:
    """Submits a job; returns its answer."""
    answer = asyncio.get_running_loop().create_future()
    jobs.insert((priority, next(numbers)), (answer, function, arguments))
    return await answer


def work() -> None:
    """Runs jobs, until one has no function."""
    while jobs.wait_first():
        try:
            _, (answer, function, arguments) = jobs.pop_first()
        except KeyError:  # another thread has taken the job
            continue
        if function is None:
            return
        loop = answer.get_loop()
        try:
            loop.call_soon_threadsafe(answer.set_result, function(*arguments))
        except Exception as error:  # the function has raised it
            loop.call_soon_threadsafe(answer.set_exception, error)


async def main() -> None:
    submitted = (run(number % 3, pow, number, 2) for number in range(1_000))
    assert await asyncio.gather(*submitted) == [number**2 for number in range(1_000)]
    failed = await asyncio.gather(run(0, int, "one"), return_exceptions=True)
    assert isinstance(failed[0], ValueError)
    print("1,000 jobs ran")


threads = [threading.Thread(target=work) for _ in range(4)]
for thread in threads:
    thread.start()
asyncio.run(main())
for _ in threads:
    jobs.insert((255, next(numbers)), (None, None, ()))
for thread in threads:
    thread.join()

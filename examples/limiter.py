"""A rate limiter: a client may make 20 requests in a second, whichever threads serve it.

A key is a request: its client, its millisecond, and a number that makes it unique. So the requests
of a client in the last second are one range of the set. A thread adds a request before it counts
them. So two threads at the limit see each other, and no client gets more.
"""

import itertools
from concurrent.futures import ThreadPoolExecutor

import nm_set

WINDOW, LIMIT = 1_000, 20  # milliseconds, requests


class Limiter:
    def __init__(self) -> None:
        self._requests = nm_set.SetOf(nm_set.pairs(16, 32, 16))
        self._numbers = itertools.count()

    def allows(self, client: int, now: int) -> bool:
        """Returns whether a client may make a request now; then the request counts."""
        start = client, max(now + 1 - WINDOW, 0), 0
        self._requests.discard_range((client, 0, 0), start, (True, False))
        request = client, now, next(self._numbers) % 2**16
        self._requests.add(request)
        if self._requests.count_range(start, (client, now, 2**16 - 1)) <= LIMIT:
            return True
        self._requests.discard(request)
        return False

    def ask(self, client: int, now: int, requests: int) -> int:
        """Makes requests of a client; returns how many are allowed."""
        return sum(self.allows(client, now) for _ in range(requests))


limiter = Limiter()
print(f"at 0 ms: {limiter.ask(7, 0, 15)} of 15")
print(f"at 500 ms: {limiter.ask(7, 500, 15)} of 15")
print(f"at 1000 ms: {limiter.ask(7, 1_000, 30)} of 30")
print(f"another client: {limiter.ask(8, 1_000, 30)} of 30")
with ThreadPoolExecutor() as threads:
    answers = [threads.submit(limiter.ask, 9, 2_000, 30) for _ in range(4)]
    allowed = sum(answer.result() for answer in answers)
# Three other threads may each have a request in the set that is then refused.
assert 17 <= allowed <= 20, allowed
print("four threads: at most 20 of 120")

"""A rate limiter with a bucket for each client: 20 requests at once, and then one more every 50
milliseconds.

The object of a client is the time at which its bucket is full again. A request moves it, if no other
request has moved it meanwhile. A sweep removes full buckets, unless a request has moved their time.
"""

from concurrent.futures import ThreadPoolExecutor

import nm_set

GAP, MOST = 50, 20  # milliseconds, requests


class Limiter:
    def __init__(self, clients: int) -> None:
        self._full_at = nm_set.Map[int](nodes=4 * clients)

    def allows(self, client: int, now: int) -> bool:
        """Returns whether a client may make a request now; then the request counts."""
        while True:
            old = self._full_at.setdefault(client, now)
            full_at = max(old, now)
            if full_at - now > (MOST - 1) * GAP:
                return False
            if self._full_at.compare_replace(client, old, full_at + GAP):
                return True

    def ask(self, client: int, now: int, requests: int) -> int:
        """Makes requests of a client; returns how many are allowed."""
        return sum(self.allows(client, now) for _ in range(requests))

    def sweep(self, now: int) -> int:
        """Removes the clients whose buckets are full; returns how many."""
        full = ((client, time) for client, time in self._full_at.items() if time <= now)
        return sum(self._full_at.compare_remove(client, time) for client, time in full)


limiter = Limiter(1_000)
print(f"at 0 ms: {limiter.ask(7, 0, 30)} of 30")
print(f"at 250 ms: {limiter.ask(7, 250, 30)} of 30")
with ThreadPoolExecutor(4) as threads:
    allowed = sum(threads.map(lambda _: limiter.ask(8, 250, 30), range(4)))
print(f"four threads: {allowed} of 120")
print(f"removed at 1250 ms: {limiter.sweep(1_250)}, later: {limiter.sweep(2_000)}")

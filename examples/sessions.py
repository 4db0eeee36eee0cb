"""Sessions of a server: threads serve requests, each of which renews a session for 50 milliseconds,
and one thread ends the sessions that no request has renewed.

A key is the microsecond at which a session expires, with the session's number in the low bits. The
thread that discards a key owns the session until it adds the next key. So a session is renewed or
ended, and never both.
"""

import random
import threading
import time
from concurrent.futures import ThreadPoolExecutor

import nm_set

SESSIONS, SERVERS, REQUESTS = 1_000, 4, 5_000
NUMBER_BITS, LIFE = 16, 50_000


def now() -> int:
    return time.monotonic_ns() // 1_000


class Sessions:
    def __init__(self, count: int) -> None:
        self._expiring = nm_set.Set(16 * count)
        self._keys = [0] * count  # the key of each session; 0 after its end
        for number in range(count):
            self._live(number)

    def _live(self, number: int) -> None:
        """Lets a session live for a while from now on. This thread owns it."""
        key = now() + LIFE << NUMBER_BITS | number
        self._keys[number] = key
        self._expiring.add(key)

    def renew(self, number: int) -> bool:
        """Returns False if the session has ended, or if another thread renews it."""
        key = self._keys[number]
        if not key or not self._expiring.discard(key):
            return False
        self._live(number)
        return True

    def end_expired(self) -> int:
        """Ends the sessions that have expired, and returns how many."""
        ended = 0
        for key in self._expiring.irange(0, now() << NUMBER_BITS):
            if self._expiring.discard(key):  # otherwise it was renewed meanwhile
                self._keys[key % (1 << NUMBER_BITS)] = 0
                ended += 1
        return ended

    def close(self) -> int:
        """Returns how many sessions live at the end."""
        return len(self._expiring.close())


def serve(sessions: Sessions, seed: int) -> int:
    """Serves requests, but none for the last ten sessions. Returns how many sessions it renewed."""
    numbers = random.Random(seed)
    renewed = 0
    for request in range(REQUESTS):
        renewed += sessions.renew(numbers.randrange(SESSIONS - 10))
        if request % 50 == 0:
            time.sleep(0.001)
    return renewed


def expire(sessions: Sessions, is_closing: threading.Event) -> int:
    """Ends sessions that have expired, until the server closes. Returns how many."""
    ended = 0
    while not is_closing.wait(0.001):
        ended += sessions.end_expired()
    return ended


sessions, is_closing = Sessions(SESSIONS), threading.Event()
with ThreadPoolExecutor() as threads:
    expirer = threads.submit(expire, sessions, is_closing)
    servers = [threads.submit(serve, sessions, seed) for seed in range(SERVERS)]
    renewed = sum(server.result() for server in servers)
    is_closing.set()
    ended = expirer.result()
left = sessions.close()
print(f"{renewed} renewals, {ended} sessions ended, {left} live")
assert ended + left == SESSIONS and ended >= 10 and renewed > 0

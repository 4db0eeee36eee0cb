"""The calls for keys by ctypes; `_native` has the same calls in C.

The pool of the library finds a worker for each call. A call here first makes it without a wait, in
which other threads of Python wait. If its time is needed, it makes the call in parts, in which other
threads run, so that the handlers of signals run between two parts.
"""

from __future__ import annotations

import operator
import time
from collections.abc import Callable
from ctypes import c_size_t, c_ubyte, c_uint32, c_uint64, c_void_p
from typing import Any, Optional, SupportsIndex

from . import _library as c
from ._faults import MOST_KEY, fault_at, key_fault

_SEVERAL = 64  # the number of keys that one call of the library looks up
SOME = 256
"""The most keys of one call of a method named `.._some`."""
_PART = 20  # milliseconds: the longest part of a wait


def waited(call: Callable[[Any, int], int], timeout_ms: int) -> int:
    """Makes a call by a library, for at most some milliseconds; returns its last outcome. The first
    call does not wait, and other threads of Python wait meanwhile. The next ones are parts of the
    wait, in which they run. A part that ends before its time has its final outcome: the keys of a
    full set take all nodes."""
    outcome = call(c.quick, 0)
    begun = time.monotonic()
    end = begun + timeout_ms / 1_000
    while outcome in c.WAITED and begun < end:
        part = min(max(int((end - begun) * 1_000), 1), _PART)
        outcome = call(c.exports, part)
        if time.monotonic() - begun < part / 1_000:
            break
        begun = time.monotonic()
    return outcome


def least_within(
    name: str, pool: c_void_p, worker: c_uint32, below: int, end: float
) -> Optional[int]:
    """Makes the call of that name, `nm_pool_wait_pop` or `nm_pool_wait_first`, and returns the least
    key below a bound, or None if none comes until some time of `time.monotonic`. It waits in parts,
    in which other threads of Python run."""
    taken, outcome = c_uint64(), c.NO
    while outcome == c.NO or outcome in c.WAITED:
        left = end - time.monotonic()
        if left <= 0:
            break
        part = _PART if left * 1_000 >= _PART else int(left * 1_000) + 1
        outcome = getattr(c.exports, name)(pool, worker, below, taken, part)
    if outcome < 0 and outcome != c.UNFINISHED:
        raise fault_at(outcome, pool, worker.value)
    return None if outcome == c.NO else taken.value


def checked_key(key: SupportsIndex) -> int:
    """Returns the number of a key. Raises `OutOfRange` if it is none."""
    number = operator.index(key)
    if not 0 <= number <= MOST_KEY:
        raise key_fault(number)
    return number


class Calls:
    """The calls for keys by a pool and the number of a worker there, or `c.ANY`."""

    def __init__(self, pool: c_void_p, worker: c_uint32, timeout_ms: int) -> None:
        self._pool, self._worker, self._timeout_ms = pool, worker, timeout_ms

    def _outcome(self, name: str, *arguments: Any) -> int:
        """Makes a call of the pool, and waits if it must."""

        def call(library: Any, part: int) -> int:
            return int(getattr(library, name)(self._pool, self._worker, *arguments, part))

        return waited(call, self._timeout_ms)

    def _answered(self, outcome: int) -> bool:
        if outcome < 0:
            raise fault_at(outcome, self._pool, self._worker.value)
        return outcome != c.NO

    def contains(self, key: SupportsIndex) -> bool:
        return self._answered(self._outcome("nm_pool_contains", checked_key(key)))

    def add(self, key: SupportsIndex) -> bool:
        return self._answered(self._outcome("nm_pool_insert", checked_key(key)))

    def remove(self, key: SupportsIndex) -> bool:
        return self._answered(self._outcome("nm_pool_remove", checked_key(key)))

    def _nearest(self, name: str, key: SupportsIndex) -> Optional[int]:
        number, found = checked_key(key), c_uint64()
        return found.value if self._answered(self._outcome(name, number, found)) else None

    def at_least(self, key: SupportsIndex) -> Optional[int]:
        return self._nearest("nm_pool_next", key)

    def at_most(self, key: SupportsIndex) -> Optional[int]:
        return self._nearest("nm_pool_prev", key)

    def scan(
        self, first: int, below: int, room: int, is_back: bool
    ) -> tuple[list[int], Optional[int]]:
        """Reads keys that are not below `first` and are below another number, at most `room` of
        them: ascending, or descending if it goes back. Returns the keys, and where the next scan
        goes on: from that number on, or below it if it goes back. None: these are all the keys."""
        keys, count, rest = (c_uint64 * room)(), c_size_t(), c_uint64()
        name = "nm_pool_scan_back" if is_back else "nm_pool_scan"
        begin, end = (below, first) if is_back else (first, below)
        outcome = self._outcome(name, begin, end, keys, room, count, rest)
        has_more = self._answered(outcome)
        return list(keys[: count.value]), rest.value if has_more else None

    def count(self, first: int, below: int) -> int:
        """Returns how many keys are not below `first` and are below another number."""
        count = c_uint64()
        self._answered(self._outcome("nm_pool_count", first, below, count))
        return count.value

    def _taken(self, name: str, *bounds: int) -> Optional[int]:
        """Removes a key by a call of the pool, and returns it. It returns a key whose discard is
        unfinished too: this call will remove it, and no other call will."""
        taken = c_uint64()
        outcome = self._outcome(name, *bounds, taken)
        return taken.value if outcome == c.UNFINISHED or self._answered(outcome) else None

    def pop_first(self) -> Optional[int]:
        return self._taken("nm_pool_pop_first")

    def pop_last(self) -> Optional[int]:
        return self._taken("nm_pool_pop_last")

    def pop_first_below(self, below: int) -> Optional[int]:
        return self._taken("nm_pool_pop_first_below", below)

    def pop_last_from(self, least: int) -> Optional[int]:
        return self._taken("nm_pool_pop_last_from", least)

    def pop_some(self, below: int, room: int) -> list[int]:
        """Removes the least keys below a bound, at most `room`, and returns them."""
        keys, count = (c_uint64 * room)(), c_size_t()
        self._answered(self._outcome("nm_pool_pop_first_many", below, keys, room, count))
        return list(keys[: count.value])

    def contains_some(self, keys: memoryview, first: int, found: memoryview) -> int:
        """Looks up some of these keys, from an index on, and writes 1 or 0 for each. Returns how
        many keys it looked up."""
        wanted = keys[first : first + _SEVERAL]
        asked: Any = ((key, 0) for key in wanted)
        lookups = (c.LookupWords * max(len(wanted), 1))(*asked)
        self._answered(self._outcome("nm_pool_contains_many", lookups, len(wanted)))
        for at in range(len(wanted)):
            found[first + at] = lookups[at].found
        return len(wanted)

    def _some(
        self, name: str, keys: memoryview, first: int, answers: Optional[memoryview]
    ) -> tuple[int, int, int]:
        wanted, done = keys[first : first + SOME], c_size_t()
        words, told = (c_uint64 * len(wanted))(*wanted), (c_ubyte * len(wanted))()
        call = getattr(c.exports, name)
        outcome = call(self._pool, self._worker, words, len(wanted), told, done, 0)
        if answers is not None:
            answers[first : first + done.value] = bytes(told[: done.value])
        return done.value, sum(told[: done.value]), outcome

    def add_some(
        self, keys: memoryview, first: int, answers: Optional[memoryview]
    ) -> tuple[int, int, int]:
        """Adds some of these keys, from an index on, and writes 1 for each that was absent, if
        there is room for answers. Returns how many keys it tried, how many of them were absent, and
        the outcome of the next key, if that is below 0."""
        return self._some("nm_pool_insert_many", keys, first, answers)

    def remove_some(
        self, keys: memoryview, first: int, answers: Optional[memoryview]
    ) -> tuple[int, int, int]:
        """Removes some of these keys, in the way of `add_some`. It counts the keys that were
        present."""
        return self._some("nm_pool_remove_many", keys, first, answers)

    def keys(self) -> int:
        """Returns how many keys the set has."""
        keys = c_uint64()
        self._answered(c.quick.nm_pool_size(self._pool, keys))
        return keys.value


def first_wrong(keys: memoryview, is_signed: bool) -> int:
    """Returns the index of the first of these words that is no key, or -1."""
    view = keys.cast("B").cast("q") if is_signed else keys
    if not len(view) or (min(view) >= 0 and max(view) <= MOST_KEY):
        return -1
    return next(at for at, key in enumerate(view) if not 0 <= key <= MOST_KEY)


def answers(found: memoryview) -> list[bool]:
    """Returns for each byte whether it is not 0."""
    return [byte != 0 for byte in found]

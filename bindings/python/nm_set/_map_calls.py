"""The calls of a map by ctypes; `_native` has the same calls in C.

The library keeps an integer under each key, and says when nobody can read it any more. Here that
integer is a token: the key of a dict, in which the object is. So a reader makes two steps: it gets
the token from the library, and the object from the dict. The lock of the interpreter does not make
them one step, because other threads run between any two steps of Python. Without more, another
thread might remove the key in between, and take the object out of the dict. So the reader pins its
worker first, and unpins it after both steps. A token is not reclaimed while a worker is pinned
that may have got it, which is proved. This holds without the interpreter's lock too.

No pinned worker makes any other call. So a call that finds the nearest key, or reads a range, gets
tokens without a pin. No token is used again, so the dict has the object of the token or nothing:
then the key was removed meanwhile, and the call looks again.

A call that removes a key returns its object, but by then another worker may have reclaimed the
token. So there are two dicts. An entry of `_read` ends when the token is reclaimed, and an entry of
`_left` when the call that removed the key, or replaced its object, has taken it. Each entry ends
once, by one call, so no two calls need to agree. The object itself ends with the later one of the
two, like any object of Python.
"""

from __future__ import annotations

import itertools
import time
from collections import deque
from collections.abc import Callable
from contextlib import suppress
from ctypes import c_size_t, c_uint32, c_uint64, py_object, pythonapi
from typing import Any, Optional, SupportsIndex, TypeVar

from . import _library as c
from ._calls import checked_key
from ._faults import Contention, Fault
from ._keys import number_of
from ._leases import Owner, drop_with
from ._views import MISSING

T = TypeVar("T")

_ROOM = 64  # how many tokens one call reclaims
SCANNED = 1_024
"""The most keys of one scan, and of one look-up of several keys."""

# The calls that give a map an object, in the order of those of `_native`.
INSERT, PUT, REPLACE, REPLACE_IF = range(4)


class Wait:
    """Sleeps between the parts of a call that waits: 20 microseconds, and twice as long each time,
    up to a millisecond."""

    def __init__(self, seconds: float) -> None:
        self._end, self._pause = time.monotonic() + seconds, 0.00002

    def goes_on(self) -> bool:
        """Sleeps, and returns True; returns False if the time is over."""
        left = self._end - time.monotonic()
        if left <= 0:
            return False
        time.sleep(min(self._pause, left))
        self._pause = min(2 * self._pause, 0.001)
        return True


class _Worker:
    """A worker of a map, which is in one call or idle. If it is lost, because an exception came
    between two steps, the end of this object returns it to the map. `returned` has the tokens that
    were reclaimed during its call."""

    def __init__(self) -> None:
        self.handle, self.owner = c.Handle(), Owner()
        self.values, self.count, self.behind = (c_uint64 * _ROOM)(), c_uint64(), c_uint32()
        self.returned: list[int] = []
        drop_with(self.owner, self.handle)


class MapCalls:
    """What a map is made of: its keys and objects, its workers, and the calls of the library."""

    _is_open = _is_forked = False
    _waits = 0  # how many calls wait for a key
    _behind = c.NOBODY  # the worker that held others back in the last reclaim

    def _fault(self, outcome: int, key: int = 0) -> Fault:
        """Returns the exception of an outcome below 0, with the key that the call has found."""
        raise NotImplementedError

    def _give(
        self, kind: int, number: int, value: Any, expected: object = None
    ) -> tuple[int, Any]:
        """Gives the map an object, after a wait for nodes if none are free."""
        raise NotImplementedError

    def _begin(
        self, nodes: int, workers: int, tries: int, rounds: int, after: int, timeout_ms: int
    ) -> None:
        """Makes the empty map."""
        if self._is_open:
            raise TypeError("a map is made once")
        self._words = c.OptionsWords(tries, rounds, after)
        self._tokens = itertools.count()
        self._read: dict[int, Any] = {}
        self._left: dict[int, Any] = {}
        self._new: set[int] = set()  # the tokens of calls that give objects and have not ended
        self._replaced: set[int] = set()  # the tokens of replaced objects that wait, in one node each
        self._idle: deque[_Worker] = deque()
        self._timeout = timeout_ms / 1_000
        self._handle, self._owner = c.Handle(), Owner()
        drop_with(self._owner, self._handle)
        outcome = c.exports.nm_map_new(self._handle, nodes, workers)
        if outcome < 0:
            raise self._fault(outcome)
        self._is_open = True

    # ---- a worker for a call ----

    def _check_open(self) -> None:
        """Raises a fault if the map is closed, or was made by another process."""
        if self._is_forked or not self._is_open:
            raise self._fault(c.FORKED if self._is_forked else c.CLOSED)

    def _take(self) -> _Worker:
        """Returns a worker that is in no call, and attaches one if none is idle."""
        self._check_open()
        wait: Optional[Wait] = None
        while True:
            with suppress(IndexError):
                return self._idle.pop()
            worker = _Worker()
            outcome = c.quick.nm_map_wait_attach(self._handle, worker.handle, 0)
            if outcome == c.DONE:
                return worker
            wait = wait or Wait(self._timeout)
            if outcome != c.NO_WORKER or not wait.goes_on():
                raise self._fault(outcome)
            self._check_open()

    def _pin(self, worker: _Worker) -> None:
        """Pins a worker."""
        outcome = c.quick.nm_map_hold(worker.handle, self._words, c_uint64())
        if outcome < 0:
            raise self._fault(outcome)

    def _put_back(self, worker: _Worker) -> None:
        """Makes a worker idle that `_take` has returned, and unpins it. For tests."""
        c.quick.nm_map_unpin(worker.handle)
        self._idle.append(worker)

    def _with_worker(self, call: Callable[[_Worker], T]) -> T:
        """Makes a call by a worker, and then reclaims by it. The objects of these tokens end
        when the worker is idle again, because they may make calls of the map."""
        worker = self._take()
        try:
            made = call(worker)
            self._tend(worker)
        finally:
            tokens, worker.returned = worker.returned, []
            self._idle.append(worker)
            self._objects_of(tokens)
        return made

    # ---- what is reclaimed ----

    def _take_back(self, worker: _Worker, tokens: list[int]) -> None:
        """Appends the tokens that a worker reclaims."""
        count = _ROOM
        while count == _ROOM:
            c.quick.nm_map_reclaim(
                worker.handle, worker.values, _ROOM, worker.count, worker.behind
            )
            count, self._behind = worker.count.value, worker.behind.value
            tokens += worker.values[:count]

    def _tend(self, worker: _Worker) -> None:
        """Reclaims the tokens of a worker, if enough nodes wait with it."""
        waiting = c_uint64()
        c.quick.nm_map_queue_len(worker.handle, waiting)
        if waiting.value >= self._words.collect_after:
            self._take_back(worker, worker.returned)

    def _objects_of(self, tokens: list[int]) -> list[Any]:
        """Forgets tokens, and returns their objects. Their end may run any code, so the worker is
        idle again."""
        self._replaced.difference_update(tokens)
        return [self._read.pop(token, None) for token in tokens]

    def _reclaimed(self) -> list[Any]:
        """Reclaims by each worker that is idle. Returns the objects, to which the map does not
        refer any more."""
        self._check_open()
        tokens: list[int] = []
        for _ in range(len(self._idle)):
            with suppress(IndexError):
                worker = self._idle.popleft()
                try:
                    self._take_back(worker, tokens)
                finally:
                    self._idle.append(worker)
        return self._objects_of(tokens)

    # ---- one key ----

    def _found(self, worker: _Worker, key: int, token: Optional[c_uint64] = None) -> Any:
        """Returns the object of a key, or `MISSING`, under a pin of the worker. Writes its token."""
        token = c_uint64() if token is None else token
        try:
            self._pin(worker)
            outcome = c.quick.nm_map_get_pinned(worker.handle, key, token)
            if outcome < 0:
                raise self._fault(outcome)
            return self._read[token.value] if outcome == c.YES else MISSING
        finally:
            c.quick.nm_map_unpin(worker.handle)

    def _get(self, key: object) -> Any:
        """Returns the object of a key, or `MISSING`."""
        number = number_of(key)
        if number is None:
            self._check_open()
            return MISSING
        return self._with_worker(lambda worker: self._found(worker, number))

    def _get_some(self, keys: memoryview, default: Any) -> list[Any]:
        """Returns for each key, of the first 1,024 at most, its object or the default."""
        found = self._with_worker(lambda worker: self._found_many(worker, keys[:SCANNED]))
        return [default if each is MISSING else each for each in found]

    def _found_many(self, worker: _Worker, keys: memoryview) -> list[Any]:
        """Returns the objects of keys, under a pin of the worker."""
        lookups = (c.MapLookupWords * len(keys))(*((key,) for key in keys))
        try:
            self._pin(worker)
            outcome = c.quick.nm_map_get_many_pinned(worker.handle, lookups, len(keys))
            if outcome < 0:
                raise self._fault(outcome)
            return [self._read[each.value] if each.found else MISSING for each in lookups]
        finally:
            c.quick.nm_map_unpin(worker.handle)

    def __setitem__(self, key: SupportsIndex, value: Any) -> None:
        """Inserts a key with an object, or replaces the object that it has, in one step: no call
        finds the key absent meanwhile. It waits like `insert`. An insert takes two nodes, and a
        replacement one."""
        self._give(PUT, checked_key(key), value)

    def _change(self, kind: int, number: int, value: Any, expected: object) -> tuple[int, Any]:
        """Gives the map an object by one call of the library. Returns its outcome, and the object
        that was replaced or `MISSING`."""
        return self._with_worker(lambda by: self._changed(by, kind, number, value, expected))

    def _changed(
        self, worker: _Worker, kind: int, number: int, value: Any, expected: object
    ) -> tuple[int, Any]:
        token, old, found = next(self._tokens), c_uint64(), MISSING
        try:
            self._new.add(token)
            self._left[token] = self._read[token] = value  # before another call can find the token
            outcome = self._made(worker, kind, number, token, old, expected)
            if outcome == c.REPLACED:
                self._replaced.add(old.value)
                found = self._left.pop(old.value)
            elif outcome not in (c.YES, c.INSERTED):
                del self._left[token], self._read[token]
        finally:
            self._new.discard(token)
        return outcome, found

    def _made(
        self,
        worker: _Worker,
        kind: int,
        number: int,
        token: int,
        old: c_uint64,
        expected: object,
    ) -> int:
        """Makes a call of the library that gives a key a token; returns its outcome."""
        by, words = worker.handle, self._words
        if kind == INSERT:
            return int(c.quick.nm_map_insert(by, number, token, words))
        if kind == PUT:
            return int(c.quick.nm_map_put(by, number, token, words, old))
        if kind == REPLACE:
            return int(c.quick.nm_map_replace(by, number, token, words, old))
        was = c_uint64()
        found = self._found(worker, number, was)
        if found is not expected:
            return c.ABSENT if found is MISSING else c.OTHER
        return int(c.quick.nm_map_compare_replace(by, number, was.value, token, words, old))

    def _pop(self, key: object) -> Any:
        """Removes a key, and returns its object, or `MISSING`."""
        number = number_of(key)
        if number is None:
            self._check_open()
            return MISSING
        return self._with_worker(lambda worker: self._removed(worker, number))

    def _removed(self, worker: _Worker, key: int) -> Any:
        """Removes a key, and returns its object, or `MISSING`. It returns the object of a key
        whose remove is unfinished too, because this call will remove it and no other call will."""
        token = c_uint64()
        outcome = c.quick.nm_map_remove(worker.handle, key, self._words, token)
        return self._taken(outcome, token.value)

    def _taken(self, outcome: int, token: int) -> Any:
        """Returns the object of a token that a remove with this outcome has taken, or `MISSING`."""
        if outcome in (c.YES, c.UNFINISHED):
            return self._left.pop(token)
        if outcome < 0:
            raise self._fault(outcome)
        return MISSING

    def _remove_if(self, number: int, expected: object) -> bool:
        """Removes a key if it has an object; returns whether it did, also if the remove is
        unfinished."""
        return self._with_worker(lambda worker: self._removed_if(worker, number, expected))

    def _removed_if(self, worker: _Worker, key: int, expected: object) -> bool:
        was = c_uint64()
        if self._found(worker, key, was) is not expected:
            return False
        outcome = c.quick.nm_map_remove_if(worker.handle, key, was.value, self._words, c_uint64())
        return self._taken(outcome, was.value) is not MISSING

    # ---- in order ----

    def _pop_from(self, is_last: bool, bound: int) -> Optional[tuple[int, Any]]:
        """Removes the least key that is below a bound, or the greatest that is not below it.
        Returns it with its object, or None."""
        return self._with_worker(lambda worker: self._popped_by(worker, is_last, bound))

    def _popped_by(self, worker: _Worker, is_last: bool, bound: int) -> Optional[tuple[int, Any]]:
        pop = c.quick.nm_map_pop_last_from if is_last else c.quick.nm_map_pop_first_below
        key, token = c_uint64(), c_uint64()
        outcome = pop(worker.handle, bound, self._words, key, token)
        if outcome < 0:
            raise self._fault(outcome, key.value)
        return (key.value, self._left.pop(token.value)) if outcome == c.YES else None

    def _nearest(self, is_below: bool, number: int) -> Optional[tuple[int, Any]]:
        """Returns the least key that is not below a number, or the greatest that is not above it,
        with its object, or None."""
        return self._with_worker(lambda worker: self._nearest_by(worker, is_below, number))

    def _nearest_by(
        self, worker: _Worker, is_below: bool, number: int
    ) -> Optional[tuple[int, Any]]:
        """Looks again if the object is removed or replaced before it is read."""
        find = c.quick.nm_map_at_most if is_below else c.quick.nm_map_at_least
        key, token = c_uint64(), c_uint64()
        for _ in range(self._words.rounds + 1):
            outcome = find(worker.handle, number, self._words, key, token)
            if outcome < 0:
                raise self._fault(outcome)
            if outcome == c.NO:
                return None
            found = self._read.get(token.value, MISSING)
            if found is not MISSING:
                return key.value, found
        raise Contention("other threads changed the key in each round: call again")

    def _scan(
        self, first: int, below: int, room: int, is_back: bool
    ) -> tuple[list[int], Optional[int]]:
        """Returns keys of a range in an order, and where the next scan goes on, or None."""
        call = c.exports.nm_map_read_keys_back if is_back else c.exports.nm_map_read_keys
        entries, rest = self._scanned(call, c_uint64, first, below, room)
        return list(entries), rest

    def _scan_items(
        self, first: int, below: int, room: int, is_back: bool
    ) -> tuple[list[tuple[int, Any]], Optional[int]]:
        """Returns keys with their objects, in the same way. If an object is removed or replaced
        before it is read, it looks the key up again."""
        call = c.exports.nm_map_read_entries_back if is_back else c.exports.nm_map_read_entries
        entries, rest = self._scanned(call, c.EntryWords, first, below, room)
        items = []
        for entry in entries:
            found = self._read.get(entry.value, MISSING)
            if found is MISSING:
                found = self._get(entry.key)
            if found is not MISSING:
                items.append((entry.key, found))
        return items, rest

    def _scanned(
        self, call: Callable[..., int], kind: Any, first: int, below: int, room: int
    ) -> tuple[Any, Optional[int]]:
        """Returns what a scan has written, and where the next one goes on, or None."""
        entries, count, rest = (kind * room)(), c_size_t(), c_uint64()
        outcome = self._with_worker(
            lambda by: call(by.handle, first, below, entries, room, count, rest, self._words)
        )
        if outcome < 0:
            raise self._fault(outcome)
        return entries[: count.value], rest.value if outcome == c.YES else None

    def _count(self, first: int, below: int) -> int:
        """Returns how many keys of a range there are."""
        count = c_uint64()
        outcome = self._with_worker(
            lambda by: c.exports.nm_map_count(by.handle, first, below, count, self._words)
        )
        if outcome < 0:
            raise self._fault(outcome)
        return count.value

    # ---- of itself ----

    def __len__(self) -> int:
        """Returns how many keys the map has. It is exact if no thread makes a call meanwhile, and
        no exception of a signal handler has interrupted a call that changes the map."""
        self._check_open()
        return len(self._left)

    @property
    def _keys(self) -> int:
        """The number of keys, without those of calls that have not ended."""
        return max(len(self._left) - len(self._new), 0)

    def _waiting(self) -> int:
        """Returns how many nodes wait to be freed."""
        return max(2 * (len(self._read) - len(self._left)) - len(self._replaced), 0)

    # ---- the end ----

    def _end(self) -> int:
        """Ends the map, and its references to all objects, if no call is in progress. Returns the
        outcome."""
        with suppress(IndexError):
            while True:
                c.exports.nm_drop(self._idle.pop().handle)
        outcome = int(c.exports.nm_map_close(self._handle))
        if outcome == c.ATTACHED:
            return c.IN_USE
        # KIND or CLOSED: an earlier close was interrupted after it had ended the map.
        if outcome not in (c.DONE, c.KIND, c.CLOSED):
            return outcome
        c.exports.nm_drop(self._handle)
        self._read, self._left, self._replaced = {}, {}, set()
        return c.DONE

    def _forget(self) -> None:
        """In a forked child: gives up the handles, which belong to the parent, and keeps the
        objects for ever, so that no object of the parent ends there."""
        self._is_forked = True
        for worker in [*self._idle]:
            worker.handle.at = None
        self._handle.at = None
        for objects in (self._read, self._left):
            pythonapi.Py_IncRef(py_object(objects))

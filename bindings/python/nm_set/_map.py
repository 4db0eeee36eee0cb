"""The map: objects of Python under the integers 0 to 2^64 - 4.

`Map` is made of the calls of `MapCalls`, which are in C if they are built (`_native_map.c`), and
otherwise by ctypes (`_map_calls.py`). Each of them makes one call of the library, or a few. Here
are the calls that are made of several of them, and all that waits: for nodes, for a key, and for
the end of other calls.
"""

from __future__ import annotations

import math
import operator
import os
import threading
import time
import weakref
from collections.abc import Callable, Iterable, Iterator
from collections.abc import Mapping as AbstractMapping
from contextlib import suppress
from ctypes import create_string_buffer
from reprlib import recursive_repr
from types import TracebackType
from typing import TYPE_CHECKING, Any, Optional, SupportsIndex, TypeVar, Union, overload

from . import _library as c
from ._backend import is_native
from ._calls import checked_key
from ._faults import MOST_KEY, MOST_NODES, MOST_WORKERS, Contention, Fault, Forked, fault
from ._keys import NO_BOUND, bound_of, each_scanned, ends_of, number_of, scanned, words_of
from ._map_calls import INSERT, PUT, REPLACE, REPLACE_IF, SCANNED, Wait
from ._set import Options, narrow
from ._views import MISSING, Views, text_of

if TYPE_CHECKING or not is_native:
    from ._map_calls import MapCalls
else:
    from ._native import MapCalls, bind_map

    bind_map(c.address, MISSING, number_of)

V = TypeVar("V")
T = TypeVar("T")

_NODES = 65_536  # the nodes of a map for which no number is given, or four for each of its keys
_LONGEST = 10.0  # seconds: how long a close waits for calls in progress


# The maps that are open, for a forked child, which must not touch their memory.
_maps: weakref.WeakValueDictionary[int, Map[Any]] = weakref.WeakValueDictionary()


def _forget_all() -> None:
    """In a forked child: gives up the handles of all maps, whose memory stays taken there."""
    for each in list(_maps.values()):
        each._forget()


os.register_at_fork(after_in_child=_forget_all)


class Map(MapCalls, Views[int, V]):
    """A concurrent ordered map from the integers 0 to 2^64 - 4 to objects.

    Any thread may call it. Each call uses one of the map's workers that is in no other call. If
    each is in a call, the call waits for at most the `timeout_ms` of `Options`, and then raises
    `NoWorker`.

    A call for one key has one moment at which its answer was right, except where its description
    says that it is made of two steps. Iteration takes no snapshot: it goes over the keys in
    ascending order, while other threads add and remove. The map refers to an object from its insert
    until its key was removed and no call can return it any more. That is found by a later call that
    inserts or removes, by `collect`, or by `close`.
    """

    def __init__(
        self,
        entries: Union[
            AbstractMapping[Any, V], Iterable[tuple[SupportsIndex, V]], SupportsIndex
        ] = (),
        *,
        nodes: Optional[SupportsIndex] = None,
        workers: SupportsIndex = 16,
        options: Options = Options(),
    ) -> None:
        """Makes the map of these keys and objects: those of a mapping such as a dict, or of pairs.
        Or makes the empty map. It has room for 7 to 268,435,456 nodes, and never more: four for
        each key are usual. `Map(8_192)` and `Map(nodes=8_192)` have 8,192. If no number of nodes is
        given, there are four for each of these keys, and at least 65,536. `workers` is how many
        calls there can be at the same time, 1 to 64."""
        pairs: list[tuple[SupportsIndex, V]] = []
        if isinstance(entries, AbstractMapping):
            pairs = list(entries.items())
        elif isinstance(entries, Iterable):
            pairs = list(entries)
        elif nodes is None:
            nodes = operator.index(entries)
        else:
            raise TypeError("the number of nodes is given twice")
        if nodes is None:
            nodes = min(max(_NODES, 4 * len(pairs)), MOST_NODES)
        self._nodes = narrow(nodes, "nodes", 7, MOST_NODES)
        self._workers = narrow(workers, "workers", 1, MOST_WORKERS)
        self._seconds = options.timeout_ms / 1_000
        self._rounds = options.rounds
        after = options.collect_after
        if after is None:
            after = int(c.quick.nm_map_collect_after(self._nodes, self._workers))
        self._shown: Callable[[int], str] = str  # how a text shows a key
        # Of calls that wait for a key: what wakes them, and what changes then. `_waits` is how many
        # there are.
        self._added, self._changes = threading.Condition(), 0
        self._closer = threading.RLock()
        self._begin(
            self._nodes, self._workers, options.tries, options.rounds, after, options.timeout_ms
        )
        _maps[id(self)] = self
        for key, value in pairs:
            self[key] = value

    @classmethod
    def fromkeys(cls, keys: Iterable[SupportsIndex], value: Any = None) -> Map[Any]:
        """Returns a map of these keys, each with this object, like `dict.fromkeys`."""
        return cls((key, value) for key in keys)

    # ---- for its views ----

    @property
    def _raw(self) -> Map[V]:
        return self

    def _ends(self, minimum: Any, maximum: Any, inclusive: tuple[bool, bool]) -> tuple[int, int]:
        return ends_of(minimum, maximum, inclusive)

    def _number(self, key: object) -> Optional[int]:
        return number_of(key)

    def _from_number(self, number: int) -> int:
        return number

    # ---- faults ----

    def _fault(self, outcome: int, key: int = 0) -> Fault:
        """Returns the exception of an outcome below 0, with the key that the call has found."""
        if outcome == c.FORKED:
            return fault(outcome, "the map was made before this process was forked")
        if outcome in (c.KIND, c.CLOSED, c.CLOSING):  # the map was closed meanwhile
            return fault(c.CLOSED, "the map is closed")
        if outcome == c.NO_WORKER:
            return fault(outcome, f"each of the {self._workers} workers of the map is in a call")
        if outcome == c.FULL:
            return fault(outcome, self._full_words())
        if outcome == c.UNFINISHED:
            text = "will be removed by this call and no other, but its object is not known: the"
            text += " key is found until the next call by its worker"
            return fault(outcome, f"the key {self._shown(key)} {text}")
        return fault(outcome)

    def _full_words(self) -> str:
        """Returns how full the map is, in words."""
        words, text = c.FullnessWords(), create_string_buffer(640)
        numbers = self._nodes, self._keys, self._waiting(), self._behind
        c.quick.nm_map_fullness(*numbers, words)
        full: str = c.quick.nm_map_full_words(words, text, len(text)).decode()
        return full

    def collect(self) -> int:
        """Ends the map's references to all objects that no call can return any more, and returns
        how many these are. It skips workers that are in a call, and waits for nothing."""
        return len(self._reclaimed())

    # ---- one key ----

    @overload
    def get_many(self, keys: Iterable[SupportsIndex]) -> list[Optional[V]]: ...
    @overload
    def get_many(self, keys: Iterable[SupportsIndex], default: T) -> list[Union[V, T]]: ...
    def get_many(self, keys: Iterable[SupportsIndex], default: Any = None) -> Any:
        """Returns for each of these keys, in their order, its object, or the default. It tests all
        keys before it looks up the first one. Each key was looked up at a moment of its own. Keys
        in a buffer, such as array.array("Q") or a numpy array, are not copied."""
        words = words_of(keys)
        self._check_open()
        found: list[Any] = []
        for at in range(0, len(words), SCANNED):
            found += self._get_some(words[at:], default)
        return found

    def insert(self, key: SupportsIndex, value: V) -> bool:
        """Inserts a key with an object; returns True if the key was absent. Otherwise the key keeps
        its object. If no nodes are free it collects, and waits for at most the `timeout_ms` of
        `Options`: `Full`. If the keys take all nodes and no node waits, it raises `Full` at
        once."""
        return self._give(INSERT, checked_key(key), value)[0] == c.YES

    def replace(self, key: SupportsIndex, value: V) -> V:
        """Replaces the object that a key has, in one step, and returns it. No two calls return one
        object, unless the map got it again in between. Raises KeyError if the map does not have the
        key."""
        found = self._replace(checked_key(key), value)
        if found is MISSING:
            raise KeyError(key)
        return found  # type: ignore[no-any-return]

    def _replace(self, number: int, value: V) -> Any:
        """Replaces the object that a key has; returns it, or `MISSING`."""
        return self._give(REPLACE, number, value)[1]

    def compare_replace(self, key: SupportsIndex, expected: object, value: V) -> bool:
        """Replaces the object that a key has if it is the expected one or equals it. Returns whether
        it did: not if the map does not have the key. The objects are compared outside of the call
        of the library. If another thread replaces the object after that, this compares again, at
        most `rounds` of `Options` times, and then raises `Contention`."""
        number = checked_key(key)

        def replace(found: object) -> bool:
            return self._give(REPLACE_IF, number, value, found)[0] == c.REPLACED

        return self._compare(number, expected, replace)

    def compare_remove(self, key: SupportsIndex, expected: object) -> bool:
        """Removes a key if it has the expected object or one that equals it. Returns whether it did:
        not if the map does not have the key. It compares, and raises `Contention`, like
        `compare_replace`."""
        number = checked_key(key)
        return self._compare(number, expected, lambda found: self._remove_if(number, found))

    def _compare(self, number: int, expected: object, change: Callable[[object], bool]) -> bool:
        """Makes a change of a key that has the expected object or an equal one, which it passes to
        the change. Returns whether the change was made. If the key was changed in between, it
        compares again."""
        for _ in range(self._rounds + 1):
            found = self._get(number)
            if found is MISSING or (found is not expected and found != expected):
                return False
            if change(found):
                return True
        raise Contention("other threads changed the key in each round: call again")

    # ---- a call that gives the map an object ----

    def _give(
        self, kind: int, number: int, value: Any, expected: object = None
    ) -> tuple[int, Any]:
        """Gives the map an object, after a wait for nodes if none are free. Returns the outcome,
        and the object that was replaced or `MISSING`."""
        given = self._change(kind, number, value, expected)
        if given[0] == c.FULL:
            return self._give_later(kind, number, value, expected)
        return self._given(given)

    def _given(self, given: tuple[int, Any]) -> tuple[int, Any]:
        """Wakes the calls that wait for a key after an insert. Raises the fault of an error."""
        if given[0] in (c.YES, c.INSERTED) and self._waits:
            self._wake()
        if given[0] < 0:
            raise self._fault(given[0])
        return given

    def _give_later(
        self, kind: int, number: int, value: Any, expected: object
    ) -> tuple[int, Any]:
        """Repeats a call that found no nodes, after collections. It ends when the keys leave too
        few nodes before and after a repetition, even if none waits. What it collects ends with it.
        """
        wait, was_brimful = Wait(self._seconds), self._is_brimful(kind, number)
        ended: list[Any] = []
        while True:
            ended += self._reclaimed()
            given = self._change(kind, number, value, expected)
            if given[0] != c.FULL:
                return self._given(given)
            is_still, was_brimful = was_brimful, self._is_brimful(kind, number)
            if (is_still and was_brimful) or not wait.goes_on():
                return self._given(given)

    def _is_brimful(self, kind: int, number: int) -> bool:
        """Returns whether the keys leave a call too few nodes, even if none waits: an insert takes
        two, and a replacement one."""
        nodes, keys, is_brimful = self._nodes, self._keys, c.quick.nm_map_is_brimful
        return bool(
            is_brimful(nodes, keys, 2)
            and (
                is_brimful(nodes, keys, 1)
                or kind == INSERT
                or (kind == PUT and self._get(number) is MISSING)
            )
        )

    def setdefault(self, key: SupportsIndex, default: Any = None) -> Any:
        """Returns the object of a key, after an insert of the default if the key was absent. If
        another thread removes the key between the two, this starts again, at most `rounds` of
        `Options` times, and then raises `Contention`."""
        number = checked_key(key)
        for _ in range(self._rounds + 1):
            found = self._get(number)
            if found is not MISSING:
                return found
            if self.insert(number, default):
                return default
        raise Contention("other threads changed the key in each round: call again")

    @overload
    def pop(self, key: object) -> V: ...
    @overload
    def pop(self, key: object, default: T) -> Union[V, T]: ...
    def pop(self, key: object, default: Any = MISSING) -> Any:
        """Removes a key, and returns the object that it had. No two calls return one object, unless
        it was inserted again in between. If the map does not have the key, it returns the default,
        or raises KeyError if none is given."""
        found = self._pop(key)
        if found is not MISSING:
            return found
        if default is MISSING:
            raise KeyError(key)
        return default

    def pop_first(self, below: Optional[SupportsIndex] = None) -> tuple[int, V]:
        """Removes the least key and returns it with its object: of all keys, or of those below a
        bound. Raises KeyError if there is none. No two calls return one key, unless it was inserted
        again in between. No call passes over a key that was in the map during the whole call.

        Raises `Unfinished` if the bound of the call is reached after it has begun to remove a key.
        No other call removes that key, which is found until the next call by the same worker. Its
        object is not returned. By ctypes the map then refers to it, and `len` counts its key, until
        the map is closed."""
        bound = NO_BOUND if below is None else bound_of(below)
        return self._popped(False, bound)

    def pop_last(self, minimum: Optional[SupportsIndex] = None) -> tuple[int, V]:
        """Removes the greatest key and returns it with its object, in the way of `pop_first`: of
        all keys, or of those that are not below `minimum`."""
        bound = 0 if minimum is None else bound_of(minimum)
        return self._popped(True, bound)

    def _popped(self, is_last: bool, bound: int) -> tuple[int, V]:
        entry = self._pop_from(is_last, bound)
        if entry is None:
            raise KeyError("there is no key to pop")
        return entry

    def popitem(self) -> tuple[int, V]:
        """Removes the least key and returns it with its object, like `pop_first`."""
        return self.pop_first()

    def discard_range(
        self,
        minimum: Optional[SupportsIndex] = None,
        maximum: Optional[SupportsIndex] = None,
        inclusive: tuple[bool, bool] = (True, True),
    ) -> int:
        """Removes the keys from `minimum` to `maximum`, one by one; returns how many it removed. A key
        that is inserted meanwhile may remain."""
        keys = self.irange(minimum, maximum, inclusive)
        return sum(self._pop(key) is not MISSING for key in keys)

    def clear(self) -> None:
        """Removes all keys, one by one. A key that is inserted meanwhile may remain."""
        for key in self:
            self._pop(key)

    # ---- in order ----

    def at_least(self, key: SupportsIndex) -> Optional[tuple[int, V]]:
        """Returns the least key that is not below this one, with its object, or None if there is
        none."""
        return self._nearest(False, checked_key(key))

    def at_most(self, key: SupportsIndex) -> Optional[tuple[int, V]]:
        """Returns the greatest key that is not above this one, with its object, or None if there is
        none."""
        return self._nearest(True, checked_key(key))

    def first(self) -> Optional[tuple[int, V]]:
        """Returns the least key with its object, or None if the map is empty."""
        return self.at_least(0)

    def wait_first(
        self, timeout: Optional[float] = None, below: Optional[SupportsIndex] = None
    ) -> Optional[tuple[int, V]]:
        """Returns the least key of all, or of those below a bound, with its object, and removes
        nothing: another thread may remove the key at any time. If there is none it waits for a key:
        for `timeout` seconds, or without an end if no time is given. It sleeps meanwhile: each
        insert wakes it, and with another key it sleeps on. It also looks once a second. Returns
        None after that time. Raises `Closed` if the map is closed meanwhile."""
        bound = NO_BOUND if below is None else bound_of(below)
        end = math.inf if timeout is None else time.monotonic() + timeout
        self._check_open()
        with self._added:
            self._waits += 1
        try:
            while True:
                changes, least = self._changes, self.first()
                left = end - time.monotonic()
                if least is not None and least[0] < bound:
                    return least
                if left <= 0:
                    return None
                with self._added:
                    if changes == self._changes:
                        self._added.wait(min(left, 1))
        finally:
            with self._added:
                self._waits -= 1

    def _wake(self) -> None:
        """Wakes the calls that wait for a key."""
        with self._added:
            self._changes += 1
            self._added.notify_all()

    def last(self) -> Optional[tuple[int, V]]:
        """Returns the greatest key with its object, or None if the map is empty."""
        return self.at_most(MOST_KEY)

    def scan(
        self, minimum: SupportsIndex, count: SupportsIndex
    ) -> tuple[list[tuple[int, V]], Optional[int]]:
        """Returns the least keys that are not below `minimum` with their objects, at most `count`,
        and where the next scan goes on, or None if these are all. Up to 1,024 keys are read by one
        call of the library, unless other threads change the map during it. It takes no snapshot."""
        self._check_open()
        return scanned(self._scan_items, minimum, count)

    def irange(
        self,
        minimum: Optional[SupportsIndex] = None,
        maximum: Optional[SupportsIndex] = None,
        inclusive: tuple[bool, bool] = (True, True),
        reverse: bool = False,
    ) -> Iterator[int]:
        """Returns an iterator over the keys from `minimum` to `maximum`, ascending or descending.
        It reads keys ahead, in blocks of 8, 16 and so on to 512. A key that is in the map during the whole
        iteration is returned, and a key that is absent during all of it is not. If `minimum` is above
        `maximum` there are none, as with `range(9, 5)`."""
        self._check_open()
        return each_scanned(self._scan, *ends_of(minimum, maximum, inclusive), reverse)

    def items_range(
        self,
        minimum: Optional[SupportsIndex] = None,
        maximum: Optional[SupportsIndex] = None,
        inclusive: tuple[bool, bool] = (True, True),
        reverse: bool = False,
    ) -> Iterator[tuple[int, V]]:
        """Returns an iterator over the keys from `minimum` to `maximum` with their objects, in the
        way of `irange`. A key had this object at a moment while its block was read."""
        self._check_open()
        return each_scanned(self._scan_items, *ends_of(minimum, maximum, inclusive), reverse)

    def count_range(
        self,
        minimum: Optional[SupportsIndex] = None,
        maximum: Optional[SupportsIndex] = None,
        inclusive: tuple[bool, bool] = (True, True),
    ) -> int:
        """Returns how many keys there are from `minimum` to `maximum`. While others change the map,
        it counts each key as it finds it."""
        first, below = ends_of(minimum, maximum, inclusive)
        return self._count(min(first, NO_BOUND), max(below, 0))

    def __iter__(self) -> Iterator[int]:
        """Returns an iterator over the keys, ascending."""
        return self.irange()

    def __reversed__(self) -> Iterator[int]:
        """Returns an iterator over the keys, descending."""
        return self.irange(reverse=True)

    # ---- of itself ----

    def waiting(self) -> int:
        """Returns how many nodes wait to be freed: two for each removed key, and one for each
        replaced object, if the map still refers to its object. It is exact if no call is in
        progress."""
        self._check_open()
        return self._waiting()

    def free(self) -> int:
        """Returns how many nodes are free, computed from `len` and `waiting`. An insert takes two, and
        a replacement one."""
        return max(self._nodes - 5 - 2 * len(self) - self.waiting(), 0)

    @property
    def nodes(self) -> int:
        """The number of nodes for which it has room."""
        return self._nodes

    @property
    def capacity(self) -> int:
        """How many keys it can have if no removed node waits to be freed: (nodes - 5) / 2."""
        return (self._nodes - 5) // 2

    @property
    def workers(self) -> int:
        """How many workers it has."""
        return self._workers

    @recursive_repr()
    def __repr__(self) -> str:
        """Shows the first ten keys with their objects, and how many there are."""
        return text_of(self, self._can_be_read())

    def _can_be_read(self) -> bool:
        return self._is_open and not self._is_forked

    __hash__ = None  # type: ignore[assignment]

    def __copy__(self) -> Any:
        raise TypeError("a map is memory that threads share: dict(map.items()) copies what it has")

    def __deepcopy__(self, memo: object) -> Any:
        return self.__copy__()

    def __reduce__(self) -> Any:
        return self.__copy__()

    # ---- the end ----

    def close(self) -> None:
        """Ends the map, and its references to all objects. A closed map is unchanged. It waits for
        calls that other threads make at this moment, for ten seconds at most, and then raises
        `InUse`; then the map goes on. Calls that begin meanwhile raise `Closed`, and so does each
        later call. If an exception of a signal handler interrupts it, another close goes on."""
        with self._closer:
            if self._is_forked:
                raise self._fault(c.FORKED)
            self._is_open = False
            outcome = self._ended()
            if outcome < 0:
                self._is_open = True
                text = "calls of the map have not ended: close again"
                raise fault(outcome, text if outcome == c.IN_USE else None)
            self._wake()

    def _ended(self) -> int:
        """Ends the map, after a wait for the calls in progress. Returns the outcome."""
        wait = Wait(_LONGEST)
        while True:
            outcome = self._end()
            if outcome != c.IN_USE or not wait.goes_on():
                return outcome

    def __enter__(self) -> Map[V]:
        return self

    def __exit__(
        self,
        kind: Optional[type[BaseException]],
        error: Optional[BaseException],
        trace: Optional[TracebackType],
    ) -> None:
        """Closes the map. In a forked child this does nothing."""
        with suppress(Forked):
            self.close()

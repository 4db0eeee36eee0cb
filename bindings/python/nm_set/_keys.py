"""What a set and each of its workers have: the calls for keys, and the calls of a set of Python,
which are made of them."""

from __future__ import annotations

import math
import operator
import time
from array import array
from collections.abc import Callable, Iterable, Iterator, MutableSet, Sized
from collections.abc import Set as AbstractSet
from contextlib import suppress
from ctypes import c_uint32, c_void_p
from itertools import islice
from numbers import Number
from typing import Any, NoReturn, Optional, SupportsIndex, TypeVar, overload

from . import _library as c
from ._backend import Calls, answers, first_wrong
from ._calls import checked_key, least_within
from ._faults import MOST_KEY, SHOWN, Closed, fault, key_fault, shortened

_T = TypeVar("_T")
_Out = TypeVar("_Out", bound=Sized)  # a buffer, for which Python has a type only from 3.12 on
_UNSIGNED, _SIGNED = frozenset("QLN"), frozenset("qln")  # the formats of words of 64 bits
NO_BOUND = 2**64 - 1  # above each key
_FIRST_ROOM, _MOST_ROOM = 8, 512  # how many keys the first scan and the last scans of a loop read
_SCANNED = 1024  # the most keys of one call of the library


def number_of(key: object) -> Optional[int]:
    """Returns the key that equals an object, or None. Like a set of Python, it raises TypeError for
    an object that has no hash and is no set."""
    with suppress(TypeError):
        return _key_or_none(operator.index(key))  # type: ignore[arg-type]
    if not isinstance(key, AbstractSet):
        hash(key)
    if isinstance(key, Number):
        with suppress(TypeError, ValueError, OverflowError):
            number = int(key)  # type: ignore[call-overload]
            return _key_or_none(number) if number == key else None
    return None


def _key_or_none(number: int) -> Optional[int]:
    return number if 0 <= number <= MOST_KEY else None


def words_of(keys: Iterable[SupportsIndex]) -> memoryview:
    """Returns keys as adjacent words in memory, after a test of each key. It copies them, unless
    they are in a buffer of such words, like those of array.array("Q") and numpy."""
    try:
        view = memoryview(keys)  # type: ignore[arg-type]
    except TypeError:
        return _copied(keys)
    kind = view.format.lstrip("@")
    if view.ndim != 1 or not view.c_contiguous or kind not in _UNSIGNED | _SIGNED:
        return _copied(keys)
    words = _cast(view, "Q")
    wrong = first_wrong(words, kind in _SIGNED)
    if wrong >= 0:
        raise key_fault(view[wrong])
    return words


def _cast(view: memoryview, kind: str) -> memoryview:
    """Returns a view in another format. An empty view is unchanged, because it cannot be cast."""
    return view.cast("B").cast(kind) if view.nbytes else view


def _answers_of(out: Any, count: int) -> memoryview:
    """Returns a view of `out`, which has one byte for each of `count` keys."""
    room = _cast(memoryview(out), "B")
    if room.readonly:
        raise TypeError("the answers cannot be written: `out` is read-only")
    if len(room) != count:
        raise ValueError(f"there are {count} keys, and room for {len(room)} answers")
    return room


def _copied(keys: Iterable[SupportsIndex]) -> memoryview:
    return memoryview(array("Q", map(checked_key, keys)))


def bound_of(number: SupportsIndex) -> int:
    """Returns a bound of keys as the library takes it."""
    return min(max(operator.index(number), 0), NO_BOUND)


def _popped(key: Optional[int]) -> int:
    if key is None:
        raise KeyError("there is no key to pop")
    return int(key)


def ends_of(
    minimum: Optional[SupportsIndex], maximum: Optional[SupportsIndex], inclusive: tuple[bool, bool]
) -> tuple[int, int]:
    """Returns the least key of a range, and the number below which its keys are."""
    first = 0 if minimum is None else operator.index(minimum) + (not inclusive[0])
    last = MOST_KEY if maximum is None else operator.index(maximum) - (not inclusive[1])
    return max(first, 0), min(last, MOST_KEY) + 1


def each_scanned(
    scan: Callable[[int, int, int, bool], tuple[list[_T], Optional[int]]],
    first: int,
    below: int,
    is_back: bool,
) -> Iterator[_T]:
    """Yields what the scans of a range return, block by block. A scan gets the ends of the range
    that is left, how much it may read, and whether it goes back. It also returns where the next
    scan goes on, or None."""
    room = _FIRST_ROOM
    while first < below:
        read, rest = scan(first, below, room, is_back)
        yield from read
        if rest is None:
            return
        first, below = (first, rest) if is_back else (rest, below)
        room = min(2 * room, _MOST_ROOM)


def scanned(
    scan: Callable[[int, int, int, bool], tuple[list[_T], Optional[int]]],
    minimum: SupportsIndex,
    count: SupportsIndex,
) -> tuple[list[_T], Optional[int]]:
    """Returns what the scans from `minimum` on return, at most `count`, and where the next scan goes
    on, or None."""
    read: list[_T] = []
    room, rest = operator.index(count), _from(operator.index(minimum))
    while rest is not None and len(read) < room:
        block, rest = scan(rest, MOST_KEY + 1, min(room - len(read), _SCANNED), False)
        rest = None if rest is None else _from(rest)
        read += block
    return read, rest


def _from(number: int) -> Optional[int]:
    """Returns the least key that is not below a number, or None if there is none."""
    return max(number, 0) if number <= MOST_KEY else None


def _as_set(other: Iterable[Any]) -> AbstractSet[Any]:
    return other if isinstance(other, (set, frozenset)) else set(other)


class Keys(MutableSet):  # type: ignore[type-arg]
    """The keys of a set that threads share, with the calls of a set of Python.

    While other threads add and remove, a call that passes over several keys takes no snapshot: the
    answer for each key was right at a moment of the call, and two keys may have different moments.
    This holds for iteration, and for all that is made of it: comparisons, operators, `copy`,
    `clear` and the updates.
    """

    _calls: Calls
    _pool: c_void_p
    _cell: c_uint32

    # ---- one key ----

    def __contains__(self, key: object) -> bool:
        """Returns whether the set has a key. A value that is no key is in no set."""
        try:
            return self._calls.contains(key)  # type: ignore[arg-type]
        except Closed:
            raise
        except (TypeError, ValueError):
            number = number_of(key)
        return number is not None and self._calls.contains(number)

    def contains(self, key: object) -> bool:
        """Returns whether the set has a key, like `key in numbers`."""
        return key in self

    def add(self, key: SupportsIndex) -> bool:  # type: ignore[override]
        """Adds a key, 0 to 2^64 - 4; returns True if it was absent. If the set is full it waits for
        nodes, for at most the `timeout_ms` of `Options`. Raises `OutOfRange` or `TypeError` for a
        value that is no key, and `Full`."""
        return self._calls.add(key)

    def discard(self, key: object) -> bool:  # type: ignore[override]
        """Removes a key; returns True if it was present."""
        try:
            return self._calls.remove(key)  # type: ignore[arg-type]
        except Closed:
            raise
        except (TypeError, ValueError):
            number = number_of(key)
        return number is not None and self._calls.remove(number)

    def remove(self, key: object) -> None:
        """Removes a key. Raises KeyError if it was absent."""
        if not self.discard(key):
            raise KeyError(key)

    def at_least(self, key: SupportsIndex) -> Optional[int]:
        """Returns the least key of the set that is not below this one, or None if there is none. At
        a moment of the call the set had the key. For each key that was passed over there was a
        moment of the call at which the set did not have it. The moments of two keys may differ."""
        return self._calls.at_least(key)

    def at_most(self, key: SupportsIndex) -> Optional[int]:
        """Returns the greatest key of the set that is not above this one, or None if there is none,
        in the way of `at_least`."""
        return self._calls.at_most(key)

    # ---- several keys ----

    @overload
    def contains_many(self, keys: Iterable[SupportsIndex], out: None = None) -> list[bool]: ...
    @overload
    def contains_many(self, keys: Iterable[SupportsIndex], out: _Out) -> _Out: ...
    def contains_many(self, keys: Iterable[SupportsIndex], out: Any = None) -> Any:
        """Returns for each of these keys, in their order, whether the set has it: a list, or `out`
        if it is given. `out` is a buffer of one byte for each key, such as a `bytearray` or a numpy
        array; the call writes 1 or 0 into it. Each answer was right at a moment of the call. Keys
        in a buffer, such as array.array("Q") or a numpy array, are not copied. Other threads run
        meanwhile."""
        words = words_of(keys)
        found = _answers_of(bytearray(len(words)) if out is None else out, len(words))
        at = 0
        while at < len(words):
            at += self._calls.contains_some(words, at, found)
        return answers(found) if out is None else out

    def _change_many(self, keys: Iterable[SupportsIndex], name: str, out: Any = None) -> int:
        words, at, changed = words_of(keys), 0, 0
        found = None if out is None else _answers_of(out, len(words))
        if found is not None:
            found[:] = bytes(len(found))
        some, single = getattr(self._calls, f"{name}_some"), getattr(self._calls, name)
        while at < len(words):
            done, count, outcome = some(words, at, found)
            at, changed = at + done, changed + count
            if outcome in c.WAITED or outcome in (c.CLOSED, c.FORKED):
                is_changed = single(words[at])  # it waits, or raises the fault with its numbers
                if found is not None:
                    found[at] = is_changed
                at, changed = at + 1, changed + is_changed
            elif outcome < 0:
                raise fault(outcome)
        return changed

    def add_many(self, keys: Iterable[SupportsIndex], out: Any = None) -> int:
        """Adds these keys; returns how many were absent. It tests all keys before it adds the first
        one. `out` is a buffer of one byte for each key, like that of `contains_many`: the call
        writes 1 for each key that it added, else 0. If it raises `Full`, the keys before are added,
        and the rest of `out` is 0. Keys in a buffer are not copied. Other threads run meanwhile."""
        return self._change_many(keys, "add", out)

    def discard_many(self, keys: Iterable[SupportsIndex], out: Any = None) -> int:
        """Removes these keys; returns how many were present. In `out` the call writes 1 for each
        key that it removed, and that no other call did. See `add_many`."""
        return self._change_many(keys, "remove", out)

    # ---- in order ----

    def __iter__(self) -> Iterator[int]:
        """Returns an iterator over the keys, ascending, while the set is in use. It reads keys
        ahead, in blocks of 8, 16 and so on to 512, each by one call, in which other threads run. It may
        return or skip a key that is added or removed meanwhile. It returns no key that was removed
        before its block was read."""
        return self.irange()

    def irange(
        self,
        minimum: Optional[SupportsIndex] = None,
        maximum: Optional[SupportsIndex] = None,
        inclusive: tuple[bool, bool] = (True, True),
        reverse: bool = False,
    ) -> Iterator[int]:
        """Returns an iterator over the keys from `minimum` to `maximum`, in the way of `__iter__`:
        ascending, or descending if `reverse`. If `minimum` is above `maximum` there are none, as with
        `range(9, 5)`."""
        first, below = ends_of(minimum, maximum, inclusive)
        # The iterator refers to the set, which would close if nothing did.
        return each_scanned(lambda *read: self._calls.scan(*read), first, below, reverse)

    def scan(
        self, minimum: SupportsIndex, count: SupportsIndex
    ) -> tuple[list[int], Optional[int]]:
        """Returns the least keys that are not below `minimum`, at most `count`, and where the next
        scan goes on, or None if these are all. Up to 1,024 keys are read by one call of the library,
        in which other threads run, unless they change the set during it. It takes no snapshot."""
        return scanned(lambda *read: self._calls.scan(*read), minimum, count)

    def count_range(
        self,
        minimum: Optional[SupportsIndex] = None,
        maximum: Optional[SupportsIndex] = None,
        inclusive: tuple[bool, bool] = (True, True),
    ) -> int:
        """Returns how many keys there are from `minimum` to `maximum`. While others change the set,
        it counts each key as it finds it."""
        first, below = ends_of(minimum, maximum, inclusive)
        return self._calls.count(first, below) if first < below else 0

    def first(self) -> Optional[int]:
        """Returns the least key, or None if the set is empty."""
        return self.at_least(0)

    def last(self) -> Optional[int]:
        """Returns the greatest key, or None if the set is empty."""
        return self.at_most(MOST_KEY)

    def pop_first(self, below: Optional[SupportsIndex] = None) -> int:
        """Removes the least key and returns it: of all keys, or of those below a bound. Raises
        KeyError if there is none. No two calls return one key, unless it was added again in
        between. No call passes over a key that was in the set during the whole call."""
        if below is None:
            return _popped(self._calls.pop_first())
        return _popped(self._calls.pop_first_below(bound_of(below)))

    def pop_last(self, minimum: Optional[SupportsIndex] = None) -> int:
        """Removes the greatest key and returns it, in the way of `pop_first`: of all keys, or of
        those that are not below `minimum`."""
        if minimum is None:
            return _popped(self._calls.pop_last())
        return _popped(self._calls.pop_last_from(bound_of(minimum)))

    def pop_first_many(self, count: int, below: Optional[SupportsIndex] = None) -> list[int]:
        """Removes the least keys one by one, at most `count` and 512, and returns them: of all
        keys, or of those below a bound. It raises only if it has removed no key."""
        bound = bound_of(below) if below is not None else NO_BOUND
        return self._calls.pop_some(bound, min(count, _MOST_ROOM)) if count > 0 else []

    def wait_pop(
        self, timeout: Optional[float] = None, below: Optional[SupportsIndex] = None
    ) -> int:
        """Removes the least key and returns it: of all keys, or of those below a bound. If there is
        none it waits for a key: for `timeout` seconds, or without an end if no time is given. An
        add wakes it. Other threads run meanwhile, and the handlers of signals every 20
        milliseconds. Raises KeyError after that time, and `Closed` if the set is closed meanwhile.
        """
        bound = bound_of(below) if below is not None else NO_BOUND
        key = self._calls.pop_first_below(bound)
        if key is None:
            key = self._least_within("nm_pool_wait_pop", bound, timeout)
        if key is None:
            raise KeyError("no key was added in time")
        return int(key)

    def wait_first(
        self, timeout: Optional[float] = None, below: Optional[SupportsIndex] = None
    ) -> Optional[int]:
        """Returns the least key of all, or of those below a bound, and removes nothing: another
        thread may remove the key at any time. If there is none it waits like `wait_pop`, and each
        add wakes it: with another key it sleeps on. Returns None after that time. Raises `Closed`
        if the set is closed meanwhile."""
        bound = bound_of(below) if below is not None else NO_BOUND
        key = self.first()
        if key is not None and key < bound:
            return key
        return self._least_within("nm_pool_wait_first", bound, timeout)

    def _least_within(self, name: str, bound: int, timeout: Optional[float]) -> Optional[int]:
        end = math.inf if timeout is None else time.monotonic() + timeout
        return least_within(name, self._pool, self._cell, bound, end)

    def pop(self) -> int:
        """Removes the least key and returns it, like `pop_first`."""
        return self.pop_first()

    def __reversed__(self) -> Iterator[int]:
        """Returns an iterator over the keys, descending, in the way of `__iter__`."""
        return self.irange(reverse=True)

    def __bool__(self) -> bool:
        return self.at_least(0) is not None

    def __repr__(self) -> str:
        keys = list(islice(self, SHOWN + 1))
        return f"{type(self).__name__}({shortened(keys, len(self))})"

    # ---- the calls of a set of Python ----

    @classmethod
    def _from_iterable(cls, it: Iterable[Any]) -> set[Any]:
        """Returns what the operators make: a set of Python, because this class must be closed."""
        return set(it)

    def copy(self) -> set[int]:
        """Returns the keys in a set of Python."""
        return set(self)

    def discard_range(
        self,
        minimum: Optional[SupportsIndex] = None,
        maximum: Optional[SupportsIndex] = None,
        inclusive: tuple[bool, bool] = (True, True),
    ) -> int:
        """Removes the keys from `minimum` to `maximum`, one by one; returns how many it removed. A key
        that is added meanwhile may remain."""
        return sum(self.discard(key) for key in self.irange(minimum, maximum, inclusive))

    def clear(self) -> None:
        """Removes all keys. A key that is added meanwhile may remain."""
        for key in self:
            self.discard(key)

    def update(self, *others: Iterable[SupportsIndex]) -> None:
        """Adds the keys of all others. It tests all keys before it adds the first one."""
        for words in [words_of(other) for other in others]:
            self._change_many(words, "add")

    def union(self, *others: Iterable[Any]) -> set[Any]:
        """Returns a set of Python with the keys of this set and all others."""
        return set(self).union(*others)

    def intersection(self, *others: Iterable[Any]) -> set[int]:
        """Returns a set of Python with the keys that this set and all others have."""
        return set(self).intersection(*others)

    def difference(self, *others: Iterable[Any]) -> set[int]:
        """Returns a set of Python with the keys of this set that none of the others has."""
        return set(self).difference(*others)

    def symmetric_difference(self, other: Iterable[Any]) -> set[Any]:
        """Returns a set of Python with the keys that exactly one of the two has."""
        return set(self).symmetric_difference(other)

    def intersection_update(self, *others: Iterable[Any]) -> None:
        """Removes the keys that one of the others does not have."""
        kept = set(self).intersection(*others)
        for key in self:
            if key not in kept:
                self.discard(key)

    def difference_update(self, *others: Iterable[Any]) -> None:
        """Removes the keys of all others."""
        for other in others:
            for key in set(self) if other is self else other:
                self.discard(key)

    def symmetric_difference_update(self, other: Iterable[Any]) -> None:
        """Removes the keys of the other that this set has, and adds those that it does not have."""
        for key in _copied(set(other)):
            if not self.discard(key):
                self.add(key)

    def isdisjoint(self, other: Iterable[Any]) -> bool:
        """Returns whether the set has no key of the other."""
        return not any(key in self for key in other)

    def issubset(self, other: Iterable[Any]) -> bool:
        """Returns whether the other has each key of this set."""
        return set(self).issubset(other)

    def issuperset(self, other: Iterable[Any]) -> bool:
        """Returns whether this set has each key of the other."""
        return all(key in self for key in other)

    def __le__(self, other: object) -> bool:
        if not isinstance(other, AbstractSet):
            return NotImplemented
        return self.issubset(other)

    def __lt__(self, other: object) -> bool:
        if not isinstance(other, AbstractSet):
            return NotImplemented
        return set(self) < _as_set(other)

    def __ge__(self, other: object) -> bool:
        if not isinstance(other, AbstractSet):
            return NotImplemented
        return self.issuperset(other)

    def __gt__(self, other: object) -> bool:
        if not isinstance(other, AbstractSet):
            return NotImplemented
        return set(self) > _as_set(other)

    def __eq__(self, other: object) -> bool:
        if not isinstance(other, AbstractSet):
            return NotImplemented
        return self is other or set(self) == _as_set(other)

    __hash__ = None  # type: ignore[assignment]

    def __and__(self, other: object) -> set[int]:
        if not isinstance(other, AbstractSet):
            return NotImplemented
        return self.intersection(other)

    def __or__(self, other: object) -> set[Any]:
        if not isinstance(other, AbstractSet):
            return NotImplemented
        return self.union(other)

    def __xor__(self, other: object) -> set[Any]:
        if not isinstance(other, AbstractSet):
            return NotImplemented
        return self.symmetric_difference(other)

    def __sub__(self, other: object) -> set[int]:
        if not isinstance(other, AbstractSet):
            return NotImplemented
        return self.difference(other)

    def __rsub__(self, other: object) -> set[Any]:
        if not isinstance(other, AbstractSet):
            return NotImplemented
        return set(other) - set(self)

    __rand__, __ror__, __rxor__ = __and__, __or__, __xor__

    def __ior__(self: _T, other: object) -> _T:
        if not isinstance(other, AbstractSet):
            return NotImplemented
        self.update(other)  # type: ignore[attr-defined]
        return self

    def __iand__(self: _T, other: object) -> _T:
        if not isinstance(other, AbstractSet):
            return NotImplemented
        self.intersection_update(other)  # type: ignore[attr-defined]
        return self

    def __isub__(self: _T, other: object) -> _T:
        if not isinstance(other, AbstractSet):
            return NotImplemented
        self.difference_update(other)  # type: ignore[attr-defined]
        return self

    def __ixor__(self: _T, other: object) -> _T:
        if not isinstance(other, AbstractSet):
            return NotImplemented
        self.symmetric_difference_update(other)  # type: ignore[attr-defined]
        return self

    # ---- the calls that would copy the shared memory ----

    def _refuse(self, *_: object) -> NoReturn:
        raise TypeError(
            f"a {type(self).__name__} is shared memory of this process, which cannot be copied or"
            " pickled: copy() makes a set of Python with its keys"
        )

    __copy__ = __deepcopy__ = __reduce__ = __reduce_ex__ = _refuse

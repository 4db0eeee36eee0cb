"""Sets and maps whose keys are of another type than the integers 0 to 2^64 - 4.

A `Mapping` maps the values of a type to keys and back, and keeps their order. `SetOf` is a set of
such values, over a `Set`, and `MapOf` a map with such keys, over a `Map`.
"""

from __future__ import annotations

import math
import operator
import struct
from collections.abc import Callable, Iterable, Iterator, MutableSet
from collections.abc import Mapping as AbstractMapping
from contextlib import suppress
from dataclasses import dataclass
from itertools import islice
from reprlib import recursive_repr
from types import TracebackType
from typing import Any, Generic, Optional, SupportsIndex, TypeVar, Union

from ._faults import MOST_KEY, SHOWN, OutOfRange, shortened, shown, shown_value, value_fault
from ._keys import ends_of
from ._map import Map
from ._report import Report
from ._set import Set, SetStats, Stamp, Stats, Worker
from ._views import KeyCalls, text_of

T = TypeVar("T")
V = TypeVar("V")
_V = TypeVar("_V", bound="_Values[Any]")


@dataclass(frozen=True)
class Mapping(Generic[T]):
    """Maps values to keys and back: a lesser value has a lesser key."""

    to_key: Callable[[T], int]
    """Returns the key of a value, 0 to 2^64 - 4."""
    from_key: Callable[[int], T]
    """Returns the value of a key."""
    bits: int = 64
    """The number of bits of the keys, for `pairs`."""


def _checked(number: SupportsIndex, least: int, below: int) -> int:
    value = operator.index(number)
    if not least <= value < below:
        raise OutOfRange(f"the number is not {least:,} to {below - 1:,}: {shown(value)}")
    return value


def unsigned(bits: int = 64) -> Mapping[int]:
    """Returns the mapping of the integers from 0 on that have at most some bits."""
    return Mapping(lambda number: _checked(number, 0, 1 << bits), int, bits)


def signed(bits: int = 64) -> Mapping[int]:
    """Returns the mapping of the integers from -2^(bits - 1) on and below 2^(bits - 1). With 64
    bits, the three greatest ones are no keys (`OutOfRange`)."""
    half = 1 << (bits - 1)
    return Mapping(
        lambda number: _checked(number, -half, half) + half, lambda key: key - half, bits
    )


def floats(bits: int = 64) -> Mapping[float]:
    """Returns the mapping of the floats of 64 bits, or of 32, in their order: the infinities too. NaN
    is no key (`OutOfRange`), nor is a number that becomes another one as a float of these bits, such
    as 2**53 + 1. -0.0 and 0.0 are one key, which comes back as 0.0."""
    if bits not in (32, 64):
        raise ValueError(f"a float has 32 or 64 bits, and not {bits}")
    form, sign, mask = (">d" if bits == 64 else ">f"), 1 << (bits - 1), (1 << bits) - 1

    def to_key(number: float) -> int:
        with suppress(OverflowError):
            if math.isnan(number):
                raise OutOfRange(f"the value {number!r} is no key: it has no place in the order")
            word = struct.pack(form, number)
            if struct.unpack(form, word)[0] == number:
                key = int.from_bytes(word, "big")
                return sign if key == sign else key ^ (mask if key & sign else sign)
        value = shown(number) if isinstance(number, int) else repr(number)
        raise OutOfRange(f"the value {value} is no key: it is no float of {bits} bits")

    def from_key(key: int) -> float:
        key ^= sign if key & sign else mask
        found: float = struct.unpack(form, key.to_bytes(bits // 8, "big"))[0]
        return found

    return Mapping(to_key, from_key, bits)


def short_bytes(length: int = 8) -> Mapping[bytes]:
    """Returns the mapping of `bytes` of at most some length, 8 or less, in their order: b"a" is before
    b"ab". A zero byte at the end would be lost, so `bytes` that end with one are no keys
    (`OutOfRange`), nor are longer ones."""
    if not 1 <= length <= 8:
        raise ValueError(f"a key has 1 to 8 bytes, and not {length}")

    def to_key(value: bytes) -> int:
        if not isinstance(value, (bytes, bytearray)):
            raise TypeError(f"a key is bytes, and not {type(value).__name__}: encode it")
        why = f"it has {len(value)} bytes, and {length} are the most"
        if len(value) <= length:
            if not value.endswith(b"\0"):
                return int.from_bytes(value.ljust(length, b"\0"), "big")
            why = "its last byte is zero, which would be lost"
        raise OutOfRange(f"the value {shown_value(value)} is no key: {why}")

    return Mapping(to_key, lambda key: key.to_bytes(length, "big").rstrip(b"\0"), 8 * length)


def pairs(*parts: Union[int, Mapping[Any]]) -> Mapping[tuple[Any, ...]]:
    """Returns the mapping of tuples of these parts, which have 64 bits together at most: the first
    part decides, and then the next one. A number of bits is short for `unsigned(bits)`:
    `pairs(40, 24)` are a time in 40 bits and a number in 24."""
    maps = [part if isinstance(part, Mapping) else unsigned(part) for part in parts]
    bits = sum(each.bits for each in maps)
    if bits > 64:
        raise ValueError(f"the parts have {bits} bits together, and a key has 64")

    def to_key(values: tuple[Any, ...]) -> int:
        if len(values) != len(maps):
            raise ValueError(f"a key has {len(maps)} parts, and this value {len(values)}")
        key = 0
        for each, value in zip(maps, values):
            key = key << each.bits | each.to_key(value)
        return key

    def from_key(key: int) -> tuple[Any, ...]:
        values = []
        for each in reversed(maps):
            values.append(each.from_key(key & ((1 << each.bits) - 1)))
            key >>= each.bits
        return tuple(reversed(values))

    return Mapping(to_key, from_key, bits)


def _checked_mapping(key: Any) -> Any:
    """Returns a mapping. Raises TypeError for another object, with what to take in place of it."""
    if hasattr(key, "to_key") and hasattr(key, "from_key"):
        return key
    wanted = {"float": "floats()", "int": "signed()", "bytes": "short_bytes()", "tuple": "pairs(32, 32)"}
    usual = "unsigned(), signed(), floats(), short_bytes() or pairs(..)"
    name = wanted.get(getattr(key, "__name__", ""), usual)
    raise TypeError(f"{key!r} is no mapping of keys: write {name}, or make a Mapping of your own")


class _Ordered(Generic[T]):
    """The calls in order that a set, a worker and a map have, for keys of a type."""

    _of: Any
    """What has the keys: a `Set`, a `Worker` or a `Map`."""

    def __init__(self, mapping: Mapping[T]) -> None:
        self._mapping: Mapping[T] = _checked_mapping(mapping)

    def _key(self, value: T) -> int:
        """Returns the key of a value. Raises `OutOfRange`, with the value in its text, if there is
        none."""
        key = operator.index(self._mapping.to_key(value))
        if not 0 <= key <= MOST_KEY:
            raise value_fault(value, key)
        return key

    def _key_or_none(self, value: object) -> Optional[int]:
        """Returns the key of a value, or None: a value that has no key is in no set."""
        try:
            key = self._mapping.to_key(value)  # type: ignore[arg-type]
        except (TypeError, ValueError):
            return None
        return key if 0 <= key <= MOST_KEY else None

    def _end(self, value: Optional[T]) -> Optional[int]:
        """Returns an end of a range, which may be a value that has no key."""
        return None if value is None else self._mapping.to_key(value)

    def _entry(self, found: Any) -> Any:
        """Returns what a call has found with the value of its key."""
        return self._mapping.from_key(found)

    def _entry_or_none(self, found: Any) -> Any:
        return None if found is None else self._entry(found)

    def _key_of(self, entry: Any) -> T:
        """Returns the key of an entry."""
        key: T = entry
        return key

    def __exit__(
        self,
        kind: Optional[type[BaseException]],
        error: Optional[BaseException],
        trace: Optional[TracebackType],
    ) -> None:
        """Ends the `with` as the set, the worker or the map of keys does."""
        self._of.__exit__(kind, error, trace)

    def at_least(self, value: T) -> Any:
        """Returns the least key that is not below this one, or None if there is none. Of a map this
        and the following calls return the key with its object."""
        return self._entry_or_none(self._of.at_least(self._key(value)))

    def at_most(self, value: T) -> Any:
        """Returns the greatest key that is not above this one, or None if there is none."""
        return self._entry_or_none(self._of.at_most(min(self._mapping.to_key(value), MOST_KEY)))

    def first(self) -> Any:
        """Returns the least key, or None if there is none."""
        return self._entry_or_none(self._of.first())

    def last(self) -> Any:
        """Returns the greatest key, or None if there is none."""
        return self._entry_or_none(self._of.last())

    def pop_first(self, below: Optional[T] = None) -> Any:
        """Removes the least key and returns it: of all, or of those below a bound. Raises KeyError
        if there is none."""
        return self._entry(self._of.pop_first(self._end(below)))

    def pop_last(self, minimum: Optional[T] = None) -> Any:
        """Removes the greatest key and returns it: of all, or of those that are not below
        `minimum`. Raises KeyError if there is none."""
        return self._entry(self._of.pop_last(self._end(minimum)))

    def wait_first(self, timeout: Optional[float] = None, below: Optional[T] = None) -> Any:
        """Returns the least key, after a wait for one, and removes nothing: `Set.wait_first`."""
        return self._entry_or_none(self._of.wait_first(timeout, self._end(below)))

    def irange(
        self,
        minimum: Optional[T] = None,
        maximum: Optional[T] = None,
        inclusive: tuple[bool, bool] = (True, True),
        reverse: bool = False,
    ) -> Iterator[T]:
        """Returns an iterator over the keys from `minimum` to `maximum`: see `Set.irange`."""
        least, most = self._end(minimum), self._end(maximum)
        return map(self._mapping.from_key, self._of.irange(least, most, inclusive, reverse))

    def count_range(
        self,
        minimum: Optional[T] = None,
        maximum: Optional[T] = None,
        inclusive: tuple[bool, bool] = (True, True),
    ) -> int:
        """Returns how many keys there are from `minimum` to `maximum`: see `Set.count_range`."""
        count: int = self._of.count_range(self._end(minimum), self._end(maximum), inclusive)
        return count

    def scan(self, minimum: T, count: SupportsIndex) -> tuple[list[Any], Optional[T]]:
        """Returns at most `count` keys from one on, and where the next scan goes on, or None: see
        `Set.scan`. That is a key that there was, for which the scan reads one key more."""
        room = max(operator.index(count), 0)
        read, _ = self._of.scan(self._mapping.to_key(minimum), room + 1)
        found = [self._entry(each) for each in read]
        return found[:room], self._key_of(found[room]) if len(found) > room else None

    def __iter__(self) -> Iterator[T]:
        return self.irange()

    def __reversed__(self) -> Iterator[T]:
        return self.irange(reverse=True)

    def __len__(self) -> int:
        return len(self._of)

    def discard_range(
        self,
        minimum: Optional[T] = None,
        maximum: Optional[T] = None,
        inclusive: tuple[bool, bool] = (True, True),
    ) -> int:
        """Removes the keys from `minimum` to `maximum`; returns how many: see `Set.discard_range`."""
        ends = self._end(minimum), self._end(maximum)
        removed: int = self._of.discard_range(*ends, inclusive)
        return removed

    def clear(self) -> None:
        """Removes all keys. A key that is added meanwhile may remain."""
        self._of.clear()

    def __copy__(self) -> Any:
        return self._of.__copy__()

    def __deepcopy__(self, memo: object) -> Any:
        return self._of.__deepcopy__(memo)

    def __reduce__(self) -> Any:
        return self._of.__reduce__()

    __hash__ = None  # type: ignore[assignment]


class _Numbers:
    """The numbers of a set or a map."""

    _of: Any

    @property
    def nodes(self) -> int:
        """The number of nodes for which it has room."""
        nodes: int = self._of.nodes
        return nodes

    @property
    def capacity(self) -> int:
        """How many keys it can have if no removed node waits to be freed."""
        capacity: int = self._of.capacity
        return capacity

    @property
    def workers(self) -> int:
        """How many workers it has."""
        workers: int = self._of.workers
        return workers

    def waiting(self) -> int:
        """Returns how many removed nodes wait to be freed: see `Set.waiting`."""
        waiting: int = self._of.waiting()
        return waiting

    def free(self) -> int:
        """Returns how many nodes are free: see `Set.free`."""
        free: int = self._of.free()
        return free

    def collect(self) -> int:
        """Frees what has waited long enough, and returns how much: see `Set.collect`, and of a map
        `Map.collect`."""
        freed: int = self._of.collect()
        return freed


class _Values(_Ordered[T], MutableSet):  # type: ignore[type-arg]
    """The calls of a set and of a worker for values."""

    _of: Union[Set, Worker]

    @property
    def keys(self) -> Any:
        """The set or the worker of the keys."""
        return self._of

    def __enter__(self: _V) -> _V:
        return self

    def __contains__(self, value: object) -> bool:
        """Returns whether the set has a value. A value that has no key is in no set."""
        key = self._key_or_none(value)
        return key is not None and key in self._of

    def add(self, value: T) -> bool:  # type: ignore[override]
        """Adds a value; returns True if it was absent. See `Set.add`."""
        return self._of.add(self._key(value))

    def discard(self, value: T) -> bool:  # type: ignore[override]
        """Removes a value; returns True if it was present."""
        return value in self and self._of.discard(self._key(value))

    def contains(self, value: object) -> bool:
        """Returns whether the set has a value, like `value in numbers`."""
        return value in self

    def remove(self, value: T) -> None:
        """Removes a value. Raises KeyError if it was absent."""
        if not self.discard(value):
            raise KeyError(value)

    def contains_many(self, values: Iterable[T]) -> list[bool]:
        """Returns for each of these values, in their order, whether the set has it."""
        return self._of.contains_many([self._key(value) for value in values])

    def add_many(self, values: Iterable[T]) -> int:
        """Adds these values; returns how many were absent. See `Set.add_many`."""
        return self._of.add_many([self._key(value) for value in values])

    def discard_many(self, values: Iterable[T]) -> int:
        """Removes these values; returns how many were present. See `Set.discard_many`."""
        return self._of.discard_many([self._key(value) for value in values])

    def pop_first_many(self, count: int, below: Optional[T] = None) -> list[T]:
        """Removes the least values, at most `count`, and returns them: see `Set.pop_first_many`."""
        return list(map(self._mapping.from_key, self._of.pop_first_many(count, self._end(below))))

    def wait_pop(self, timeout: Optional[float] = None, below: Optional[T] = None) -> T:
        """Removes the least value and returns it, after a wait for one: see `Set.wait_pop`."""
        return self._mapping.from_key(self._of.wait_pop(timeout, self._end(below)))

    def pop(self) -> T:
        """Removes the least value and returns it, like `pop_first`."""
        value: T = self.pop_first()
        return value

    def update(self, *others: Iterable[T]) -> None:
        """Adds the values of all others."""
        for other in others:
            self._of.add_many([self._key(value) for value in other])

    def copy(self) -> set[T]:
        """Returns the values in a set of Python."""
        return set(self)

    def union(self, *others: Iterable[Any]) -> set[Any]:
        """Returns a set of Python with the values of this set and all others."""
        return set(self).union(*others)

    def intersection(self, *others: Iterable[Any]) -> set[T]:
        """Returns a set of Python with the values that this set and all others have."""
        return set(self).intersection(*others)

    def difference(self, *others: Iterable[Any]) -> set[T]:
        """Returns a set of Python with the values of this set that none of the others has."""
        return set(self).difference(*others)

    def symmetric_difference(self, other: Iterable[Any]) -> set[Any]:
        """Returns a set of Python with the values that exactly one of the two has."""
        return set(self).symmetric_difference(other)

    def intersection_update(self, *others: Iterable[Any]) -> None:
        """Removes the values that one of the others does not have."""
        for value in self.difference(self.intersection(*others)):
            self.discard(value)

    def difference_update(self, *others: Iterable[Any]) -> None:
        """Removes the values of all others."""
        for value in set().union(*others):
            self.discard(value)

    def symmetric_difference_update(self, other: Iterable[Any]) -> None:
        """Removes the values of the other that this set has, and adds those that it does not
        have."""
        for value in set(other):
            if not self.discard(value):
                self.add(value)

    def issubset(self, other: Iterable[Any]) -> bool:
        """Returns whether the other has each value of this set."""
        return set(self).issubset(other)

    def issuperset(self, other: Iterable[Any]) -> bool:
        """Returns whether this set has each value of the other."""
        return all(value in self for value in other)

    @classmethod
    def _from_iterable(cls, it: Iterable[Any]) -> set[Any]:
        """Returns what the operators make: a set of Python."""
        return set(it)

    def _is_open(self) -> bool:
        return self._of.is_open() if isinstance(self._of, Worker) else not self._of._is_closed()

    def __repr__(self) -> str:
        """Shows the first ten values, and how many there are."""
        if not self._is_open():
            return f"{type(self).__name__}(closed)"
        values = list(islice(self, SHOWN + 1))
        return f"{type(self).__name__}({shortened(values, len(self))})"


class WorkerOf(_Values[T]):
    """A `Worker` of a `SetOf`. `keys` is the worker of the keys."""

    def __init__(self, keys: Worker, mapping: Mapping[T]) -> None:
        super().__init__(mapping)
        self._of = keys

    @property
    def _worker(self) -> Worker:
        assert isinstance(self._of, Worker)
        return self._of

    @property
    def number(self) -> int:
        """Its number in the set."""
        return self._worker.number

    def is_open(self) -> bool:
        """Returns whether it was not closed."""
        return self._worker.is_open()

    def pin(self, tries: SupportsIndex = 64) -> int:
        """Pins the epoch until `unpin`, and returns it: see `Worker.pin`."""
        return self._worker.pin(tries)

    def unpin(self) -> None:
        """Ends the pin."""
        self._worker.unpin()

    def collect(self) -> int:
        """Frees what has waited long enough in its queue; returns how many nodes."""
        return self._worker.collect()

    def pending(self) -> Optional[T]:
        """Returns the value of an unfinished remove, or None."""
        pending: Optional[T] = self._entry_or_none(self._worker.pending())
        return pending

    def queue_len(self) -> int:
        """Returns the number of nodes that wait in its queue."""
        return self._worker.queue_len()

    def stats(self) -> Stats:
        """Returns what it has won, and what became of the nodes that it cut off."""
        return self._worker.stats()

    def publish(self) -> Stamp:
        """Publishes a stamp of all that it has seen: see `Worker.publish`."""
        return self._worker.publish()

    def observe(self, number: SupportsIndex) -> Optional[Stamp]:
        """Observes the stamp of the worker of a number: see `Worker.observe`."""
        return self._worker.observe(number)

    def close(self) -> None:
        """Returns the worker to its set."""
        self._worker.close()


class SetOf(_Numbers, _Values[T]):
    """A set of the values of a type, by a `Mapping`: `signed()`, `floats()`, `short_bytes()`,
    `pairs(32, 32)`, or one of the program's own. `keys` is the `Set` of their keys."""

    def __init__(self, key: Mapping[T], iterable: Iterable[T] = (), **options: Any) -> None:
        """Makes the set of these values; `key` maps them to keys and back. The options are those of
        `Set`, such as `nodes`."""
        super().__init__(key)
        self._of = Set(map(self._key, iterable), **options)

    @property
    def _set(self) -> Set:
        assert isinstance(self._of, Set)
        return self._of

    @property
    def report(self) -> Report:
        """The report that the set was closed with, with the keys of the values."""
        return self._set.report

    def stats(self) -> SetStats:
        """Returns how full it is, in one call: see `Set.stats`."""
        return self._set.stats()

    def reserve(self, values: SupportsIndex) -> None:
        """Makes room for this many values: see `Set.reserve`."""
        self._set.reserve(values)

    def shrink_to_fit(self) -> None:
        """Gives back memory: see `Set.shrink_to_fit`."""
        self._set.shrink_to_fit()

    def attach(self, blocking: bool = True, timeout: float = -1) -> WorkerOf[T]:
        """Attaches a worker to this thread: see `Set.attach`."""
        return WorkerOf(self._set.attach(blocking, timeout), self._mapping)

    def worker(self, number: SupportsIndex) -> WorkerOf[T]:
        """Attaches the worker of a number to this thread: see `Set.worker`."""
        return WorkerOf(self._set.worker(number), self._mapping)

    def close(self) -> list[T]:
        """Ends the set, and returns the values that it had, ascending: see `Set.close`."""
        return [self._mapping.from_key(key) for key in self._set.close().keys]


class MapOf(_Numbers, _Ordered[T], KeyCalls[T, V]):
    """A `Map` whose keys are values of a type, by a `Mapping`, as of a `SetOf`. Each call makes the
    call of the same name of `Map`. `raw` is the map of the keys."""

    _of: Map[V]

    def __init__(
        self,
        key: Mapping[T],
        entries: Union[AbstractMapping[T, V], Iterable[tuple[T, V]], SupportsIndex] = (),
        **options: Any,
    ) -> None:
        """Makes the map of these keys and objects, or the empty map of a number of nodes; `key` maps
        the values to keys and back. The options are those of `Map`, such as `nodes`."""
        super().__init__(key)
        if isinstance(entries, AbstractMapping):
            entries = entries.items()
        if isinstance(entries, Iterable):
            keyed = [(self._key(value), each) for value, each in entries]
            self._of = Map(keyed, **options)
        else:
            self._of = Map(entries, **options)
        self._of._shown = lambda number: repr(self._mapping.from_key(number))

    @classmethod
    def fromkeys(cls, key: Mapping[T], keys: Iterable[T], value: Any = None) -> MapOf[T, Any]:
        """Returns a map of these keys, each with this object; `key` maps them."""
        return cls(key, ((each, value) for each in keys))

    @property
    def raw(self) -> Map[V]:
        """The map of the keys."""
        return self._of

    # ---- for its views ----

    @property
    def _raw(self) -> Map[V]:
        return self._of

    def _ends(self, minimum: Any, maximum: Any, inclusive: tuple[bool, bool]) -> tuple[int, int]:
        return ends_of(self._end(minimum), self._end(maximum), inclusive)

    def _number(self, key: object) -> Optional[int]:
        return self._key_or_none(key)

    def _checked(self, key: T) -> int:
        return self._key(key)

    def _from_number(self, number: int) -> T:
        return self._mapping.from_key(number)

    def _entry(self, found: Any) -> tuple[T, V]:
        return self._mapping.from_key(found[0]), found[1]

    def _key_of(self, entry: Any) -> T:
        key: T = entry[0]
        return key

    def __enter__(self) -> MapOf[T, V]:
        return self

    # ---- calls of its own ----

    def get_many(self, keys: Iterable[T], default: Any = None) -> list[Any]:
        """Returns for each of these keys, in their order, its object, or the default: see
        `Map.get_many`."""
        found: list[Any] = self._of.get_many([self._key(key) for key in keys], default)
        return found

    def popitem(self) -> tuple[T, V]:
        """Removes the least key and returns it with its object, like `pop_first`."""
        entry: tuple[T, V] = self.pop_first()
        return entry

    # ---- several keys ----

    def items_range(
        self,
        minimum: Optional[T] = None,
        maximum: Optional[T] = None,
        inclusive: tuple[bool, bool] = (True, True),
        reverse: bool = False,
    ) -> Iterator[tuple[T, V]]:
        """Returns an iterator over the keys from `minimum` to `maximum` with their objects: see
        `Map.items_range`."""
        least, most = self._end(minimum), self._end(maximum)
        return map(self._entry, self._of.items_range(least, most, inclusive, reverse))

    # ---- of itself ----

    @recursive_repr()
    def __repr__(self) -> str:
        """Shows the first ten keys with their objects, and how many there are."""
        return text_of(self, self._of._can_be_read())

    def close(self) -> None:
        """Ends the map, and its references to all objects: see `Map.close`."""
        self._of.close()

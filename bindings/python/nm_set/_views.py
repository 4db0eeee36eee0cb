"""Views of a map, and the calls of a map that are made of its calls for one key.

No call here has one moment for several keys: each takes no snapshot, and makes a call for each key.
"""

from __future__ import annotations

from collections.abc import Callable, ItemsView, Iterable, Iterator, KeysView, MutableMapping
from collections.abc import Mapping as AbstractMapping
from collections.abc import ValuesView
from itertools import islice
from reprlib import recursive_repr
from typing import Any, Generic, Optional, TypeVar, Union, overload

from ._faults import SHOWN, Contention, OutOfRange, shown_value

K = TypeVar("K")
V = TypeVar("V")
T = TypeVar("T")
_Of = TypeVar("_Of", bound="Views[Any, Any]")

MISSING: Any = object()
_GONE: Any = object()  # the default of a pop, for a key that another thread has removed


def text_of(entries: MutableMapping[Any, Any], is_open: bool) -> str:
    """Returns what `repr` of a map returns."""
    name = type(entries).__name__
    if not is_open:
        return f"{name}(closed)"
    first = list(islice(entries.items(), SHOWN + 1))
    text = ", ".join(f"{key!r}: {value!r}" for key, value in first[:SHOWN])
    if len(first) <= SHOWN:
        return f"{name}({{{text}}})"
    return f"{name}({{{text}, ...}}, {len(entries)} keys)"


class _Keys(KeysView):  # type: ignore[type-arg]
    """The keys of a map."""

    _mapping: Any

    def __reversed__(self) -> Iterator[Any]:
        return reversed(self._mapping)


class _Items(ItemsView):  # type: ignore[type-arg]
    """The keys of a map with their objects."""

    _mapping: Any

    def __iter__(self) -> Iterator[tuple[Any, Any]]:
        return iter(self._mapping.items_range())

    def __reversed__(self) -> Iterator[tuple[Any, Any]]:
        return iter(self._mapping.items_range(reverse=True))


class _Values(ValuesView):  # type: ignore[type-arg]
    """The objects of a map, in the order of their keys."""

    _mapping: Any

    def __iter__(self) -> Iterator[Any]:
        return (value for _, value in self._mapping.items_range())

    def __reversed__(self) -> Iterator[Any]:
        return (value for _, value in self._mapping.items_range(reverse=True))


class Views(MutableMapping, Generic[K, V]):  # type: ignore[type-arg]
    """The views of a map, and its calls that are made of calls for one key."""

    # ---- what a map has, for these calls and for a `SubMap` ----

    @property
    def _raw(self) -> Any:
        """The map of the keys, which are integers."""
        raise NotImplementedError

    def _get(self, key: object) -> Any:
        """Returns the object of a key, or `MISSING`."""
        raise NotImplementedError

    def insert(self, key: K, value: V) -> bool:
        """Inserts a key with an object; returns True if the key was absent."""
        raise NotImplementedError

    def items_range(
        self,
        minimum: Any = None,
        maximum: Any = None,
        inclusive: tuple[bool, bool] = (True, True),
        reverse: bool = False,
    ) -> Iterator[tuple[K, V]]:
        """Returns an iterator over the keys of a range with their objects."""
        raise NotImplementedError

    def _ends(self, minimum: Any, maximum: Any, inclusive: tuple[bool, bool]) -> tuple[int, int]:
        """Returns the least number of a range of keys, and the number below which they are."""
        raise NotImplementedError

    def _number(self, key: object) -> Optional[int]:
        """Returns the number of a key, or None for an object that is no key."""
        raise NotImplementedError

    def _from_number(self, number: int) -> K:
        """Returns the key of a number."""
        raise NotImplementedError

    # ---- one key ----

    def __getitem__(self, key: object) -> V:
        """Returns the object of a key. Raises KeyError if the key is absent."""
        found = self._get(key)
        if found is MISSING:
            raise KeyError(key)
        return found  # type: ignore[no-any-return]

    def __contains__(self, key: object) -> bool:
        """Returns whether a key is present. A value that is no key is absent."""
        return self._get(key) is not MISSING

    @overload
    def get(self, key: object) -> Optional[V]: ...
    @overload
    def get(self, key: object, default: T) -> Union[V, T]: ...
    def get(self, key: object, default: Any = None) -> Any:
        """Returns the object of a key, or the default."""
        found = self._get(key)
        return default if found is MISSING else found

    def __delitem__(self, key: object) -> None:
        """Removes a key. Raises KeyError if it is absent."""
        self.pop(key)

    # ---- views ----

    def keys(self) -> KeysView[K]:
        """Returns a view of the keys: see `irange`."""
        return _Keys(self)

    def items(self) -> ItemsView[K, V]:
        """Returns a view of the keys with their objects: see `items_range`."""
        return _Items(self)

    def values(self) -> ValuesView[V]:
        """Returns a view of the objects, in the order of their keys."""
        return _Values(self)

    def sub_map(
        self,
        minimum: Optional[K] = None,
        maximum: Optional[K] = None,
        inclusive: tuple[bool, bool] = (True, True),
    ) -> SubMap[K, V]:
        """Returns a view of the keys from `minimum` to `maximum` that keeps these bounds: a mapping
        that shows each later change of the map, and by which the map can be changed. If `minimum`
        is above `maximum` it has no key."""
        return SubMap(self, *self._ends(minimum, maximum, inclusive))

    # ---- several keys ----

    def retain(self, stays: Callable[[K, V], bool]) -> int:
        """Removes each key for which `stays(key, object)` returns false, one by one; returns how
        many it removed. If another thread gives a key another object after the test, that one is
        removed. A key that is inserted meanwhile may be passed over."""
        removed = 0
        for key, value in self.items_range():
            if not stays(key, value):
                removed += self.pop(key, _GONE) is not _GONE
        return removed

    def insert_many(self, entries: Union[AbstractMapping[K, V], Iterable[tuple[K, V]]]) -> int:
        """Inserts the keys of a mapping or of pairs with their objects, one by one; returns how many
        were absent. A key that is present keeps its object. After a fault, those before it are
        inserted."""
        pairs = entries.items() if isinstance(entries, AbstractMapping) else entries
        return sum(self.insert(key, value) for key, value in pairs)

    def copy(self) -> dict[K, V]:
        """Returns the keys with their objects in a dict of Python, ascending. It can be pickled, and
        a map can be made of it again. It takes no snapshot."""
        return dict(self.items())

    def __or__(self, other: object) -> dict[Any, Any]:
        """Returns a dict of Python with the keys of both; the other's objects win."""
        if not isinstance(other, AbstractMapping):
            return NotImplemented
        return {**self.copy(), **other}

    def __ror__(self, other: object) -> dict[Any, Any]:
        if not isinstance(other, AbstractMapping):
            return NotImplemented
        return {**other, **self.copy()}

    def __ior__(self: _Of, other: Any) -> _Of:
        """Takes the keys and objects of the other, like `update`."""
        self.update(other)
        return self

    __hash__ = None  # type: ignore[assignment]


class KeyCalls(Views[K, V]):
    """The calls for one key of a view, or of a map whose keys are mapped to integers: each makes the
    call of the same name of the map of the integers."""

    def _checked(self, key: K) -> int:
        """Returns the number of a key. Raises a fault if it has none."""
        raise NotImplementedError

    def _get(self, key: object) -> Any:
        number = self._number(key)
        return self._raw._get(-1 if number is None else number)

    def insert(self, key: K, value: V) -> bool:
        """Inserts a key with an object; returns True if the key was absent: see `Map.insert`."""
        return bool(self._raw.insert(self._checked(key), value))

    def __setitem__(self, key: K, value: V) -> None:
        """Inserts a key with an object, or replaces the object that it has, in one step: see
        `Map.__setitem__`."""
        self._raw[self._checked(key)] = value

    def replace(self, key: K, value: V) -> V:
        """Replaces the object that a key has, and returns it: see `Map.replace`."""
        found = self._raw._replace(self._checked(key), value)
        if found is MISSING:
            raise KeyError(key)
        return found  # type: ignore[no-any-return]

    def compare_replace(self, key: K, expected: object, value: V) -> bool:
        """Replaces the object that a key has if it is the expected one: see
        `Map.compare_replace`."""
        return bool(self._raw.compare_replace(self._checked(key), expected, value))

    def compare_remove(self, key: K, expected: object) -> bool:
        """Removes a key if it has the expected object: see `Map.compare_remove`."""
        return bool(self._raw.compare_remove(self._checked(key), expected))

    def setdefault(self, key: K, default: Any = None) -> Any:
        """Returns the object of a key, after an insert of the default if the key was absent: see
        `Map.setdefault`."""
        return self._raw.setdefault(self._checked(key), default)

    def pop(self, key: object, default: Any = MISSING) -> Any:
        """Removes a key, and returns the object that it had: see `Map.pop`. If the key is absent, it
        returns the default, or raises KeyError if none is given."""
        number = self._number(key)
        found = self._get(key) if number is None else self._raw._pop(number)
        if found is not MISSING:
            return found
        if default is MISSING:
            raise KeyError(key)
        return default


class SubMap(KeyCalls[K, V]):
    """A view of the keys of a map between two bounds, which `sub_map` returns. A call for one key
    makes the call of the same name of the map. A key that is not between the bounds is absent, and
    cannot be inserted: `OutOfRange`. `len` goes over the keys. While other threads change the map,
    no two calls need to see the same keys."""

    def __init__(self, of: Views[K, V], first: int, below: int) -> None:
        self._of, self._first, self._below = of, first, below

    @property
    def _raw(self) -> Any:
        return self._of._raw

    def _ends(self, minimum: Any, maximum: Any, inclusive: tuple[bool, bool]) -> tuple[int, int]:
        first, below = self._of._ends(minimum, maximum, inclusive)
        return max(first, self._first), min(below, self._below)

    def _number(self, key: object) -> Optional[int]:
        number = self._of._number(key)
        return number if number is not None and self._first <= number < self._below else None

    def _from_number(self, number: int) -> K:
        return self._of._from_number(number)

    def _checked(self, key: K) -> int:
        """Returns the number of a key. Raises `OutOfRange` if it is not in the view."""
        number = self._number(key)
        if number is None:
            raise OutOfRange(f"the key {shown_value(key)} is not between the bounds of the view")
        return number

    def _entry(self, found: Optional[tuple[int, V]]) -> Optional[tuple[K, V]]:
        """Returns a key with its object, or None if the key is not in the view."""
        if found is None or not self._first <= found[0] < self._below:
            return None
        return self._from_number(found[0]), found[1]

    # ---- in order ----

    def at_least(self, key: K) -> Optional[tuple[K, V]]:
        """Returns the least key of the view that is not below this one, with its object, or None."""
        first, below = self._ends(key, None, (True, True))
        return self._entry(self._raw.at_least(first)) if first < below else None

    def at_most(self, key: K) -> Optional[tuple[K, V]]:
        """Returns the greatest key of the view that is not above this one, with its object, or
        None."""
        first, below = self._ends(None, key, (True, True))
        return self._entry(self._raw.at_most(below - 1)) if first < below else None

    def first(self) -> Optional[tuple[K, V]]:
        """Returns the least key of the view with its object, or None if it has no key."""
        return self._entry(self._raw.at_least(self._first)) if self._first < self._below else None

    def last(self) -> Optional[tuple[K, V]]:
        """Returns the greatest key of the view with its object, or None if it has no key."""
        if self._first >= self._below:
            return None
        return self._entry(self._raw.at_most(self._below - 1))

    def pop_first(self) -> tuple[K, V]:
        """Removes the least key of the view and returns it with its object. Raises KeyError if it
        has no key. This takes two steps: it finds the key, and removes it. If another thread removes
        the key in between, it starts again, at most `rounds` of `Options` times, and then raises
        `Contention`. A lesser key that is inserted in between remains."""
        return self._popped(self.first)

    def pop_last(self) -> tuple[K, V]:
        """Removes the greatest key of the view and returns it with its object, in the way of
        `pop_first`."""
        return self._popped(self.last)

    def _popped(self, find: Callable[[], Optional[tuple[K, V]]]) -> tuple[K, V]:
        for _ in range(self._raw._rounds + 1):
            entry = find()
            if entry is None:
                raise KeyError("there is no key to pop")
            value = self.pop(entry[0], _GONE)
            if value is not _GONE:
                return entry[0], value
        raise Contention("other threads removed the key in each round: call again")

    def popitem(self) -> tuple[K, V]:
        """Removes the least key and returns it with its object, like `pop_first`."""
        return self.pop_first()

    def irange(
        self,
        minimum: Optional[K] = None,
        maximum: Optional[K] = None,
        inclusive: tuple[bool, bool] = (True, True),
        reverse: bool = False,
    ) -> Iterator[K]:
        """Returns an iterator over the keys of the view from `minimum` to `maximum`: see
        `Map.irange`."""
        first, below = self._ends(minimum, maximum, inclusive)
        return map(self._from_number, self._raw.irange(first, below, (True, False), reverse))

    def items_range(
        self,
        minimum: Optional[K] = None,
        maximum: Optional[K] = None,
        inclusive: tuple[bool, bool] = (True, True),
        reverse: bool = False,
    ) -> Iterator[tuple[K, V]]:
        """Returns an iterator over the keys of the view from `minimum` to `maximum` with their
        objects: see `Map.items_range`."""
        first, below = self._ends(minimum, maximum, inclusive)
        found = self._raw.items_range(first, below, (True, False), reverse)
        return ((self._from_number(number), value) for number, value in found)

    def count_range(
        self,
        minimum: Optional[K] = None,
        maximum: Optional[K] = None,
        inclusive: tuple[bool, bool] = (True, True),
    ) -> int:
        """Returns how many keys of the view there are from `minimum` to `maximum`: see
        `Map.count_range`."""
        first, below = self._ends(minimum, maximum, inclusive)
        count: int = self._raw.count_range(first, below, (True, False))
        return count

    def discard_range(
        self,
        minimum: Optional[K] = None,
        maximum: Optional[K] = None,
        inclusive: tuple[bool, bool] = (True, True),
    ) -> int:
        """Removes the keys of the view from `minimum` to `maximum`, one by one; returns how many it
        removed: see `Map.discard_range`."""
        first, below = self._ends(minimum, maximum, inclusive)
        removed: int = self._raw.discard_range(first, below, (True, False))
        return removed

    def clear(self) -> None:
        """Removes the keys of the view, one by one. A key that is inserted meanwhile may remain."""
        self.discard_range()

    def __iter__(self) -> Iterator[K]:
        return self.irange()

    def __reversed__(self) -> Iterator[K]:
        return self.irange(reverse=True)

    def __len__(self) -> int:
        """Returns how many keys the view has: it goes over them."""
        return self.count_range()

    @recursive_repr()
    def __repr__(self) -> str:
        """Shows the first ten keys with their objects, and how many there are."""
        return text_of(self, self._raw._can_be_read())

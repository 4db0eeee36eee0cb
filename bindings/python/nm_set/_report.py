"""The report that a set was closed with."""

from __future__ import annotations

import operator
from bisect import bisect_left
from collections.abc import Iterator
from ctypes import c_uint32, c_uint64
from dataclasses import dataclass
from typing import SupportsIndex

from . import _library as c
from ._faults import SHOWN, answered, shortened


@dataclass(frozen=True)
class Waiting:
    """A node that waited to be freed when the set was closed."""

    slot: int
    generation: int
    label: int


@dataclass(frozen=True, repr=False)
class Report:
    """The report that a set was closed with."""

    keys: tuple[int, ...]
    """The keys of the set, ascending."""
    free: int
    """How many nodes are free."""
    reached: int
    """How many nodes are reached from the root, without the five fixed ones."""
    waiting: tuple[tuple[Waiting, ...], ...]
    """For each worker, in the order of their numbers, the nodes that it cut off and that wait, the
    oldest first."""

    def __repr__(self) -> str:
        """Shows the first ten keys, and how many nodes waited instead of showing each node."""
        waiting = sum(map(len, self.waiting))
        return (
            f"Report({shortened(self.keys[: SHOWN + 1], len(self))}, free={self.free},"
            f" reached={self.reached}, waiting={waiting})"
        )

    def __len__(self) -> int:
        return len(self.keys)

    def __iter__(self) -> Iterator[int]:
        return iter(self.keys)

    def __contains__(self, key: SupportsIndex) -> bool:
        number = operator.index(key)
        place = bisect_left(self.keys, number)
        return place < len(self.keys) and self.keys[place] == number


class Reader:
    """Reads the report that a handle owns. The library returns each waiting node once, so it is
    written to memory that this object keeps. If a read is interrupted, another call goes on from
    there."""

    def __init__(self, handle: c.Handle, workers: int) -> None:
        self._handle, self._workers = handle, workers
        self._waiting: dict[int, tuple[int, object]] = {}

    def _nodes(self, worker: int) -> tuple[Waiting, ...]:
        left = c_uint64()
        answered(c.exports.nm_report_queue(self._handle, worker, left))
        if worker not in self._waiting:
            room = (c.WaitingWords * max(left.value, 1))()
            self._waiting.setdefault(worker, (left.value, room))
        count, nodes = self._waiting[worker]
        while left.value:
            at = count - left.value
            answered(c.exports.nm_report_waiting(self._handle, worker, nodes[at]))  # type: ignore
            answered(c.exports.nm_report_queue(self._handle, worker, left))
        words = nodes[:count]  # type: ignore[index]
        return tuple(Waiting(node.slot, node.generation, node.label) for node in words)

    def _keys(self) -> tuple[int, ...]:
        count, key = c_uint64(), c_uint64()
        answered(c.exports.nm_report_keys(self._handle, count))
        keys = []
        for index in range(count.value):
            answered(c.quick.nm_report_key(self._handle, index, key))
            keys.append(key.value)
        return tuple(keys)

    def read(self) -> Report:
        free, reached = c_uint32(), c_uint32()
        answered(c.exports.nm_report_slots(self._handle, free, reached))
        waiting = tuple(self._nodes(worker) for worker in range(self._workers))
        return Report(self._keys(), free.value, reached.value, waiting)

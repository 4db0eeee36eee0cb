"""Duplicates are removed from a stream: four threads read records, and each id is passed on once, by the
thread that added it first.

A call adds a block of ids, and writes for each of them whether it was absent. The set grows.
"""

from collections.abc import Iterator
from concurrent.futures import ThreadPoolExecutor

import nm_set

IDS, BLOCK = 50_000, 1_000


def blocks(stream: int) -> Iterator[list[int]]:
    """Yields the ids of a stream: each stream has each id once, in an order of its own."""
    for first in range(0, IDS, BLOCK):
        numbers = (at * (stream * 2 + 7) % IDS for at in range(first, first + BLOCK))
        yield [(number << 40) + 5 for number in numbers]


def pass_on(stream: int) -> tuple[int, list[int]]:
    """Reads a stream; returns how many records it has, and the ids that no thread had before."""
    records, passed = 0, []
    for ids in blocks(stream):
        is_new = bytearray(len(ids))
        seen.add_many(ids, out=is_new)
        records += len(ids)
        passed += [key for key, new in zip(ids, is_new) if new]
    return records, passed


seen = nm_set.Set()
with ThreadPoolExecutor(4) as threads:
    streams = list(threads.map(pass_on, range(4)))
records = sum(records for records, _ in streams)
passed = [key for _, keys in streams for key in keys]
print(f"{records} records, {len(passed)} are passed on")
assert sorted(passed) == list(seen)

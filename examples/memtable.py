"""A memtable: threads write versions of keys, and a reader sees each key as of a write, whatever is
written later. At its end the newest versions are written out in order.

A key of the map is a key and the number of a write. The numbers descend, so that the newest version
of a key comes first. None marks a removed key.
"""

import itertools
from concurrent.futures import ThreadPoolExecutor
from typing import Optional

import nm_set

MOST = 2**24 - 1


class Memtable:
    def __init__(self, versions: int) -> None:
        pairs = nm_set.pairs(40, 24)
        self._versions: nm_set.MapOf = nm_set.MapOf(pairs, nodes=2 * versions + 1_000)
        self._writes = itertools.count(1)

    def put(self, key: int, value: Optional[str]) -> int:
        """Writes a version of a key; returns the number of the write."""
        number = next(self._writes)
        self._versions.insert((key, MOST - number), value)
        return number

    def get(self, key: int, as_of: int = MOST) -> Optional[str]:
        """Returns the value that a key had as of a write, or None."""
        newest = self._versions.at_least((key, MOST - as_of))
        return newest[1] if newest is not None and newest[0][0] == key else None

    def newest(self) -> dict[int, str]:
        """Returns the newest version of each key, ascending."""
        versions = itertools.groupby(self._versions.items(), lambda entry: entry[0][0])
        newest = {key: next(of_key)[1] for key, of_key in versions}
        return {key: value for key, value in newest.items() if value is not None}


def write(key: int) -> None:
    """Writes versions of a key, the last of which is 999."""
    for number in range(1_000):
        table.put(key, str(number))


table = Memtable(4 * 1_000 + 3)
first, second, third = table.put(7, "one"), table.put(7, "two"), table.put(7, None)
print(f"{table.get(7, first)}, {table.get(7, second)}, then removed")
assert table.get(7) is table.get(6) is table.get(7, third) is None
with ThreadPoolExecutor(4) as threads:
    list(threads.map(write, range(4)))
print("newest:", *(f"{key}={value}" for key, value in table.newest().items()))

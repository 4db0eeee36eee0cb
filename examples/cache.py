"""A cache whose entries expire: threads read values, load those that are missing, and after its time
each entry ends.

A map has the values by their keys. A set has the time at which each entry expires, with its key. So
the expired entries are the least keys of the set. The thread that inserts an entry adds its time,
and the thread that takes the time out removes the entry.
"""

from concurrent.futures import ThreadPoolExecutor

import nm_set


class Cache:
    def __init__(self, life: int) -> None:
        self._values, self._life, self.loads = nm_set.Map[str](), life, 0
        self._expires = nm_set.SetOf(nm_set.pairs(40, 24))  # a time, and a key

    def get(self, key: int, now: int) -> str:
        """Returns the value of a key, which it loads if there is none."""
        self.expire(now)
        value = self._values.get(key)
        if value is None:
            self.loads += 1
            value = f"value {key}"
            if self._values.insert(key, value):
                self._expires.add((now + self._life, key))
        return value

    def expire(self, now: int) -> None:
        """Removes the entries that have expired."""
        for _, key in self._expires.pop_first_many(1_000, below=(now + 1, 0)):
            self._values.pop(key, None)

    def __len__(self) -> int:
        return len(self._values)


cache = Cache(50)
for now in (0, 10, 50, 60):
    one, two = cache.get(1, now), cache.get(2, 10 if now < 50 else now)
    print(f"at {now}: {one}, {two}, {cache.loads} loads")
with ThreadPoolExecutor() as threads:
    reads = [threads.submit(cache.get, key, 100) for key in range(100, 200) for _ in range(4)]
    assert all(read.result().startswith("value 1") for read in reads)
print(f"at 100: {len(cache)} entries")
cache.expire(150)
print(f"at 150: {len(cache)} entries")

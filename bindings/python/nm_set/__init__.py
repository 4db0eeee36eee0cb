"""A concurrent ordered set and map of integers, over the library libnm_set, whose core is proved.

>>> import nm_set
>>> with nm_set.Set([3, 5, 9]) as numbers:
...     numbers.add(4)
...     5 in numbers
...     sorted(numbers)
True
True
[3, 4, 5, 9]
>>> len(numbers.report)
4
"""

__version__ = "0.1.0"

from ._backend import is_native
from ._faults import (
    MOST_KEY,
    Attached,
    Closed,
    Contention,
    Fault,
    Forked,
    Full,
    InUse,
    NoMemory,
    NoWorker,
    OutOfRange,
    Pinned,
    Unfinished,
)
from ._map import Map
from ._report import Report, Waiting
from ._set import Options, Set, SetStats, Stamp, Stats, Worker
from ._typed import Mapping, MapOf, SetOf, WorkerOf, floats, pairs, short_bytes, signed, unsigned
from ._views import SubMap

__all__ = [
    "MOST_KEY",
    "Attached",
    "Closed",
    "Contention",
    "Fault",
    "Forked",
    "Full",
    "InUse",
    "Map",
    "MapOf",
    "Mapping",
    "NoMemory",
    "NoWorker",
    "Options",
    "OutOfRange",
    "Pinned",
    "Report",
    "Set",
    "SetOf",
    "SetStats",
    "Stamp",
    "Stats",
    "SubMap",
    "Unfinished",
    "Waiting",
    "Worker",
    "WorkerOf",
    "__version__",
    "floats",
    "is_native",
    "pairs",
    "short_bytes",
    "signed",
    "unsigned",
]

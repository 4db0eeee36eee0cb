"""The set and its workers.

The pool of the library finds a worker for each call, waits, counts the keys and closes. No call here
holds a lock of its own, and no step gives back what an earlier step took. So an exception at any
moment, like that of a signal handler, loses nothing:

- Each call of the pool is one step of Python. A call that waits is made in parts (`waited`), so that
  the handlers of signals run in between.
- A pool, and the worker of a `Worker`, are given up by a weak reference when the object ends
  (`_leases`).
- If `close` is interrupted, another close goes on.
"""

from __future__ import annotations

import math
import operator
import threading
import weakref
from collections.abc import Callable, Iterable
from contextlib import suppress
from ctypes import byref, c_uint32, c_uint64, c_void_p
from dataclasses import dataclass, fields
from types import TracebackType
from typing import Any, Literal, Optional, SupportsIndex, Union

from . import _library as c
from ._backend import Calls
from ._calls import waited
from ._faults import MOST_NODES, MOST_WORKERS, Attached, Closed, Fault, Forked, InUse
from ._faults import OutOfRange, answered, fault, fault_at, shown, those
from ._keys import Keys, words_of
from ._leases import Owner, detach_with, free_with
from ._report import Reader, Report

_KEYS = 10_000  # the keys for which a set has room at first if no number of nodes is given
_ADVANCES = 3  # the most advances of the epoch before a collection
_LONGEST = 10_000  # milliseconds: how long a close waits for calls in progress

Shape = Literal["radix", "unbalanced"]
SHAPES = {"radix": 0, "unbalanced": 1}


def narrow(number: SupportsIndex, what: str, least: int = 0, most: int = 2**32 - 1) -> int:
    """Returns a number of 32 bits for C. Raises `OutOfRange` if it is not `least` to `most`."""
    value = operator.index(number)
    if not least <= value <= most:
        raise OutOfRange(f"the number of {what} is not {least} to {most:,}: {shown(value)}")
    return value


@dataclass(frozen=True)
class Options:
    """What a managed call may spend. Each number is 0 to 2^32 - 1."""

    tries: int = 64
    """The tries of each call of the tree. With fewer than 2 no discard returns True at once, and
    with fewer than 3 some calls of `at_least` do not answer at once."""
    rounds: int = 64
    """How often a call that lost each of its tries is retried, and how often a discard that has
    begun is continued."""
    collect_after: Optional[int] = None
    """The number of waiting nodes from which an add or a discard first advances the epoch and
    collects. None, the default, is 64; for a map it is nodes / (8 * workers), at least 8 and at
    most 64."""
    timeout_ms: int = 1_000
    """The longest time, in milliseconds, that a call waits: for a worker (`NoWorker`), for another
    thread's call by the same worker (`InUse`), and an add for removed nodes to be freed (`Full`).
    It yields, and then sleeps; the sleeps begin with 20 microseconds and double up to a
    millisecond. With 0 no call sleeps, which an event loop needs."""

    def __post_init__(self) -> None:
        for each in fields(self):
            value = getattr(self, each.name)
            if value is not None or each.name != "collect_after":
                object.__setattr__(self, each.name, narrow(value, each.name))

    def _words(self, workers: int, shape: int) -> c.PoolOptionsWords:
        """Returns the options for the library, for a set of this many workers and this shape."""
        after = 64 if self.collect_after is None else self.collect_after
        return c.PoolOptionsWords(workers, shape, self.tries, self.rounds, after)


@dataclass(frozen=True)
class Stats:
    """What a worker has won, and what became of the nodes that it cut off."""

    links: int
    flags: int
    splices: int
    retired: int
    freed: int
    queued: int


@dataclass(frozen=True)
class SetStats:
    """How full a set is, for a program that watches it."""

    nodes: int
    """The nodes for which it has room."""
    keys: int
    """How many keys it has."""
    waiting: int
    """How many removed nodes wait to be freed."""
    free: int
    """How many nodes are free. An add takes two."""
    unasked: tuple[int, ...]
    """Which workers were in a call. For each of these, `waiting` has an earlier number."""
    behind: tuple[int, ...]
    """Which workers hold the epoch back, by a pin or in a call."""
    hindering: tuple[int, ...]
    """Which workers prevented the last growth of the set."""
    growths: int
    """How often the set has got a new size: it grew, or a caller asked."""
    longest_pause: float
    """For how many seconds calls were stopped for that at most."""


def _numbers(mask: int) -> tuple[int, ...]:
    """Returns the numbers of the bits of a mask."""
    return tuple(number for number in range(mask.bit_length()) if mask >> number & 1)


@dataclass(frozen=True)
class Stamp:
    """The stamp of a worker: what it had done when it published the stamp."""

    added: int
    """How many keys it had added."""
    discarded: int
    """How many keys it had discarded, without a pending one."""


class Set(Keys):
    """A concurrent ordered set of the integers 0 to 2^64 - 4.

    Any thread may call it. Each call uses one of the set's workers that no thread uses at that
    moment. If there is none, the call borrows the worker of a `Worker` that is in no call and not
    pinned. If each worker is in a call or pinned, the call waits for at most the `timeout_ms` of
    `Options`, and then raises `NoWorker`. A thread that makes many calls may take a `Worker` of its
    own by `attach`.

    The calls are managed calls. A call that lost its tries to other threads is retried, and a
    discard that has begun is finished. If `collect_after` removed nodes wait with the worker, the
    call first advances the epoch and collects. `Options` bounds what a call may spend. If that is
    not enough the call raises `Contention`, or `Unfinished` for a discard that has begun. The
    core (nm_set.h) does all of this, which is proved. A pool around it finds a worker for each call.
    It also collects removed nodes that wait with other workers, and lets an add wait for them before
    it raises `Full`. This part is tested, not proved.

    A signal handler may make any call, including `close`, and may raise an exception in the middle
    of any call. No call hangs, nothing is lost, and the interrupted call was made or was not made.
    After such a close a call raises `Closed`. In a forked child each call raises `Forked`.
    """

    def __init__(
        self,
        iterable: Union[Iterable[SupportsIndex], SupportsIndex] = (),
        *,
        nodes: Optional[SupportsIndex] = None,
        workers: SupportsIndex = 64,
        shape: Shape = "radix",
        options: Options = Options(),
    ) -> None:
        """Makes the set of these keys, or the empty set, for 1 to 64 workers. If no number of nodes
        is given, the set grows: it has room for 10,000 keys at first, or for the given ones. If an
        add finds no free nodes, and none can be freed, the set gets half as many nodes more, and all
        calls wait while its keys are copied. `Set(65_536)` and `Set(nodes=65_536)` have 65,536 nodes, of
        7 to 268,435,456, and never grow by themselves. n keys take 2 n + 5 nodes, and the removed
        nodes that wait to be freed take theirs.

        With the shape "radix" no walk goes over more than 66 edges, in whatever order keys come.
        "unbalanced" is the tree of Natarajan and Mittal, in which ascending keys make one long
        path: then each call takes a step for each key of the set."""
        if isinstance(iterable, Iterable):
            keys = words_of(iterable)
        elif nodes is None:
            keys, nodes = words_of(()), operator.index(iterable)
        else:
            raise TypeError("the number of nodes is given twice")
        room = c.GROWS if nodes is None else narrow(nodes, "nodes", 7, MOST_NODES)
        self._options = options
        seats = narrow(workers, "workers", 1, MOST_WORKERS)
        if shape not in SHAPES:
            raise ValueError(f'the shape is not "radix" or "unbalanced": {shape!r}')
        self._pool, self._handle, self._seats = c_void_p(), c.Handle(), seats
        self._cell = c_uint32(c.ANY)
        self._owner = Owner()
        free_with(self._owner, self._pool, self._handle)
        self._taken: dict[int, weakref.ref[Worker]] = {}
        self._closer = threading.RLock()
        self._report: Optional[Report] = None
        words = options._words(seats, SHAPES[shape])
        answered(c.exports.nm_pool_new(byref(self._pool), room, words))
        self._calls = Calls(self._pool, self._cell, options.timeout_ms)
        self._reader = Reader(self._handle, seats)
        if nodes is None and len(keys) > _KEYS:
            self.reserve(len(keys))
        self.add_many(keys)

    @property
    def nodes(self) -> int:
        """The number of nodes for which it has room."""
        return int(c.quick.nm_pool_nodes(self._pool))

    @property
    def capacity(self) -> int:
        """How many keys it can have if no removed node waits to be freed: (nodes - 5) / 2."""
        return (self.nodes - 5) // 2

    @property
    def workers(self) -> int:
        """How many workers it has."""
        return self._seats

    # ---- how full it is ----

    def _succeed(self, outcome: int) -> None:
        """Raises the fault of a call of the set that failed."""
        if outcome < 0:
            raise fault_at(outcome, self._pool, c.ANY)

    def _is_closed(self) -> bool:
        return bool(c.quick.nm_pool_size(self._pool, c_uint64()) == c.CLOSED)

    def _fullness(self) -> c.FullnessWords:
        words = c.FullnessWords()
        self._succeed(c.quick.nm_pool_fullness(self._pool, words))
        return words

    def __len__(self) -> int:
        """Returns how many keys the set has. It is exact if no thread makes a call meanwhile;
        otherwise it is off by at most the keys that calls add and remove meanwhile. It never waits
        and uses no worker, because each call counts what it changes."""
        return self._calls.keys()

    def waiting(self) -> int:
        """Returns how many removed nodes wait to be freed. It asks each worker once and waits for
        no call. For a worker that is in a call at this moment it takes the number of the last time
        that it was asked. Only calls for several keys, such as `add_many`, and calls that wait let
        other threads run."""
        return int(self._fullness().waiting)

    def free(self) -> int:
        """Returns how many nodes are free, computed from `len` and `waiting`. An add takes two. It
        waits for no call."""
        return int(self._fullness().free)

    def stats(self) -> SetStats:
        """Returns how full it is, in one call, in the numbers of `len`, `waiting` and `free`, which
        workers hold the epoch back, and how its growths went. It waits for no call."""
        words, count, longest = self._fullness(), c_uint64(), c_uint64()
        self._succeed(c.quick.nm_pool_growths(self._pool, count, longest))
        full = (words.nodes, words.keys, words.waiting, words.free)
        masks = map(_numbers, (words.unasked, words.behind, words.hindering))
        return SetStats(*full, *masks, count.value, longest.value / 1e9)

    def collect(self) -> int:
        """Advances the epoch as far as possible, and frees what has waited long enough with each
        worker that is in no call at this moment. Returns the number of freed nodes. It waits for no
        call."""
        freed = c_uint64()
        self._succeed(c.exports.nm_pool_collect(self._pool, freed))
        return freed.value

    # ---- a new size ----

    def _sized(self, call: Callable[[int, c_uint64], int]) -> None:
        """Changes the size by a call, which writes the workers that prevent it."""
        missing = c_uint64()
        outcome = waited(lambda _, part: call(part, missing), self._options.timeout_ms)
        if missing.value:
            how = "pinned" if outcome == c.PINNED else "in a call that has not ended"
            raise fault(outcome, f"the set gets no new size: {those(missing.value)} {how}")
        self._succeed(outcome)

    def reserve(self, keys: SupportsIndex) -> None:
        """Makes room for this many keys, if no removed node waits; it never makes the set smaller.
        It waits for the calls of all workers, for at most the `timeout_ms` of `Options`, and then
        raises `InUse`. Raises `Pinned` if workers are pinned, `OutOfRange` if there cannot be so
        many keys, and `NoMemory`. While the keys move, other calls wait. Each `Worker` stays
        attached; its `stats` and stamps begin anew."""
        count = operator.index(keys)
        if not 0 <= count <= (MOST_NODES - 5) // 2:
            raise OutOfRange(f"there cannot be so many keys: {shown(count)}")
        self._sized(
            lambda part, missing: int(c.exports.nm_pool_reserve(self._pool, count, part, missing))
        )

    def shrink_to_fit(self) -> None:
        """Gives back memory: room is left for the keys, and for one more for each worker. It waits
        and raises like `reserve`."""
        self._sized(
            lambda part, missing: int(c.exports.nm_pool_shrink_to_fit(self._pool, part, missing))
        )

    # ---- workers for threads ----

    def attach(self, blocking: bool = True, timeout: float = -1) -> Worker:
        """Attaches a worker to this thread, the least number first. Its `close` returns it. While
        each worker is attached or in a call, this waits: for `timeout` seconds, or, if no time is
        given, for the `timeout_ms` of `Options`. Raises `NoWorker` after that time, and at once if
        `blocking` is False."""
        if not blocking and timeout != -1:
            raise ValueError("can't specify a timeout for a non-blocking call")
        if timeout < 0 and timeout != -1:
            raise ValueError("timeout value must be a non-negative number")
        most = self._options.timeout_ms if timeout == -1 else math.ceil(timeout * 1_000)
        worker = Worker(self)
        self._lend(
            worker,
            lambda library, part: int(library.nm_pool_attach(self._pool, worker._cell, part)),
            most if blocking else 0,
        )
        return worker

    def _lend(self, worker: Worker, call: Callable[[Any, int], int], timeout_ms: int) -> None:
        """Attaches a worker by a call that writes its number."""
        self._succeed(waited(call, timeout_ms))
        worker._number = worker._cell.value
        self._taken[worker._number] = weakref.ref(worker)

    def worker(self, number: SupportsIndex) -> Worker:
        """Attaches the worker of a number to this thread. It waits for a call of the set that
        another thread makes by this worker at this moment, for at most the `timeout_ms` of
        `Options`: `InUse`. Raises `Attached` if the worker is attached to a thread."""
        index, worker = self._worker_number(number), Worker(self)
        try:
            self._lend(
                worker,
                lambda library, part: int(
                    library.nm_pool_attach_number(self._pool, index, worker._cell, part)
                ),
                self._options.timeout_ms,
            )
        except Attached:
            raise Attached(f"{those(1 << index)} attached to a thread") from None
        return worker

    def _attached(self) -> list[Worker]:
        """Returns the workers that are attached to threads."""
        workers = [lease() for lease in list(self._taken.values())]
        return [worker for worker in workers if worker is not None and worker.is_open()]

    def _worker_number(self, number: SupportsIndex) -> int:
        """Returns the number of a worker. Raises `OutOfRange` if there is no worker of that
        number."""
        index = operator.index(number)
        if not 0 <= index < self.workers:
            most = self.workers - 1
            raise OutOfRange(f"the set has workers 0 to {most}, and none {shown(index)}")
        return index

    # ---- the end ----

    def close(self) -> Report:
        """Ends the set, and returns the report with the keys that it had. A closed set returns the
        same report again. It waits for calls that other threads make at this moment, for ten
        seconds at most, and calls that begin meanwhile wait for its end. Each call that waits
        raises `Closed`, and so does each later call. If a `Worker` is attached it raises
        `Attached`, and if a call has not ended `InUse`; then the set goes on. If a close is
        interrupted, the next close or the end of the object goes on with it."""
        if self._report is None:
            with self._closer:
                if self._report is None:
                    self._end()
        assert self._report is not None
        return self._report

    def _fail_attached(self, mask: int) -> None:
        raise Attached(
            f"{those(mask)} attached to a thread: close what attach gave before the set"
        )

    def _end(self) -> None:
        missing = c_uint64(c.quick.nm_pool_attached(self._pool))
        if missing.value:  # known without a switch of threads
            self._fail_attached(missing.value)
        outcome = waited(
            lambda _, part: int(c.exports.nm_pool_close(self._pool, part, self._handle, missing)),
            _LONGEST,
        )
        if self._report is not None:  # a signal handler has closed the set meanwhile
            return
        if outcome == c.ATTACHED:
            self._fail_attached(missing.value)
        if outcome == c.IN_USE:
            raise InUse(f"{those(missing.value)} in a call that has not ended: close again")
        if outcome not in (c.DONE, c.OPEN, c.CLOSED):  # the last two: an earlier close has ended it
            raise fault(outcome)
        try:
            self._report = self._reader.read()
        except Closed:  # a signal handler has read the report meanwhile
            if self._report is None:
                raise
        c.exports.nm_drop(self._handle)

    @property
    def report(self) -> Report:
        """The report that the set was closed with. Raises `Attached` while the set is open."""
        if self._report is None:
            raise Attached("the set is open: close it to get its report")
        return self._report

    def __repr__(self) -> str:
        """Shows the first ten keys, and how many there are. It makes a look-up for each, which
        waits for a worker like any call."""
        return "Set(closed)" if self._is_closed() else super().__repr__()

    def __enter__(self) -> Set:
        return self

    def __exit__(
        self,
        kind: Optional[type[BaseException]],
        error: Optional[BaseException],
        trace: Optional[TracebackType],
    ) -> None:
        """Closes the set. If an exception leaves the `with`, that exception goes on: this first
        returns the workers that this thread has attached. If other threads have attached workers,
        the set is left to them. In a forked child this does nothing."""
        with suppress(Forked):
            if error is None:
                self.close()
                return
            with suppress(Attached, InUse):
                for worker in self._attached():
                    if worker._thread == threading.get_ident():
                        worker.close()
                self.close()


class Worker(Keys):
    """One worker of a set, for one thread at a time, with the set's calls.

    `close` returns it to its set; so do the end of its `with` and the end of the object itself. If
    two threads call by it at once, one waits for the other, and raises `InUse` after the
    `timeout_ms` of `Options`. A signal handler may close it in the middle of a call. Then the call
    was made, or raises `Closed`.

    If all workers of the set are attached, calls of the set borrow one that is in no call and not
    pinned. So `stats`, `queue_len` and `publish` include calls that other threads made by this
    worker. Such a call finishes the discard that is pending before it gives the worker back. A call
    by the worker waits for such a call in the same way.
    """

    def __init__(self, owner: Set) -> None:
        """`Set.attach` and `Set.worker` make workers."""
        self._set, self._pool = owner, owner._pool
        self._cell, self._number = c_uint32(c.NONE), -1
        self._thread = threading.get_ident()
        self._owner = Owner()
        detach_with(self._owner, self._pool, self._cell)
        self._calls = Calls(self._pool, self._cell, owner._options.timeout_ms)

    def _answered(self, call: Callable[..., int], *arguments: object) -> bool:
        """Makes a call of the library by the worker, and repeats it while another call has it."""
        if not self.is_open():
            raise fault(c.CLOSED)
        outcome = waited(
            lambda library, part: self._made(library, call, arguments, part),
            self._set._options.timeout_ms,
        )
        if outcome == c.CLOSED:
            len(self)  # it raises the fault of a forked child
        return answered(outcome)

    def _made(
        self, library: Any, call: Callable[..., int], arguments: tuple[object, ...], part: int
    ) -> int:
        wait = c.WaitWords()
        while True:
            outcome = call(c.quick.nm_pool_handle(self._pool, self._cell), *arguments)
            if not library.nm_pool_again(self._pool, self._cell, wait, outcome, part):
                return outcome

    @property
    def number(self) -> int:
        """Its number, which is below the number of workers."""
        return self._number

    def is_open(self) -> bool:
        """Returns whether it was not closed."""
        return self._cell.value != c.NONE

    def __len__(self) -> int:
        """Returns how many keys the set has: see `Set.__len__`."""
        return len(self._set)

    def __repr__(self) -> str:
        return super().__repr__() if self.is_open() else "Worker(closed)"

    def pin(self, tries: SupportsIndex = 64) -> int:
        """Pins the epoch until `unpin`, and returns it. No node that is in the set now is freed
        meanwhile, so adds of all threads may find the set full. It is for tests and proofs."""
        epoch = c_uint64()
        self._answered(c.quick.nm_worker_pin, narrow(tries, "tries"), epoch)
        return epoch.value

    def unpin(self) -> None:
        """Ends the pin."""
        self._answered(c.quick.nm_worker_unpin)

    def collect(self) -> int:
        """Advances the epoch as far as possible, and frees what has waited long enough in its own
        queue. Returns the number of freed nodes."""
        epoch, behind, freed = c_uint64(), c_uint32(), c_uint64()
        for _ in range(_ADVANCES):
            with suppress(Fault):  # the epoch is held back, or another worker has advanced it
                self._answered(c.quick.nm_worker_advance, epoch, behind)
        self._answered(c.exports.nm_worker_collect, epoch, freed)
        return freed.value

    def pending(self) -> Optional[int]:
        """Returns the key of a discard that has begun and is not finished, or None."""
        key = c_uint64()
        return key.value if self._answered(c.quick.nm_worker_pending, key) else None

    def queue_len(self) -> int:
        """Returns how many nodes wait in its queue, including those that borrowed calls removed."""
        return self.stats().queued

    def stats(self) -> Stats:
        """Returns what calls by it have won, including borrowed ones, and what became of the nodes
        that they cut off."""
        words = c.StatsWords()
        self._answered(c.quick.nm_worker_stats, words)
        return Stats(*(getattr(words, name) for name, _ in words._fields_))

    def publish(self) -> Stamp:
        """Publishes a stamp of all that the worker has seen, in place of its earlier one. Returns
        what it has done so far. No answer of the set depends on stamps: they are for proofs about
        the order of two workers' calls. Raises `Contention` if another worker is observing the
        earlier stamp at this moment."""
        added, discarded = c_uint64(), c_uint64()
        self._answered(c.quick.nm_worker_publish, added, discarded)
        return Stamp(added.value, discarded.value)

    def observe(self, number: SupportsIndex) -> Optional[Stamp]:
        """Observes the stamp that the worker of a number has published. Returns what that worker
        had done by then, or None if it has published none. All that this worker is asked from now
        on happens after all that the other one had seen when it published the stamp. Raises
        `Contention` if another worker is at that stamp at this moment."""
        writer = self._set._worker_number(number)
        added, discarded = c_uint64(), c_uint64()
        is_published = self._answered(c.quick.nm_worker_observe, writer, added, discarded)
        return Stamp(added.value, discarded.value) if is_published else None

    def close(self) -> None:
        """Returns the worker to its set. This ends its pin, and finishes its discard if the bound
        allows. It waits for a call that another thread makes by the worker, for at most the
        `timeout_ms` of `Options`, and then raises `InUse`. In a forked child it does nothing."""
        outcome = waited(
            lambda library, part: int(library.nm_pool_detach(self._pool, self._cell, part)),
            self._set._options.timeout_ms,
        )
        if outcome == c.IN_USE:
            raise fault(outcome)

    def __enter__(self) -> Worker:
        return self

    def __exit__(
        self,
        kind: Optional[type[BaseException]],
        error: Optional[BaseException],
        trace: Optional[TracebackType],
    ) -> None:
        self.close()

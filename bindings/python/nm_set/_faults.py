"""The exceptions that calls raise."""

from __future__ import annotations

import reprlib
from collections.abc import Sequence
from ctypes import c_void_p, create_string_buffer

from . import _library as c

MOST_KEY = 2**64 - 4
"""The greatest key."""

MOST_NODES = 268_435_456
MOST_WORKERS = 64
SHOWN = 10
"""The number of keys that `repr` shows."""


class Fault(Exception):
    """A call failed. `outcome` is the number in nm_set.h, or None if the library has no outcome for
    it."""

    outcome: int | None = None


class Full(Fault):
    """An add to a set, or an insert into a map, found no free nodes: the keys take all of them, or
    no others were freed within the `timeout_ms` of its `Options`. Nothing has changed."""

    outcome = c.FULL


class NoMemory(Fault, MemoryError):
    """Memory was refused. Nothing has changed."""

    outcome = c.NO_MEMORY


class Contention(Fault):
    """Other threads interfered with each try of each round of a call. Of the call nothing remains
    but help given to others."""

    outcome = c.BUSY


class Unfinished(Fault):
    """A discard has begun, and its bound was reached before it was finished. The key will be
    removed by this discard and no other. Until the next call by the same worker it is found, and an
    add of it returns False. So discard it again: after False it is gone."""

    outcome = c.UNFINISHED


class NoWorker(Fault):
    """Within the time of the call each worker was in a call, or attached and pinned; for an
    `attach`: in a call or attached. It makes no difference which threads have attached them."""

    outcome = c.NO_WORKER


class Attached(Fault):
    """A worker is attached to a thread, so it cannot be attached again, or its set cannot be
    closed. Or the set is open, so it has no report."""

    outcome = c.ATTACHED


class Closed(Fault, ValueError):
    """The set, or the worker, is closed."""

    outcome = c.CLOSED


class Pinned(Fault):
    """The worker is pinned; or it is not pinned, and `unpin` was called."""

    outcome = c.PINNED


class InUse(Fault):
    """Other threads are in calls by the worker, or by workers that keep the set from being closed,
    for longer than this call waits. Nothing has changed."""

    outcome = c.IN_USE


class Forked(Fault, RuntimeError):
    """The set was made by the process from which this process was forked. Nothing has changed, and
    the set of that process goes on."""

    outcome = c.FORKED


class OutOfRange(Fault, ValueError):
    """A number is out of its range: a key is not 0 to 2^64 - 4, a number of nodes is not 7 to
    268,435,456, a number of workers is not 1 to 64, there is no worker of that number, or a number
    of `Options` is not 0 to 2^32 - 1."""


_TEXTS = {
    c.KEY: "the key is not 0 to 2^64 - 4",
    c.NUMBER: "there is no worker of that number",
    c.NODES: f"the number of nodes is not 7 to {MOST_NODES:,}",
    c.WORKERS: f"the number of workers is not 1 to {MOST_WORKERS}",
    c.NO_MEMORY: "memory was refused",
    c.BUSY: "other threads interfered with each try of each round: call again, or raise the rounds"
    " of the options",
    c.FULL: "no nodes are free for the new key",
    c.UNFINISHED: "the discard is not finished: the key is found until the next call by its worker,"
    " so discard it again",
    c.PINNED: "the worker is pinned: unpin it first",
    c.NOT_PINNED: "the worker is not pinned",
    c.ATTACHED: "a worker is attached to a thread",
    c.NO_WORKER: f"each worker of the set is attached or in a call ({MOST_WORKERS} at most)",
    c.CLOSED: "the worker is closed",
    c.FORKED: "the set was made before this process was forked: no other process would see what it"
    " adds; make a set in this process",
    c.CLOSING: "the set is closed",
    c.IN_USE: "another thread is in a call by the worker",
}

_KINDS: dict[int, type[Fault]] = {
    c.KEY: OutOfRange,
    c.NUMBER: OutOfRange,
    c.NODES: OutOfRange,
    c.WORKERS: OutOfRange,
    c.NO_MEMORY: NoMemory,
    c.BUSY: Contention,
    c.PENDING: Contention,
    c.FULL: Full,
    c.UNFINISHED: Unfinished,
    c.PINNED: Pinned,
    c.NOT_PINNED: Pinned,
    c.ATTACHED: Attached,
    c.NO_WORKER: NoWorker,
    c.CLOSED: Closed,
    c.CLOSING: Closed,
    c.IN_USE: InUse,
    c.FORKED: Forked,
}


def fault(outcome: int, text: str | None = None) -> Fault:
    """Returns the exception of an outcome below 0, with its usual text or another one."""
    usual = _TEXTS.get(c.BUSY if outcome == c.PENDING else outcome)
    kind = _KINDS.get(outcome, Fault)
    made = kind(text or usual or f"the library returned outcome {outcome}")
    made.outcome = outcome
    return made


def answered(outcome: int) -> bool:
    """Returns whether the answer is not no, and raises the fault of an error. If an earlier discard
    is still pending, it raises `Contention`."""
    if outcome < 0:
        raise fault(outcome)
    return outcome != 0


def shown(number: int) -> str:
    """Returns a number as text, or its size in bits if it has more than 256. Python refuses to
    write numbers with thousands of digits."""
    bits = number.bit_length()
    return str(number) if bits <= 256 else f"{'-' * (number < 0)}(a number of {bits:,} bits)"


def key_fault(key: int) -> Fault:
    """Returns the exception of an integer that is no key."""
    return fault(c.KEY, f"the key {shown(key)} is not 0 to {MOST_KEY:,} (2^64 - 4)")


_WHOLE = reprlib.Repr()
_WHOLE.maxother = _WHOLE.maxstring = _WHOLE.maxlong = 100  # so that no value that is a key is shortened


def shown_value(value: object) -> str:
    """Returns a value as a text has it. What is much longer than a key is shortened."""
    return _WHOLE.repr(value)


def value_fault(value: object, key: int) -> Fault:
    """Returns the exception of a value of another type that has this number in place of a key."""
    text = "of 64 bits the three greatest values are none"
    if not MOST_KEY < key < 2**64:
        text = f"its mapping returns {shown(key)}, and keys are 0 to {MOST_KEY:,} (2^64 - 4)"
    return fault(c.KEY, f"the value {shown_value(value)} is no key: {text}")


def closed() -> Fault:
    """Returns the exception of a call of a closed set."""
    return fault(c.CLOSED, "the set is closed")


def fault_at(outcome: int, pool: c_void_p, worker: int) -> Fault:
    """Returns the exception of a call of a pool, with the numbers that are known."""
    words, text = c.FullnessWords(), create_string_buffer(640)
    if outcome == c.CLOSED and worker == c.ANY:
        return closed()
    if outcome == c.FULL and c.quick.nm_pool_fullness(pool, words) == c.DONE:
        return fault(outcome, c.quick.nm_full_words(words, text, len(text)).decode())
    if outcome == c.NO_WORKER:
        count = c.quick.nm_pool_workers(pool)
        return fault(
            outcome,
            f"each of the {count} workers of the set ({MOST_WORKERS} at most) is attached or in a"
            " call",
        )
    return fault(outcome)


def shortened(keys: Sequence[object], count: int) -> str:
    """Returns keys as `repr` shows them: the first ones, and how many there are if there are
    more."""
    first = ", ".join(map(repr, keys[:SHOWN]))
    return f"[{first}]" if len(keys) <= SHOWN else f"[{first}, ...], {count} keys"


def those(mask: int) -> str:
    """Returns the workers of a mask as the subject of a sentence, with its verb."""
    text = create_string_buffer(256)
    words: str = c.quick.nm_mask_words(mask, text, len(text)).decode()
    return f"{words} {'are' if mask & (mask - 1) else 'is'}"

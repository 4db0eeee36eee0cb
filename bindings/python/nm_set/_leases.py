"""What is given up when its owner ends.

A signal handler may raise an exception between any two steps of Python, including in a `__del__`, a
`finally` or an `__exit__`; then the steps after it are not made. So none of these gives up a pool or
a worker. Instead, a weak reference to the owner has a function in C as its callback. The interpreter
calls that function when the owner ends, with no step of Python before it.

The function of `_native` takes no memory, and one reference has it, so that the interpreter takes
none either. So what the owner has is given up while memory is refused. Without `_native` there are
several references with functions of ctypes. If these are refused memory, they give up nothing, and
the interpreter reports an ignored exception.
"""

from __future__ import annotations

import ctypes
import functools
import weakref
from typing import Any, Optional

from . import _library as c
from ._backend import is_native

if is_native:
    from ._native import give_up


class Owner:
    """The owner of a pool or a worker, which exists as long as it does. It is part of one set or
    one worker."""

    __slots__ = ("__weakref__",)


class _Lease(weakref.ref):  # type: ignore[type-arg]
    """Calls a function when its owner ends. ctypes passes `_as_parameter_` in its place, and
    `give_up` of `_native` reads `parts`. `kept` are objects that it keeps until then."""

    __slots__ = ("_as_parameter_", "kept", "parts")
    _as_parameter_: object
    kept: tuple[object, ...]
    parts: tuple[Any, ...]


# Each lease whose owner has not ended, because a lease that nothing refers to calls nothing.
_leases: set[_Lease] = set()


def _keep(lease: _Lease, *kept: object) -> None:
    lease.kept = kept
    hash(lease)  # this stores the hash, so that the lease has it after its owner has ended
    _leases.add(lease)


def _by_ctypes(owner: Owner, *calls: tuple[Any, object]) -> None:
    """Makes calls of the library, each with its parameter, when the owner ends, the last one first.
    The lease that keeps the others is forgotten after their calls, because the callbacks are made in
    the order from the latest to the first."""
    forget: Any = _leases.discard
    first, others = _Lease(owner, forget), []
    for call, parameter in calls:
        made = _Lease(owner, call)
        made._as_parameter_ = parameter
        others.append(made)
    _keep(first, *others)


def _in_c(
    owner: Owner,
    handle: Optional[c.Handle],
    pool: Optional[ctypes.c_void_p] = None,
    worker: Optional[ctypes.c_uint32] = None,
) -> None:
    """Gives up these when the owner ends, by `_native`."""
    lease, cells = _Lease(owner, give_up), (handle, pool, worker)
    addresses = (0 if cell is None else ctypes.addressof(cell) for cell in cells)
    lease.parts = (*addresses, _leases)
    _keep(lease, *cells)


def free_with(owner: Owner, pool: ctypes.c_void_p, report: c.Handle) -> None:
    """Gives up a pool and a report when their owner ends. Before they are made, this does
    nothing."""
    if is_native:
        _in_c(owner, report, pool)
    else:
        drop = (c.exports.nm_drop, ctypes.byref(report))
        _by_ctypes(owner, drop, (c.exports.nm_pool_free, pool))


def drop_with(owner: Owner, handle: c.Handle) -> None:
    """Gives up what a handle owns when its owner ends, by ctypes. While the handle is closed, this
    does nothing."""
    _by_ctypes(owner, (c.exports.nm_drop, ctypes.byref(handle)))


def detach_with(owner: Owner, pool: ctypes.c_void_p, worker: ctypes.c_uint32) -> None:
    """Returns an attached worker when its owner ends. Before it is attached, this does nothing."""
    if is_native:
        _in_c(owner, None, pool, worker)
    else:
        _by_ctypes(owner, (functools.partial(c.detach, pool), ctypes.byref(worker)))

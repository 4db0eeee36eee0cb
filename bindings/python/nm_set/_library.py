"""The functions of nm_pool.h, nm_map.h and nm_set.h, by ctypes.

The pool finds a worker for each call and refuses calls in a forked child; several threads may call
it at the same time. So nothing needs a lock here. Other threads run during a call of a function of
`exports`. They wait during a call of a function of `quick`: such a call ends within some hundred
steps, if its time is 0, so waiting costs less than switching threads.
"""

from __future__ import annotations

import ctypes
import os
import shutil
from collections.abc import Iterator
from ctypes import POINTER, c_char_p, c_int, c_int64, c_size_t, c_ubyte, c_uint32, c_uint64
from ctypes import c_void_p
from pathlib import Path
from typing import Any, Final, Optional, TypeVar

from . import __version__


def _refuse_other_interpreters() -> None:
    """Raises ImportError in each interpreter of the process except the first. `_native` keeps its
    exceptions for the whole process: a second interpreter would replace those of the first."""
    python = ctypes.PyDLL(None)
    python.PyInterpreterState_Get.restype = c_void_p
    python.PyInterpreterState_GetID.argtypes = [c_void_p]
    python.PyInterpreterState_GetID.restype = c_int64
    if python.PyInterpreterState_GetID(python.PyInterpreterState_Get()) != 0:
        raise ImportError(
            "nm_set can be imported by the first interpreter of a process alone, and this is"
            " another one: use processes or threads instead of subinterpreters",
            name="nm_set",
        )


_refuse_other_interpreters()


class Handle(ctypes.Structure):
    """nm_handle: a pointer that is null or owns a set, a worker or a report, and whether a call has
    the handle."""

    _fields_ = [("at", c_void_p), ("in_use", c_uint64)]


class StatsWords(ctypes.Structure):
    """nm_stats."""

    _fields_ = [
        (name, c_uint64) for name in ("links", "flags", "splices", "retired", "freed", "queued")
    ]


class OptionsWords(ctypes.Structure):
    """nm_options."""

    _fields_ = [(name, c_uint32) for name in ("tries", "rounds", "collect_after")]


class PoolOptionsWords(ctypes.Structure):
    """nm_pool_options."""

    _fields_ = [
        (name, c_uint32) for name in ("workers", "shape", "tries", "rounds", "collect_after")
    ]


class FullnessWords(ctypes.Structure):
    """nm_fullness."""

    _fields_ = [
        (name, c_uint64)
        for name in ("nodes", "keys", "waiting", "free", "unasked", "behind", "hindering")
    ]


class WaitWords(ctypes.Structure):
    """nm_pool_wait."""

    _fields_ = [("end", c_uint64)] + [(name, c_uint32) for name in ("pause", "looks", "ended")]


class LookupWords(ctypes.Structure):
    """nm_lookup."""

    _fields_ = [(name, c_uint64) for name in ("key", "found")]


class EntryWords(ctypes.Structure):
    """nm_entry."""

    _fields_ = [(name, c_uint64) for name in ("key", "value")]


class MapLookupWords(ctypes.Structure):
    """nm_map_lookup."""

    _fields_ = [(name, c_uint64) for name in ("key", "found", "value")]


class WaitingWords(ctypes.Structure):
    """nm_waiting."""

    _fields_ = [(name, c_uint64) for name in ("slot", "generation", "label")]


_H, _U32, _U64, _POOL = POINTER(Handle), POINTER(c_uint32), POINTER(c_uint64), c_void_p
_SIZE, _BYTES, _OPTIONS = POINTER(c_size_t), POINTER(c_ubyte), POINTER(OptionsWords)
_ENTRIES, _LOOKUPS = POINTER(EntryWords), POINTER(MapLookupWords)

# Each function that this module calls, with its parameters.
FUNCTIONS: dict[str, list[Any]] = {
    "nm_set_version": [_U32, _U32, _U32],
    "nm_drop": [_H],
    "nm_pool_new": [POINTER(_POOL), c_uint64, POINTER(PoolOptionsWords)],
    "nm_pool_close": [_POOL, c_uint32, _H, _U64],
    "nm_pool_free": [_POOL],
    "nm_pool_contains": [_POOL, c_uint32, c_uint64, c_uint32],
    "nm_pool_insert": [_POOL, c_uint32, c_uint64, c_uint32],
    "nm_pool_remove": [_POOL, c_uint32, c_uint64, c_uint32],
    "nm_pool_pop_first": [_POOL, c_uint32, _U64, c_uint32],
    "nm_pool_pop_last": [_POOL, c_uint32, _U64, c_uint32],
    "nm_pool_pop_first_below": [_POOL, c_uint32, c_uint64, _U64, c_uint32],
    "nm_pool_pop_last_from": [_POOL, c_uint32, c_uint64, _U64, c_uint32],
    "nm_pool_pop_first_many": [_POOL, c_uint32, c_uint64, _U64, c_size_t, _SIZE, c_uint32],
    "nm_pool_wait_pop": [_POOL, c_uint32, c_uint64, _U64, c_uint32],
    "nm_pool_wait_first": [_POOL, c_uint32, c_uint64, _U64, c_uint32],
    "nm_pool_next": [_POOL, c_uint32, c_uint64, _U64, c_uint32],
    "nm_pool_prev": [_POOL, c_uint32, c_uint64, _U64, c_uint32],
    "nm_pool_scan": [_POOL, c_uint32, c_uint64, c_uint64, _U64, c_size_t, _SIZE, _U64, c_uint32],
    "nm_pool_scan_back": [
        _POOL, c_uint32, c_uint64, c_uint64, _U64, c_size_t, _SIZE, _U64, c_uint32
    ],
    "nm_pool_count": [_POOL, c_uint32, c_uint64, c_uint64, _U64, c_uint32],
    "nm_pool_contains_many": [_POOL, c_uint32, POINTER(LookupWords), c_size_t, c_uint32],
    "nm_pool_insert_many": [_POOL, c_uint32, _U64, c_size_t, _BYTES, _SIZE, c_uint32],
    "nm_pool_remove_many": [_POOL, c_uint32, _U64, c_size_t, _BYTES, _SIZE, c_uint32],
    "nm_pool_size": [_POOL, _U64],
    "nm_pool_fullness": [_POOL, POINTER(FullnessWords)],
    "nm_pool_growths": [_POOL, _U64, _U64],
    "nm_pool_collect": [_POOL, _U64],
    "nm_pool_reserve": [_POOL, c_uint64, c_uint32, _U64],
    "nm_pool_shrink_to_fit": [_POOL, c_uint32, _U64],
    "nm_pool_nodes": [_POOL],
    "nm_pool_workers": [_POOL],
    "nm_pool_call_options": [_POOL],
    "nm_pool_attached": [_POOL],
    "nm_pool_attach": [_POOL, _U32, c_uint32],
    "nm_pool_attach_number": [_POOL, c_uint32, _U32, c_uint32],
    "nm_pool_detach": [_POOL, _U32, c_uint32],
    "nm_pool_handle": [_POOL, c_uint32],
    "nm_pool_again": [_POOL, c_uint32, POINTER(WaitWords), c_int, c_uint32],
    "nm_full_words": [POINTER(FullnessWords), c_char_p, c_size_t],
    "nm_mask_words": [c_uint64, c_char_p, c_size_t],
    "nm_worker_pin": [_H, c_uint32, _U64],
    "nm_worker_unpin": [_H],
    "nm_worker_advance": [_H, _U64, _U32],
    "nm_worker_collect": [_H, _U64, _U64],
    "nm_worker_pending": [_H, _U64],
    "nm_worker_stats": [_H, POINTER(StatsWords)],
    "nm_worker_publish": [_H, _U64, _U64],
    "nm_worker_observe": [_H, c_uint32, _U64, _U64],
    "nm_map_new": [_H, c_uint32, c_uint32],
    "nm_map_close": [_H],
    "nm_map_wait_attach": [_H, _H, c_uint32],
    "nm_map_insert": [_H, c_uint64, c_uint64, _OPTIONS],
    "nm_map_put": [_H, c_uint64, c_uint64, _OPTIONS, _U64],
    "nm_map_replace": [_H, c_uint64, c_uint64, _OPTIONS, _U64],
    "nm_map_compare_replace": [_H, c_uint64, c_uint64, c_uint64, _OPTIONS, _U64],
    "nm_map_remove": [_H, c_uint64, _OPTIONS, _U64],
    "nm_map_remove_if": [_H, c_uint64, c_uint64, _OPTIONS, _U64],
    "nm_map_pop_first_below": [_H, c_uint64, _OPTIONS, _U64, _U64],
    "nm_map_pop_last_from": [_H, c_uint64, _OPTIONS, _U64, _U64],
    "nm_map_reclaim": [_H, _U64, c_size_t, _U64, _U32],
    "nm_map_hold": [_H, _OPTIONS, _U64],
    "nm_map_unpin": [_H],
    "nm_map_get": [_H, c_uint64, _OPTIONS, _U64],
    "nm_map_get_many": [_H, _LOOKUPS, c_size_t, _OPTIONS],
    "nm_map_get_pinned": [_H, c_uint64, _U64],
    "nm_map_get_many_pinned": [_H, _LOOKUPS, c_size_t],
    "nm_map_at_least": [_H, c_uint64, _OPTIONS, _U64, _U64],
    "nm_map_at_most": [_H, c_uint64, _OPTIONS, _U64, _U64],
    "nm_map_read_keys": [_H, c_uint64, c_uint64, _U64, c_size_t, _SIZE, _U64, _OPTIONS],
    "nm_map_read_keys_back": [_H, c_uint64, c_uint64, _U64, c_size_t, _SIZE, _U64, _OPTIONS],
    "nm_map_read_entries": [_H, c_uint64, c_uint64, _ENTRIES, c_size_t, _SIZE, _U64, _OPTIONS],
    "nm_map_read_entries_back": [
        _H, c_uint64, c_uint64, _ENTRIES, c_size_t, _SIZE, _U64, _OPTIONS
    ],
    "nm_map_count": [_H, c_uint64, c_uint64, _U64, _OPTIONS],
    "nm_map_queue_len": [_H, _U64],
    "nm_map_collect_after": [c_uint32, c_uint32],
    "nm_map_is_brimful": [c_uint64, c_uint64, c_uint64],
    "nm_map_fullness": [c_uint64, c_uint64, c_uint64, c_uint32, POINTER(FullnessWords)],
    "nm_map_full_words": [POINTER(FullnessWords), c_char_p, c_size_t],
    "nm_report_slots": [_H, _U32, _U32],
    "nm_report_keys": [_H, _U64],
    "nm_report_key": [_H, c_uint64, _U64],
    "nm_report_queue": [_H, c_uint32, _U64],
    "nm_report_waiting": [_H, c_uint32, POINTER(WaitingWords)],
}

# What those functions return that return no outcome.
_RESULTS: dict[str, Any] = {
    "nm_pool_free": None,
    "nm_pool_nodes": c_uint64,
    "nm_pool_workers": c_uint32,
    "nm_pool_attached": c_uint64,
    "nm_pool_call_options": POINTER(OptionsWords),
    "nm_pool_handle": _H,
    "nm_full_words": c_char_p,
    "nm_mask_words": c_char_p,
    "nm_map_collect_after": c_uint32,
    "nm_map_fullness": None,
    "nm_map_full_words": c_char_p,
}

# In place of the number of a worker: any worker, and none; and none of a map. In place of the number
# of nodes: the set grows.
ANY: Final = 2**32 - 1
NONE: Final = 2**32 - 2
NOBODY: Final = 2**32 - 1
GROWS: Final = 2**64 - 1

# The outcomes that this module knows.
NO: Final = 0
YES: Final = 1
DONE: Final = 2
INSERTED: Final = 3
REPLACED: Final = 4
ABSENT: Final = 5
OTHER: Final = 6
CLOSED: Final = -1
OPEN: Final = -2
KIND: Final = -3
KEY: Final = -4
NUMBER: Final = -5
NODES: Final = -6
WORKERS: Final = -7
NO_MEMORY: Final = -8
BUSY: Final = -9
FULL: Final = -10
UNFINISHED: Final = -11
PENDING: Final = -12
PINNED: Final = -13
NOT_PINNED: Final = -14
LOST: Final = -16
ATTACHED: Final = -18
CLOSING: Final = -19
IN_USE: Final = -22
NO_WORKER: Final = -23
FORKED: Final = -30

# The outcomes of a call whose time was over.
WAITED: Final = frozenset((FULL, IN_USE, NO_WORKER))

_FILE = "libnm_set.so.0.1"


def _by_pkg_config() -> Iterator[str]:
    """Yields the file of the library that pkg-config finds."""
    if shutil.which("pkg-config") is None:
        return
    import subprocess

    command = ["pkg-config", "--variable=libdir", "nm_set"]
    done = subprocess.run(command, capture_output=True, text=True, check=False)
    if done.returncode == 0 and done.stdout.strip():
        yield str(Path(done.stdout.strip()) / _FILE)


def _has_library(extension: Path) -> bool:
    """Returns whether the library is inside an extension. It is not if the extension was compiled
    where the library's sources were missing. An extension that cannot be loaded is tried again, for
    its error."""
    try:
        return hasattr(ctypes.CDLL(str(extension)), "nm_pool_new")
    except OSError:
        return True


def own_file() -> Optional[Path]:
    """Returns the extension beside this module if the library is in it, or else the library beside
    this module, or None if neither is there."""
    here = Path(__file__).resolve().parent
    extensions = [path for path in sorted(here.glob("_native.*so")) if _has_library(path)]
    return next((path for path in [*extensions, here / _FILE] if path.exists()), None)


def _candidates() -> Iterator[str]:
    """Yields the files that may have the library, in the order in which they are tried. If
    NM_SET_LIBRARY names a file, it is the only one. Otherwise: the extension beside this module,
    the library beside it, the file that c/build made in this checkout, the file that pkg-config
    finds, and the file that the linker finds."""
    named = os.environ.get("NM_SET_LIBRARY")
    if named:
        yield named
        return
    own = own_file()
    if own is not None:
        yield str(own)
    here = Path(__file__).resolve().parent
    checkout = here.parents[2] if len(here.parents) > 2 else here
    built = checkout / "out" / "c" / "libnm_set.so"
    if (checkout / "c" / "include" / "nm_set.h").exists() and built.exists():
        yield str(built)
    yield from _by_pkg_config()
    yield _FILE


def _version_of(library: ctypes.CDLL) -> str:
    numbers = c_uint32(), c_uint32(), c_uint32()
    try:
        library.nm_set_version(*(ctypes.byref(number) for number in numbers))
    except AttributeError:
        return "of an unknown version"
    return ".".join(str(number.value) for number in numbers)


_Library = TypeVar("_Library", bound=ctypes.CDLL)


def _typed(library: _Library, name: str) -> _Library:
    """Returns the library after it has set the types of each function."""
    for function, parameters in FUNCTIONS.items():
        try:
            found = getattr(library, function)
        except AttributeError:
            raise ImportError(
                f"the library {name} ({_version_of(library)}) has no {function}, which nm_set"
                f" {__version__} for Python calls: install the library of the version"
                f" {__version__}, or name its file in NM_SET_LIBRARY",
                name="nm_set",
                path=name,
            ) from None
        found.argtypes, found.restype = parameters, _RESULTS.get(function, c_int)
    return library


def _load() -> tuple[ctypes.CDLL, ctypes.PyDLL]:
    faults = []
    for name in _candidates():
        try:
            library = ctypes.CDLL(name)
        except OSError as error:
            faults.append(str(error))
            continue
        _typed(library, name)
        quick = ctypes.PyDLL(name, handle=library._handle)
        return library, _typed(quick, name)
    text = "; ".join(faults)
    raise ImportError(
        f"the library of nm_set was not found: {text}. Install it by c/install and let"
        " PKG_CONFIG_PATH name its folder, or name its file in NM_SET_LIBRARY",
        name="nm_set",
    )


exports, quick = _load()


def address(function: str) -> int:
    """Returns the address of a function of the library."""
    return ctypes.cast(getattr(exports, function), c_void_p).value or 0


# nm_pool_detach, which waits for ten seconds at most if no time is given.
detach = ctypes.CFUNCTYPE(c_int, _POOL, _U32, c_uint32)(
    ("nm_pool_detach", exports), ((1, "pool"), (1, "worker"), (1, "timeout_ms", 10_000))
)

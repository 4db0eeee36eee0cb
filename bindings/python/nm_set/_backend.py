"""The calls for keys: those in C if they are built, and otherwise those by ctypes. With NM_SET_PURE
in the environment they are those by ctypes."""

from __future__ import annotations

import os
from typing import TYPE_CHECKING

from . import _library as c
from ._faults import fault_at, key_fault

# The functions that those in C call, in the order in which `bind` takes them.
_IN_C = ("contains", "insert", "remove", "pop_first", "pop_last", "next", "prev")
_IN_C += ("pop_first_below", "pop_last_from", "pop_first_many")
_IN_C += ("scan", "scan_back", "count", "contains_many", "insert_many", "remove_many", "size")
_IN_C += ("detach", "free")

if TYPE_CHECKING or os.environ.get("NM_SET_PURE"):
    from ._calls import Calls, answers, first_wrong

    is_native = False
else:
    try:
        from ._native import Calls, answers, bind, first_wrong
    except ImportError:
        from ._calls import Calls, answers, first_wrong

        is_native = False
    else:
        addresses = tuple(c.address(f"nm_pool_{name}") for name in _IN_C)
        bind(*addresses, c.address("nm_drop"), fault_at, key_fault)
        is_native = True

__all__ = ["Calls", "answers", "first_wrong", "is_native"]

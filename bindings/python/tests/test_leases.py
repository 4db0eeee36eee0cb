"""What an owner has is given up at its end, also while memory is refused."""

from __future__ import annotations

import gc
import sys
import unittest
import weakref
from array import array
from collections.abc import Iterator
from contextlib import contextmanager, suppress
from ctypes import byref, c_uint32, c_void_p

import nm_set
from nm_set import _library as c
from nm_set._leases import Owner, detach_with, free_with

try:
    import _testcapi
except ImportError:
    _testcapi = None


@contextmanager
def collected() -> Iterator[None]:
    """Keeps the collector of cycles from running in a test."""
    gc.collect()
    gc.disable()
    try:
        yield
    finally:
        gc.enable()


class Pool:
    """A pool with its lease, and the report of its set."""

    def __init__(self) -> None:
        self.cell, self.report, self.owner = c_void_p(), c.Handle(), Owner()
        free_with(self.owner, self.cell, self.report)
        assert c.exports.nm_pool_new(byref(self.cell), 64, None) == c.DONE

    def end(self, worker: c_uint32) -> int:
        """Ends the set by its last worker, and returns the outcome."""
        return int(c.exports.nm_pool_end(self.cell, byref(worker), byref(self.report), 0))


@unittest.skipUnless(_testcapi, "this Python cannot refuse memory")
@unittest.skipIf(sys.version_info < (3, 11), "this Python stops when memory is refused")
@unittest.skipUnless(nm_set.is_native, "ctypes takes memory for each call")
class RefusedMemory(unittest.TestCase):
    def test_a_worker_is_returned(self) -> None:
        with collected():
            pool, worker, owner = Pool(), c_uint32(c.NONE), Owner()
            detach_with(owner, pool.cell, worker)
            self.assertEqual(c.exports.nm_pool_attach(pool.cell, worker, 0), c.DONE)
            self.assertEqual(c.exports.nm_pool_attached(pool.cell), 1)
            _testcapi.set_nomemory(0)
            del owner
            _testcapi.remove_mem_hooks()
            self.assertEqual(c.exports.nm_pool_attached(pool.cell), 0)
            self.assertEqual(worker.value, c.NONE)

    def test_a_pool_is_given_up(self) -> None:
        with collected():
            pool, worker = Pool(), c_uint32(c.NONE)
            self.assertEqual(c.exports.nm_pool_attach(pool.cell, worker, 0), c.DONE)
            self.assertEqual(pool.end(worker), c.ATTACHED)
            _testcapi.set_nomemory(0)
            del pool.owner
            _testcapi.remove_mem_hooks()
            self.assertEqual(pool.end(worker), c.DONE)
            self.assertEqual(c.exports.nm_drop(pool.report), c.DONE)

    def test_a_map_ends_its_objects(self) -> None:
        with collected():
            found = nm_set.Map[object](64, workers=1)
            found[5] = value = Owner()
            reference = weakref.ref(value)
            del value
            _testcapi.set_nomemory(0)
            del found
            _testcapi.remove_mem_hooks()
            self.assertIsNone(reference())

    def test_a_map_loses_no_reference(self) -> None:
        value, key = Owner(), 10**15
        before = sys.getrefcount(value)
        with nm_set.Map[object](64, workers=2) as found:
            for first in range(40):
                with suppress(MemoryError):
                    self.make_calls(found, key, value, first)
            self.assertEqual(len(found), len(list(found)))
        self.assertEqual(sys.getrefcount(value), before)

    def make_calls(self, found: nm_set.Map[object], key: int, value: object, first: int) -> None:
        """Makes calls, while one request for memory is refused."""
        words = memoryview(array("Q", [key, 5]))
        _testcapi.set_nomemory(first, first + 1)
        try:
            found[key] = found[5] = value
            found.replace(key, value)
            found.get(key), found.first(), found._scan_items(0, 2**64 - 1, 8, False)
            found._get_some(words, None), found.pop(key), found.pop_last(), found.collect()
        finally:
            _testcapi.remove_mem_hooks()


if __name__ == "__main__":
    unittest.main()

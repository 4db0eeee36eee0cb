"""Each call by one thread, and each fault that one thread can meet."""

import copy
import ctypes
import gc
import pickle
import sys
import time
import typing
import unittest
from decimal import Decimal
from fractions import Fraction
from unittest import mock

import nm_set
from nm_set import MOST_KEY, Set, Options


HUGE = 10**5_000  # Python refuses to write all of its digits


def handle_of(worker: nm_set.Worker) -> typing.Any:
    """Returns a pointer to the handle of a worker."""
    from nm_set import _library

    return _library.quick.nm_pool_handle(worker._pool, worker._cell)


def unfinished(worker: nm_set.Worker, key: int) -> typing.Optional[int]:
    """Leaves the discard of a key unfinished, and returns the key that is pending."""
    from nm_set import _library

    remove = ctypes.CDLL(_library.exports._name).nm_worker_try_remove
    assert remove(handle_of(worker), ctypes.c_uint64(key), 1) == _library.UNFINISHED
    return worker.pending()


class Sizes(unittest.TestCase):
    def test_a_set_has_its_capacity(self) -> None:
        for nodes, capacity in ((7, 1), (8, 1), (9, 2), (65_536, 32_765)):
            with Set(nodes) as numbers:
                self.assertEqual(numbers.capacity, capacity)
        with Set(25) as numbers:
            self.assertEqual(numbers.add_many(range(numbers.capacity)), 10)
            with self.assertRaises(nm_set.Full):
                numbers.add(10)

    def test_a_number_with_thousands_of_digits_is_out_of_range(self) -> None:
        with Set(64, workers=2) as numbers, numbers.attach() as worker:
            calls = (numbers.add, numbers.at_least, numbers.worker, worker.observe, worker.pin)
            for call in (*calls, Options, Set, lambda key: numbers.add_many([1, key])):
                for number in (HUGE, -HUGE):
                    with self.assertRaisesRegex(nm_set.OutOfRange, "a number of 16,610 bits"):
                        call(number)
            self.assertFalse(HUGE in numbers or numbers.discard(HUGE))
            self.assertEqual(list(numbers), [])

    def test_sizes_are_told(self) -> None:
        wrong_nodes = [(6, 1), (268_435_457, 1), (-1, 1), (2**64, 1)]
        for nodes, workers in [*wrong_nodes, (7, 0), (7, 65), (7, 2**32 + 1)]:
            with self.assertRaises(nm_set.OutOfRange):
                Set(nodes, workers=workers)
        with self.assertRaises(TypeError):
            Set("64")  # type: ignore[arg-type]
        with Set(7, workers=1) as numbers:
            self.assertTrue(numbers.add(5))


class Keys(unittest.TestCase):
    def test_keys_come_and_go(self) -> None:
        for shape in ("radix", "unbalanced"):
            with Set(64, shape=shape) as numbers:
                self.assertNotIn(5, numbers)
                self.assertEqual((numbers.add(5), numbers.add(5)), (True, False))
                self.assertIn(5, numbers)
                self.assertEqual((numbers.discard(5), numbers.discard(5)), (True, False))
                self.assertNotIn(5, numbers)
                self.assertTrue(numbers.add(MOST_KEY) and numbers.add(0) and numbers.add(9))
                numbers.remove(9)
                with self.assertRaises(KeyError):
                    numbers.remove(9)
            report = numbers.report
            self.assertEqual((report.keys, len(report)), ((0, MOST_KEY), 2))
            self.assertEqual(list(report), [0, MOST_KEY])
            self.assertTrue(0 in report and MOST_KEY in report and 9 not in report)
            self.assertEqual((report.reached, report.free + sum(map(len, report.waiting))), (4, 55))

    def test_what_is_no_key_is_told(self) -> None:
        with Set(64) as numbers:
            for key in (MOST_KEY + 1, 2**64, 2**64 + 5, -1):
                with self.assertRaisesRegex(nm_set.OutOfRange, f"the key {key} is not 0 to 18,4"):
                    numbers.add(key)
                for call in (numbers.at_least, lambda key: numbers.add_many([3, key])):
                    with self.assertRaises(nm_set.OutOfRange):
                        call(key)
            for other in ("5", 5.0, None):
                with self.assertRaises(TypeError):
                    numbers.add(other)  # type: ignore[arg-type]
        self.assertEqual(len(numbers.report), 0)

    def test_what_is_no_key_is_in_no_set(self) -> None:
        with Set([0, 5, MOST_KEY], nodes=64) as numbers:
            for key in (MOST_KEY + 1, 2**64, 2**64 + 5, -1, "5", 5.5, None, float("inf"), 1j, {5}):
                self.assertNotIn(key, numbers)
                self.assertFalse(numbers.contains(key) or numbers.discard(key))
                with self.assertRaises(KeyError) as raised:
                    numbers.remove(key)
                self.assertEqual(raised.exception.args, (key,))
            for other in ([5], {}):
                for call in (numbers.__contains__, numbers.discard, numbers.remove):
                    with self.assertRaises(TypeError):
                        call(other)
            for same in (5, 5.0, Fraction(5), Decimal(5)):
                self.assertIn(same, numbers)
                self.assertTrue(numbers.discard(same) and numbers.add(5))
            self.assertIn(False, numbers)
            self.assertEqual(numbers, {0, 5, MOST_KEY})

    def test_faults_are_exceptions_of_python_too(self) -> None:
        self.assertTrue(issubclass(nm_set.NoMemory, MemoryError))
        self.assertTrue(issubclass(nm_set.OutOfRange, ValueError))
        numbers = Set(7)
        numbers.add(5)
        with self.assertRaises(nm_set.Full) as raised:
            numbers.add(6)
        self.assertEqual(raised.exception.outcome, -10)
        self.assertEqual(
            str(raised.exception),
            "the set is full: its 1 keys take 7 of its 7 nodes, and 0 wait to be freed",
        )


class Numbers(unittest.TestCase):
    def test_no_number_wraps(self) -> None:
        with Set(64, workers=2) as numbers, numbers.attach() as worker:
            for number in (-1, 2**32, 2**64 + 5):
                for name in ("tries", "rounds", "collect_after", "timeout_ms"):
                    with self.assertRaisesRegex(nm_set.OutOfRange, f"{name} is not .*: {number}"):
                        Options(**{name: number})
                for call in (worker.pin, worker.observe, numbers.worker):
                    with self.assertRaises(nm_set.OutOfRange):
                        call(number)
            for other in (1.5, "5", None):
                for call in (Options, worker.pin, worker.observe, numbers.worker):
                    with self.assertRaises(TypeError):
                        call(other)
        self.assertEqual(Options(2**32 - 1, True).rounds, 1)

    def test_nothing_is_copied(self) -> None:
        with Set(64) as numbers, numbers.attach() as worker:
            for own in (numbers, worker):
                for call in (copy.copy, copy.deepcopy, pickle.dumps):
                    with self.assertRaisesRegex(TypeError, "cannot be copied or pickled"):
                        call(own)
                with self.assertRaises(TypeError):
                    hash(own)


class SeveralKeys(unittest.TestCase):
    def test_several_keys_are_looked_up_in_a_call(self) -> None:
        with Set(64, workers=2) as numbers:
            numbers.add(5)
            self.assertEqual(numbers.contains_many([4, 5, MOST_KEY, 5]), [False, True, False, True])
            self.assertEqual(numbers.contains_many([]), [])
            with self.assertRaises(nm_set.OutOfRange):
                numbers.contains_many([5, MOST_KEY + 1])
            with numbers.attach() as worker:
                self.assertEqual(worker.contains_many(range(4, 7)), [False, True, False])
                worker.pin()
                with self.assertRaises(nm_set.Pinned):
                    worker.contains_many([5])


class KeysInUse(unittest.TestCase):
    def test_the_keys_of_a_set_in_use_ascend(self) -> None:
        with Set(64, workers=2) as numbers:
            self.assertEqual((numbers.at_least(0), list(numbers), len(numbers)), (None, [], 0))
            self.assertFalse(numbers)
            for key in (30, 10, MOST_KEY, 20):
                numbers.add(key)
            asked = (0, 10, 11, 21, 31, MOST_KEY)
            found = [10, 10, 20, 30, MOST_KEY, MOST_KEY]
            self.assertEqual([numbers.at_least(key) for key in asked], found)
            numbers.discard(20)
            with numbers.attach() as worker:
                self.assertEqual((worker.at_least(11), list(numbers)), (30, [10, 30, MOST_KEY]))
            self.assertTrue(numbers)
            self.assertEqual(len(numbers), 3)
            with self.assertRaises(nm_set.OutOfRange):
                numbers.at_least(MOST_KEY + 1)
        with self.assertRaises(nm_set.Closed):
            list(numbers)


class Notes(unittest.TestCase):
    def test_a_worker_reads_the_note_of_another_one(self) -> None:
        with Set(64, workers=2) as numbers:
            with numbers.worker(0) as writer, numbers.worker(1) as reader:
                self.assertIsNone(reader.observe(0))
                for number in (2, 2**32, -1):
                    with self.assertRaises(nm_set.OutOfRange):
                        reader.observe(number)
                writer.add(5)
                self.assertEqual(writer.publish(), nm_set.Stamp(added=1, discarded=0))
                self.assertEqual(reader.observe(0), nm_set.Stamp(added=1, discarded=0))
                writer.discard(5)
                self.assertEqual(reader.observe(0), nm_set.Stamp(added=1, discarded=0))
                self.assertEqual((writer.publish(), reader.observe(0)), (nm_set.Stamp(1, 1),) * 2)


class Workers(unittest.TestCase):
    def test_a_worker_has_its_calls(self) -> None:
        with Set(64, workers=2) as numbers:
            with numbers.worker(1) as worker:
                self.assertEqual(worker.number, 1)
                self.assertTrue(worker.add(5) and 5 in worker)
                self.assertTrue(worker.discard(5) and 5 not in worker)
                self.assertEqual((worker.queue_len(), worker.stats().retired), (2, 2))
                self.assertIsNone(worker.pending())
                self.assertEqual((worker.collect(), worker.queue_len()), (2, 0))
                self.assertEqual(worker.stats(), nm_set.Stats(1, 1, 1, 2, 2, 0))
                self.assertEqual(worker.pin(), 3)
                with self.assertRaises(nm_set.Pinned):
                    worker.add(6)
                worker.unpin()
                with self.assertRaises(nm_set.Pinned):
                    worker.unpin()
            with self.assertRaises(nm_set.Closed):
                worker.add(6)

    def test_workers_are_given_out_once(self) -> None:
        numbers = Set(64, workers=2)
        first, second = numbers.attach(), numbers.attach()
        self.assertEqual((first.number, second.number), (0, 1))
        for number in (0, 1):
            with self.assertRaises(nm_set.Attached):
                numbers.worker(number)
        for number in (-1, 2, 2**40):
            with self.assertRaises(nm_set.OutOfRange):
                numbers.worker(number)
        with self.assertRaises(nm_set.NoWorker):
            numbers.attach()
        second.close()
        second.close()
        self.assertTrue(numbers.add(5))
        self.assertEqual(numbers.attach().number, 1)

    def test_a_worker_whose_object_ends_goes_back(self) -> None:
        numbers = Set(64, workers=1)
        numbers.attach()
        self.assertTrue(numbers.add(5))
        worker = numbers.attach()
        worker.pin()
        ring = [worker]
        ring.append(ring)  # type: ignore[arg-type]
        del worker, ring
        gc.collect()
        self.assertTrue(5 in numbers and numbers.add(6))
        self.assertEqual(len(numbers.close()), 2)

    def test_one_thread_at_a_time_uses_a_worker(self) -> None:
        with Set(64, options=Options(timeout_ms=30)).attach() as worker:
            handle = handle_of(worker)
            handle.contents.in_use = 1
            for call in (lambda: worker.add(5), lambda: worker.add_many([5]), worker.close):
                with self.assertRaises(nm_set.InUse) as raised:
                    call()
                self.assertEqual(raised.exception.outcome, -22)
            handle.contents.in_use = 0
            self.assertTrue(worker.add(5))

    def test_the_least_number_comes_first(self) -> None:
        numbers = Set(64, workers=37)
        workers = [numbers.attach() for _ in range(37)]
        self.assertEqual([worker.number for worker in workers[:5]], [0, 1, 2, 3, 4])
        self.assertEqual(sorted(worker.number for worker in workers), list(range(37)))


class Ends(unittest.TestCase):
    def test_a_set_is_closed_once_no_worker_is_out(self) -> None:
        numbers = Set(64)
        worker = numbers.attach()
        worker.add(5)
        with self.assertRaises(nm_set.Attached):
            numbers.close()
        with self.assertRaises(nm_set.Attached):
            numbers.report
        self.assertTrue(5 in worker and 5 in numbers)
        worker.close()
        report = numbers.close()
        self.assertEqual((report.keys, numbers.close(), numbers.report), ((5,), report, report))
        for call in (numbers.add, numbers.discard, numbers.__contains__):
            with self.assertRaises(nm_set.Closed):
                call(5)
        with self.assertRaises(nm_set.Closed):
            numbers.attach()

    def test_a_worker_outlives_its_set(self) -> None:
        worker = Set(64).attach()
        gc.collect()
        self.assertTrue(worker.add(5) and 5 in worker)

    def test_a_report_tells_what_waits(self) -> None:
        numbers = Set(64, workers=3)
        with numbers.worker(1) as worker:
            worker.add(5)
            worker.discard(5)
        waiting = numbers.close().waiting
        self.assertEqual([len(nodes) for nodes in waiting], [0, 2, 0])
        for node in waiting[1]:
            self.assertTrue(node.slot > 5 and node.generation == 1 and node.label == 0)


    def test_the_text_of_a_report_is_bounded(self) -> None:
        numbers = Set(range(12), nodes=64)
        numbers.discard(0)
        text = "[1, 2, 3, 4, 5, 6, 7, 8, 9, 10, ...], 11 keys, free=35, reached=22, waiting=2"
        self.assertEqual(repr(numbers.close()), f"Report({text})")
        self.assertEqual(
            repr(Set([3, 5], nodes=64).close()), "Report([3, 5], free=55, reached=4, waiting=0)"
        )


class Tended(unittest.TestCase):
    def test_a_discard_that_has_begun_is_finished(self) -> None:
        with Set(64, options=Options(tries=1)) as numbers:
            with numbers.attach() as worker:
                for key in range(10):
                    self.assertTrue(worker.add(key) and worker.discard(key) and key not in worker)
                    self.assertIsNone(worker.pending())

    def test_contention_is_told_at_the_bound(self) -> None:
        with Set(64, options=Options(tries=0)) as numbers:
            for call in (numbers.add, numbers.discard, numbers.__contains__):
                with self.assertRaises(nm_set.Contention):
                    call(5)

    def test_full_is_told_only_behind_a_collection(self) -> None:
        with Set(7, workers=2) as numbers:
            for key in range(100):
                self.assertTrue(numbers.add(key) and numbers.discard(key))
            numbers.add(5)
            with self.assertRaises(nm_set.Full):
                numbers.add(6)

    def test_what_waits_on_seats_that_nobody_uses_is_collected_too(self) -> None:
        with Set(7, workers=3) as numbers:
            with numbers.worker(0) as worker:
                self.assertTrue(worker.add(5) and worker.discard(5) and worker.queue_len() == 2)
            with numbers.worker(1) as worker:
                self.assertTrue(worker.add(6))

    def test_a_worker_that_holds_the_epoch_back_lets_full_be_told(self) -> None:
        for timeout_ms, least in ((0, 0), (32, 0.03)):
            with Set(7, workers=2, options=Options(timeout_ms=timeout_ms)) as numbers:
                with numbers.worker(1) as reader:
                    reader.pin()
                    self.assertTrue(numbers.add(5) and numbers.discard(5))
                    begun = time.monotonic()
                    with self.assertRaises(nm_set.Full) as raised:
                        numbers.add(6)
                    self.assertGreaterEqual(time.monotonic() - begun, least)
                    self.assertEqual(
                        str(raised.exception),
                        "the set is full: its 0 keys take 5 of its 7 nodes, and 2 wait to be freed;"
                        " worker 1 is in their way, by a pin or in a call",
                    )
                    self.assertEqual((numbers.collect(), numbers.waiting()), (0, 2))
                self.assertTrue(numbers.add(6))

    def test_nodes_are_collected_when_64_of_them_wait(self) -> None:
        from nm_set import _library

        for nodes, workers, after, usual in (
            (7, 1, None, 64),
            (65_536, 64, None, 64),
            (65_536, 1, 0, 0),
        ):
            options = Options(collect_after=after)
            with Set(nodes, workers=workers, options=options) as numbers:
                made = _library.quick.nm_pool_call_options(numbers._pool).contents
                self.assertEqual(made.collect_after, usual)

    def test_a_full_set_is_told_in_time_beside_a_thread_that_has_stopped(self) -> None:
        """A thread that stopped in the middle of a call has the handle of its worker in use."""
        for timeout_ms in (0, 50):
            with Set(9, workers=3, options=Options(timeout_ms=timeout_ms)) as numbers:
                with numbers.attach() as stopped, numbers.attach() as other:
                    self.assertEqual((stopped.add_many([4, 5]), stopped.discard(4)), (2, True))
                    self.assertEqual((numbers.waiting(), numbers.free()), (2, 0))
                    handle_of(stopped).contents.in_use = 1
                    begun = time.monotonic()
                    told = len(numbers), numbers.waiting(), numbers.free(), repr(numbers)
                    self.assertEqual(told, (1, 2, 0, "Set([5])"))
                    self.assertLess(time.monotonic() - begun, 0.2)
                    for own in (numbers, other):
                        begun = time.monotonic()
                        with self.assertRaises(nm_set.Full) as raised:
                            own.add(6)
                        took = time.monotonic() - begun
                        self.assertGreaterEqual(took, timeout_ms / 1_000)
                        self.assertLess(took, timeout_ms / 1_000 + 0.2)
                        self.assertEqual(
                            str(raised.exception),
                            "the set is full: its 1 keys take 7 of its 9 nodes, and 2 wait to be"
                            " freed; worker 0 is in a call, so what waits there is counted as last"
                            " seen",
                        )
                    handle_of(stopped).contents.in_use = 0
                    self.assertTrue(other.add(6))

    def test_a_call_borrows_a_worker_that_is_attached_and_not_pinned(self) -> None:
        with Set(64, workers=2) as numbers:
            with numbers.attach() as first, numbers.attach() as second:
                first.pin()
                self.assertEqual((numbers.add(5), numbers.add_many([6, 7, 8])), (True, 3))
                self.assertEqual((second.stats().links, second.publish().added), (4, 4))
                self.assertEqual((numbers.discard(5), numbers.pop_first()), (True, 6))
                self.assertEqual((second.pending(), second.queue_len()), (None, 4))
                self.assertEqual((numbers.contains_many([5, 7]), len(numbers)), ([False, True], 2))
                # A discard that the worker's own thread has left unfinished is finished first.
                self.assertEqual(unfinished(second, 7), 7)
                self.assertEqual((7 in numbers, second.pending()), (False, None))
                first.unpin()
                self.assertEqual((first.stats().links, list(numbers)), (0, [8]))

    def test_retired_nodes_are_collected_as_they_come_due(self) -> None:
        with Set(4_096, options=Options(collect_after=8)) as numbers:
            with numbers.attach() as worker:
                for key in range(500):
                    self.assertTrue(worker.add(key) and worker.discard(key))
                    self.assertLessEqual(worker.queue_len(), 32)
                self.assertGreaterEqual(worker.stats().freed, 900)


class Types(unittest.TestCase):
    @unittest.skipIf(sys.version_info < (3, 11), "this Python does not keep overloads")
    def test_the_answers_of_several_look_ups_have_the_type_of_their_room(self) -> None:
        hints = [typing.get_type_hints(each) for each in typing.get_overloads(Set.contains_many)]
        self.assertEqual([each["out"] for each in hints], [type(None), hints[1]["return"]])
        self.assertEqual(hints[0]["return"], list[bool])

    def test_each_public_call_has_its_types(self) -> None:
        for kind in (nm_set.Set, nm_set.Worker, nm_set.Report):
            for name, member in vars(kind).items():
                call = member.fget if isinstance(member, property) else member
                if callable(call) and (name[0] != "_" or name in ("__contains__", "__len__")):
                    self.assertIn("return", typing.get_type_hints(call), f"{kind.__name__}.{name}")


if __name__ == "__main__":
    unittest.main()

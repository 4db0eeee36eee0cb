"""Tests of sets whose keys are of another type: they answer like a sorted list of the values."""

from __future__ import annotations

import copy
import itertools
import math
import re
import unittest
from datetime import datetime, timedelta, timezone
from decimal import Decimal
from enum import IntEnum
from typing import Any
from unittest import mock

import nm_set
from nm_set import MapOf, Mapping, SetOf, floats, pairs, short_bytes, signed, unsigned
from nm_set import _library as c


class Level(IntEnum):
    LOW = 1
    HIGH = 7


FIRST = datetime(2000, 1, 1, tzinfo=timezone.utc)
TIMES: Mapping[datetime] = Mapping(
    lambda time: int((time - FIRST) / timedelta(microseconds=1)),
    lambda key: FIRST + timedelta(microseconds=key),
)

CASES: list[tuple[Mapping[Any], list[Any]]] = [
    (signed(), [5, -7, 0, -(2**63), 2**63 - 4, -1]),
    (signed(8), [5, -7, 0, -128, 127]),
    (unsigned(), [5, 7, 0, 2**64 - 4]),
    (pairs(32, 32), [(1, 2), (1, 0), (0, 9), (7, 0), (1, 2**32 - 1)]),
    (pairs(signed(16), 8, signed(8)), [(-1, 2, 3), (-1, 2, -3), (3, 0, 0), (-5, 255, 127)]),
    (Mapping(int, Level), [Level.HIGH, Level.LOW]),
    (TIMES, [FIRST + timedelta(days=days) for days in (5, 1, 9_000, 0)]),
    (floats(), [1.5, -2.5, 0.0, math.inf, -math.inf, 5e-324, -5e-324, 0.1, 1e300]),
    (floats(32), [1.5, -2.5, 0.0, math.inf, -math.inf, 2.0**-149, -(2.0**127)]),
    (short_bytes(), [b"tea", b"", b"a longer", b"te", b"te\x01", b"\xff", b"tea!"]),
    (short_bytes(2), [b"ab", b"a", b"\xff\xff", b"b", b""]),
    (
        pairs(signed(8), floats(32), short_bytes(3)),
        [(-1, 0.5, b"a"), (-1, -0.5, b"b"), (5, math.inf, b""), (-1, 0.5, b"")],
    ),
]


class Typed(unittest.TestCase):
    def test_sets_of_each_type_answer_like_a_list(self) -> None:
        for mapping, values in CASES:
            ordered = sorted(values)
            with SetOf(mapping) as numbers, numbers.attach() as worker:
                for value in values:
                    self.assertTrue(worker.add(value))
                    self.assertFalse(numbers.add(value))
                    self.assertTrue(value in numbers and value in worker)
                    self.assertEqual((numbers.at_least(value), numbers.at_most(value)), (value,) * 2)
                self.assertEqual((list(numbers), len(numbers)), (ordered, len(values)))
                self.assertEqual(list(reversed(worker)), ordered[::-1])
                self.assertEqual(list(numbers.irange(ordered[1])), ordered[1:])
                for count in range(1, len(ordered) + 2):
                    read, rest = [], ordered[0]
                    while rest is not None:
                        some, rest = numbers.scan(rest, count)
                        self.assertTrue(len(some) == count or rest is None)
                        read += some
                    self.assertEqual(read, ordered)
                self.assertEqual(worker.scan(ordered[0], 0), ([], ordered[0]))
                self.assertEqual((numbers.first(), numbers.last()), (ordered[0], ordered[-1]))
                self.assertEqual(numbers & set(values[:1]), {values[0]})
                self.assertEqual((worker.wait_first(0), worker.wait_pop(0)), (ordered[0],) * 2)
                self.assertEqual(numbers.pop_last(), ordered[-1])
                numbers.update([ordered[0]])
                self.assertTrue(numbers.discard(ordered[0]) and not worker.discard(ordered[0]))

    def test_calls_for_several_values_answer_like_a_set(self) -> None:
        for mapping, values in CASES:
            ordered, plain = sorted(values), set(values)
            least, most = ordered[0], ordered[-1]
            with SetOf(mapping, values) as numbers, numbers.attach() as worker:
                self.assertEqual(worker.contains_many(ordered), [True] * len(ordered))
                self.assertEqual(numbers.count_range(least, most, (True, False)), len(ordered) - 1)
                self.assertEqual(worker.discard_range(least, most, (True, False)), len(ordered) - 1)
                self.assertEqual((numbers.first(), numbers.discard_range(maximum=least)), (most, 0))
                numbers.update(ordered)
                self.assertEqual(numbers.discard_many(ordered), len(ordered))
                self.assertEqual((worker.add_many(ordered), numbers.copy()), (len(ordered), plain))
                self.assertIsNone(numbers.wait_first(0, below=least))
                self.assertEqual(numbers.wait_first(below=most), least)
                for call in (numbers.pop_first, worker.pop_first):
                    self.assertRaises(KeyError, call, least)
                self.assertEqual((worker.pop_first(most), numbers.pop_last(most)), (least, most))
                numbers.update((least, most))
                self.assertEqual(numbers.wait_pop(0, below=most), least)
                numbers.add(least)
                self.assertEqual(numbers.pop_first_many(99, below=most), ordered[:-1])
                self.assertRaises(KeyError, numbers.remove, least)
                numbers.symmetric_difference_update(ordered)
                self.assertEqual(numbers.symmetric_difference([most]), {*ordered})
                numbers.intersection_update(ordered[:1], ordered)
                self.assertEqual((list(numbers), numbers.contains(most)), ([least], False))
                self.assertTrue(numbers.issubset(plain) and not numbers.issuperset(plain))
                self.assertEqual(numbers.union(plain), plain)
                self.assertEqual(numbers.intersection(plain), {least})
                self.assertEqual(numbers.difference([least]), set())
                numbers.difference_update(plain)
                numbers.clear()
                self.assertEqual((len(numbers), worker.stats().links > 0), (0, True))

    def test_maps_of_each_type_answer_like_a_dict(self) -> None:
        for mapping, values in CASES:
            ordered = sorted(values)
            plain = {value: str(value) for value in ordered}
            with MapOf(mapping, ((value, str(value)) for value in values)) as found:
                self.assertEqual((dict(found), found == plain), (plain, True))
                self.assertEqual(len(found), len(plain))
                self.assertEqual(list(reversed(found)), ordered[::-1])
                self.assertEqual(found.get_many([*values], "none"), [plain[each] for each in values])
                for value in values:
                    self.assertFalse(found.insert(value, "again"))
                    entry = (value, plain[value])
                    self.assertEqual((found.at_least(value), found.at_most(value)), (entry, entry))
                    self.assertEqual((found[value], found.get(value)), (entry[1],) * 2)
                    self.assertIn(value, found)
                    self.assertEqual(found.count_range(value, value), 1)
                for one, two in itertools.product(ordered, repeat=2):
                    inside = [each for each in ordered if one <= each <= two]
                    self.assertEqual(list(found.irange(one, two)), inside)
                    items = found.items_range(one, two, reverse=True)
                    self.assertEqual(list(items), [(each, plain[each]) for each in inside[::-1]])
                self.check_the_ends(found, list(plain.items()))
                self.check_what_removes(found, plain)

    def check_the_ends(self, found: MapOf[Any, str], items: list[tuple[Any, str]]) -> None:
        read, rest = found.scan(items[0][0], len(items) - 1)
        self.assertEqual((read, rest), (items[:-1], items[-1][0]))
        self.assertEqual(found.scan(items[0][0], 99), (items, None))
        self.assertEqual((found.first(), found.last()), (items[0], items[-1]))
        self.assertEqual((found.wait_first(0), found.wait_first(0, items[0][0])), (items[0], None))
        self.assertEqual(list(found.items()), items)
        self.assertEqual(list(found.keys()), [each[0] for each in items])
        self.assertEqual(list(found.values()), [each[1] for each in items])
        self.assertEqual(list(reversed(found.items())), items[::-1])
        self.assertIn(items[0], found.items())

    def check_what_removes(self, found: MapOf[Any, str], plain: dict[Any, str]) -> None:
        least, most = min(plain), max(plain)
        self.assertRaises(KeyError, found.pop_first, least)
        self.assertEqual((found.pop_first(most)[0], found.pop_last(most)[0]), (least, most))
        self.assertEqual((found.setdefault(least, "new"), found.setdefault(least)), ("new", "new"))
        found[least] = "newer"
        self.assertEqual((found.pop(least), found.pop(least, "none")), ("newer", "none"))
        for call in (found.pop, found.__getitem__, found.__delitem__):
            with self.assertRaises(KeyError) as raised:
                call(most)
            self.assertEqual(raised.exception.args, (most,))
        found.update({least: "least", most: "most"})
        del found[most]
        self.assertEqual((found.popitem(), found.get(most)), ((least, "least"), None))
        self.assertEqual(len(found), len(plain) - 2)
        self.assertEqual(found.discard_range(least, most, (False, False)), len(plain) - 2)
        self.assertEqual((len(found), found.discard_range(most, least)), (0, 0))
        found[most] = "again"
        self.assertEqual(found.discard_range(most), 1)
        found.clear()
        self.assertEqual((dict(found), found.collect() >= 0), ({}, True))

    def test_a_map_of_values_has_the_numbers_of_its_map(self) -> None:
        with MapOf(signed(), {-5: "five"}, nodes=64, workers=2) as found:
            self.assertEqual((found.nodes, found.capacity, found.workers), (64, 29, 2))
            self.assertEqual((found.free(), found.waiting()), (57, 0))
            self.assertEqual(found.raw.first(), (signed().to_key(-5), "five"))
        self.assertRaises(nm_set.Closed, lambda: -5 in found)
        self.assertRaises(nm_set.Closed, lambda: "5" in found)
        self.assertRaises(nm_set.Closed, lambda: found.pop("5", None))
        with MapOf(floats(), 64) as empty:
            self.assertEqual((empty.nodes, len(empty)), (64, 0))

    def test_zeros_are_one_key(self) -> None:
        for mapping in (floats(), floats(32)):
            with SetOf(mapping, [-0.0]) as numbers:
                self.assertTrue(0.0 in numbers and -0.0 in numbers and not numbers.add(0))
                self.assertEqual(math.copysign(1, numbers.pop()), 1)

    def test_nan_is_refused(self) -> None:
        text = "the value nan is no key: it has no place in the order"
        with SetOf(floats(), [1.5]) as numbers, MapOf(floats(), {1.5: 0}) as found:
            self.assertFalse(math.nan in numbers or math.nan in found)
            calls = (
                lambda: numbers.add(math.nan),
                lambda: numbers.at_most(-math.nan),
                lambda: numbers.irange(math.nan),
                lambda: numbers.pop_first(math.nan),
                lambda: found.insert(math.nan, 5),
                lambda: found.count_range(1.0, math.nan),
                lambda: MapOf(floats(), {math.nan: 5}),
            )
            for call in calls:
                self.assertRaisesRegex(nm_set.OutOfRange, text, call)
            self.assertEqual((len(numbers), found.pop(math.nan, "none")), (1, "none"))
        with SetOf(pairs(floats(32), 32)) as two:
            self.assertRaisesRegex(nm_set.OutOfRange, text, lambda: two.add((math.nan, 0)))
            self.assertTrue(two.add((math.inf, 2**32 - 1)))

    def test_numbers_that_are_no_floats_are_refused(self) -> None:
        with SetOf(floats()) as numbers, SetOf(floats(32)) as small:
            self.assertTrue(numbers.add(2**53) and numbers.add(Decimal("0.5")))
            for wrong in (2**53 + 1, 10**400, Decimal("0.1")):
                text = "is no key: it is no float of 64 bits"
                with self.assertRaisesRegex(nm_set.OutOfRange, text):
                    numbers.add(wrong)
                self.assertNotIn(wrong, numbers)
            self.assertRaises(TypeError, lambda: numbers.add("5"))
            for value in (0.1, 1e300, -1e300):
                text = re.escape(f"{value} is no key: it is no float of 32 bits")
                with self.assertRaisesRegex(nm_set.OutOfRange, text):
                    small.add(value)
        self.assertRaises(ValueError, floats, 16)

    def test_strings_of_bytes_that_are_no_keys_are_refused(self) -> None:
        with SetOf(short_bytes(), [b"tea"]) as strings:
            wrong = {
                b"123456789": "it has 9 bytes, and 8 are the most",
                b"tea\0": "its last byte is zero, which would be lost",
                b"\xff" * 8: "of 64 bits the three greatest values are none",
            }
            for value, why in wrong.items():
                with self.assertRaises(nm_set.OutOfRange) as raised:
                    strings.add(value)
                self.assertEqual(str(raised.exception), f"the value {value!r} is no key: {why}")
                self.assertNotIn(value, strings)
            self.assertRaisesRegex(TypeError, "not str: encode it", lambda: strings.add("tea"))
            self.assertTrue(strings.add(b"\xff" * 7 + b"\xfc") and strings.add(b"a\0b"))
            self.assertIsInstance(strings.last(), bytes)
        self.assertRaises(ValueError, short_bytes, 9)

    def test_what_is_no_mapping_is_refused_with_what_to_take(self) -> None:
        for kind in (SetOf, MapOf):
            wanted = ((float, r"floats\(\)"), (bytes, r"short_bytes\(\)"), (str, r"or pairs\("))
            for wrong, name in wanted:
                with self.assertRaisesRegex(TypeError, f"is no mapping of keys: write .*{name}"):
                    kind(wrong)
            self.assertRaises(TypeError, kind, [5])

    def test_an_unfinished_pop_names_the_value(self) -> None:
        with MapOf(floats(), 64) as found:
            unfinished = found.raw._fault(c.UNFINISHED, floats().to_key(-0.5))
            with mock.patch.object(found.raw, "_pop_from", side_effect=unfinished):
                with self.assertRaisesRegex(nm_set.Unfinished, "the key -0.5 will be removed"):
                    found.pop_first()

    def test_a_range_whose_start_is_above_its_end_is_empty(self) -> None:
        with SetOf(signed(), [5, 7]) as numbers, MapOf(signed(), {5: 0, 7: 0}) as found:
            self.assertEqual([*numbers.irange(7, 5), *found.irange(7, 5)], [])
            self.assertEqual([*found.items_range(7, 5)], [])
            self.assertEqual((numbers.count_range(7, 5), found.count_range(7, 5)), (0, 0))

    def test_the_typed_classes_have_each_call(self) -> None:
        def public(kind: type) -> set[str]:
            return {name for name in dir(kind) if not name.startswith("_")}

        self.assertEqual(public(nm_set.Set) - public(SetOf), set())
        self.assertEqual(public(nm_set.Worker) - public(nm_set.WorkerOf), set())
        self.assertEqual(public(nm_set.Map) - public(MapOf), set())
        self.assertGreater(len(public(nm_set.Map)), 25)

    def test_a_set_of_values_has_the_numbers_of_its_set(self) -> None:
        with SetOf(signed(), [-5], nodes=64) as numbers, numbers.worker(3) as worker:
            self.assertEqual((numbers.nodes, numbers.capacity, numbers.workers), (64, 29, 64))
            self.assertEqual((numbers.free(), numbers.waiting(), numbers.collect()), (57, 0, 0))
            numbers.reserve(100)
            self.assertEqual((numbers.capacity, numbers.stats().growths), (100, 1))
            numbers.shrink_to_fit()
            self.assertEqual((worker.number, worker.is_open()), (3, True))
        self.assertEqual(numbers.report.keys, (nm_set.signed().to_key(-5),))

    def test_a_closed_set_has_its_values(self) -> None:
        self.assertEqual(SetOf(signed(), [3, -3]).close(), [-3, 3])
        self.assertEqual(SetOf(pairs(8, 8), [(2, 1), (1, 9)], nodes=64).close(), [(1, 9), (2, 1)])

    def test_an_exception_leaves_a_with_although_a_worker_is_attached(self) -> None:
        with self.assertRaises(ZeroDivisionError):
            with SetOf(signed(), [-1]) as numbers:
                worker = numbers.attach()
                self.assertIn(-1, worker)
                raise ZeroDivisionError
        with self.assertRaises(nm_set.Closed):
            numbers.add(2)

    def test_values_are_shown_as_the_program_wrote_them(self) -> None:
        with SetOf(signed(), [5, -7]) as numbers, SetOf(pairs(8, 8), [(2, 1)]) as two:
            self.assertEqual((repr(numbers), repr(two)), ("SetOf([-7, 5])", "SetOf([(2, 1)])"))
            with numbers.attach() as worker:
                self.assertEqual(repr(worker), "WorkerOf([-7, 5])")
            self.assertEqual(repr(worker), "WorkerOf(closed)")
            numbers.update(range(10, 20))
            shown = ", ".join(map(str, [-7, 5, *range(10, 18)]))
            self.assertEqual(repr(numbers), f"SetOf([{shown}, ...], 12 keys)")
        self.assertEqual(repr(numbers), "SetOf(closed)")
        with MapOf(floats(), {0.5: "half", -1: "one"}) as found:
            self.assertEqual(repr(found), "MapOf({-1.0: 'one', 0.5: 'half'})")
            self.assertRaises(TypeError, copy.copy, found)
            self.assertRaises(TypeError, copy.deepcopy, found)
            found.update({number: "x" for number in range(10)})
            self.assertTrue(repr(found).endswith("7.0: 'x', ...}, 12 keys)"))
        self.assertEqual(repr(found), "MapOf(closed)")
        with SetOf(TIMES, [FIRST]) as times:
            self.assertEqual(repr(times), f"SetOf([{FIRST!r}])")

    def test_a_refused_value_is_named(self) -> None:
        with SetOf(signed()) as numbers:
            calls = [
                lambda: numbers.add(2**63 - 1),
                lambda: numbers.update([5, 2**63 - 1]),
                lambda: SetOf(signed(), [2**63 - 1]),
                lambda: numbers.at_least(2**63 - 1),
            ]
            text = "the value 9223372036854775807 is no key: of 64 bits the three greatest values"
            for call in calls:
                with self.assertRaisesRegex(nm_set.OutOfRange, text):
                    call()
            self.assertEqual(len(numbers), 0)
        text = "the value -3 is no key: its mapping returns -3, and keys are 0 to "
        with SetOf(Mapping(int, int)) as plain, self.assertRaisesRegex(nm_set.OutOfRange, text):
            plain.add(-3)

    def test_values_that_are_no_keys_are_refused(self) -> None:
        with SetOf(signed(), [-5]) as numbers, SetOf(pairs(4, 4)) as two:
            for wrong in (2**63 - 1, 2**63, -(2**63) - 1):
                with self.assertRaises(nm_set.OutOfRange):
                    numbers.add(wrong)
                self.assertNotIn(wrong, numbers)
            self.assertNotIn("5", numbers)
            for value in ((16, 0), (0, -1)):
                with self.assertRaises(nm_set.OutOfRange):
                    two.add(value)
            with self.assertRaisesRegex(ValueError, "a key has 2 parts, and this value 1"):
                two.add((1,))
            self.assertEqual((len(two), numbers.at_most(2**63 - 1)), (0, -5))
        with self.assertRaisesRegex(ValueError, "72 bits together"):
            pairs(64, 8)


if __name__ == "__main__":
    unittest.main()

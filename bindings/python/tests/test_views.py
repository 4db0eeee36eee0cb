"""Tests of the views of a map, and of its calls that are made of calls for one key."""

from __future__ import annotations

import pickle
import random
import unittest
from typing import Any

import nm_set
from nm_set import Map, MapOf, OutOfRange, SubMap, signed


def part(plain: dict[Any, Any], first: Any, last: Any, inclusive: tuple[bool, bool]) -> dict[Any, Any]:
    """Returns the part of a dict that a view has."""
    return {
        key: plain[key]
        for key in sorted(plain)
        if (first < key or (inclusive[0] and first == key))
        and (key < last or (inclusive[1] and key == last))
    }


class Answers(unittest.TestCase):
    def answers_like(self, view: SubMap[int, Any], plain: dict[int, Any]) -> None:
        """Compares what a view returns with a dict, whose keys ascend."""
        keys = list(plain)
        self.assertEqual(list(view), keys)
        self.assertEqual(list(reversed(view)), keys[::-1])
        self.assertEqual(list(reversed(view.keys())), keys[::-1])
        self.assertEqual(list(view.items()), list(plain.items()))
        self.assertEqual(list(reversed(view.values())), list(plain.values())[::-1])
        self.assertEqual((len(view), view, view.copy()), (len(plain), plain, plain))
        ends = [(key, plain[key]) for key in keys[:1] + keys[-1:]] or [None]
        self.assertEqual((view.first(), view.last()), (ends[0], ends[-1]))
        for key in range(-1, 42):
            self.assertEqual(key in view, key in plain)
            self.assertEqual(view.get(key, "none"), plain.get(key, "none"))
            above = [each for each in keys if each >= key] or [None]
            self.assertEqual((view.at_least(key) or [None])[0], above[0])
            under = [each for each in keys if each <= key] or [None]
            self.assertEqual((view.at_most(key) or [None])[0], under[-1])

    def test_a_view_answers_like_the_part_of_a_dict(self) -> None:
        chance = random.Random(5)
        for _ in range(40):
            plain = {chance.randrange(40): chance.random() for _ in range(20)}
            first, last = chance.randrange(-1, 41), chance.randrange(-1, 41)
            inclusive = chance.random() < 0.5, chance.random() < 0.5
            with Map(plain, nodes=256, workers=2) as whole:
                view = whole.sub_map(first, last, inclusive)
                self.answers_like(view, part(plain, first, last, inclusive))
                inner = view.sub_map(10, 30, (False, True))
                wanted = part(part(plain, first, last, inclusive), 10, 30, (False, True))
                self.answers_like(inner, wanted)
                self.assertEqual(inner.count_range(15, 25), len(part(wanted, 15, 25, (True, True))))
                self.assertEqual(inner.discard_range(15, 25), len(part(wanted, 15, 25, (True, True))))

    def test_a_view_shows_each_change_and_changes_its_map(self) -> None:
        with Map[str]({5: "five", 9: "nine"}) as whole:
            view = whole.sub_map(5, 20, (False, True))
            whole[7] = "seven"
            self.assertEqual(dict(view), {7: "seven", 9: "nine"})
            self.assertTrue(view.insert(20, "twenty") and not view.insert(7, "other"))
            view[8] = "eight"
            self.assertEqual((view.setdefault(8), view.setdefault(10, "ten")), ("eight", "ten"))
            self.assertEqual((view.pop(8), view.pop_first(), view.pop_last()),
                             ("eight", (7, "seven"), (20, "twenty")))  # fmt: skip
            del view[9]
            self.assertEqual((view.popitem(), dict(whole)), ((10, "ten"), {5: "five"}))
            self.assertRaises(KeyError, view.popitem)
            view.update({11: "a", 12: "b"})
            view.clear()
            self.assertEqual((dict(whole), repr(view)), ({5: "five"}, "SubMap({})"))
        self.assertEqual(repr(view), "SubMap(closed)")
        self.assertRaises(nm_set.Closed, view.first)

    def test_a_key_outside_of_the_bounds_is_absent_and_cannot_be_inserted(self) -> None:
        with Map[str]({5: "five", 9: "nine"}) as whole:
            view = whole.sub_map(maximum=7)
            self.assertTrue(9 not in view and view.get(9) is None and "9" not in view)
            for wrong in (lambda: view[9], lambda: view.pop(9), lambda: view.__delitem__(9)):
                self.assertRaises(KeyError, wrong)
            for refused in (view.insert, view.__setitem__, view.setdefault):
                with self.assertRaisesRegex(OutOfRange, "the key 9 is not between the bounds"):
                    refused(9, "other")
            self.assertEqual((view.pop(9, "none"), dict(whole)), ("none", {5: "five", 9: "nine"}))

    def test_a_pop_of_a_view_begins_again_if_the_key_was_removed(self) -> None:
        with Map[str]({5: "five", 9: "nine"}) as whole:
            view = whole.sub_map(minimum=5)
            found = [(3, "gone"), (5, "five")]
            self.assertEqual(view._popped(lambda: found.pop(0)), (5, "five"))
            with self.assertRaises(nm_set.Contention):
                view._popped(lambda: (3, "gone"))

    def test_a_view_of_typed_keys(self) -> None:
        with MapOf(signed(), {-5: "a", -3: "b", 7: "c"}) as whole:
            view = whole.sub_map(maximum=-1)
            self.assertEqual((dict(view), view.last()), ({-5: "a", -3: "b"}, (-3, "b")))
            self.assertEqual(list(reversed(whole.keys())), [7, -3, -5])
            self.assertEqual(dict(whole.sub_map(-3, 2**63 - 1)), {-3: "b", 7: "c"})
            with self.assertRaisesRegex(OutOfRange, "the key 7 is not between"):
                view[7] = "d"
            self.assertEqual((view.pop(-5), view.get(7), "x" in view), ("a", None, False))
            self.assertEqual(whole.copy(), {-3: "b", 7: "c"})


class Several(unittest.TestCase):
    def test_retain_and_insert_many(self) -> None:
        with Map({key: key % 7 for key in range(1_000)}) as found:
            wanted = {key: key % 7 for key in range(1_000) if key % 7 == 3 and key < 500}
            removed = found.retain(lambda key, value: value == 3 and key < 500)
            self.assertEqual((removed, found.copy()), (1_000 - len(wanted), wanted))
            self.assertEqual(found.insert_many({3: "other", 4: "four"}), 1)
            self.assertEqual(found.insert_many([(4, "other"), (5, "five")]), 1)
            self.assertEqual((found[3], found[4], found[5]), (3, "four", "five"))
            self.assertRaises(OutOfRange, found.insert_many, {-1: "none"})
            self.assertEqual(found.retain(lambda key, value: found.pop(key) is None), 0)

    def test_a_copy_is_a_dict_of_which_a_map_is_made_again(self) -> None:
        with Map({9: "nine", 5: "five"}) as found:
            kept = pickle.dumps(found.copy())
        with Map(pickle.loads(kept)) as loaded:
            self.assertEqual(list(loaded.items()), [(5, "five"), (9, "nine")])

    def test_the_operators_make_a_dict(self) -> None:
        with Map({5: "a", 7: "b"}) as found, Map({7: "c"}) as other:
            self.assertEqual((found | {5: "x"}, {5: "x"} | found), ({5: "x", 7: "b"}, {5: "a", 7: "b"}))
            self.assertEqual(list((found | other).items()), [(5, "a"), (7, "c")])
            self.assertRaises(TypeError, lambda: found | 5)
            self.assertRaises(TypeError, lambda: 5 | found)
            same = found
            same |= other
            self.assertTrue(same is found and found[7] == "c")

    def test_fromkeys(self) -> None:
        self.assertEqual(Map.fromkeys([9, 5], "x").copy(), {5: "x", 9: "x"})
        self.assertEqual(MapOf.fromkeys(signed(), [9, -5]).copy(), {-5: None, 9: None})


if __name__ == "__main__":
    unittest.main()

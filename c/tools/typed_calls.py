#!/usr/bin/env python3
"""c/tools/typed_calls.py cpp|rust: compares the calls of a set and of a map of keys with those of a set and of a
map of values; and in Rust those of a map with those of a map with values in place. Prints each call that the
latter lack, except those that are listed here with a reason. The tests of Python compare its classes."""
import os
import re
import sys

os.chdir(os.path.join(os.path.dirname(os.path.realpath(__file__)), "../.."))

# Calls that a type does without.
WITHOUT = {
    "SetOf": {
        "try_attach": "it attaches into a worker of keys: keys()",
        "try_worker": "the same",
        "try_contains_many": "it writes into look-ups of keys: contains_many, or keys()",
    },
    "WorkerOf": {"try_contains_many": "the same"},
    "CopyMapWorker": {
        "pin": "a copy of a value needs no guard",
        "under": "the same",
        "epoch": "the same",
        "take": "remove returns the value",
    },
}
CPP = r"^    (?=\S)(?:template .*\n    )?(?:\[\[nodiscard\]\] |static |explicit )*[\w:<>, &]+?(?: |\n    )[&*]?(\w+)\([^;{]*?[{]"

# What is compared: the least number of calls, where those for keys are, and where those for values are.
SET, MAP, KEYS = "c/include/nm_set.hpp", "c/include/nm_map.hpp", "c/include/nm_keys.hpp"
RUST = "bindings/rust/src/"
COMPARED = {
    "cpp": [
        (30, [(SET, "InOrder", "Keys", "Set")], [(KEYS, "OrderedOf", "ValuesOf", "SetOf")]),
        (50, [(SET, "InOrder", "Keys", "Worker")], [(KEYS, "OrderedOf", "ValuesOf", "WorkerOf")]),
        (7, [(MAP, "Map")], [(KEYS, "MapOf")]),
        (30, [(SET, "InOrder"), (MAP, "MapCalls", "MapPuts", "MapWorker")], [(KEYS, "OrderedOf", "EntriesOf", "MapWorkerOf")]),
        (15, [(SET, "InOrder"), (MAP, "MapCalls", "MapPuts", "GuardedWorker")],
         [(KEYS, "OrderedOf", "EntriesOf", "GuardedWorkerOf")]),
        (5, [(MAP, "MapGuard")], [(KEYS, "MapGuardOf")]),
    ],
    "rust": [
        (30, [("set.rs", "Set")], [("typed.rs", "SetOf")]),
        (40, [("worker.rs", "Worker")], [("typed_worker.rs", "WorkerOf")]),
        (9, [("map.rs", "Map")], [("typed_map.rs", "MapOf")]),
        (25, [("map.rs", "MapWorker"), ("map_order.rs", "MapWorker"), ("map_puts.rs", "MapWorker")],
         [("typed_map.rs", "MapWorkerOf")]),
        (15, [("map_order.rs", "GuardedWorker"), ("map_puts.rs", "GuardedWorker")],
         [("typed_map.rs", "GuardedWorkerOf")]),
        (3, [("map.rs", "Guard")], [("typed_map.rs", "GuardOf")]),
        (9, [("map.rs", "Map")], [("copy_map.rs", "CopyMap")]),
        (40, [("map.rs", "MapWorker"), ("map_order.rs", "MapWorker"), ("map_puts.rs", "MapWorker"),
              ("map_order.rs", "GuardedWorker"), ("map_puts.rs", "GuardedWorker"), ("map.rs", "Guard")],
         [("copy_map.rs", "CopyMapWorker")]),
        (9, [("copy_map.rs", "CopyMap")], [("typed_copy_map.rs", "CopyMapOf")]),
        (35, [("copy_map.rs", "CopyMapWorker")], [("typed_copy_map.rs", "CopyMapWorkerOf")]),
    ],
}


def body(path, begin):
    """The body of a class or an impl, whose end is a bracket at the left."""
    with open(path, encoding="utf-8") as file:
        text = file.read()
    return text[re.search(begin, text).start():].split("\n}", 1)[0]


def public(text):
    """The public parts of a class in C++."""
    parts = re.split(r"^(public|protected|private):$", text, flags=re.M)
    return "".join(part for name, part in zip(parts[1::2], parts[2::2]) if name == "public")


def cpp(path, *names):
    bodies = (public(body(path, rf"\nclass (\[\[nodiscard\]\] )?{name} ")) for name in names)
    return {name for each in bodies for name in re.findall(CPP, each, flags=re.M)} - {*names}


def rust(path, name):
    return set(re.findall(r"^    pub fn (\w+)", body(RUST + path, rf"\nimpl(<[^{{]*>)? {name}(<[^{{]*>)? {{"), flags=re.M))


def calls(language, places):
    """The calls of some types."""
    return set().union(*({"cpp": cpp, "rust": rust}[language](*place) for place in places))


def main():
    language, is_wrong = sys.argv[1], False
    for least, keys, values in COMPARED[language]:
        wanted = calls(language, keys)
        lacks = sorted(wanted - calls(language, values) - WITHOUT.get(values[-1][-1], {}).keys())
        if len(wanted) < least:
            lacks.append(f"only {len(wanted)} calls are found")
        for each in lacks:
            print(f"{values[-1][-1]}: {each}")
        is_wrong = is_wrong or bool(lacks)
    return 1 if is_wrong else 0


if __name__ == "__main__":
    sys.exit(main())

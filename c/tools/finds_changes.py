#!/usr/bin/env python3
"""c/tools/finds_changes.py: changes one instruction at a time of a copy of dist/nm_set-x86_64.S: in a
locked step, in a branch around one, or in a bound. c/tools/alike.py must find each change. Prints
what it did not find, and in the last line how many it found."""
import os
import re
import sys
import tempfile
from typing import NamedTuple

import alike

TEXT = os.path.join(os.path.dirname(os.path.realpath(__file__)), "../../dist/nm_set-x86_64.S")


class Change(NamedTuple):
    """A change of the first line like `old` after so many locked steps of a function."""

    what: str
    function: str
    locked: int
    old: str
    new: str


CHANGES = (
    Change("a pin does no second read of the epoch", "nm_worker_contains", 6, "je", "jmp"),
    Change("a look-up leaves the branch of a confirmed pin", "nm_worker_contains", 6, "je", "jne"),
    Change("a pin is written by no locked step", "nm_worker_contains", 5, "xchgq", "movq"),
    Change("a handle in use is taken", "nm_worker_insert", 1, "je", "jne"),
    Change("the last key but one is refused", "nm_worker_contains", 1, r"cmpq\t\$-3", "cmpq\t$-4"),
    Change("a flag is a plain store", "nm_calls::deleting::remove", 0,
           r"lock\t\tcmpxchgq", "movq"),
    Change("a lost flag counts as won", "nm_calls::deleting::remove", 1, "jne", "je"),
    Change("the epoch moves by an exchange", "nm_tree::tree::Tree::advance", 0,
           r"lock\t\tcmpxchgq", "xchgq"),
    Change("a node is freed one epoch early", "nm_set::member::Member::free", 0,
           r"cmpq\t\$2", "cmpq\t$1"),
    Change("a label that is too young is freed", "nm_set::member::Member::free", 0, "ja", "jae"),
    Change("a leave is not written", "nm_worker_unpin", 1, "xchgq", "movq"),
    Change("the row that is full is searched", "nm_set::member::Member::free", 1,
           r"cmpl\t\$32", "cmpl\t$33"),
)


def changed(lines, change):
    """The lines with one change; the function must have such a line."""
    name = re.compile(rf'^"?{change.function}"?:')
    at = next(number for number, line in enumerate(lines) if name.match(line))
    locked = 0
    while locked < change.locked:
        at += 1
        locked += bool(alike.LOCKED.match(" ".join(lines[at].split())))
    at += 1
    while not re.match(rf"\t{change.old}\b", lines[at]):
        if lines[at].startswith(".Lfunc_end"):
            sys.exit(f"c/tools/finds_changes.py: no {change.old} in {change.function}: {change.what}")
        at += 1
    new = change.new.replace("\\", "")
    return [*lines[:at], re.sub(change.old, new, lines[at], count=1), *lines[at + 1:]]


def is_found(lines, change, room):
    """Whether c/tools/alike.py tells the changed text from the text."""
    path = os.path.join(room, "changed.S")
    with open(path, "w", encoding="utf-8") as file:
        file.writelines(changed(lines, change))
    return bool(alike.compare(TEXT, path)[2])


def main():
    with open(TEXT, encoding="utf-8") as file:
        lines = file.readlines()
    with tempfile.TemporaryDirectory() as room:
        missed = [it.what for it in CHANGES if not is_found(lines, it, room)]
    for what in missed:
        print(f"c/tools/alike.py does not find that {what}")
    print(f"changed instructions: {len(CHANGES) - len(missed)} passed, {len(missed)} failed")
    return 1 if missed else 0


if __name__ == "__main__":
    sys.exit(main())

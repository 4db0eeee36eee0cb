#!/usr/bin/env python3
"""c/tools/alike.py ONE OTHER: compares two assembly texts of a crate, function by function. Two kits of
one logic may write a function in another order, or with other registers. Their texts are alike if
they have the same functions, and if each of these, on each path from its entry, makes the same
locked steps, calls and tests of numbers in the same order, with the same branches between them.
What else an instruction does is not compared.

Prints how many functions have the same text, and how many more are alike. If a function is neither,
it prints its name and where it differs, and exits with status 1."""
import re
import sys
from collections import Counter

FUNCTION = re.compile(r"\s*\.type\s+(\"[^\"]*\"|[^,]+),@function")
LABEL = re.compile(r"(\"[^\"]*\"|[^\s:\"]+):")
HASH = re.compile(r"<#[0-9a-f]+>|@PLT|\"")
LOCKED = re.compile(r"lock\s+(\w+)|(xchg[bwlq]) .*\(")
TEST = re.compile(r"((?:cmp|test)[bwlq]) (\$-?\w+),")
TABLE = re.compile(r"\.LJTI\w+")
# A branch and its opposite: where the first one leads, and where the second one does not.
OPPOSITES = {"jne": "je", "jae": "jb", "ja": "jbe", "jns": "js", "jge": "jl", "jg": "jle",
             "jno": "jo", "jnp": "jp"}
BRANCHES = {*OPPOSITES, *OPPOSITES.values()}


class Function:
    """The lines of a function: where each label is, and where each table of jumps leads."""

    def __init__(self):
        self.lines, self.labels, self.tables = [], {}, {}

    def text(self):
        """The lines with each label named by its place, which the number of the function is in."""
        names = {label: f"at {line}" for label, line in self.labels.items()}
        tables = {label: f"table {number}" for number, label in enumerate(self.tables)}
        named = {**names, **tables}
        return [re.sub(r"\.L\w+", lambda it: named.get(it[0], it[0]), line) for line in self.lines]

    def paths(self):
        """What the function does on its paths, from the entry on, each line once: first where the
        condition of a branch holds, then where it does not."""
        found, seen, later = [], {}, [0]
        while later:
            line = later.pop()
            while line is not None:
                if line in seen:
                    found.append(f"on at {seen[line]}")
                    break
                seen[line] = len(found)
                line = self.step(line, found, later)
        return found

    def step(self, line, found, later):
        """Adds what one line does, and returns the line that follows it, or None at an end."""
        if line == len(self.lines):
            return found.append("no end")
        text = self.lines[line]
        word, _, rest = text.partition(" ")
        if word == "jmpq" or word == "jmp" and rest not in self.labels:
            if rest.startswith("*"):
                leads_to = self.leads_to(line)
                found.append(f"one of {len(leads_to)}")
                later.extend(reversed(leads_to))
                return None
            return found.append(f"leave for {HASH.sub('', rest)}")
        if word == "jmp":
            return self.labels[rest]
        if word in BRANCHES:
            to = self.labels[rest]
            found.append(OPPOSITES.get(word, word))
            first, second = (line + 1, to) if word in OPPOSITES else (to, line + 1)
            later.append(second)
            return first
        if word.startswith("ret") or word == "ud2":
            return found.append(word)
        self.note(text, found)
        return line + 1

    @staticmethod
    def note(text, found):
        """Adds a locked step, a call, or a test of a number."""
        locked, test = LOCKED.match(text), TEST.match(text)
        if locked:
            found.append(f"locked {locked[1] or locked[2]}")
        elif text.startswith("call"):
            found.append(f"call {HASH.sub('', text.split(None, 1)[1])}")
        elif test:
            found.append(f"{test[1]} {test[2]}")

    def leads_to(self, line):
        """The lines to which a jump by a table leads: the last table that was named before it."""
        for before in reversed(self.lines[:line]):
            table = TABLE.search(before)
            if table:
                return [self.labels[label] for label in self.tables[table[0]]]
        return []


def functions_of(path):
    """The functions of a text, by name without the numbers that a kit gives to their types."""
    found, function, table, named = {}, None, None, None
    with open(path, encoding="utf-8") as file:
        for line in file:
            head, label, text = FUNCTION.match(line), LABEL.match(line), line.strip()
            if head:
                function, table, named = Function(), None, head[1]
                found.setdefault(HASH.sub("", head[1]), []).append(function)
            elif label and label[1].startswith(".LJTI"):
                table = function.tables.setdefault(label[1], [])
            elif label and label[1] != named:
                function.labels[label[1]] = len(function.lines)
            elif text.startswith(".long\t.LBB") and table is not None:
                table.append(re.search(r"\.LBB\w+", text)[0])
            elif function and line.startswith("\t") and not text.startswith("."):
                function.lines.append(" ".join(text.split()))
    return found


def difference(ones, others):
    """The first place in which the paths of functions of one name differ, or None."""
    first, second = (sorted(it.paths() for it in functions) for functions in (ones, others))
    for left, right in zip(first, second):
        for at, (one, other) in enumerate(zip([*left, "nothing"], [*right, "nothing"])):
            if one != other:
                return f"step {at} is {one!r}, or {other!r}"
    return None if len(first) == len(second) else f"there are {len(first)} of it, or {len(second)}"


def compare(one, other):
    """How many functions of two texts are the same, how many are alike, and what differs."""
    ones, others = functions_of(one), functions_of(other)
    same, alike, differs = 0, 0, []
    for name in sorted({*ones, *others}):
        first, second = ones.get(name, []), others.get(name, [])
        count = lambda functions: Counter("\n".join(it.text()) for it in functions)
        if count(first) == count(second):
            same += len(first)
        elif (found := difference(first, second)) is None:
            alike += len(first)
        else:
            differs.append(f"{name}: {found}")
    return same, alike, differs


def main():
    if len(sys.argv) != 3:
        sys.exit(__doc__)
    same, alike, differs = compare(*sys.argv[1:])
    print(*differs, f"{same} functions are the same, {alike} are alike", sep="\n")
    return 1 if differs or not same + alike else 0


if __name__ == "__main__":
    sys.exit(main())

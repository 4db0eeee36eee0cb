"""Reads the worked runs of the proofs (crates/*/specs/), as lines of a trace: those of nm_model and
nm_core, each played by its core in a proof, and the turns of which nm_theorem proves what the page
says of them.
"""
from __future__ import annotations

import re
from typing import Iterator, NamedTuple

SCHEDULES = "crates/nm_core/specs/Schedules.antt"
THEOREM = "crates/nm_theorem/specs/Worked.antt"
SHORTHANDS = "crates/nm_model/specs/Shorthands.antt"
PARTS = ("inserting", "deleting", "cut", "waiting", "leaving", "free_turn", "claim_turn")
# A definition of turns, with the names of its numbers, and a use of one.
PART = re.compile(r"^(\w+)((?: \w+)*) =\s(.*?)(?:\n\n|\Z)", re.M | re.S)
USE = re.compile(r"(\w+)((?: \d+)*)")
TURN = re.compile(r"t (\d) (\(.*?\)|\w+) \((Ok|Err) (.*)\)")
# How a trace spells an event, or a reply, that it does not call by its name there.
EVENTS = {"SightFor": "sight", "LeaveWith": "leave"}
REPLIES = {"Labelled": "label", "Missed": "lost", "Departed": "left", "Behind": "lost",
           "Taken": "lost", "KeyIs": "key", "BirthIs": "birth", "EdgeIs": "edge"}
# All refusals are one to the page.
REFUSED = "refused 1"


class Worked(NamedTuple):
    """The name of a run, its first line, and the others."""
    name: str
    head: str
    lines: list[str]


def words_of(text: str, names: dict[str, str]) -> list[str]:
    """The words of an event or a reply, the first by its name in a trace."""
    first, *rest = re.sub(r"[()∷]|\[\]|EdgeOn", "", text).split()
    return [names.get(first, first).lower(), *(it.lower() for it in rest)]


def edge(found: re.Match[str]) -> str:
    return found[1] + "f" * (found[2] == "true") + "t" * (found[3] == "true")


def line_of(line: str) -> str | None:
    """A line of turns in the spelling of a trace; None, where it has no turn."""
    found = TURN.search(line)
    if not found:
        return None
    worker, event, is_ok, reply = found.groups()
    reply = re.sub(r"\bn (\d+) (\d+)", r"\1.\2", reply)
    reply = re.sub(r"\be (\d+) (\w+) (\w+)", edge, reply)
    answer = " ".join(words_of(reply, REPLIES)) if is_ok == "Ok" else REFUSED
    return f"{worker} {' '.join(words_of(event, EVENTS))} = {answer}"


def items_of(text: str) -> list[str]:
    """The items of a list, of which each is a turn or a part: split where no bracket is open."""
    items, depth = [""], 0
    for word in re.findall(r"\s+|∷|\+\+|[()]|[^\s()]+", text):
        depth += (word == "(") - (word == ")")
        if word in ("∷", "++") and depth == 0:
            items.append("")
        else:
            items[-1] += word
    return [it.strip() for it in items]


class Parts:
    """The lists of turns that texts define, by their names."""

    def __init__(self, *texts: str) -> None:
        self.parts = {found[1]: (found[2].split(), found[3])
                      for text in texts for found in PART.finditer(text)}

    def lines_of(self, text: str) -> list[str]:
        """The turns of a list in the spelling of a trace, with those of each part that it names."""
        return [line for it in items_of(text) for line in self.lines_of_item(it)]

    def lines_of_item(self, item: str) -> list[str]:
        line = line_of(item)
        found = USE.fullmatch(item)
        if line or not found or found[1] not in self.parts:
            return [line] if line else []
        names, body = self.parts[found[1]]
        numbers = dict(zip(names, found[2].split()))
        return self.lines_of(re.sub(r"\w+", lambda it: numbers.get(it[0], it[0]), body))


def schedules(text: str, parts: Parts) -> Iterator[Worked]:
    """The worked schedules of a file. One in which a worker resigns is left out: a trace has no
    such step."""
    for found in re.finditer(r"^(\w+) = record \{\n(.*?)^\}", text, re.M | re.S):
        name, body = found.groups()
        sizes = re.search(r"layout = (\(?in_radix \()?dense (\d+) (\d+)", body)
        if sizes and "(Join " not in body:
            version = 4 if sizes[1] else 3 if "SightFor" in body else 2
            turns = body.partition("turns =")[2].partition("ledgers =")[0]
            yield Worked(name, f"schedule {version} {sizes[2]} {sizes[3]}", parts.lines_of(turns))


def theorem_turns(parts: Parts) -> Worked:
    """The worked turns of the theorem: the turns of its parts, one after the other."""
    lines = [line for it in PARTS for line in parts.lines_of_item(it)]
    return Worked("worked_turns", "schedule 3 8 2", lines)

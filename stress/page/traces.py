"""Reads a trace: a schedule with the answer of each step (stress/TRACES.md, stress/FORMATS.md)."""
from __future__ import annotations

import re
from typing import Callable, NamedTuple

import turns as t
from turns import Event, Field, Op, Outcome, Turn, Turns, turns_of
from words import Edge, Layout, NodeId, Side


class BadTrace(Exception):
    """A line that is no step with its answer."""


class Trace(NamedTuple):
    layout: Layout
    is_ordered: bool
    turns: Turns
    lines: list[str]


def number(word: str) -> int:
    if not re.fullmatch(r"0|[1-9][0-9]*", word):
        raise BadTrace(f"'{word}' is no number")
    return int(word)


def field(word: str) -> Field | Side:
    return Field(word) if word in ("key", "birth") else Side(word)


def node_id(word: str) -> NodeId:
    slot, _, birth = word.partition(".")
    return NodeId(number(slot), number(birth))


def edge(word: str) -> Edge:
    found = re.fullmatch(r"(\d+)(f?)(t?)", word)
    if not found:
        raise BadTrace(f"'{word}' is no edge")
    return Edge(int(found[1]), found[2] == "f", found[3] == "t")


def answer(word: str) -> bool:
    return {"true": True, "false": False}[word]


Parts = list[Callable[[str], object]]
# By the kind of a step and how many arguments it has: the event, and what each argument is.
EVENTS: dict[tuple[str, int], tuple[type[Event], Parts]] = {
    ("sight", 0): (t.Sight, []),
    ("sight", 2): (t.SightFor, [Op, number]),
    ("announce", 0): (t.Announce, []),
    ("leave", 0): (t.Leave, []),
    ("leave", 1): (t.LeaveWith, [answer]),
    ("scan", 1): (t.Scan, [number]),
    ("advance", 0): (t.Advance, []),
    ("claim", 1): (t.Claim, [number]),
    ("give", 1): (t.Give, [number]),
    ("look", 2): (t.Look, [number, field]),
    ("fill", 3): (t.Fill, [number, field, number]),
    ("link", 4): (t.Link, [number, Side, number, number]),
    ("flag", 3): (t.Flag, [number, Side, number]),
    ("tag", 2): (t.Tag, [number, Side]),
    ("splice", 5): (t.Splice, [number, Side, number, number, Side]),
    ("swap", 4): (t.Swap, [number, Side, number, number]),
}
# By the kind of a step and the word of its answer: the reply, and what stands behind that word.
REPLIES: dict[tuple[str, str], tuple[type[Outcome], Parts]] = {
    ("sight", "saw"): (t.Saw, [number]),
    ("sight", "label"): (t.Labelled, [number]),
    ("sight", "pinned"): (t.Pinned, [number]),
    ("sight", "lost"): (t.Missed, [number]),
    ("announce", "announced"): (t.Announced, [number]),
    ("leave", "left"): (t.Departed, []),
    ("scan", "idle"): (t.Idle, []),
    ("scan", "in"): (t.In, [number]),
    ("advance", "moved"): (t.Moved, [number]),
    ("advance", "lost"): (t.Behind, [number]),
    ("claim", "claimed"): (t.Claimed, [number]),
    ("claim", "lost"): (t.Taken, []),
    ("give", "returned"): (t.Returned, [number]),
    ("give", "freed"): (t.Freed, [node_id]),
    ("look", "key"): (t.KeyIs, [number]),
    ("look", "birth"): (t.BirthIs, [number]),
    ("look", "edge"): (t.EdgeIs, [edge]),
    ("fill", "filled"): (t.Filled, []),
    ("link", "linked"): (t.Linked, [node_id]),
    ("link", "lost"): (t.Lost, [edge]),
    ("flag", "flagged"): (t.Flagged, [node_id]),
    ("flag", "lost"): (t.Lost, [edge]),
    ("tag", "was"): (t.Was, [edge]),
    ("splice", "lost"): (t.Lost, [edge]),
    ("swap", "lost"): (t.Lost, [edge]),
}


def made(kind: type, parts: Parts, words: list[str]) -> object:
    if len(parts) != len(words):
        raise BadTrace("a word is missing, or one too many")
    return kind(*(part(word) for part, word in zip(parts, words)))


def outcome(kind: str, words: list[str]) -> Outcome:
    if words[0] == "refused":
        return made(t.Refused, [number], words[1:])  # type: ignore[return-value]
    if (kind, words[0]) in (("splice", "cut"), ("swap", "cut")):
        return t.Cut(tuple(node_id(it) for it in words[1:]))
    if (kind, words[0]) not in REPLIES:
        raise BadTrace(f"'{words[0]}' is no answer to a {kind}")
    reply, parts = REPLIES[kind, words[0]]
    return made(reply, parts, words[1:])  # type: ignore[return-value]


def turn(line: str) -> Turn:
    """The turn of a line: `WORKER KIND ARGUMENTS = ANSWER`."""
    step, equals, told = line.partition(" = ")
    words = step.split(" ")
    if not equals or not told:
        raise BadTrace("it has no answer")
    if len(words) < 2 or (words[1], len(words) - 2) not in EVENTS:
        raise BadTrace("it is no step")
    event, parts = EVENTS[words[1], len(words) - 2]
    try:
        done = made(event, parts, words[2:])
        return Turn(number(words[0]), done, outcome(words[1], told.split(" ")))  # type: ignore
    except (ValueError, KeyError) as problem:
        raise BadTrace(f"a word is not what is asked for: {problem}") from problem


def trace(text: str) -> Trace:
    """The trace of a file: the sizes and the shape of the tree, and the turns."""
    head, *lines = text.splitlines() or [""]
    found = re.fullmatch(r"schedule ([1-5]) (\d+) (\d+)", head)
    if not found:
        raise BadTrace("line 1: it is not `schedule VERSION NODES WORKERS`, VERSION 1 to 5")
    layout = Layout(int(found[2]), int(found[3]), 0, found[1] in "45")
    done = []
    for count, line in enumerate(lines, 2):
        try:
            done.append(turn(line))
        except BadTrace as problem:
            raise BadTrace(f"line {count}: {problem}") from problem
    return Trace(layout, found[1] in "345", turns_of(done), lines)

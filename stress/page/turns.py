"""Turns: an event of a worker with its outcome, a reply or a refusal.

The events and the replies are those of nm_model (src/event.rt, src/reply.rt), by their names there.
"""
from __future__ import annotations

import enum
import functools
from dataclasses import dataclass
from typing import Any, Callable, Iterator, NamedTuple, TypeVar, dataclass_transform

from words import Edge, NodeId, Side


class Op(enum.Enum):
    HAS = "has"
    INSERT = "insert"
    DELETE = "delete"


class Field(enum.Enum):
    """A field of a node that is no edge; an edge is named by its side."""
    KEY = "key"
    BIRTH = "birth"


@dataclass_transform(frozen_default=True)
class Event:
    """What a worker does: one atomic step."""
    def __init_subclass__(cls) -> None:
        dataclass(frozen=True)(cls)


@dataclass_transform(frozen_default=True)
class Outcome:
    """What it is answered: a reply, or a refusal."""
    def __init_subclass__(cls) -> None:
        dataclass(frozen=True)(cls)


# ---- events


class Sight(Event):
    pass


class SightFor(Event):
    op: Op
    key: int


class Announce(Event):
    pass


class Leave(Event):
    pass


class LeaveWith(Event):
    answer: bool


class Scan(Event):
    worker: int


class Advance(Event):
    pass


class Claim(Event):
    slot: int


class Give(Event):
    slot: int


class Look(Event):
    slot: int
    field: Field | Side


class Fill(Event):
    slot: int
    field: Field | Side
    value: int


class Link(Event):
    parent: int
    side: Side
    leaf: int
    new: int


class Flag(Event):
    parent: int
    side: Side
    leaf: int


class Tag(Event):
    parent: int
    side: Side


class Splice(Event):
    ancestor: int
    side: Side
    successor: int
    parent: int
    keep: Side


class Swap(Event):
    parent: int
    side: Side
    leaf: int
    new: int


# ---- replies


class Saw(Outcome):
    epoch: int


class Labelled(Outcome):
    epoch: int


class Pinned(Outcome):
    epoch: int


class Missed(Outcome):
    epoch: int


class Announced(Outcome):
    epoch: int


class Departed(Outcome):
    pass


class Idle(Outcome):
    pass


class In(Outcome):
    epoch: int


class Moved(Outcome):
    epoch: int


class Behind(Outcome):
    epoch: int


class Claimed(Outcome):
    slot: int


class Taken(Outcome):
    pass


class Returned(Outcome):
    slot: int


class Freed(Outcome):
    node: NodeId


class KeyIs(Outcome):
    key: int


class BirthIs(Outcome):
    birth: int


class EdgeIs(Outcome):
    edge: Edge


class Filled(Outcome):
    pass


class Linked(Outcome):
    node: NodeId


class Flagged(Outcome):
    node: NodeId


class Was(Outcome):
    edge: Edge


class Cut(Outcome):
    nodes: tuple[NodeId, ...]


class Lost(Outcome):
    edge: Edge


class Refused(Outcome):
    reason: int


# ---- turns


class Turn(NamedTuple):
    worker: int
    event: Event
    outcome: Outcome


class Turns:
    """Turns that were made: those before the last one, and the last; or none."""

    def __init__(self, before: Turns | None = None, last: Turn | None = None) -> None:
        self.before, self.last = before, last
        self.length: int = before.length + 1 if before else 0
        self.kept: dict[Any, Any] = {}


def turns_of(made: list[Turn]) -> Turns:
    return functools.reduce(Turns, made, Turns())


def splits(turns: Turns) -> Iterator[tuple[Turns, Turn]]:
    """Each turn, from the last to the first, with the turns before it."""
    while turns.before is not None and turns.last is not None:
        yield turns.before, turns.last
        turns = turns.before


def moments(turns: Turns) -> list[Turns]:
    """The turns so far, at each moment from the first on."""
    return [before for before, _ in splits(turns)][::-1] + [turns]


Answer = TypeVar("Answer")


def kept(function: Callable[..., Answer]) -> Callable[..., Answer]:
    """Keeps what a function says of turns, its last argument, at each moment: it may ask what it
    said of the turns before the last one."""
    @functools.wraps(function)
    def ask(*arguments: Any) -> Answer:
        *others, turns = arguments
        key, missing = (function, *others), [turns]
        while key not in missing[-1].kept and missing[-1].before is not None:
            missing.append(missing[-1].before)
        for it in reversed(missing):
            if key not in it.kept:
                it.kept[key] = function(*others, it)
        return turns.kept[key]
    return ask


@kept
def workers_of(turns: Turns) -> frozenset[int]:
    """The workers that have made these turns; of any other one the page says nothing."""
    if turns.before is None or turns.last is None:
        return frozenset()
    return workers_of(turns.before) | {turns.last.worker}


class Fault(NamedTuple):
    """What is against a sentence of the page: the definition that does not hold, and why, in
    words."""
    definition: str
    words: str

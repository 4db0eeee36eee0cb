"""The theorem's page, nm_model's specs/Headline.antt, of finite lists of turns.

Each definition is a function or a class of its name, in the spelling of Python and in the same
order, with the sentence that stands above it there. A sentence that may be false gives what is
against it, or None where it holds. Where the page speaks of each split of the turns into those
before a turn, the turn and the rest, the function is asked at each moment for the last turn; and
where it speaks of each worker, those are asked for that have made turns.
"""
from __future__ import annotations

import itertools
from dataclasses import dataclass, replace
from typing import Callable, Iterable, Iterator, NamedTuple

from turns import (Advance, Announce, Announced, Behind, BirthIs, Claim, Claimed, Cut, Departed,
                   EdgeIs, Event, Fault, Field, Fill, Filled, Flag, Flagged, Freed, Give, Idle, In,
                   KeyIs, Labelled, Leave, LeaveWith, Link, Linked, Look, Lost, Missed, Moved,
                   Outcome, Pinned, Refused, Returned, Saw, Scan, Sight, SightFor, Splice, Swap,
                   Tag, Taken, Turn, Turns, Was, kept, moments, splits, workers_of)
from words import (Edge, Layout, Memory, NodeId, Side, at, child, edge, in_pool, is_cut, is_leaf,
                   named, node, announcement, opening, other, put_edge, put_node, reached,
                   slice_set, tagged, to, untagged)

# ---- the words


def written(m: Memory, worker: int, event: Event, outcome: Outcome) -> Memory:
    """The words after an event with its outcome: one word is written, or none; if it was refused,
    none."""
    match event, outcome:
        case Announce(), Announced(epoch):
            return replace(m, announcements=slice_set(m.announcements, worker, epoch))
        case Leave() | LeaveWith(_), Departed():
            return replace(m, announcements=slice_set(m.announcements, worker, None))
        case Advance(), Moved(epoch):
            return replace(m, epoch=epoch)
        case Claim(slot), Claimed(_):
            return replace(m, pool=slice_set(m.pool, slot, False))
        case Give(slot), Returned(_) | Freed(_):
            return replace(m, pool=slice_set(m.pool, slot, True))
        case Fill(slot, Field.KEY, value), Filled():
            return put_node(m, slot, node(m, slot)._replace(key=value))
        case Fill(slot, Side() as side, value), Filled():
            return put_edge(m, slot, side, to(value))
        case Fill(slot, Field.BIRTH, value), Filled():
            return put_node(m, slot, node(m, slot)._replace(birth=value))
        case Link(parent, side, _, new), Linked(_):
            return put_edge(m, parent, side, to(new))
        case Flag(parent, side, leaf), Flagged(_):
            return put_edge(m, parent, side, to(leaf)._replace(flag=True))
        case Tag(parent, side), Was(found):
            return put_edge(m, parent, side, tagged(found))
        case Splice(ancestor, side, _, parent, keep), Cut(_):
            return put_edge(m, ancestor, side, untagged(edge(m, parent, keep)))
        case Swap(parent, side, _, new), Cut(_):
            return put_edge(m, parent, side, to(new))
    return m


def after_turn(m: Memory, turn: Turn) -> Memory:
    """`after_turn`, `words_from`: the words after a turn; the words after these turns, from given
    words on."""
    return written(m, turn.worker, turn.event, turn.outcome)


def words_from(m: Memory, turns: Iterable[Turn]) -> Memory:
    for turn in turns:
        m = after_turn(m, turn)
    return m


@kept
def words_after(layout: Layout, turns: Turns) -> Memory:
    """The words after these turns, from the empty tree on."""
    if turns.before is None or turns.last is None:
        return opening(layout)
    return words_from(words_after(layout, turns.before), [turns.last])


# ---- reads


def tells_the_epoch(m: Memory, worker: int, reply: Outcome) -> Fault | None:
    """The reply to a sight (epoch read) names the epoch in memory. If it confirms a pin, the worker
    announces that epoch, and if it fails to, the worker does not."""
    name = "TellsTheEpoch"
    match reply:
        case Saw(epoch) | Labelled(epoch) | Pinned(epoch) | Missed(epoch):
            announced = announcement(m, worker)
            what = "nothing" if announced is None else announced
            if epoch != m.epoch:
                return Fault(name, f"by the turns so far the epoch is {m.epoch}, and not {epoch}")
            if isinstance(reply, Pinned) and announced != epoch:
                return Fault(name, f"worker {worker} is pinned at {epoch}, and announces {what}")
            if isinstance(reply, Missed) and announced == epoch:
                return Fault(name, f"worker {worker} is not pinned at {epoch}, which it announces")
            return None
    return Fault(name, "it is no reply to a sight")


def told_and_stands(m: Memory, event: Event, reply: Outcome) -> list[tuple[object, object]]:
    """What a reply returns, or an event stores, and beside each what it must be by the memory."""
    match event, reply:
        case Scan(worker), _:
            epoch = announcement(m, worker)
            return [(reply, Idle() if epoch is None else In(epoch))]
        case Advance(), Moved(epoch):
            return [(epoch, m.epoch + 1)]
        case Advance(), Behind(epoch):
            return [(epoch, m.epoch)]
        case Claim(slot), Claimed(taken):
            return [(taken, slot), (True, in_pool(m, slot))]
        case Claim(slot), Taken():
            return [(False, in_pool(m, slot))]
        case Give(slot), Returned(given):
            return [(given, slot)]
        case Look(slot, Field.KEY), _:
            return [(reply, KeyIs(node(m, slot).key))]
        case Look(slot, Side() as side), _:
            return [(reply, EdgeIs(edge(m, slot, side)))]
        case Look(slot, Field.BIRTH), _:
            return [(reply, BirthIs(node(m, slot).birth))]
        case Fill(slot, Field.BIRTH, value), _:
            return [(value, node(m, slot).birth + 1)]
        case Link(parent, side, leaf, new), Linked(it):
            return [(to(leaf), edge(m, parent, side)), (it, named(m, new))]
        case Flag(parent, side, leaf), Flagged(it):
            return [(to(leaf), edge(m, parent, side)), (it, named(m, leaf))]
        case (Link(parent, side, _, _) | Flag(parent, side, _) | Swap(parent, side, _, _)), \
                Lost(found):
            return [(found, edge(m, parent, side))]
        case Tag(parent, side), Was(found):
            return [(found, edge(m, parent, side))]
        case Splice(ancestor, side, _, _, _), Lost(found):
            return [(found, edge(m, ancestor, side))]
    return []


def tells_what_stands(m: Memory, worker: int, event: Event, reply: Outcome) -> Fault | None:
    """The reply to a look is the word in memory, that to a scan is the announcement, and that to a
    sight names the epoch. A won advance moves the epoch on by one, and a lost one returns it. A
    claim is won exactly if the slot is in the pool. A lost exchange, and a tag, return the edge in
    memory. A won link or flag has found the unmarked edge that it names, and returns the node named
    with the birth in memory. A birth that is stored is one more than the one before it."""
    if isinstance(event, (Sight, SightFor)):
        return tells_the_epoch(m, worker, reply)
    for told, stands in told_and_stands(m, event, reply):
        if told != stands:
            return Fault("TellsWhatStands", f"by the turns so far it is {spelled(stands)}, and not"
                         f" {spelled(told)}")
    return None


# ---- cuts


def nodes_cut_of(outcome: Outcome) -> list[NodeId]:
    """`nodes_cut_of`, `nodes_freed_of`: the nodes that a turn's reply names as cut, and the one
    that it names as freed."""
    return list(outcome.nodes) if isinstance(outcome, Cut) else []


def nodes_freed_of(outcome: Outcome) -> list[NodeId]:
    return [outcome.node] if isinstance(outcome, Freed) else []


def is_frozen_over(m: Memory, x: int, side: Side, leaf: int) -> bool:
    """A node's edge on a side is tagged, and the one beside it is flagged and leads to the leaf."""
    beside = edge(m, x, other(side))
    return edge(m, x, side).tag and beside.flag and beside.slot == leaf


def is_frozen_chain_to(m: Memory, parent: int, keep: Side, s: int, slots: list[int]) -> bool:
    """A chain from a slot down to a parent: each internal node is followed by its flagged leaf, and
    then by the node to which its tagged edge leads. The last internal node is the parent, and its
    tagged edge is the one to keep."""
    match slots:
        case [x, leaf]:
            return x == s and x == parent and is_frozen_over(m, x, keep, leaf)
        case [x, leaf, y, *rest]:
            return x == s and any(
                is_frozen_over(m, x, side, leaf)
                and is_frozen_chain_to(m, parent, keep, child(m, x, side), [y, *rest])
                for side in Side)
    return False


def slots_of(nodes: list[NodeId]) -> list[int]:
    """The slots of these nodes."""
    return [it.slot for it in nodes]


def is_won_splice(m: Memory, event: Event, nodes: list[NodeId]) -> Fault | None:
    """The nodes that a won splice names as cut are a chain from its successor down to its parent,
    each with the birth in its word."""
    name = "IsWonSplice"
    if not isinstance(event, Splice):
        return Fault(name, "it is no splice or swap, and says that it cut something")
    if edge(m, event.ancestor, event.side) != to(event.successor):
        found = spelled(edge(m, event.ancestor, event.side))
        return Fault(name, f"the ancestor's edge is {found}, and not {event.successor}, unmarked")
    slots = slots_of(nodes)
    if not is_frozen_chain_to(m, event.parent, event.keep, event.successor, slots):
        return Fault(name, f"the slots {slots} are no frozen chain from {event.successor} to the"
                     f" parent {event.parent}")
    if nodes != [named(m, slot) for slot in slots]:
        return Fault(name, f"it names another birth than stands in one of the slots {slots}")
    return None


def is_won_swap(m: Memory, event: Swap, nodes: list[NodeId]) -> Fault | None:
    """A won swap names the leaf to which the edge led, with its birth."""
    name = "IsWonSwap"
    if edge(m, event.parent, event.side) != to(event.leaf):
        found = spelled(edge(m, event.parent, event.side))
        return Fault(name, f"the parent's edge is {found}, and not {event.leaf}, unmarked")
    if not is_leaf(node(m, event.leaf)):
        return Fault(name, f"the slot {event.leaf} is no leaf")
    if nodes != [named(m, event.leaf)]:
        return Fault(name, f"it names {slots_of(nodes)}, and not just {event.leaf} with its birth")
    return None


def cuts_just(before: Memory, nodes: list[NodeId], after: Memory) -> Fault | None:
    """From one moment to the next exactly these nodes were cut off: paths from the root reached
    them before, and none does after."""
    gone = sorted(x for x in before.paths if is_cut(before, after, x))
    if set(gone) == set(slots_of(nodes)):
        return None
    return Fault("CutsJust", f"it cuts off the slots {gone}, and says that it cut"
                 f" {slots_of(nodes)}")


def cuts_its_nodes(m: Memory, turn: Turn) -> Fault | None:
    """A turn cuts exactly the nodes that its reply names as cut, and only the reply of a won splice
    or swap names any."""
    nodes = nodes_cut_of(turn.outcome)
    fault = cuts_just(m, nodes, after_turn(m, turn))
    if fault is None and isinstance(turn.outcome, Cut):
        if isinstance(turn.event, Swap):
            return is_won_swap(m, turn.event, nodes)
        return is_won_splice(m, turn.event, nodes)
    return fault


# ---- what becomes of them


@kept
def cuts_of(worker: int, turns: Turns) -> list[NodeId]:
    """The nodes that a worker cut, in the order of its cuts."""
    if turns.before is None or turns.last is None:
        return []
    last = nodes_cut_of(turns.last.outcome) if turns.last.worker == worker else []
    return cuts_of(worker, turns.before) + last


@kept
def freed_by(turns: Turns) -> list[NodeId]:
    """The nodes that were freed, by any worker, in the order of the turns."""
    if turns.before is None or turns.last is None:
        return []
    return freed_by(turns.before) + nodes_freed_of(turns.last.outcome)


def is_among(nodes: list[NodeId], it: NodeId) -> bool:
    """A node (a slot with its birth) is one of these."""
    return any(it.slot == m.slot and it.birth == m.birth for m in nodes)


@kept
def freed_of(worker: int, turns: Turns) -> list[NodeId]:
    """`freed_of`, `waits_of`: those of a worker's cuts that were freed, in the order of the frees;
    and those that wait, in the order of the cuts."""
    return [it for it in freed_by(turns) if is_among(cuts_of(worker, turns), it)]


@kept
def waits_of(worker: int, turns: Turns) -> list[NodeId]:
    return [it for it in cuts_of(worker, turns) if not is_among(freed_by(turns), it)]


def are_freed_in_turn(turns: Turns) -> Fault | None:
    """For each worker, its freed nodes followed by those that wait are its cuts, in their order.
    Only nodes that were cut are freed, and no node (a slot with its birth) is cut twice."""
    name = "AreFreedInTurn"
    cuts = [it for worker in sorted(workers_of(turns)) for it in cuts_of(worker, turns)]
    twice = [it for it in cuts if cuts.count(it) > 1]
    strange = [it for it in freed_by(turns) if it not in cuts]
    if twice:
        return Fault(name, f"node {spelled(twice[0])} is cut twice")
    if strange:
        return Fault(name, f"node {spelled(strange[0])} is freed, and nobody cut it")
    for worker in sorted(workers_of(turns)):
        if freed_of(worker, turns) + waits_of(worker, turns) != cuts_of(worker, turns):
            return Fault(name, f"the cuts of worker {worker} are not freed in their order")
    return None


# ---- grace


def confirms(event: Event, outcome: Outcome) -> bool:
    """A sight (epoch read), for a call or for none, that was answered `pinned`."""
    return isinstance(event, (Sight, SightFor)) and isinstance(outcome, Pinned)


def departs(event: Event, outcome: Outcome) -> bool:
    """A leave (unpin), with an answer or without."""
    return isinstance(event, (Leave, LeaveWith)) and isinstance(outcome, Departed)


def leaves(worker: int, turn: Turn) -> bool:
    """A turn by which the worker leaves."""
    return turn.worker == worker and departs(turn.event, turn.outcome)


def has_left(worker: int, turns: Iterable[Turn]) -> bool:
    """A worker has left in these turns."""
    return any(leaves(worker, turn) for turn in turns)


@kept
def is_pinned(worker: int, turns: Turns) -> bool:
    """After these turns a worker is pinned: it has confirmed a pin, and has not left after that."""
    if turns.before is None or turns.last is None:
        return False
    if turns.last.worker == worker and confirms(turns.last.event, turns.last.outcome):
        return True
    return is_pinned(worker, turns.before) and not has_left(worker, [turns.last])


@kept
def pinned_at(worker: int, turns: Turns) -> frozenset[int]:
    """The epochs that a worker's sights have named, by which it is pinned after these turns."""
    if turns.before is None or turns.last is None or has_left(worker, [turns.last]):
        return frozenset()
    epochs = pinned_at(worker, turns.before)
    match turns.last:
        case Turn(by, event, Pinned(epoch) as outcome) if by == worker and confirms(event, outcome):
            return epochs | {epoch}
    return epochs


def epoch_stays_near(layout: Layout, turns: Turns) -> Fault | None:
    """While a worker is pinned at an epoch, the epoch in memory is that one or the next."""
    epoch = words_after(layout, turns).epoch
    for worker in sorted(workers_of(turns)):
        far = [it for it in pinned_at(worker, turns) if epoch not in (it, it + 1)]
        if far:
            return Fault("EpochStaysNear", f"worker {worker} is pinned at {far[0]}, and the epoch"
                         f" is {epoch}")
    return None


def grace(turns: Turns) -> Fault | None:
    """If a node is cut by one turn and freed by a later one, each worker that was pinned at the
    cut, including the remover, has left between the two. (The later one is the last here.)"""
    freed = nodes_freed_of(turns.last.outcome) if turns.last else []
    between: list[Turn] = []
    for before, cut in splits(turns.before) if turns.before and freed else ():
        held = [it for it in freed if it in nodes_cut_of(cut.outcome)]
        for worker in sorted(workers_of(before)) if held else []:
            if is_pinned(worker, before) and not has_left(worker, between):
                return Fault("Grace", f"node {spelled(held[0])} was cut by turn {before.length + 1}"
                             f" and is freed, and worker {worker}, which was pinned at the cut, has"
                             " not left in between")
        between.append(cut)
    return None


# ---- places


def takes(event: Event, outcome: Outcome, x: int) -> bool:
    """By a won claim a worker takes a slot into its hands."""
    return isinstance(event, Claim) and isinstance(outcome, Claimed) and x == event.slot


def lets_go(m: Memory, event: Event, outcome: Outcome, x: int) -> bool:
    """A worker lets go of a slot if it gives the slot back, or links or swaps it in. A won link
    lets go of the new node, and of both slots to which the new node's edges lead: the new leaf is
    one of them."""
    match event, outcome:
        case Give(slot), Returned(_):
            return x == slot
        case Link(_, _, _, new), Linked(_):
            return x in (new, child(m, new, Side.LEFT), child(m, new, Side.RIGHT))
        case Swap(_, _, _, new), Cut(_):
            return x == new
    return False


def has_after(m: Memory, worker: int, x: int, had: bool, turns: Iterable[Turn]) -> bool:
    """Whether a worker has a slot in its hands after these turns, by the words and by whether it
    had the slot before them."""
    for t in turns:
        if t.worker == worker:
            kept_it = had and not lets_go(m, t.event, t.outcome, x)
            had = takes(t.event, t.outcome, x) or kept_it
        m = after_turn(m, t)
    return had


@kept
def holds(layout: Layout, worker: int, x: int, turns: Turns) -> bool:
    """The same from the empty tree on."""
    if turns.before is None or turns.last is None:
        return has_after(opening(layout), worker, x, False, [])
    had = holds(layout, worker, x, turns.before)
    return has_after(words_after(layout, turns.before), worker, x, had, [turns.last])


class Place:
    """The places of a slot: in the pool, in a worker's hands, at the end of a path from the root,
    or at an index of those of a worker's cuts that wait."""


@dataclass(frozen=True)
class InPool(Place):
    def __str__(self) -> str:
        return "in the pool"


@dataclass(frozen=True)
class InHands(Place):
    worker: int

    def __str__(self) -> str:
        return f"in the hands of worker {self.worker}"


@dataclass(frozen=True)
class OnPath(Place):
    path: tuple[Side, ...]

    def __str__(self) -> str:
        return f"in the tree ({' '.join(side.value for side in self.path) or 'the root'})"


@dataclass(frozen=True)
class Waits(Place):
    worker: int
    index: int

    def __str__(self) -> str:
        return f"at index {self.index} of what waits of worker {self.worker}'s cuts"


def stands_at(layout: Layout, turns: Turns, x: int, place: Place) -> bool:
    """After these turns the slot is in that place."""
    match place:
        case InPool():
            return in_pool(words_after(layout, turns), x)
        case InHands(worker):
            return holds(layout, worker, x, turns)
        case OnPath(path):
            return at(words_after(layout, turns), path) == x
        case Waits(worker, index):
            return slots_of(waits_of(worker, turns))[index:][:1] == [x]
    return False


def places(layout: Layout, turns: Turns, x: int) -> Iterator[Place]:
    """All places in which a slot may stand after these turns; of paths to it two are enough."""
    yield InPool()
    yield from (OnPath(path) for path in words_after(layout, turns).paths.get(x, []))
    for worker in sorted(workers_of(turns)):
        yield InHands(worker)
        yield from (Waits(worker, i) for i in range(len(waits_of(worker, turns))))


def one_place(layout: Layout, turns: Turns, x: int) -> Fault | None:
    """The slot is in exactly one place."""
    found = [it for it in places(layout, turns, x) if stands_at(layout, turns, x, it)]
    if len(found) == 1:
        return None
    where = " and ".join(map(str, found)) or "in no place"
    return Fault("OnePlace", f"slot {x} is {where}; it must be in one place")


def only_holders_store(layout: Layout, before: Turns, turn: Turn) -> Fault | None:
    """Only the worker that has a slot in its hands stores in the slot's fields."""
    match turn.event, turn.outcome:
        case Fill(slot, _, _), Filled():
            if not holds(layout, turn.worker, slot, before):
                return Fault("OnlyHoldersStore", f"worker {turn.worker} stores in slot {slot}, and"
                             " has it not in its hands")
    return None


def what_is_reached_is_younger(layout: Layout, turns: Turns) -> Fault | None:
    """A slot that a path from the root reaches has a greater birth than each node in that slot that
    was cut (the birth is the node's generation)."""
    m = words_after(layout, turns)
    for worker in sorted(workers_of(turns)):
        for it in cuts_of(worker, turns):
            if reached(m, it.slot) and not it.birth < node(m, it.slot).birth:
                return Fault("WhatIsReachedIsYounger", f"slot {it.slot} is in the tree with the"
                             f" birth {node(m, it.slot).birth}, and {spelled(it)} was cut")
    return None


# ---- what workers stand on


def touched(event: Event) -> list[int]:
    """The slots with a word that an event reads or exchanges, and the nodes that a link, a flag,
    a splice or a swap names."""
    match event:
        case Look(slot, _):
            return [slot]
        case Link(parent, _, leaf, new) | Swap(parent, _, leaf, new):
            return [parent, leaf, new]
        case Flag(parent, _, leaf):
            return [parent, leaf]
        case Tag(parent, _):
            return [parent]
        case Splice(ancestor, _, successor, parent, _):
            return [ancestor, successor, parent]
    return []


def edge_told(event: Event, outcome: Outcome) -> tuple[int, int] | None:
    """The node whose edge a reply returns, and the slot to which this edge leads. It is the edge
    that was looked at or tagged, or the one that an exchange found in place of the expected one.
    After a won link or swap it is the edge to the new node."""
    match event, outcome:
        case Look(slot, Side()), EdgeIs(found):
            return slot, found.slot
        case (Link(parent, _, _, new), Linked(_)) | (Swap(parent, _, _, new), Cut(_)):
            return parent, new
        case (Link(parent, _, _, _) | Flag(parent, _, _) | Swap(parent, _, _, _)), Lost(found):
            return parent, found.slot
        case Tag(parent, _), Was(found):
            return parent, found.slot
        case Splice(ancestor, _, _, _, _), Lost(found):
            return ancestor, found.slot
    return None


class Telling(NamedTuple):
    worker: int
    slot: int
    before: Turns


def tellings(layout: Layout, turns: Turns) -> Iterator[Telling]:
    """Each telling by which a worker was told of a slot (`was_told`), the last one first."""
    left: set[int] = set()
    for before, turn in splits(turns):
        if left == workers_of(turns):
            return
        told = edge_told(turn.event, turn.outcome)
        if told and turn.worker not in left and is_pinned(turn.worker, before):
            if not holds(layout, turn.worker, told[0], before):
                yield Telling(turn.worker, told[1], before)
        if leaves(turn.worker, turn):
            left.add(turn.worker)


def was_told(layout: Layout, worker: int, x: int, turns: Turns) -> bool:
    """A worker has learned of a slot, and has not left after that: it was pinned, and a reply
    returned an edge to that slot, of a node that was not in its hands."""
    return any(it.worker == worker and it.slot == x for it in tellings(layout, turns))


def only_what_was_told_is_touched(layout: Layout, before: Turns, turn: Turn) -> Fault | None:
    """A worker touches a slot other than 1 and 2, which it does not have in its hands, only after
    it has learned of the slot under its present pin. Each walk begins with slots 1 and 2."""
    if isinstance(turn.outcome, Refused):
        return None
    for x in touched(turn.event):
        held = x < 3 or holds(layout, turn.worker, x, before)
        if not held and not was_told(layout, turn.worker, x, before):
            return Fault("OnlyWhatWasToldIsTouched", f"worker {turn.worker} touches slot {x}, of"
                         " which it was not told since it is pinned"
                         if is_pinned(turn.worker, before) else
                         f"worker {turn.worker} touches slot {x} and is not pinned")
    return None


def is_still(layout: Layout, was: Turns, now: Turns, x: int) -> Fault | None:
    """A slot is neither in the pool nor in a worker's hands, and has the birth that it had."""
    if in_pool(words_after(layout, now), x):
        return Fault("IsStill", f"slot {x} is in the pool")
    for worker in sorted(workers_of(now)):
        if holds(layout, worker, x, now):
            return Fault("IsStill", f"slot {x} is in the hands of worker {worker}")
    first, last = (node(words_after(layout, it), x).birth for it in (was, now))
    return None if first == last else Fault("IsStill", f"slot {x} has the birth {last}, no more"
                                            f" {first}")


def what_was_told_stays(layout: Layout, turns: Turns) -> Fault | None:
    """Until a worker leaves, a slot that it has learned of is the same node as then, and neither in
    the pool nor in a worker's hands."""
    for it in tellings(layout, turns):
        fault = is_still(layout, it.before, turns, it.slot)
        if fault:
            return Fault(fault.definition, f"{fault.words}; worker {it.worker} was told of it by"
                         f" turn {it.before.length + 1} and has not left since")
    return None


# ---- the theorem, of the turns of a run from the empty tree on


Sentence = Callable[[Layout, Turns], Fault | None]


def of_last(sentence: Callable[[Layout, Turns, Turn], Fault | None]) -> Sentence:
    """A sentence on a turn and those before it, asked at each moment for the last turn."""
    def ask(layout: Layout, so_far: Turns) -> Fault | None:
        if so_far.before is None or so_far.last is None:
            return None
        return sentence(layout, so_far.before, so_far.last)
    return ask


def reads(layout: Layout, before: Turns, turn: Turn) -> Fault | None:
    """What is read is what the turns have written."""
    if isinstance(turn.outcome, Refused):
        return None
    return tells_what_stands(words_after(layout, before), turn.worker, turn.event, turn.outcome)


def cuts(layout: Layout, before: Turns, turn: Turn) -> Fault | None:
    """Each turn cuts just the nodes that it says it cut."""
    return cuts_its_nodes(words_after(layout, before), turn)


def fixed(layout: Layout, so_far: Turns) -> Fault | None:
    """At each moment the five fixed slots are in no pool, in nobody's hands, and as they were at
    first."""
    faults = (is_still(layout, Turns(), so_far, x) for x in range(6))
    return next((it for it in faults if it), None)


def numbers_in(part: object) -> set[int]:
    """The numbers that stand in a turn, the slots among them, or in a part of one."""
    if isinstance(part, int):
        return {part}
    if isinstance(part, (Event, Outcome)):
        part = tuple(vars(part).values())
    return set().union(*map(numbers_in, part)) if isinstance(part, tuple) else set()


@kept
def spoken_of(turns: Turns) -> frozenset[int]:
    """The numbers of these turns, the slots among them."""
    if turns.before is None or turns.last is None:
        return frozenset()
    return spoken_of(turns.before) | numbers_in(turns.last)


def each_in_one_place(layout: Layout, so_far: Turns) -> Fault | None:
    """At each moment each slot above the five fixed ones is in one place. Of those that no turn has
    spoken of, which all are as they were, the first is asked for."""
    spoken = spoken_of(so_far)
    others = (x for x in range(6, layout.nodes + 1) if x not in spoken)
    asked = [x for x in spoken if 6 <= x <= layout.nodes] + list(itertools.islice(others, 1))
    faults = (one_place(layout, so_far, x) for x in sorted(asked))
    return next((it for it in faults if it), None)


def fields() -> dict[str, Sentence]:
    """The fields of `headline`, in the order of the page."""
    return {
        "reads": of_last(reads),
        "cuts": of_last(cuts),
        "queues": lambda layout, so_far: are_freed_in_turn(so_far),
        "near": epoch_stays_near,
        "grace": lambda layout, so_far: grace(so_far),
        "told": of_last(only_what_was_told_is_touched),
        "stays": what_was_told_stays,
        "fixed": fixed,
        "stores": of_last(only_holders_store),
        "younger": what_is_reached_is_younger,
        "places": each_in_one_place,
    }


class Finding(NamedTuple):
    """What is against the theorem: by which field, after how many turns, and why."""
    field: str
    turn: int
    fault: Fault


def headline(layout: Layout, turns: Turns) -> Iterator[Finding]:
    """The theorem, for the turns of a run. : all that is against it, the earliest first."""
    for so_far in moments(turns):
        for field, sentence in fields().items():
            fault = sentence(layout, so_far)
            if fault:
                yield Finding(field, so_far.length, fault)


def spelled(it: object) -> str:
    """A node, an edge or a reply as a trace has it."""
    match it:
        case NodeId(slot, birth):
            return f"{slot}.{birth}"
        case Edge(slot, flag, tag):
            return f"{slot}{'f' * flag}{'t' * tag}"
        case KeyIs(word):
            return f"key {word}"
        case BirthIs(word):
            return f"birth {word}"
        case EdgeIs(found):
            return f"edge {spelled(found)}"
        case bool():
            return "in the pool" if it else "elsewhere"
        case Idle():
            return "idle"
        case In(epoch):
            return f"in {epoch}"
    return str(it)

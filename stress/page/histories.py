"""The second page, nm_model's specs/Histories.antt, of finite lists of turns: that they are a
history of one plain set. With what it takes from Acts there.

Each definition is a function or a class of its name, in the spelling of Python and in the same
order, with the sentence that stands above it there. A set of keys is here a frozen set.
"""
from __future__ import annotations

from typing import Callable, Iterator, NamedTuple

from headline import slots_of, words_after
from turns import (Cut, Departed, Event, Fault, Flag, Flagged, Leave, LeaveWith, Link, Linked, Op,
                   Outcome, Pinned, Sight, SightFor, Splice, Turn, Turns, kept, moments, splits,
                   workers_of)
from words import Layout, Memory, NodeId, is_key, is_leaf, node, reached

Keys = frozenset[int]

# ---- nm_model: Acts


class Act(NamedTuple):
    """A call with its answer and its moment (linearization point): the number of turns made until
    then. A call is named by its worker and the number of the turn that confirmed its pin."""
    worker: int
    pin: int
    op: Op
    key: int
    answer: bool
    moment: int


def is_among(acts: list[Act], a: Act) -> bool:
    """The act is one of these."""
    return a in acts


def has_in_a_row(acts: list[Act], keys: list[int], moment: int,
                 holds: Callable[[Act], bool]) -> bool:
    """Acts with these keys follow each other in the list, all at that moment, and something holds
    for each of them."""
    rows = (acts[at : at + len(keys)] for at in range(len(acts) - len(keys) + 1))
    return any([a.key for a in row] == keys and all(a.moment == moment and holds(a) for a in row)
               for row in rows)


def gives(in_set: Keys, op: Op, key: int, answer: bool) -> bool:
    """What a plain set answers: `has` is true if the key is in it, an insert is true if the key was
    not, and a delete if it was."""
    return ((key in in_set) != answer) if op is Op.INSERT else ((key in in_set) == answer)


def changed(before: Keys, op: Op, key: int, answer: bool) -> Keys:
    """The keys in the set after a call with that answer."""
    if op is Op.INSERT and answer:
        return before | {key}
    return before - {key} if op is Op.DELETE and answer else before


def nothing() -> Keys:
    """The empty set has no key."""
    return frozenset()


def replays(first: Keys, acts: list[Act], last: Keys) -> Fault | None:
    """One plain set gives each call its answer, one after the other. It has the keys `first` before
    the calls and the keys `last` after them."""
    for a in acts:
        if not is_key(a.key) or not gives(first, a.op, a.key, a.answer):
            return Fault("Replays", f"a plain set does not answer so to the {called(a)}")
        first = changed(first, a.op, a.key, a.answer)
    differ = sorted(filter(is_key, first ^ last))
    return Fault("Replays", "of these keys the calls up to then say something else than the tree:"
                 f" {differ}") if differ else None


def in_set(m: Memory) -> Keys:
    """A key is in the set if a reached leaf has it. (All such keys.)"""
    return frozenset(node(m, x).key for x in m.paths if reached(m, x) and is_leaf(node(m, x)))


def leaf_keys(m: Memory, slots: list[int]) -> list[int]:
    """The keys of the leaves among these slots, in their order."""
    return [node(m, x).key for x in slots if is_leaf(node(m, x))]


# ---- nm_model: Histories


class Called(NamedTuple):
    """A call that has begun and has no answer yet: the number of the turn that confirmed its pin,
    its operation and its key."""
    pin: int
    op: Op
    key: int


def call_by(n: int, so_far: Called | None, event: Event, outcome: Outcome) -> Called | None:
    """The call of a worker's pin after its turn of that number. A sight for a call that was
    answered `pinned` begins the call, and the call ends with that pin."""
    match event, outcome:
        case SightFor(op, key), Pinned(_):
            return Called(n, op, key)
        case Sight(), Pinned(_):
            return None
        case Leave() | LeaveWith(_), Departed():
            return None
    return so_far


def call_after(worker: int, n: int, so_far: Called | None, turns: list[Turn]) -> Called | None:
    """The call after these turns; the first of them is number n."""
    for it in turns:
        if it.worker == worker:
            so_far = call_by(n, so_far, it.event, it.outcome)
        n += 1
    return so_far


@kept
def call_begun(worker: int, turns: Turns) -> Called | None:
    """The call of a worker's pin after its turns. It began with a sight for it that was answered
    `pinned`, and has the number of that turn."""
    if turns.before is None or turns.last is None:
        return None
    so_far = call_begun(worker, turns.before)
    return call_after(worker, turns.before.length, so_far, [turns.last])


def called_in(a: Act) -> Called:
    """The call of an act."""
    return Called(a.pin, a.op, a.key)


class Answered(NamedTuple):
    """A call that a leave answered: with the turns before the leave, its worker and its answer."""
    before: Turns
    worker: int
    call: Called
    answer: bool


def answered_calls(turns: Turns) -> Iterator[Answered]:
    for before, it in splits(turns):
        call = call_begun(it.worker, before)
        if isinstance(it.event, LeaveWith) and isinstance(it.outcome, Departed) and call:
            yield Answered(before, it.worker, call, it.event.answer)


def is_act(turns: Turns, a: Act) -> bool:
    """An act is a call that a leave answered with its answer, or a call that has no answer yet. Its
    moment (linearization point), a number of turns, is within the call."""
    ends = [it.before for it in answered_calls(turns)
            if (it.worker, it.call, it.answer) == (a.worker, called_in(a), a.answer)]
    if call_begun(a.worker, turns) == called_in(a):
        ends.append(turns)
    return any(a.pin < a.moment <= it.length for it in ends)


def has_act(acts: list[Act], worker: int, call: Called, answer: bool) -> bool:
    """The call has an act, with that answer."""
    return any(is_among(acts, a) for a in acts
               if (a.worker, called_in(a), a.answer) == (worker, call, answer))


def is_in_call(turns: Turns, op: Op, a: Act) -> bool:
    """An act of the call in which its worker is after these turns; the call has that operation, and
    the answer is true."""
    return call_begun(a.worker, turns) == called_in(a) and a.op is op and a.answer


def has_flagged_one_of(turns: Turns, worker: int, nodes: list[NodeId]) -> bool:
    """A flag that the worker has won names one of these nodes."""
    return any(it.worker == worker and isinstance(it.event, Flag)
               and isinstance(it.outcome, Flagged) and it.outcome.node in nodes
               for _, it in splits(turns))


def links(acts: list[Act], before: Turns, turn: Turn) -> Fault | None:
    """A won link is the moment of its own insert."""
    if not isinstance(turn.event, Link) or not isinstance(turn.outcome, Linked):
        return None
    if any(a.worker == turn.worker and a.moment == before.length + 1
           and is_in_call(before, Op.INSERT, a) for a in acts):
        return None
    return Fault("IsHistory", f"worker {turn.worker} has linked, and is in no call to insert of"
                 " which this is the moment")


def cut_rows(layout: Layout, acts: list[Act], before: Turns, turn: Turn) -> Fault | None:
    """A cut by a splice is the moment of the deletes that flagged its leaves: their acts follow each
    other, in the order of the cut."""
    if not isinstance(turn.event, Splice) or not isinstance(turn.outcome, Cut):
        return None
    nodes = list(turn.outcome.nodes)
    keys = leaf_keys(words_after(layout, before), slots_of(nodes))
    if has_in_a_row(acts, keys, before.length + 1, lambda a: is_in_call(before, Op.DELETE, a)
                    and has_flagged_one_of(before, a.worker, nodes)):
        return None
    return Fault("IsHistory", f"the keys {keys} are cut, and not each by the delete in whose call"
                 " its leaf was flagged")


def at_moments(layout: Layout, turns: Turns, acts: list[Act]) -> Iterator[tuple[str, int, Fault]]:
    """The fields of `is_history` that speak of a moment: at each moment the set has the keys of the
    leaves that are reached then, links and cuts are the moments of their calls, and each answered
    call has its act."""
    answers = {it.before.length: it for it in answered_calls(turns)}
    for so_far in moments(turns):
        made = [a for a in acts if a.moment <= so_far.length]
        faults = {"moments": replays(nothing(), made, in_set(words_after(layout, so_far)))}
        if so_far.before is not None and so_far.last is not None:
            faults["links"] = links(acts, so_far.before, so_far.last)
            faults["cuts"] = cut_rows(layout, acts, so_far.before, so_far.last)
            it = answers.get(so_far.before.length)
            if it and not has_act(acts, it.worker, it.call, it.answer):
                faults["answered"] = Fault("IsHistory", without_act(it))
        yield from ((field, so_far.length, it) for field, it in faults.items() if it)


def is_history(layout: Layout, turns: Turns, acts: list[Act]) -> Iterator[tuple[str, int, Fault]]:
    """The acts are the answered calls and some of those with no answer yet, each once, in the order
    of their moments, which are within the calls. One plain set, empty at first, gives each call its
    answer. At each moment it has the keys of the leaves that are reached then. What is against it:
    by which field, after how many turns, and why."""
    yield from at_moments(layout, turns, acts)
    fault = replays(nothing(), acts, in_set(words_after(layout, turns)))
    if fault:
        yield "replays", turns.length, fault
    for i, b in enumerate(acts):
        if any(a.moment > b.moment for a in acts[:i]):
            yield "in_order", b.moment, Fault("IsHistory", f"the {called(b)} stands too late")
        if any((a.worker, a.pin) == (b.worker, b.pin) for a in acts[:i]):
            yield "once", b.moment, Fault("IsHistory", f"the {called(b)} stands twice")
        if not is_act(turns, b):
            yield "each", b.moment, Fault("IsHistory", f"there is no such call as the {called(b)},"
                                          " or its moment is not within it")


# ---- a history


def act_of(worker: int, call: Called, answer: bool, moment: int) -> Act:
    return Act(worker, *call, answer, moment)


def changes_by(layout: Layout, before: Turns, turn: Turn) -> list[Act]:
    """The acts whose moment a turn is: that of the insert which has linked, or those of the deletes
    whose leaves it cuts, in the order of the cut."""
    found, moment = [], before.length + 1
    own = call_begun(turn.worker, before)
    if isinstance(turn.outcome, Linked) and own:
        found.append(act_of(turn.worker, own, True, moment))
    for it in turn.outcome.nodes if isinstance(turn.outcome, Cut) else ():
        calls = [(w, call_begun(w, before)) for w in sorted(workers_of(before))
                 if has_flagged_one_of(before, w, [it])]
        found += [act_of(w, call, True, moment) for w, call in calls
                  if call and call.key == node(words_after(layout, before), it.slot).key][:1]
    return found


def quiet_act(layout: Layout, it: Answered) -> Act | None:
    """The act of an answered call that has changed nothing, at the first moment of the call at
    which a plain set of the keys of the tree answers so; none, where there is no such moment."""
    if it.answer and it.call.op is not Op.HAS:
        return None
    for so_far in moments(it.before)[it.call.pin + 1 :]:
        if gives(in_set(words_after(layout, so_far)), it.call.op, it.call.key, it.answer):
            return act_of(it.worker, it.call, it.answer, so_far.length)
    return None


def acts_of(layout: Layout, turns: Turns) -> list[Act]:
    """The acts of the calls: a change has the moment of its link or cut, and stands before what
    changes nothing at that moment."""
    changes = [a for before, it in reversed(list(splits(turns)))
               for a in changes_by(layout, before, it)]
    calls = {(a.worker, a.pin) for a in changes}
    quiet = [quiet_act(layout, it) for it in answered_calls(turns)
             if (it.worker, it.call.pin) not in calls]
    return sorted(changes + [a for a in quiet if a], key=lambda a: a.moment)


def has_history(layout: Layout, turns: Turns) -> Iterator[tuple[str, int, Fault]]:
    """The turns have a history. The acts of `acts_of` are tried, and no others; what is against
    them is given, the earliest first."""
    acts = acts_of(layout, turns)
    yield from sorted(is_history(layout, turns, acts), key=lambda it: it[1])


def called(a: Act) -> str:
    return f"`{a.op.value} {a.key}` of worker {a.worker}, begun by turn {a.pin + 1}"


def without_act(it: Answered) -> str:
    answer = str(it.answer).lower()
    return (f"the `{it.call.op.value} {it.call.key}` of worker {it.worker}, begun by turn"
            f" {it.call.pin + 1}, is answered {answer}, and has made no such change, nor would a"
            " plain set of the keys of the tree have answered so at a moment since then")

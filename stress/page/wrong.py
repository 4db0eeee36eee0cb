"""Wrong readings: of each definition of the page, by its file there, something else that it might
say, and a run of runs.py of which the page then says something else; and rows that are left out.
"""
from __future__ import annotations

from typing import Any, Callable, Iterator, NamedTuple

import headline as page
import histories
import turns as t
import words
from turns import Event, Outcome
from words import Edge, Node, Side


def holds(*_: Any) -> None:
    """A sentence that nothing is ever against."""


def nobody(*_: Any) -> Iterator[Any]:
    """No findings at all."""
    return iter(())


def yes(*_: Any) -> bool:
    return True


def no(*_: Any) -> bool:
    return False


def none(*_: Any) -> list[Any]:
    return []


def same(it: Any, *_: Any) -> Any:
    return it


WRONG: dict[tuple[str, str], tuple[Callable[..., Any], str]] = {
    ("Edges", "to"): (lambda slot: Edge(slot, True, False), "honest"),
    ("Edges", "tagged"): (same, "honest"),
    ("Edges", "untagged"): (same, "honest"),
    ("Edges", "other"): (same, "honest"),
    ("Keys", "is_key"): (yes, "honest"),
    ("Memory", "blank"): (lambda: Node(0, words.to(0), words.to(0), 1), "honest"),
    ("Memory", "node"): (lambda m, slot: words.slice_index_or(m.nodes, slot - 1, words.blank()),
                         "honest"),
    ("Memory", "edge_of"): (lambda it, side: it.left, "honest"),
    ("Memory", "edge"): (
        lambda m, slot, side: words.to(words.edge_of(words.node(m, slot), side).slot), "beside"),
    ("Memory", "child"): (lambda m, slot, side: words.edge(m, slot, Side.LEFT).slot, "honest"),
    ("Memory", "is_leaf"): (no, "honest"),
    ("Memory", "announcement"): (holds, "unseen"),
    ("Memory", "in_pool"): (no, "honest"),
    ("Memory", "named"): (lambda m, slot: words.NodeId(slot, 0), "honest"),
    ("Memory", "put_node"): (same, "honest"),
    ("Memory", "with_edge"): (lambda it, side, new: it._replace(left=new), "honest"),
    ("Memory", "put_edge"): (same, "honest"),
    ("Memory", "infinity_0"): (lambda: 2**64 - 4, "honest"),
    ("Memory", "infinity_1"): (lambda: 2**64 - 1, "fixed"),
    ("Memory", "infinity_2"): (lambda: 2**64 - 2, "fixed"),
    ("Memory", "leaf"): (lambda key: Node(key, words.to(1), words.to(1), 0), "honest"),
    ("Memory", "fork"): (lambda key, left, right: Node(key, words.to(right), words.to(left), 0),
                         "fixed"),
    ("Memory", "opening"): (
        lambda layout: words.Memory(0, words.Row(0, None), words.Row(0, words.blank()),
                                    words.Row(0, True)), "honest"),
    ("Paths", "follow"): (lambda m, slot, path: slot, "honest"),
    ("Paths", "at"): (lambda m, path: words.follow(m, 2, path), "honest"),
    ("Paths", "reached"): (no, "honest"),
    ("Paths", "is_cut"): (no, "honest"),
    ("Headline", "written"): (same, "honest"),
    ("Headline", "after_turn"): (same, "honest"),
    ("Headline", "words_from"): (same, "honest"),
    ("Headline", "words_after"): (lambda layout, turns: words.opening(layout), "honest"),
    ("Headline", "tells_the_epoch"): (holds, "another-epoch"),
    ("Headline", "tells_what_stands"): (holds, "told-wrong"),
    ("Headline", "nodes_cut_of"): (none, "honest"),
    ("Headline", "nodes_freed_of"): (none, "uncut"),
    ("Headline", "is_frozen_over"): (yes, "untagged"),
    ("Headline", "is_frozen_chain_to"): (yes, "untagged"),
    ("Headline", "slots_of"): (none, "honest"),
    ("Headline", "is_won_splice"): (holds, "another-birth"),
    ("Headline", "is_won_swap"): (holds, "swap-names-another"),
    ("Headline", "cuts_just"): (holds, "leaf-lost"),
    ("Headline", "cuts_its_nodes"): (holds, "leaf-lost"),
    ("Headline", "cuts_of"): (none, "honest"),
    ("Headline", "freed_by"): (none, "uncut"),
    ("Headline", "is_among"): (lambda nodes, it: any(it.slot == m.slot for m in nodes), "again"),
    ("Headline", "freed_of"): (none, "honest"),
    ("Headline", "waits_of"): (none, "beside"),
    ("Headline", "are_freed_in_turn"): (holds, "out-of-turn"),
    ("Headline", "confirms"): (no, "honest"),
    ("Headline", "departs"): (no, "over-a-leave"),
    ("Headline", "leaves"): (no, "over-a-leave"),
    ("Headline", "has_left"): (no, "moved"),
    ("Headline", "is_pinned"): (yes, "no-pin"),
    ("Headline", "epoch_stays_near"): (holds, "past-a-pin"),
    ("Headline", "grace"): (holds, "unseen"),
    ("Headline", "takes"): (no, "honest"),
    ("Headline", "lets_go"): (no, "returned"),
    ("Headline", "has_after"): (no, "honest"),
    ("Headline", "stands_at"): (no, "honest"),
    ("Headline", "one_place"): (holds, "two-winners"),
    ("Headline", "only_holders_store"): (holds, "turned"),
    ("Headline", "what_is_reached_is_younger"): (holds, "no-birth"),
    ("Headline", "touched"): (none, "guessed"),
    ("Headline", "edge_told"): (holds, "honest"),
    ("Headline", "was_told"): (yes, "guessed"),
    ("Headline", "only_what_was_told_is_touched"): (holds, "guessed"),
    ("Headline", "is_still"): (holds, "led"),
    ("Headline", "what_was_told_stays"): (holds, "led"),
    ("Headline", "headline"): (nobody, "unseen"),
    ("Acts", "in_set"): (lambda m: frozenset(), "honest"),
    ("Acts", "gives"): (yes, "wrong-answer"),
    ("Acts", "changed"): (same, "honest"),
    ("Acts", "replays"): (holds, "other-key"),
    ("Acts", "nothing"): (lambda: frozenset({10}), "honest"),
    ("Acts", "is_among"): (no, "honest"),
    ("Acts", "leaf_keys"): (none, "other-delete"),
    ("Acts", "has_in_a_row"): (yes, "turned-cut"),
    ("Histories", "call_by"): (holds, "honest"),
    ("Histories", "call_after"): (holds, "honest"),
    ("Histories", "call_begun"): (holds, "honest"),
    ("Histories", "called_in"): (lambda a: histories.Called(a.pin, a.op, 0), "honest"),
    ("Histories", "is_act"): (yes, "no-such"),
    ("Histories", "has_act"): (yes, "left-out"),
    ("Histories", "is_in_call"): (no, "honest"),
    ("Histories", "has_flagged_one_of"): (yes, "another-birth"),
    ("Histories", "is_history"): (nobody, "wrong-answer"),
    ("Histories", "has_history"): (nobody, "wrong-answer"),
}


class Row(NamedTuple):
    """A row of a definition: of `written` or `edge_told`, for events and outcomes of these kinds;
    and a run of which the page says something else where that row is left out."""
    name: str
    events: type[Event]
    outcomes: type[Outcome]
    run: str

    def left_out(self) -> Callable[..., Any]:
        """The definition without the row: nothing is written, or no edge is told."""
        right = getattr(page, self.name)

        def wrong(*given: Any) -> Any:
            *before, event, outcome = given
            if isinstance(event, self.events) and isinstance(outcome, self.outcomes):
                return before[0] if before else None
            return right(*given)
        return wrong


ROWS = [
    Row("written", t.Announce, t.Announced, "unseen"),
    Row("written", t.Leave, t.Departed, "moved"),
    Row("written", t.LeaveWith, t.Departed, "lost-the-splice"),
    Row("written", t.Advance, t.Moved, "honest"),
    Row("written", t.Claim, t.Claimed, "honest"),
    Row("written", t.Give, t.Returned, "returned"),
    Row("written", t.Give, t.Freed, "honest"),
    Row("written", t.Fill, t.Filled, "honest"),
    Row("written", t.Link, t.Linked, "honest"),
    Row("written", t.Flag, t.Flagged, "honest"),
    Row("written", t.Tag, t.Was, "honest"),
    Row("written", t.Splice, t.Cut, "honest"),
    Row("edge_told", t.Look, t.EdgeIs, "honest"),
    Row("edge_told", t.Link, t.Linked, "linked"),
    Row("edge_told", t.Link, t.Lost, "lost-the-link"),
    Row("edge_told", t.Flag, t.Lost, "lost"),
    Row("edge_told", t.Tag, t.Was, "tagged"),
    Row("edge_told", t.Splice, t.Lost, "lost-the-splice"),
]

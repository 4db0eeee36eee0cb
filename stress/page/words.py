"""The words that the theorem's page speaks of: edges, sizes, a memory, and paths from the root.

Each definition of specs/ is a function or a class of its name, in the spelling of Python and in the
same order, with the sentence that stands above it there: Edges, Layouts and Keys of nm_edge, Memory
and Paths of nm_model.
"""
from __future__ import annotations

import enum
import functools
from dataclasses import dataclass, field, replace
from typing import Any, NamedTuple


class Side(enum.Enum):
    LEFT = "left"
    RIGHT = "right"


class NodeId(NamedTuple):
    slot: int
    birth: int


# ---- nm_edge: Edges


class Edge(NamedTuple):
    """An edge: the slot to which it leads, 0 for none, and its two marks."""
    slot: int
    flag: bool
    tag: bool


def to(slot: int) -> Edge:
    """The unmarked edge to a slot."""
    return Edge(slot, False, False)


def tagged(edge: Edge) -> Edge:
    """`tagged`, `untagged`: the edge with its tag, and without it; a null edge is never marked."""
    return Edge(edge.slot, edge.flag, edge.slot != 0)


def untagged(edge: Edge) -> Edge:
    return Edge(edge.slot, edge.flag, False)


def other(side: Side) -> Side:
    """The other side."""
    return Side.RIGHT if side is Side.LEFT else Side.LEFT


# ---- nm_edge: Layouts, Keys


class Layout(NamedTuple):
    """The number of nodes, the number of workers, the number of unused words after the announcement
    of each, and the shape of the tree. In a radix tree each internal node is between the halves of
    a range (`Ranges`); the other shape is that of Natarajan and Mittal."""
    nodes: int
    workers: int
    gap: int
    radix: bool


def is_key(number: int) -> bool:
    """A key of the set is at most 2^64 - 4: the three greatest words, above all keys, are the
    sentinels ∞0, ∞1 and ∞2."""
    return number <= 2**64 - 4


# ---- lists


@dataclass(frozen=True)
class Row:
    """A list, kept as its length, the word that most places have, and those of the other places."""
    length: int
    rest: Any
    words: dict[int, Any] = field(default_factory=dict)


def slice_index_or(row: Row, index: int, default: Any) -> Any:
    """What stands at an index; the default, where the list is shorter."""
    return row.words.get(index, row.rest) if index < row.length else default


def slice_set(row: Row, index: int, word: Any) -> Row:
    """The list with that word at an index; as it was, where it is shorter."""
    return replace(row, words={**row.words, index: word}) if index < row.length else row


# ---- nm_model: Memory


class Node(NamedTuple):
    key: int
    left: Edge
    right: Edge
    birth: int


@dataclass(frozen=True)
class Memory:
    """The global epoch, the announcement of each worker, and by slot the nodes and whether the slot
    is in the pool. Slot 0 is no node: its entry has null edges."""
    epoch: int
    announcements: Row
    nodes: Row
    pool: Row

    @functools.cached_property
    def paths(self) -> dict[int, list[tuple[Side, ...]]]:
        """Of each slot two paths from the root that end there, or all where there are fewer."""
        found: dict[int, list[tuple[Side, ...]]] = {}
        left: list[tuple[int, tuple[Side, ...]]] = [(1, ())]
        while left:
            slot, path = left.pop()
            if len(found.setdefault(slot, [])) < 2:
                found[slot].append(path)
                left += [(child(self, slot, side), (*path, side)) for side in Side]
        return found


def blank() -> Node:
    """The content of a slot that was never used, or that does not exist."""
    return Node(0, to(0), to(0), 0)


def node(m: Memory, slot: int) -> Node:
    """The node in a slot: key, left and right edge, and birth (generation), the number of times
    that its slot has been put to use."""
    return slice_index_or(m.nodes, slot, blank())


def edge_of(it: Node, side: Side) -> Edge:
    return it.left if side is Side.LEFT else it.right


def edge(m: Memory, slot: int, side: Side) -> Edge:
    return edge_of(node(m, slot), side)


def child(m: Memory, slot: int, side: Side) -> int:
    """The slot to which an edge leads."""
    return edge(m, slot, side).slot


def is_leaf(it: Node) -> bool:
    """A node is a leaf if both its edges are null."""
    return it.left.slot == 0 and it.right.slot == 0


def announcement(m: Memory, worker: int) -> int | None:
    """What a worker announces: an epoch, or nothing while it is idle."""
    return slice_index_or(m.announcements, worker, None)


def in_pool(m: Memory, slot: int) -> bool:
    """Whether the slot is in the pool."""
    return slice_index_or(m.pool, slot, False)


def named(m: Memory, slot: int) -> NodeId:
    """A slot with the birth that it has now."""
    return NodeId(slot, node(m, slot).birth)


def put_node(m: Memory, slot: int, it: Node) -> Memory:
    return replace(m, nodes=slice_set(m.nodes, slot, it))


def with_edge(it: Node, side: Side, new: Edge) -> Node:
    return it._replace(left=new) if side is Side.LEFT else it._replace(right=new)


def put_edge(m: Memory, slot: int, side: Side, new: Edge) -> Memory:
    return put_node(m, slot, with_edge(node(m, slot), side, new))


def infinity_0() -> int:
    """`infinity_0`, `infinity_1`, `infinity_2`: the sentinels, greater than all keys of the set."""
    return 2**64 - 3


def infinity_1() -> int:
    return 2**64 - 2


def infinity_2() -> int:
    return 2**64 - 1


def leaf(key: int) -> Node:
    """`leaf`, `fork`: a leaf with that key; an internal node with that key over two slots."""
    return Node(key, to(0), to(0), 0)


def fork(key: int, left: int, right: int) -> Node:
    return Node(key, to(left), to(right), 0)


def opening(layout: Layout) -> Memory:
    """The empty tree. Root 1 has key ∞2 and the children 2 and 5. Node 2 has key ∞1 and the leaves
    3 and 4 with keys ∞0 and ∞1, and leaf 5 has key ∞2. The epoch is 0, all workers are idle, and
    all slots above 5 are in the pool, with words 0."""
    fixed = [blank(), fork(infinity_2(), 2, 5), fork(infinity_1(), 3, 4), leaf(infinity_0()),
             leaf(infinity_1()), leaf(infinity_2())]
    return Memory(
        epoch=0,
        announcements=Row(layout.workers, None),
        nodes=Row(layout.nodes + 1, blank(), dict(enumerate(fixed))),
        pool=Row(layout.nodes + 1, True, dict.fromkeys(range(6), False)),
    )


# ---- nm_model: Paths


def follow(m: Memory, s: int, path: tuple[Side, ...]) -> int:
    """The slot where a path from s ends; 0 if it leaves the tree."""
    for side in path:
        s = child(m, s, side)
    return s


def at(m: Memory, path: tuple[Side, ...]) -> int:
    """The slot where a path from the root ends."""
    return follow(m, 1, path)


def reached(m: Memory, slot: int) -> bool:
    """A slot that ends a path from the root."""
    return slot != 0 and any(at(m, path) == slot for path in m.paths.get(slot, []))


def is_cut(before: Memory, after: Memory, slot: int) -> bool:
    """An event cuts a slot that was reached before it and is not reached after it."""
    return reached(before, slot) and not reached(after, slot)

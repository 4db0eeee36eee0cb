"""Runs of three workers in a tree of 16 slots, each as the lines of a trace: right ones, and wrong
ones, with the fields of the page that each is against; and lists of acts that are no history.
"""
from __future__ import annotations

from typing import Callable, NamedTuple

from histories import Act
from turns import Op
from words import infinity_0

Lines = list[str]
HEAD = "schedule 3 16 3"


class Run(NamedTuple):
    """What is against it, the fields of the headline and behind a semicolon those of the history;
    what happens in it; and the lines."""
    against: str
    words: str
    lines: Lines


def lines(worker: int, text: str) -> Lines:
    return [f"{worker} {it.strip()}" for it in text.strip().splitlines()]


def pin(worker: int, epoch: int, call: str = "") -> Lines:
    return lines(worker, f"""sight = saw {epoch}
        announce = announced {epoch}
        sight{call} = pinned {epoch}""")


def grown(key: int, birth: int, node_key: int, at: str, slots: tuple[int, int],
          sides: str) -> Lines:
    """Worker 0 puts a new node with that key over a new leaf and the leaf that is there, and
    leaves: AT is `PARENT SIDE LEAF`, and SIDES the slots on the left and on the right."""
    node, leaf = slots
    left, right = sides.split()
    return lines(0, f"""claim {node} = claimed {node}
        fill {node} birth {birth} = filled
        claim {leaf} = claimed {leaf}
        fill {leaf} birth {birth} = filled
        fill {node} key {node_key} = filled
        fill {node} left {left} = filled
        fill {node} right {right} = filled
        fill {leaf} key {key} = filled
        fill {leaf} left 0 = filled
        fill {leaf} right 0 = filled
        link {at} {node} = linked {node}.{birth}
        leave true = left""")


def insert(key: int, birth: int, epoch: int) -> Lines:
    """Worker 0 inserts a key into the empty tree: node 6 over the new leaf 7 and leaf 3."""
    return pin(0, epoch, f" insert {key}") + lines(0, f"""look 2 left = edge 3
        look 3 key = key {infinity_0()}
        look 3 left = edge 0""") + grown(key, birth, infinity_0(), "2 left 3", (6, 7), "7 3")


def delete(key: int, birth: int, epoch: int) -> Lines:
    """And deletes it again: 6 and 7 are cut."""
    return pin(0, epoch, f" delete {key}") + lines(0, f"""look 2 left = edge 6
        look 6 key = key {infinity_0()}
        look 6 left = edge 7
        look 7 key = key {key}
        flag 6 left 7 = flagged 7.{birth}
        tag 6 right = was 3
        splice 2 left 6 6 right = cut 6.{birth} 7.{birth}
        sight = label {epoch}
        leave true = left""")


def advance(epoch: int) -> Lines:
    """And moves the epoch on, twice."""
    return lines(0, f"""scan 1 = idle
        advance = moved {epoch + 1}
        scan 1 = idle
        advance = moved {epoch + 2}""")


def without(made: Lines, *parts: str) -> Lines:
    """The lines in which none of these stands."""
    return [it for it in made if not any(part in it for part in parts)]


def turned(made: Lines, *pairs: tuple[str, str]) -> Lines:
    """The lines with the first of each pair replaced by the second. It must stand in one."""
    for old, new in pairs:
        assert any(old in it for it in made), old
        made = [it.replace(old, new) for it in made]
    return made


FREED = ["0 give 6 = freed 6.1", "0 give 7 = freed 7.1"]


def swapped(key: int) -> Lines:
    """Worker 0 puts a new leaf 8 with that key in the place of leaf 7, in a call to insert 10."""
    return pin(0, 0, " insert 10") + lines(0, f"""look 2 left = edge 6
        look 6 key = key {infinity_0()}
        look 6 left = edge 7
        look 7 key = key 10
        look 7 right = edge 0
        claim 8 = claimed 8
        fill 8 birth 1 = filled
        fill 8 key {key} = filled
        fill 8 left 0 = filled
        fill 8 right 0 = filled
        swap 6 left 7 8 = cut 7.1
        sight = label 0
        leave false = left""")


SIX = insert(10, 1, 0)
GONE = SIX + delete(10, 1, 0)
OLD = GONE + advance(0) + FREED
AGAIN = insert(20, 2, 2)
HONEST = OLD + AGAIN
SWAPPED = SIX + swapped(10)
EMPTY = lines(0, f"""look 2 left = edge 3
    look 3 key = key {infinity_0()}
    look 3 left = edge 0
    leave false = left""")
LOOK = ["1 look 2 left = edge 6"]
LATE = lines(1, f"""look 6 key = key {infinity_0()}
    look 6 left = edge 7
    look 7 key = key 20""")
HAS = pin(1, 0, " has 10") + LOOK + lines(1, f"""look 6 key = key {infinity_0()}
    look 6 left = edge 7
    look 7 key = key 10""")

# With 20 beside 10: node 8 over leaf 7 and the new leaf 9. And then 5 too: node 10 over 11 and 7.
TWENTY = SIX + pin(0, 0, " insert 20") + lines(0, f"""look 2 left = edge 6
    look 6 left = edge 7
    look 7 key = key 10""") + grown(20, 1, 20, "6 left 7", (8, 9), "7 9")
FIVE = TWENTY + pin(0, 0, " insert 5") + lines(0, """look 2 left = edge 6
    look 6 left = edge 8
    look 8 left = edge 7""") + grown(5, 1, 10, "8 left 7", (10, 11), "11 7")
# Worker 1 flags 20 and tags, and worker 0, which deletes 10, cuts both off at once.
CHAIN = FIVE + pin(1, 0, " delete 20") + lines(1, """look 2 left = edge 6
    look 6 left = edge 8
    look 8 right = edge 9
    flag 8 right 9 = flagged 9.1
    tag 8 left = was 10""") + pin(0, 0, " delete 10") + lines(0, """look 2 left = edge 6
    look 6 left = edge 8
    look 8 left = edge 10t
    look 10 right = edge 7
    flag 10 right 7 = flagged 7.1
    tag 10 left = was 11
    splice 6 left 8 10 left = cut 8.1 9.1 10.1 7.1
    sight = label 0
    leave true = left""") + lines(1, """look 6 left = edge 11
    leave true = left""")
# Worker 1, pinned all along, links a leaf that waits to a node that was cut before it, and leaves;
# worker 2, pinned between the two cuts, is led there, and then that node is freed.
LED = TWENTY + pin(1, 0) + lines(1, """look 2 left = edge 6
    look 6 left = edge 8
    look 8 left = edge 7
    look 8 right = edge 9""") + pin(0, 0, " delete 20") + lines(0, """look 2 left = edge 6
    look 6 left = edge 8
    look 8 right = edge 9
    flag 8 right 9 = flagged 9.1
    tag 8 left = was 7
    splice 6 left 8 8 left = cut 8.1 9.1
    leave true = left""") + pin(2, 0) + lines(2, """look 2 left = edge 6
    look 6 left = edge 7""") + delete(10, 1, 0) + lines(1, """link 7 left 0 9 = linked 9.1
    leave = left""") + lines(2, "look 7 left = edge 9") + lines(0, """give 8 = freed 8.1
    give 9 = freed 9.1""")
LOST = lines(1, """flag 6 left 7 = lost 8
    look 8 left = edge 7
    leave true = left""")
HELD = GONE[len(SIX):] + FREED

RIGHT = {
    "honest": Run("", "a key is inserted and deleted, the two nodes are freed, and their slots used"
                  " again for another key", HONEST),
    "again": Run("", "and the second key is deleted too", HONEST + delete(20, 2, 2)),
    "beside": Run("", "a pinned reader looks at nodes beside a delete, and when they are cut",
                  SIX + HAS + delete(10, 1, 0) + lines(1, """look 7 key = key 10
                      look 6 right = edge 3t
                      leave true = left""")),
    "moved": Run("", "a reader leaves, and so what was cut beside it is freed",
                 SIX + pin(1, 0) + delete(10, 1, 0) + ["1 leave = left"] + advance(0) + FREED),
    "two-look-ups": Run("", "a key is looked up twice", SIX + 2 * (HAS + ["1 leave true = left"])),
    "fixed": Run("", "a reader looks at the fixed nodes", pin(1, 0) + lines(1, f"""
        look 1 left = edge 2
        look 1 right = edge 5
        look 1 key = key {2**64 - 1}
        look 2 key = key {2**64 - 2}
        look 2 right = edge 4
        look 4 key = key {2**64 - 2}
        look 5 key = key {2**64 - 1}
        leave = left""")),
    "chain": Run("", "two deletes are cut by one splice", CHAIN),
    "lost": Run("", "a worker loses a flag, and goes on by the edge that it was told",
                SIX + HAS + TWENTY[len(SIX):] + LOST),
    "lost-the-link": Run("", "a worker loses a link, and goes on by the edge that it was told",
                         SIX + HAS + ["1 claim 10 = claimed 10"] + TWENTY[len(SIX):]
                         + lines(1, """link 6 left 7 10 = lost 8
                             look 8 left = edge 7
                             give 10 = returned 10
                             leave true = left""")),
    "lost-the-splice": Run("", "a worker loses a splice, and goes on by the edge that it was told",
                           SIX + HAS + delete(10, 1, 0)
                           + lines(1, """splice 2 left 6 6 right = lost 3
                               look 3 left = edge 0
                               leave true = left""") + ["0 scan 1 = idle"]),
    "tagged": Run("", "a worker goes on by the edge that it has tagged",
                  GONE[:-3] + ["0 look 3 left = edge 0"] + GONE[-3:]),
    "linked": Run("", "a worker looks at the node that it has linked",
                  SIX[:-1] + ["0 look 6 left = edge 7"] + SIX[-1:]),
    "swapped": Run("", "a new leaf with its key takes the place of a leaf, which is freed after its"
                   " grace", SWAPPED + advance(0) + ["0 give 7 = freed 7.1"]),
    "lost-the-swap": Run("", "a worker loses a swap, and goes on by the edge that it was told",
                         SIX + HAS + ["1 claim 9 = claimed 9"] + swapped(10)
                         + lines(1, """swap 6 left 7 9 = lost 8
                             look 8 key = key 10
                             leave true = left""")),
    "returned": Run("", "a slot is claimed, and given back as it was",
                    SIX + ["1 claim 8 = claimed 8", "1 give 8 = returned 8"]),
}

# Replies that tell what does not stand, one for each row of `tells_what_stands`.
READS = {
    "another-key": Run("reads", "a look tells another key",
                       turned(GONE, ("look 7 key = key 10", "look 7 key = key 11"))),
    "another-edge": Run("reads", "a look tells another edge",
                        turned(GONE, ("look 3 left = edge 0", "look 3 left = edge 4"))),
    "looked-birth": Run("reads", "a look tells another birth",
                        GONE[:28] + ["0 look 7 birth = birth 2"] + GONE[28:]),
    "not-idle": Run("reads", "a scan tells an epoch of a worker that is idle",
                    turned(OLD, ("scan 1 = idle", "scan 1 = in 0"))),
    "idle": Run("reads", "a scan tells that a worker is idle which is not",
                GONE + pin(1, 0) + ["0 scan 1 = idle"]),
    "greater-birth": Run("reads", "a birth is stored that is two more than the one that stood",
                         turned(SIX, ("6 birth 1", "6 birth 2"), ("6.1", "6.2"))),
    "over-a-flag": Run("reads", "a link replaces a flagged edge, and the flag is gone",
                       SIX + pin(1, 0) + LOOK + lines(1, """look 6 left = edge 7
                           flag 6 left 7 = flagged 7.1""") + pin(0, 0, " insert 12")
                       + lines(0, """look 2 left = edge 6
                           look 6 left = edge 7f""") + grown(12, 1, 12, "6 left 7", (8, 9), "7 9")),
    "lost-link": Run("reads", "a link that is lost tells another edge",
                     TWENTY[:-2] + ["0 link 6 left 7 8 = lost 7f"] + TWENTY[-2:]),
    "two-flags": Run("reads", "a flag is won on an edge that is flagged",
                     CHAIN[:-6] + ["0 flag 10 right 7 = flagged 7.1"] + CHAIN[-6:]),
    "told-wrong": Run("reads", "a flag that is lost tells another edge",
                      SIX + HAS[:6] + ["1 flag 6 left 7 = lost 3f"]),
    "tagged-wrong": Run("reads", "a tag tells a flag that does not stand",
                        turned(GONE, ("was 3", "was 3f"))),
    "lost-splice": Run("reads", "a splice that is lost tells another edge",
                       GONE[:-3] + ["0 splice 2 left 6 6 right = lost 3"] + GONE[-3:]),
    "lost-swap": Run("reads", "a swap that is lost tells another edge",
                     SWAPPED[:-2] + ["0 swap 6 left 7 8 = lost 7"] + SWAPPED[-2:]),
    "another-epoch": Run("near reads", "a worker reads an epoch, announces it and is pinned at it, and"
                         " another one is in memory", pin(0, 7, " has 10") + EMPTY),
    "saw-another": Run("reads", "a sight returns another epoch", ["0 sight = saw 7"]),
    "missed-another": Run("reads", "a sight that does not confirm the pin returns another epoch",
                          lines(0, """sight = saw 0
                              announce = announced 0
                              sight = lost 1""")),
    "missed-its-own": Run("reads", "a sight does not confirm the pin at the epoch that its worker"
                          " announces", lines(0, """sight = saw 0
                              announce = announced 0
                              sight = lost 0""")),
    "label-lies": Run("reads", "cut nodes get another epoch as their label",
                      turned(GONE, ("label 0", "label 40"))),
    "announces-another": Run("reads", "a worker is pinned at the epoch, and announces another one",
                             lines(0, """sight = saw 0
                                 announce = announced 3
                                 sight has 10 = pinned 0""") + EMPTY),
    "pinned-unannounced": Run("reads", "a worker is pinned, and announces nothing",
                              ["0 sight has 10 = pinned 0"] + EMPTY),
    "epoch-jumps": Run("reads", "the epoch is moved from 0 to 9, and back to 2",
                       lines(0, """sight = saw 0
                           advance = moved 9
                           advance = moved 2""")),
    "advance-lost-to-nobody": Run("reads", "an advance is lost to an epoch that is not in memory",
                                  lines(0, """sight = saw 0
                                      advance = lost 4""")),
    "claim-lies": Run("reads", "a worker loses the claim of each slot, although all are free",
                      lines(0, "\n".join(f"claim {it} = lost" for it in range(6, 17)))),
    "full-of-an-empty-pool": Run("reads", "an insert loses the claim of each slot, although all are"
                                 " free, and leaves", pin(0, 0, " insert 10") + EMPTY[:-1]
                                 + lines(0, "\n".join(f"claim {it} = lost" for it in range(6, 17)))
                                 + ["0 leave = left"]),
    "won-twice": Run("reads", "the worker that has a slot wins the claim of it again",
                     2 * ["0 claim 6 = claimed 6"]),
    "claim-names-another": Run("reads", "a won claim returns another slot",
                               turned(SIX, ("claim 6 = claimed 6", "claim 6 = claimed 9"))),
    "given-names-another": Run("reads", "a slot is given back, and another one returned",
                               ["0 claim 8 = claimed 8", "0 give 8 = returned 9"]),
    "link-names-another": Run("reads", "a won link returns another node",
                              turned(SIX, ("linked 6.1", "linked 9.4"))),
    "link-names-another-birth": Run("reads", "a won link returns its node with another birth",
                                    turned(SIX, ("linked 6.1", "linked 6.2"))),
    "flag-names-another-birth": Run("reads; answered cuts moments replays", "a won flag returns its"
                                    " leaf with another birth",
                                    turned(GONE, ("flagged 7.1", "flagged 7.2"))),
    "flag-names-another": Run("reads; answered cuts moments replays", "a won flag returns another"
                              " node", turned(GONE, ("flagged 7.1", "flagged 6.1"))),
}

# Slots that a pinned worker names and was never told of, one for each that an exchange may name.
OWN = SIX + pin(1, 0) + ["1 claim 8 = claimed 8"]
TOUCHES = {
    "link-parent": Run("told", "a link's parent", OWN + ["1 link 4 left 0 8 = lost 0"]),
    "link-leaf": Run("told", "a link's leaf", OWN + LOOK + ["1 link 6 left 7 8 = lost 7"]),
    "link-new": Run("told", "a link's new node", OWN + ["1 link 2 left 1 9 = lost 6"]),
    "flag-parent": Run("told", "a flag's parent", OWN + ["1 flag 6 left 1 = lost 7"]),
    "flag-leaf": Run("told", "a flag's leaf", OWN + LOOK + ["1 flag 6 left 7 = lost 7"]),
    "tag-parent": Run("told", "a tag's parent", OWN + ["1 tag 6 right = was 3"]),
    "swap-parent": Run("told", "a swap's parent", OWN + ["1 swap 4 left 3 8 = lost 0"]),
    "swap-leaf": Run("told", "a swap's leaf", OWN + LOOK + ["1 swap 6 left 7 8 = lost 7"]),
    "swap-new": Run("told", "a swap's new leaf", OWN + ["1 swap 2 left 1 9 = lost 6"]),
    "splice-ancestor": Run("told", "a splice's ancestor",
                           OWN + ["1 splice 4 left 2 2 left = lost 0"]),
    "splice-successor": Run("told", "its successor", OWN + ["1 splice 2 left 6 2 left = lost 6"]),
    "splice-parent": Run("told", "its parent", OWN + ["1 splice 2 left 1 6 left = lost 6"]),
}

WRONG = {
    **READS,
    **TOUCHES,
    "no-pin": Run("told", "a reader that is not pinned goes on by an edge to a node that was freed"
                  " and used again", SIX + LOOK + OLD[len(SIX):] + AGAIN + LATE),
    "over-a-leave": Run("told", "a reader leaves, is pinned anew, and goes on by an edge of its"
                        " last pin", SIX + pin(1, 0) + LOOK + ["1 leave = left"] + OLD[len(SIX):]
                        + AGAIN + pin(1, 2) + LATE),
    "held": Run("grace stays", "a reader goes on by an edge to a node that was freed and used"
                " again, pinned all along", SIX + pin(1, 0) + LOOK + HELD + insert(20, 2, 0) + LATE),
    "touches-no-more": Run("grace stays", "a node is freed under a pinned reader that was told of"
                           " it and touches it no more", SIX + pin(1, 0) + LOOK + HELD),
    "overwritten": Run("stores; moments replays", "the key of a leaf in the tree is overwritten",
                       SIX + ["1 fill 7 key 11 = filled"]),
    "turned": Run("stores", "an edge of a node that waits is turned by a worker that has it not",
                  GONE + ["0 fill 6 left 3 = filled"]),
    "old-birth": Run("reads younger", "a slot is used again with the birth that it had",
                     OLD + turned(AGAIN, ("6 birth 2", "6 birth 1"), ("6.2", "6.1"))),
    "no-birth": Run("younger", "a slot is used again, and no birth is stored",
                    OLD + turned(without(AGAIN, "6 birth"), ("6.2", "6.1"))),
    "nobody-pins": Run("told; cuts links moments replays", "the honest run, with each pin left out",
                       without(HONEST, "pinned", "announce")),
    "at-once": Run("told; cuts links moments", "nodes are freed at once, where nobody has confirmed"
                   " a pin", without(GONE, "pinned", "announce") + FREED),
    "two-winners": Run("places reads", "two workers win one slot",
                       ["0 claim 6 = claimed 6", "1 claim 6 = claimed 6"]),
    "given-by-another": Run("places", "a slot is given back by a worker that does not have it",
                            ["0 claim 6 = claimed 6", "1 give 6 = returned 6"]),
    "past-a-pin": Run("near", "the epoch is moved on three times beside a pinned worker",
                      pin(1, 0) + lines(0, """sight = saw 0
                          advance = moved 1
                          advance = moved 2
                          advance = moved 3""")),
    "pooled": Run("told", "a worker that is not pinned looks at a slot in the pool",
                  ["0 look 6 key = key 0"]),
    "guessed": Run("told", "a pinned reader looks at a slot of which nobody told it",
                   SIX + pin(1, 0) + ["1 look 7 key = key 10"]),
    "fixed-given": Run("fixed", "a fixed slot is given back", SIX + ["1 give 3 = returned 3"]),
    "stale-own": Run("told", "a pinned reader goes on by the stale edge of a slot in its own hands",
                     OLD + pin(1, 2) + lines(1, """claim 6 = claimed 6
                         look 6 left = edge 7f
                         look 7 key = key 10""")),
    "unseen": Run("grace", "nodes are freed under a worker that was pinned at the cut, and was told"
                  " of none", SIX + pin(1, 0) + HELD),
    "led": Run("stays; links", "a reader is led to a node that was cut before it was pinned, and"
               " that is freed then", LED),
    "out-of-turn": Run("queues", "the node that was cut second is freed first",
                       OLD[:-2] + FREED[::-1]),
    "uncut": Run("queues", "a slot of the pool is freed, which nobody cut",
                 SIX + ["0 give 9 = freed 9.0"]),
    "cut-again": Run("places queues younger", "a node comes back as it was, and is cut again",
                     OLD + turned(without(AGAIN, "birth"), ("6.2", "6.1")) + delete(20, 1, 2)),
    "leaf-lost": Run("cuts", "a link drops the leaf in whose place it comes",
                     turned(SIX, ("6 right 3", "6 right 0"))),
    "untagged": Run("cuts", "a splice, where no edge is tagged", without(GONE, "tag")),
    "another-birth": Run("cuts; answered cuts moments replays", "a splice names another birth of"
                         " its leaf", turned(GONE, ("cut 6.1 7.1", "cut 6.1 7.2"))),
    "swap-names-another": Run("cuts", "a swap names another birth of its leaf",
                              turned(SWAPPED, ("cut 7.1", "cut 7.2"))),
    "swap-over-a-flag": Run("cuts", "a swap replaces a flagged edge, and the flag is gone",
                            SIX + pin(1, 0) + LOOK + lines(1, """look 6 left = edge 7
                                flag 6 left 7 = flagged 7.1""")
                            + turned(swapped(10), ("6 left = edge 7", "6 left = edge 7f"))),
    "swap-keeps-its-leaf": Run("cuts places", "a swap returns that it cut nothing",
                               turned(SWAPPED, ("cut 7.1", "cut"))),
    "swapped-key": Run("; moments replays", "the new leaf of a swap has another key",
                       SIX + swapped(11)),
    "freed-at-the-swap": Run("grace", "the old leaf is freed at once, beside a pinned reader",
                             SIX + pin(1, 0) + swapped(10) + ["0 give 7 = freed 7.1"]),
    "wrong-answer": Run("; answered", "a look-up of a key that is there is answered false",
                        SIX + HAS + ["1 leave false = left"]),
    "unchanged": Run("; answered", "an insert that links nothing is answered true",
                     pin(0, 0, " insert 10") + ["0 leave true = left"]),
    "from-nothing": Run("; answered", "an insert that links nothing is answered true, and so is a"
                        " delete of its key that cuts nothing",
                        pin(0, 0, " insert 10") + ["0 leave true = left"]
                        + pin(0, 0, " delete 10") + ["0 leave true = left"]),
    "handed-over": Run("; answered", "an insert and a delete of one key, which overlap, are"
                       " answered true, and nothing is linked or cut",
                       pin(0, 0, " insert 10") + pin(1, 0, " delete 10")
                       + ["0 leave true = left", "1 leave true = left"]),
    "other-key": Run("; moments replays", "an insert links a leaf with another key than its own",
                     turned(SIX, ("7 key 10", "7 key 11"))),
    "no-call": Run("; links moments replays", "a worker links, and is in no call",
                   turned(SIX, (" insert 10", ""))),
    "other-delete": Run("; answered cuts moments replays", "a delete flags a leaf with another key"
                        " than its own", turned(GONE, ("delete 10", "delete 11"))),
}


class Acts(NamedTuple):
    """What is against them, fields of a history; what is wrong with them; of which run they are;
    and what is changed in its history."""
    against: str
    words: str
    run: str
    change: Callable[[list[Act]], list[Act]]


HISTORIES = {
    "left-out": Acts("answered", "an answered look-up has no act", "two-look-ups",
                     lambda acts: acts[:-1]),
    "twice": Acts("once", "a look-up has two acts", "two-look-ups", lambda acts: acts + acts[-1:]),
    "no-such": Acts("each", "an act is of no call", "two-look-ups",
                    lambda acts: acts + [acts[-1]._replace(worker=2)]),
    "at-its-pin": Acts("each", "a look-up has its moment before it began", "two-look-ups",
                       lambda acts: [*acts[:-1], acts[-1]._replace(moment=acts[-1].pin)]),
    "out-of-order": Acts("in_order", "a later look-up comes first", "two-look-ups",
                         lambda acts: acts[:1] + acts[:0:-1]),
    "late-link": Acts("links moments", "an insert has its moment behind its link", "linked",
                      lambda acts: [acts[0]._replace(moment=acts[0].moment + 1)]),
    "from-nothing-too": Acts("moments", "a key is inserted and deleted that is never in the tree",
                             "from-nothing", lambda acts: [Act(0, 2, Op.INSERT, 10, True, 3),
                                                           Act(0, 6, Op.DELETE, 10, True, 7)]),
    "handed-over-too": Acts("", "both at one moment: this is a history, which `acts_of` does not"
                            " find", "handed-over",
                            lambda acts: [Act(0, 2, Op.INSERT, 10, True, 6),
                                          Act(1, 5, Op.DELETE, 10, True, 6)]),
    "turned-cut": Acts("cuts", "the deletes of one cut stand in the reverse order", "chain",
                       lambda acts: acts[:-2] + acts[:-3:-1]),
    "not-deleted": Acts("answered cuts moments replays", "a delete has no act, though its leaf was"
                        " cut", "honest", lambda acts: acts[:1] + acts[2:]),
}

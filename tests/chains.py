#!/usr/bin/env python3
"""Writes crates/test_chains/stdin and stdout: sites with goals, ways and starts, and for each the chain or the set that is given.

The crates go back from the goal, set by set, and then walk on from the start. Here all goes forward from the start, and nothing is chosen
before the end: all walks are taken, step by step, until some of them end at a goal slot, and the least of these is the chain. Where there
are too many walks, the least to each slot is kept; where both can be done, both have to agree. The goal is listed by the evaluators of
lists.py, and so is mu 15 (goal or diamond of variable 15), which has to list the start exactly if there is a chain.

An accepted site has no link at slot 0, and so no chain of more than 254 steps. The crates' search by itself takes any site, and the program
runs it behind each refusal with 6, with slot 255 as the goal. A chain of all 256 slots stands there.

Behind the pieces of a pair (pieces.py) stand its questions: how many there are, in one byte, and for each a way and a start, in four bytes
each, low byte first.
"""
import collections
import functools
import itertools
import random
import sys

import lists
import pieces
from layout import *
from lists import FALSE, ONCE, TRUE, doubled, stacked
from pieces import nodes_of, with_bytes

SEED = 254
WALKS = 3000  # that are kept at once
QUESTIONS = 255  # behind one pair
LAST_SLOT = bytes(pieces.table((12, SLOTS - 1, 0, 0)))  # the goal behind a refusal with 6


# ---- the answers

class Unlimited(lists.Lister):
    """Goals are listed whatever rounds they make."""

    def count(self, rounds):
        pass


def value(site, nodes):
    """The slots of the last node on an opened site; the second evaluator has to agree where it comes to an end."""
    found, other = Unlimited(site, nodes).value(len(nodes) - 1, {}), lists.walked(site, nodes)
    assert other is None or other[0] == found, (found, other)
    return found


@functools.lru_cache(maxsize=4)
def opened_site(site):
    """The site as its bytes have it, whatever item its links meet."""
    return lists.judged(site)[1] or lists.Site(site)


@functools.lru_cache(maxsize=4)
def goal_of(site, condition):
    return value(opened_site(site), nodes_of(condition))


def mu_15(nodes, way):
    """Mu 15 (goal or diamond of variable 15): four nodes behind the goal's."""
    n = len(nodes)
    return [*nodes, (4, VARIABLES - 1, 0, 0), (8, way, n, 0), (6, 0, n - 1, n + 1), (10, VARIABLES - 1, n + 2, 0)]


@functools.lru_cache(maxsize=64)
def leading(site, condition, way):
    """The slots that mu 15 lists."""
    nodes = mu_15(nodes_of(condition), way)
    assert len(nodes) > NODES or pieces.judge_condition(pieces.table(*nodes)) is None
    return value(opened_site(site), nodes)


def all_chains(site, way, start, goal):
    """All walks of fewest steps to the goal; None where there are too many walks, or none has come to it after as many steps as there are slots."""
    walks = [(start,)]
    for _ in range(SLOTS):
        found = [walk for walk in walks if walk[-1] in goal]
        if found or not walks:
            return found
        walks = [(*walk, t) for walk in walks for t in site.neighbours(way, walk[-1])]
        if len(walks) > WALKS:
            return None
    return None


@functools.lru_cache(maxsize=64)
def least_chains(site, way, start):
    """For each slot that can be reached the least of the chains of fewest steps to it. All that lead to a slot have one length, so the least with
    one more step begins with the least to the slot before it."""
    least = {start: (start,)}
    newest = dict(least)
    while newest:
        further = {}
        for s, chain in newest.items():
            for t in site.neighbours(way, s):
                if t not in least:
                    further[t] = min(further.get(t, (*chain, t)), (*chain, t))
        least.update(further)
        newest = further
    return least


def searched(site, condition, way, start):
    """The chain or None, the slots that can be reached, and all chains of fewest steps or None; no item is met, or 6 alone."""
    opened, goal = opened_site(site), goal_of(site, condition)
    least = least_chains(opened, way, start)
    reached = frozenset(least)
    chain = min((least[s] for s in goal & reached), key=lambda c: (len(c), c), default=None)
    every = all_chains(opened, way, start, goal)
    if every is not None:
        assert chain == min(every, default=None), (chain, every)
    assert (chain is not None) == (start in leading(site, condition, way)), (way, start, chain)
    if chain is None:
        assert start in reached and goal.isdisjoint(reached) and all(opened.neighbours(way, s) <= reached for s in reached)
    return chain, reached, every


def verdict(site, condition, way, start):
    """The first item that is met, or None."""
    refusal, opened = lists.judged(site)
    refusal = refusal or pieces.judge_condition(condition)
    if refusal is None and (way >= LINK_WAYS or start >= SLOTS or start not in opened.present):
        return 17, 0
    return refusal


def shown(chain, reached):
    if chain is None:
        return "set " + lists.hexadecimal(reached)
    assert len(chain) <= CHAIN_BYTES
    return "chain %d %s" % (len(chain) - 1, " ".join(map(str, chain)))


def behind(refusal, site, way, start):
    """What the search by itself gives, behind a refusal with 6."""
    if refusal[0] != 6 or way >= LINK_WAYS or start >= SLOTS:
        return ""
    chain, reached, _ = searched(site, LAST_SLOT, way, start)
    note_search(site, way, start, chain, reached)
    return "; " + shown(chain, reached)


def line(site, condition, way, start):
    refusal = verdict(site, condition, way, start)
    if refusal:
        note_refusal(site, condition, way, start, refusal)
        return "refused %d %d" % refusal + behind(refusal, site, way, start)
    chain, reached, every = searched(site, condition, way, start)
    note_answer(site, condition, way, start, chain, reached, every)
    return shown(chain, reached)


# ---- what the answers have met: a kind of question or answer that is looked for and never comes is an error

HIGH_WAYS = (16, 17, 31, 255, 256, 260, 65536, 65540, 1 << 31, (1 << 31) + 4, (1 << 32) - 1)
HIGH_STARTS = (256, 257, 511, 512, 65536, 65537, 1 << 31, (1 << 31) + 1, (1 << 32) - 1)
met = collections.Counter()


def note_refusal(site, condition, way, start, refusal):
    """The item, and whether it is alone."""
    item, high = refusal[0], way >= LINK_WAYS
    met["item %d" % item] += 1
    if item != 17:
        met["item %d before 17" % item] += high or start >= SLOTS
        met["item %d before the goal's" % item] += item < 7 and pieces.judge_condition(condition) is not None
        return
    there = start < SLOTS and start in lists.judged(site)[1].present
    met["item 17, way %d" % way] += high and there
    met["item 17, start %d" % start] += not high and start >= SLOTS
    met["item 17, start absent"] += not high and start < SLOTS
    met["item 17, start absent and in the goal"] += not high and start in goal_of(site, condition)
    met["item 17, way and start"] += high and not there


def note_search(site, way, start, chain, reached):
    """Apart from the answers, so that none of these stands for a chain or a set that was given."""
    kinds = [
        ("search, steps 255, way %d" % way, chain and len(chain) == SLOTS),
        ("search, on through slot 0", chain and 0 in chain[1:]),
        ("search, set, start 0" if start == 0 else "search, set with slot 0", not chain and 0 in reached),
        ("search, set of 255", not chain and len(reached) == SLOTS - 1),
        ("search, start absent", start not in opened_site(site).present),
    ]
    met.update(kind for kind, holds in kinds if holds)


def note_answer(site, condition, way, start, chain, reached, every):
    opened, goal = lists.judged(site)[1], goal_of(site, condition)
    near = opened.neighbours
    kinds = [
        ("chain, start 0" if chain else "set, start 0", start == 0),
        ("start 255", start == SLOTS - 1),
        ("self-link at the start", start in near(way, start)),
        ("goal is empty", not goal),
        ("goal is every slot", len(goal) == SLOTS),
        ("goal is absent slots only", goal and not goal & opened.present),
        ("goal has absent slots", not goal <= opened.present),
        ("goal of a full table", len(condition) == TABLE_BYTES),
        ("goal with mu", 10 in condition[::NODE_BYTES]),
        ("goal with nu", 11 in condition[::NODE_BYTES]),
        ("goal with variable 15", (4, VARIABLES - 1, 0, 0) in nodes_of(condition)),
        ("goal over any limit", lists.list_slots(site, condition) is None),
        ("walks not counted", every is None),
        ("both ways of searching", every is not None),
    ]
    kinds += note_chain(near, way, chain, goal & reached, every) if chain else [
        ("set, way %d" % way, len(reached) > 1), ("set of 1", len(reached) == 1), ("set of 255", len(reached) == SLOTS - 1),
        ("set with a ring", any(start in near(way, s) for s in reached)),
    ]
    met.update(kind for kind, holds in kinds if holds)


def note_chain(near, way, chain, ends, every):
    """Ties, and where a hasty choice gives another chain: the lowest neighbour, or the lowest goal slot."""
    lowest = [s for s, t in zip(chain, chain[1:]) if min(near(way, s)) < t]
    return [
        ("chain, way %d" % way, len(chain) > 1),
        ("steps %d" % (len(chain) - 1), len(chain) in (1, 2, SLOTS - 1)),
        ("several chains", every is not None and len(every) > 1),
        ("many chains", every is None),
        ("lowest neighbour not taken", lowest),
        ("lowest neighbour not taken at each step", len(chain) > 3 and len(lowest) == len(chain) - 1),
        ("lower goal slot not taken", min(ends) < chain[-1]),
        ("lowest of the nearest goal slots not taken", every and min(c[-1] for c in every) < chain[-1]),
        ("on through goal slots", set(near(way, chain[-1])) & ends),
    ]


def must_be_met():
    yield from ("item %d" % i for i in (*range(3, 11), 17))
    yield from ("item %d before 17" % i for i in range(3, 11))
    yield from ("item %d before the goal's" % i for i in range(3, 7))
    yield from ("item 17, way %d" % way for way in HIGH_WAYS)
    yield from ("item 17, start %s" % start for start in (*HIGH_STARTS, "absent", "absent and in the goal"))
    yield "item 17, way and start"
    yield from ("%s, way %d" % (what, way) for what in ("chain", "set") for way in range(LINK_WAYS))
    yield from ("steps %d" % n for n in (0, 1, SLOTS - 2))
    yield from ("chain, start 0", "set, start 0", "set of 1", "set of 255", "set with a ring", "self-link at the start", "start 255")
    yield from ("goal is empty", "goal is every slot", "goal is absent slots only", "goal has absent slots", "goal of a full table")
    yield from ("goal with mu", "goal with nu", "goal with variable 15", "goal over any limit")
    yield from ("several chains", "many chains", "walks not counted", "both ways of searching")
    yield from ("lowest neighbour not taken", "lowest neighbour not taken at each step", "on through goal slots")
    yield from ("lower goal slot not taken", "lowest of the nearest goal slots not taken")
    # against a functional link no step leads on from slot 0
    yield from ("search, steps 255, way %d" % way for way in range(LINKS + GENERAL))
    yield from ("search, on through slot 0", "search, set, start 0", "search, set with slot 0", "search, set of 255", "search, start absent")


# ---- sites of one link

LABEL = pieces.table((2, 0, 0, 0))


def put_link(d, link, s, t):
    if link < GENERAL:
        pieces.put(d, row_at(link, s), t)
    else:
        d[target_at(link, s)] = t


def linked_site(link, pairs, *goals):
    """The slots of these pairs, each with a link, and the goals, which have label 0."""
    d = bytearray(SITE_BYTES)
    for s in {0, *goals, *itertools.chain(*pairs)}:
        pieces.put(d, 0, s)
    for s, t in pairs:
        put_link(d, link, s, t)
    for s in goals:
        pieces.put(d, label_at(0), s)
    return d


def single_targets(pairs):
    return len({s for s, _ in pairs}) == len(set(pairs))


def placed(pairs, turn):
    """The pairs as links, with the way that follows them: along and against a general link, and a functional one where no slot has two targets."""
    back = [(t, s) for s, t in pairs]
    for link in (turn % GENERAL, GENERAL + turn % FUNCTIONAL):
        for way, ends in ((link, pairs), (link + LINKS, back)):
            if link < GENERAL or single_targets(ends):
                yield link, way, ends


def path(slots):
    return list(zip(slots, slots[1:]))


def ring(slots):
    return path([*slots, slots[0]])


def between(layers):
    """Every slot of a layer to every slot of the next."""
    return [pair for near, far in zip(layers, layers[1:]) for pair in itertools.product(near, far)]


def grid(slots, width):
    """One to the right and one down."""
    rows = [slots[k:k + width] for k in range(0, len(slots), width)]
    return [pair for row in rows for pair in path(row)] + [pair for two in zip(rows, rows[1:]) for pair in zip(*two)]


def shuffled(rng, slots):
    return rng.sample(list(slots), len(slots))


def layers_of(slots, width):
    return [slots[k:k + width] for k in range(0, len(slots), width)]


def detours(length):
    """A chain of high slots, from each of which a lower slot leads to the next one too, but by one step more."""
    high, low = list(range(200, 200 + length)), list(range(10, 10 + length))
    return path(high) + list(zip(high, low)) + list(zip(low[:-1], high[1:]))


def round_about(length):
    """The same, but the lower slot leads back."""
    high, low = list(range(100, 100 + length)), list(range(1, 1 + length))
    return path(high) + list(zip(high, low)) + list(zip(low, high))


def shapes(rng):
    """Pairs with goals."""
    for slots in ([3, 4, 5, 6, 7], [255, 192, 191, 128, 127, 64, 63, 8, 7, 1], shuffled(rng, range(1, SLOTS))[:9]):
        yield path(slots), slots[-1:]
        yield path(slots), slots[2:4]
        yield ring(slots), slots[:1]
        yield ring(slots), [slots[2], 99]
        yield ring(slots), [99]
        yield path(slots) + [(s, s) for s in slots], slots[-1:]
        # back to all slots before, so that the lowest neighbour is mostly one that has been passed
        yield path(slots) + [(t, s) for k, t in enumerate(slots) for s in slots[:k]], slots[-1:]
    yield [(9, 9), (10, 10), (10, 11), (11, 12)], [12]
    yield [(9, 9), (10, 10)], [11]
    # the lower neighbour comes to the goal later, never, or only back
    yield [(10, 1), (10, 5), (5, 9), (1, 2), (2, 9)], [9]
    yield [(10, 1), (10, 5), (5, 9), (1, 1)], [9]
    yield [(10, 1), (10, 5), (5, 9), (1, 10), (5, 10)], [9]
    # the lowest goal slot is not at the end of the lowest chain; it is further away; a goal slot leads on to another
    yield [(20, 5), (5, 9), (20, 7), (7, 3)], [3, 9]
    yield [(20, 5), (5, 9), (9, 3)], [3, 9]
    yield [(20, 5), (20, 6), (5, 30), (5, 31), (6, 4), (30, 2), (31, 1), (4, 1)], [1, 2]
    # two chains that part and meet, and part again
    yield [(50, 41), (50, 40), (41, 30), (40, 30), (30, 22), (30, 21), (22, 3), (21, 3)], [3]
    yield [(50, 41), (50, 40), (41, 30), (40, 31), (30, 3), (31, 4)], [3, 4]
    for length in (4, 9):
        yield detours(length), [199 + length]
        yield round_about(length), [99 + length]
    tree = [(s // 2, s) for s in range(2, 40)]
    yield tree, [37, 38]
    yield [(100 - s, 100 - t) for s, t in tree], [65, 60, 71]
    for slots in (list(range(1, 25)), list(range(24, 0, -1)), shuffled(rng, range(1, 25)), shuffled(rng, range(1, SLOTS))[:24]):
        for width in (2, 3, 4):
            yield between(layers_of(slots, width)), slots[-1:]
            yield between(layers_of(slots, width)), slots[-2:]
            yield grid(slots, width), slots[-1:]
        yield between(layers_of(slots, 6)), slots[-6::2]


def by_shape(rng):
    """From the first slot, and from all or every second; along the way and, once, the other way."""
    for turn, (pairs, goals) in enumerate(shapes(rng)):
        for link, way, ends in placed(pairs, turn):
            site = linked_site(link, ends, *goals)
            slots = sorted(pieces.members(site, 0))
            starts = [pairs[0][0], *(slots if len(slots) < 16 else slots[way % 2::2])]
            yield site, LABEL, [(way, s) for s in starts] + [((way + LINKS) % LINK_WAYS, slots[-1])]


def large_shapes(rng):
    """Pairs with goals and starts, on all slots."""
    for slots in (list(range(1, SLOTS)), list(range(SLOTS - 1, 0, -1)), shuffled(rng, range(1, SLOTS))):
        some = (0, 1, 127, 253, 254)
        yield path(slots), slots[-1:], [slots[k] for k in some]
        yield ring(slots), slots[:1], [slots[k] for k in some]
        yield ring(slots), [], slots[:2]
        yield between(layers_of(slots, 2)), slots[-1:], [slots[k] for k in some]
        yield between(layers_of(slots, 5)), slots[-3:], [slots[k] for k in some]
        yield grid(slots, 15), slots[-1:], [slots[k] for k in some]
    slots = range(1, SLOTS)
    yield list(itertools.product(slots, slots)), [77], [1, 77, 255]
    yield list(itertools.product(slots, slots)), [], [1, 255]


def on_all_slots(rng):
    for turn, (pairs, goals, starts) in enumerate(large_shapes(rng)):
        for link, way, ends in placed(pairs, turn):
            # what takes much room is stored along the link only
            if way > link and len(pairs) > 1000:
                continue
            yield linked_site(link, ends, *goals), LABEL, [(way, s) for s in [0, *starts]]


def lines_of_all(rng):
    """Pairs over all slots, with starts. The search has slot 255 as its goal."""
    line, some = list(range(SLOTS)), (0, 1, 127, 128, 254, 255)
    for _ in range(GENERAL):
        yield path(line), (0, 128)
    yield path(line), some
    # an arc is missing in the middle, or at the end
    yield path(line[:128]) + path(line[128:]), some
    yield path(line[:-1]), some
    # slot 0 is anywhere; or first, since no functional link can lead to it
    mixed, others = shuffled(rng, line[:-1]), shuffled(rng, line[1:-1])
    yield path([*mixed, 255]), (mixed[0], mixed[128], 0, 255)
    yield path([0, *others, 255]), (0, others[128], 255)
    # the longest chain comes from slot 0; the other way it comes from 254, and slot 0 is the last before 255
    yield ring(line), some


def through_slot_0(rng):
    """Item 6 refuses these sites, and the search takes them; along the way and the other way. In the last one only slot 0 is present."""
    for turn, (pairs, starts) in enumerate(lines_of_all(rng)):
        for link, way, ends in placed(pairs, turn):
            # a target of 0 is none
            if link < GENERAL or all(t for _, t in ends):
                yield linked_site(link, ends), LABEL, each((way, (way + LINKS) % LINK_WAYS), starts)
    absent = linked_site(0, path(list(range(SLOTS))))
    absent[:SET_BYTES] = bytes([1]) + bytes(SET_BYTES - 1)
    yield absent, LABEL, each((0, LINKS), (0, 128, 255))


# ---- all ways and many goals

def ways_site():
    """Slots 1 to 24; link m leads from s to s + m + 1, as far as there are slots, and a general link to a few others. Three slots have label 0."""
    d = bytearray(SITE_BYTES)
    for s in range(25):
        pieces.put(d, 0, s)
    for m in range(LINKS):
        for s in range(1, 24 - m):
            put_link(d, m, s, s + m + 1)
            if m < GENERAL and s % (m + 5) == 0:
                put_link(d, m, s, 1 + s * s % 24)
    for s in (5, 18, 24):
        pieces.put(d, label_at(0), s)
    d[NAMES_AT + 1], d[NAMES_AT + 2] = 12, 24
    return d


def each(ways, starts):
    return list(itertools.product(ways, starts))


def by_way():
    site = ways_site()
    for nodes in ([(2, 0, 0, 0)], [(3, 2, 0, 0)], [(12, 1, 0, 0)], [(12, 13, 0, 0)]):
        yield site, pieces.table(*nodes), each(range(LINK_WAYS), (0, 1, 2, 5, 11, 12, 13, 17, 23, 24))


def loop(kind, variable, way):
    """Mu or nu of (label 0 or diamond of the variable)."""
    return [(2, 0, 0, 0), (4, variable, 0, 0), (8, way, 1, 0), (6, 0, 0, 2), (kind, variable, 3, 0)]


def all_variables():
    """A loop for each variable, around the one before it."""
    nodes = lists.Nodes()
    last = nodes.add(2, 0)
    for v in range(VARIABLES):
        last = nodes.add(10, v, nodes.add(6, 0, last, nodes.add(8, v, nodes.add(4, v))))
    return nodes


def small_goals():
    """Each with its nodes: leaves, absent slots, loops, and loops of variable 15, which mu 15 around the goal hides."""
    v = VARIABLES - 1
    yield TRUE
    yield FALSE
    yield [(1, 0, 0, 0)]
    yield [(1, 0, 0, 0), (5, 0, 0, 0)]
    yield [(12, 200, 0, 0)]
    yield [(12, 0, 0, 0)]
    yield [(3, 0, 0, 0)]
    yield [(2, 0, 0, 0), (5, 0, 0, 0)]
    yield [(2, 0, 0, 0), (3, 1, 0, 0), (6, 0, 0, 1), (12, 200, 0, 0), (6, 0, 2, 3)]
    yield [(2, 0, 0, 0), (8, EVERYWHERE, 0, 0)]
    yield [(2, 7, 0, 0), (8, EVERYWHERE, 0, 0)]
    yield FALSE + [(9, 4, 1, 0)]
    yield FALSE + [(9, 4, 1, 0), (1, 0, 0, 0), (7, 0, 2, 3), (3, 0, 0, 0), (5, 0, 5, 0), (7, 0, 4, 6)]
    for kind in (10, 11):
        for variable in (0, v):
            yield loop(kind, variable, 4)
            yield loop(kind, variable, 15)
            yield [(4, variable, 0, 0), (8, 6, 0, 0), (kind, variable, 1, 0)]
            yield loop(kind, variable, 7) + [(5, 0, 4, 0), (1, 0, 0, 0), (7, 0, 5, 6)]
    # mu 15 in nu 15; both over one body; a free variable 15 that is not reached; loops that are shared
    yield loop(10, v, 5) + [(4, v, 0, 0), (7, 0, 4, 5), (11, v, 6, 0)]
    yield loop(10, v, 5) + [(11, v, 3, 0), (5, 0, 5, 0), (7, 0, 4, 6)]
    yield [(4, v, 0, 0), (2, 0, 0, 0)]
    yield all_variables()
    yield doubled(loop(10, v, 6), 40)
    yield doubled(ONCE, 64)
    yield stacked(loop(10, 3, 6), 10, 40)


def full_goals():
    """Tables of 2,048 nodes: ors, one leaf behind or before zeros, loops in loops, a loop of variable 15 on many paths."""
    v = VARIABLES - 1
    yield pieces.full_table(2)
    yield pieces.label_last(0, NODES)
    yield pieces.label_first(0, NODES)
    yield pieces.table(*stacked([(2, 0, 0, 0)], 10, NODES - 1))
    yield pieces.table(*doubled(loop(10, v, 6), NODES - 5))


def by_goal():
    site = ways_site()
    for k, nodes in enumerate(small_goals()):
        condition = pieces.table(*nodes)
        yield site, condition, each(((k + n) % LINK_WAYS for n in (0, 5, 11)), (0, 1, 6, 13, 24)) + [(4, 2), (7, 3), (12, 20)]
        yield lists.chain_site(9), condition, each((4, 12, 0), (0, 1, 4, 8))
    for condition in full_goals():
        yield site, condition, each((4, 6, 9), (0, 2, 24))
        yield site, condition + pieces.table((6, 0, NODES - 1, NODES - 1)), [(4, 2), (16, 2)]


def by_hand():
    """Site A, and the chains behind its slots."""
    a = pieces.site_a()
    for condition in (LABEL, pieces.R, pieces.named(1), pieces.named(2), pieces.named(3)):
        yield a, condition, each((4, 12, 0, 15), range(4))
    for d in (pieces.spread_site(), pieces.crowded_site(), pieces.twin_site(NAMES - 1)):
        for n in (NAMES - 1, 20):
            yield d, pieces.named(n), each((0, 3, 4, 7, 8, 11, 12, 15), sorted(pieces.members(d, 0))[-4:])


# ---- refusals

def bad_sites():
    """A site for each of the items 3 to 6, and sites that meet several."""
    a = pieces.site_a()
    yield from (a[:-1], a + b"\0", b"", pieces.old_site(a))
    yield from (with_bytes(a, fault) for fault in pieces.NAME_FAULTS)
    yield from (pieces.labelled_nil(3), with_bytes(a, (label_at(LABELS - 1), 16)))
    yield from (with_bytes(a, fault) for fault in pieces.LINK_FAULTS[::2])
    yield with_bytes(pieces.labelled_nil(0), *pieces.LINK_FAULTS)
    yield with_bytes(pieces.labelled_nil(0), *pieces.NAME_FAULTS)


def bad_goals():
    """A condition for each of the items 7 to 10, and conditions that meet several."""
    t = pieces.table
    odd = [(4, 2, 0, 0), (5, 0, 5, 0), (11, 2, 6, 0)]
    yield from (b"", pieces.R[:-1], pieces.full_table(0) + t((6, 0, 1, 1)))
    yield from (t((13, 0, 0, 0)), t((12, 1, 0, 0), (8, WAYS, 0, 0)), pieces.R + t((3, NAMES, 0, 0), *odd), pieces.R + t((4, VARIABLES, 0, 0)))
    yield from (t((4, 0, 0, 0), (5, 0, 0, 0), (10, 0, 1, 0)), pieces.R + t(*odd), pieces.R + t(*odd, (4, 3, 0, 0)))
    yield from (t((4, VARIABLES - 1, 0, 0)), pieces.R + t((4, 2, 0, 0), (10, 3, 5, 0)))
    # the inside of mu 15 by itself, where variable 15 is free
    yield pieces.R + t((4, VARIABLES - 1, 0, 0), (8, 4, 5, 0), (6, 0, 4, 6))


# a way and a start on site A: both fit; the way, the start or both do not
MIXED = (4, 2), (4, 4), (EVERYWHERE, 2), (EVERYWHERE, 4), (4, 256), (256, 1), ((1 << 32) - 1, (1 << 32) - 1)


def refusals():
    """Each item alone, with 17, and with an item of the goal behind one of the site."""
    a, t = pieces.site_a(), pieces.table
    for site in bad_sites():
        yield site, LABEL, MIXED
    for condition in bad_goals():
        yield a, condition, MIXED
    for site in (b"", *(with_bytes(a, faults[0]) for faults in (pieces.NAME_FAULTS, pieces.LINK_FAULTS)), pieces.labelled_nil(3)):
        for condition in (b"", t((13, 0, 0, 0)), t((4, 0, 0, 0), (5, 0, 0, 0), (10, 0, 1, 0)), t((4, 0, 0, 0))):
            yield site, condition, MIXED


def ways_and_starts():
    """Item 17, on a site with few slots and on one with all: high numbers whose low bytes would fit, and absent slots."""
    full = lists.chain_site(SLOTS)
    for site in (pieces.site_a(), full, pieces.bare_site(SLOTS - 1)):
        for condition in (LABEL, pieces.table(*FALSE), pieces.table(*TRUE)):
            yield site, condition, [(way, 2) for way in (15, *HIGH_WAYS)] + [(4, s) for s in (3, 4, 5, 254, 255, *HIGH_STARTS)]
    yield full, LABEL, each((LINK_WAYS, 260, (1 << 32) - 1), (0, 1, 256, 257, (1 << 32) - 1))
    yield pieces.site_a(), LABEL, each((LINK_WAYS, 260), (4, 255))


# ---- random sites

def random_goal(rng):
    """Mostly few slots, so that there is some way to go; sometimes a table with loops."""
    choice = rng.randrange(6)
    if choice == 0:
        return lists.random_condition(rng)
    if choice == 1:
        return lists.random_shared(rng)
    leaf = rng.choice(((2, rng.randrange(LABELS)), (3, rng.randrange(NAMES)), (12, rng.randrange(SLOTS))))
    if choice == 2:
        return pieces.table((*leaf, 0, 0), (9, rng.randrange(LINK_WAYS), 0, 0), (1, 0, 0, 0), (7, 0, 1, 2), (2, 0, 0, 0), (7, 0, 3, 4))
    return pieces.table((*leaf, 0, 0), (2, rng.randrange(LABELS), 0, 0), (6 if choice > 3 else 7, 0, 0, 1))


def random_starts(rng, site, count):
    present = sorted(pieces.members(site, 0))
    return [rng.choice(present) for _ in range(count)]


def random_small(rng):
    """Few slots, all ways."""
    for k in range(48):
        site = lists.random_site(rng, (5, 20, 60, 150)[k % 4])
        for _ in range(2):
            yield site, random_goal(rng), [(way, s) for way in range(LINK_WAYS) for s in random_starts(rng, site, 1)]


def random_links(rng, slots, degree):
    """One general link, so many times as there are slots, between any of them; a few have label 0."""
    pairs = {(rng.choice(slots), rng.choice(slots)) for _ in range(int(degree * len(slots)))}
    return sorted(pairs), rng.sample(slots, 2)


def random_wide(rng):
    """Many slots and one link, sparse to dense: long chains, large sets, and many chains of one length."""
    for k, (size, degree) in enumerate(itertools.product((12, 60, 200, SLOTS - 1), (0.9, 1.1, 1.5, 3, 8))):
        slots = rng.sample(range(1, SLOTS), size)
        pairs, goals = random_links(rng, slots, degree)
        for link, way, ends in placed(pairs, k):
            site = linked_site(link, ends, *goals)
            yield site, LABEL, [(way, s) for s in random_starts(rng, site, 12)]


def random_functional(rng):
    """Functional links over many slots: against them there are trees."""
    for size in (30, 100, SLOTS - 1):
        slots = rng.sample(range(1, SLOTS), size)
        for f in range(GENERAL, LINKS):
            pairs = [(s, rng.choice(slots)) for s in slots if rng.random() < 0.9]
            site = linked_site(f, pairs, *rng.sample(slots, 3))
            yield site, LABEL, each((f, f + LINKS), random_starts(rng, site, 6))


def cases(rng):
    yield from by_hand()
    yield from by_way()
    yield from by_goal()
    yield from by_shape(rng)
    yield from on_all_slots(rng)
    yield from refusals()
    yield from ways_and_starts()
    yield from random_small(rng)
    yield from random_wide(rng)
    yield from random_functional(rng)
    yield from through_slot_0(rng)


def encode_questions(questions):
    assert len(questions) <= QUESTIONS, len(questions)
    return bytes([len(questions)]) + b"".join(pieces.encode_number(n) for question in questions for n in question)


def main():
    sys.setrecursionlimit(10000)
    rng = random.Random(SEED)
    stdin, stdout = bytearray(), []
    for site, condition, questions in cases(rng):
        site, condition = bytes(site), bytes(condition)
        stdin += pieces.encode(pieces.SITE, site) + pieces.encode(pieces.CONDITION, condition) + encode_questions(questions)
        stdout += [line(site, condition, way, start) for way, start in questions]
    missed = [kind for kind in must_be_met() if not met[kind]]
    assert not missed, missed
    pieces.write("test_chains", stdin, stdout)
    words = collections.Counter(text.split()[0] for text in stdout)
    print(len(stdout), "cases:", dict(words), file=sys.stderr)
    for kind in sorted(+met):
        print(met[kind], kind, file=sys.stderr)


if __name__ == "__main__":
    main()

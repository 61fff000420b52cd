#!/usr/bin/env python3
"""Writes crates/test_lists/stdin and stdout: sites with conditions, and for each pair what listing answers under some limits.

The evaluator here is written from docs/SPEC.md alone and in another way than the crates': sets of
slots are Python sets, loops go by Kleene iteration over a memo that is keyed by the values of a node's
free variables, and neighbours are looked up in dictionaries of pairs. A second one walks the tree as the
definition of a round has it, keeps nothing, and has to agree where it comes to an end.

Behind the pieces of a pair (pieces.py) stand its limits: how many there are, in one byte, and each in four, low byte first.
"""
import functools
import itertools
import random
import sys

import pieces
from layout import *
from pieces import named, names_joined, nodes_of, with_bytes

ALL = frozenset(range(SLOTS))
EVERY_BIT = (1 << SLOTS) - 1
STEPS = 20000  # nodes that the second evaluator looks at before it gives up
SEED = 256


class Site:
    def __init__(self, d):
        self.present = frozenset(pieces.members(d, 0))
        self.labels = [frozenset(pieces.members(d, label_at(p))) for p in range(LABELS)]
        self.names = d[NAMES_AT:NAMES_AT + NAMES]
        pairs = []
        for m in range(GENERAL):
            pairs.append([(s, t) for s in range(SLOTS) for t in pieces.members(d, row_at(m, s))])
        for f in range(GENERAL, LINKS):
            pairs.append([(s, d[target_at(f, s)]) for s in range(SLOTS) if d[target_at(f, s)]])
        pairs += [[(t, s) for s, t in link] for link in pairs]
        self.next = []
        for way in pairs:
            out = {}
            for s, t in way:
                out.setdefault(s, set()).add(t)
            self.next.append(out)

    def neighbours(self, way, s):
        return ALL if way == EVERYWHERE else self.next[way].get(s, set())

    @functools.cached_property
    def masks(self):
        """For each way the slots that have neighbours, with these as bits."""
        return [[(s, bits(targets)) for s, targets in way.items()] for way in self.next] + [[(s, EVERY_BIT) for s in range(SLOTS)]]


def bits(slots):
    return sum(1 << s for s in slots)


def free_variables(nodes):
    free = []
    for kind, param, left, right in nodes:
        if kind == 4:
            f = {param}
        elif kind in pieces.BINARY:
            f = free[left] | free[right]
        elif kind in (10, 11):
            f = free[left] - {param}
        elif kind in pieces.UNARY:
            f = free[left]
        else:
            f = frozenset()
        free.append(frozenset(f))
    return free


class Over(Exception):
    """There are more rounds than the highest limit allows."""


class Lister:
    """The sets of the nodes of a table on a site, and the rounds made for them, each for the values of its free variables.

    What is known is not evaluated again, but its rounds are made again: a shared node counts once for each path.
    """

    def __init__(self, site, nodes):
        self.site, self.nodes, self.free, self.memo = site, nodes, free_variables(nodes), {}
        self.rounds = 0

    def count(self, rounds):
        self.rounds += rounds
        if self.rounds > HIGHEST_LIMIT:
            raise Over

    def value(self, i, env):
        key = (i, tuple((v, env[v]) for v in sorted(self.free[i])))
        if key in self.memo:
            value, rounds = self.memo[key]
            self.count(rounds)
            return value
        before = self.rounds
        value = self.leaf(i, env) if self.nodes[i][0] in (0, 1, 2, 3, 4, 12) else self.inner(i, env)
        self.memo[key] = value, self.rounds - before
        return value

    def leaf(self, i, env):
        kind, param, _, _ = self.nodes[i]
        if kind == 0:
            return ALL
        if kind == 1:
            return self.site.present
        if kind == 2:
            return self.site.labels[param]
        if kind == 3:
            return frozenset({self.site.names[param]})
        return env[param] if kind == 4 else frozenset({param})

    def inner(self, i, env):
        kind, param, left, right = self.nodes[i]
        if kind in (10, 11):
            return self.loop(left, param, frozenset() if kind == 10 else ALL, env)
        body = self.value(left, env)
        if kind == 5:
            return ALL - body
        if kind == 6:
            return body | self.value(right, env)
        if kind == 7:
            return body & self.value(right, env)
        if kind == 8:
            return frozenset(s for s in ALL if not body.isdisjoint(self.site.neighbours(param, s)))
        return frozenset(s for s in ALL if self.site.neighbours(param, s) <= body)

    def loop(self, body, variable, now, env):
        while True:
            self.count(1)
            then = self.value(body, {**env, variable: now})
            if then == now:
                return now
            now = then


class TooFar(Exception):
    """The tree has more nodes than are looked at."""


class Walker:
    """The tree, walked path by path, and every round of every loop. Sets are numbers with a bit for each slot."""

    def __init__(self, site, nodes, steps):
        self.site, self.nodes, self.steps, self.rounds = site, nodes, steps, 0

    def value(self, i, env):
        self.steps -= 1
        if self.steps < 0:
            raise TooFar
        kind, param, left, right = self.nodes[i]
        if kind in (10, 11):
            return self.loop(left, param, 0 if kind == 10 else EVERY_BIT, env)
        if kind in pieces.BINARY:
            one, other = self.value(left, env), self.value(right, env)
            return one | other if kind == 6 else one & other
        if kind in pieces.UNARY:
            return self.one_child(kind, param, self.value(left, env))
        return env[param] if kind == 4 else self.leaf(kind, param)

    def leaf(self, kind, param):
        if kind == 0:
            return EVERY_BIT
        if kind in (1, 2):
            return bits(self.site.present if kind == 1 else self.site.labels[param])
        return 1 << (self.site.names[param] if kind == 3 else param)

    def one_child(self, kind, way, child):
        """A not, a diamond, or a box: the slots without a neighbour outside."""
        if kind == 5:
            return EVERY_BIT & ~child
        if kind == 8:
            return sum(1 << s for s, near in self.site.masks[way] if near & child)
        return EVERY_BIT & ~sum(1 << s for s, near in self.site.masks[way] if near & ~child)

    def loop(self, body, variable, now, env):
        while True:
            self.rounds += 1
            then = self.value(body, {**env, variable: now})
            if then == now:
                return now
            now = then


def walked(site, nodes):
    """The slots and the rounds by the second evaluator; None where it gives up."""
    walker = Walker(site, nodes, STEPS)
    try:
        found = walker.value(len(nodes) - 1, {})
    except TooFar:
        return None
    return frozenset(s for s in ALL if found >> s & 1), walker.rounds


met = {"listed": 0, "over": 0, "walked": 0}


@functools.lru_cache(maxsize=4)
def list_slots(site, condition):
    """The slots and the rounds of an accepted condition on an accepted site; None for more rounds than any limit allows."""
    nodes, opened = nodes_of(condition), judged(site)[1]
    lister, found = Lister(opened, nodes), None
    try:
        found = lister.value(len(nodes) - 1, {}), lister.rounds
    except Over:
        met["over"] += 1
    met["listed"] += 1
    other = walked(opened, nodes)
    if other:
        met["walked"] += 1
        assert other == found, (other, found)
    return found


@functools.lru_cache(maxsize=4)
def judged(site):
    """The site's refusal, or the site; kept, since many conditions in a row have the same site."""
    refusal = pieces.judge_site(site)
    return refusal, None if refusal else Site(site)


def outcome(site, condition, limit=HIGHEST_LIMIT):
    """The refusal, or None with the slots and the rounds."""
    if limit > HIGHEST_LIMIT:
        return (16, 0), None
    refusal = judged(bytes(site))[0] or pieces.judge_condition(condition)
    if refusal:
        return refusal, None
    found = list_slots(bytes(site), bytes(condition))
    if found is None or found[1] > limit:
        return (15, 0), None
    return None, found


def hexadecimal(slots):
    data = bytearray(SET_BYTES)
    for s in slots:
        pieces.put(data, 0, s)
    return data.hex()


def answer(site, condition, limit=HIGHEST_LIMIT):
    """Without the rounds, as scripts print it that are not about them."""
    refusal, found = outcome(site, condition, limit)
    return "refused %d %d" % refusal if refusal else "%d %s" % (len(found[0]), hexadecimal(found[0]))


def line(site, condition, limit):
    refusal, found = outcome(site, condition, limit)
    return answer(site, condition, limit) + ("" if refusal else " rounds %d" % found[1])


def random_site(rng, links):
    d = bytearray(SITE_BYTES)
    slots = sorted(rng.sample(range(1, SLOTS), rng.randrange(2, 40)))
    for s in [0] + slots:
        pieces.put(d, 0, s)
    pieces.put_names(rng, d, slots)
    pieces.put_labels(rng, d, slots, rng.randrange(30), 0.03)
    for _ in range(links):
        pieces.put(d, row_at(rng.randrange(GENERAL), rng.choice(slots)), rng.choice(slots))
        pieces.put_target(rng, d, slots)
    return d


def random_condition(rng):
    """A closed table with loops, mostly under the even rule: loops close their variables at the end."""
    while True:
        nodes = [(4, 0, 0, 0), (4, 1, 0, 0), (4, 2, 0, 0), (2, rng.randrange(LABELS), 0, 0), (3, pieces.some_name(rng, 0), 0, 0)]
        nodes += [(12, rng.randrange(SLOTS), 0, 0), (1, 0, 0, 0)]
        for i in range(len(nodes), len(nodes) + rng.randrange(3, 25)):
            kind = rng.choice((5, 6, 6, 7, 8, 8, 8, 9, 9, 10, 11, 10, 11))
            child = lambda: rng.choice((i - 1, rng.randrange(i)))
            param = rng.randrange(3) if kind in (10, 11) else rng.randrange(WAYS) if kind in (8, 9) else 0
            nodes.append((kind, param, child(), child() if kind in (6, 7) else 0))
        for v in range(3):
            nodes.append((rng.choice((10, 11)), v, len(nodes) - 1, 0))
        d = pieces.table(*nodes)
        if pieces.judge_condition(d) is None or rng.random() < 0.03:
            return d


def by_hand():
    a = pieces.site_a()
    t = pieces.table
    yield a, pieces.R
    # evaluating node 1 gives node 0 another set
    yield a, t((4, 0, 0, 0), (10, 0, 0, 0), (6, 0, 0, 1), (11, 0, 2, 0))
    # an inner loop that reads the outer variable: without a restart another set comes out
    yield a, t((4, 0, 0, 0), (4, 1, 0, 0), (8, 4, 0, 0), (7, 0, 1, 2), (11, 1, 3, 0), (2, 0, 0, 0), (6, 0, 4, 5), (10, 0, 6, 0))
    yield a, t((4, 0, 0, 0), (4, 1, 0, 0), (8, 4, 1, 0), (6, 0, 0, 2), (10, 1, 3, 0), (9, 12, 4, 0), (11, 0, 5, 0))
    # the same with a second loop around a label: on a ring, {} against {2, 3} without a restart
    ring = pieces.site_a()
    ring[target_at(4, 1)] = 3
    yield ring, t(
        (4, 0, 0, 0), (2, 0, 0, 0), (7, 0, 0, 1), (4, 1, 0, 0), (8, 4, 3, 0), (6, 0, 2, 4), (10, 1, 5, 0), (5, 0, 1, 0), (7, 0, 6, 7), (11, 0, 8, 0),
    )
    # a box where no link leaves
    yield a, t((0, 0, 0, 0), (5, 0, 0, 0), (9, 4, 1, 0))
    # as many paths as 2 to the power 1,999; and pairs of `and` and diamond over shared children
    yield a, t((2, 0, 0, 0), *((6, 0, i, i) for i in range(1999)))
    pairs = [(1, 0, 0, 0)]
    for _ in range(300):
        n = len(pairs)
        pairs += [(8, EVERYWHERE, n - 1, 0), (7, 0, n - 1, n)]
    yield a, t(*pairs)
    full = pieces.full_table(2)
    yield a, full
    yield a, full + t((6, 0, NODES - 1, NODES - 1))
    for kind in (10, 11):
        yield ring, t((4, 0, 0, 0), (8, 4, 0, 0), (kind, 0, 1, 0))
    # refusals: the site's come first
    yield a[:-1], pieces.R[:-1]
    yield a, t((4, 0, 0, 0), (5, 0, 0, 0), (10, 0, 1, 0))
    yield a, t((4, 0, 0, 0))


def by_name():
    """Names at places of their own, at nil, forty at one place, and one that alone tells two slots apart."""
    a, spread, crowd, twins = pieces.site_a(), pieces.spread_site(), pieces.crowded_site(), pieces.twin_site(NAMES - 1)
    for n in pieces.HIGH:
        yield spread, named(n)
        yield a, named(n)
    yield spread, names_joined(6, range(NAMES))
    yield spread, names_joined(7, (NAMES - 2, NAMES - 1))
    yield crowd, names_joined(7, pieces.CROWD)
    yield crowd, names_joined(7, range(7, NAMES))
    yield crowd, names_joined(6, range(NAMES))
    # a way to the place of forty names; of two slots that are alike otherwise, the one without the name
    yield crowd, pieces.table((3, NAMES - 1, 0, 0), (8, 4, 0, 0))
    yield twins, named(NAMES - 1)
    yield twins, pieces.table((2, 0, 0, 0), (8, 4, 0, 0), (3, NAMES - 1, 0, 0), (5, 0, 2, 0), (7, 0, 1, 3))
    # refusals
    yield pieces.old_site(a), pieces.R
    for n in (pieces.HIGH[0], NAMES - 1):
        absent = pieces.site_a()
        absent[NAMES_AT + n] = 4
        yield absent, named(n)
    yield a, pieces.table(*((3, n, 0, 0) for n in (NAMES - 1, NAMES, NAMES + 1)))
    for kind in (2, 4):
        yield a, pieces.table((kind, pieces.HIGH[0], 0, 0))


def sixteens():
    """Sixteen slots at a time, next to each other and one in each sixteen. Every slot but 255 is, in one of the two, not the last."""
    for k in range(16):
        yield range(16 * k, 16 * k + 16)
        yield range(k, SLOTS, 16)


def single(p, s):
    """The kind and parameter of a leaf with slot s alone, which has label p. Slot 0 has no label, but name 0."""
    return (2, p) if s else (3, 0)


def single_site(slots):
    """Every slot is there. Each label has one of these sixteen but 0, and each but the first two has a link to the one before it."""
    d = pieces.bare_site()
    for p, s in enumerate(slots):
        if s:
            pieces.put(d, label_at(p), s)
        if p > 1:
            d[target_at(4, s)] = slots[p - 1]
    return d


class Nodes(list):
    """A table, written node by node; each gives its number."""

    def add(self, kind, param=0, left=0, right=0):
        self.append((kind, param, left, right))
        return len(self) - 1

    def leaves(self, leaves, nots):
        """One slot each, by kind and parameter; with nots all but one each."""
        numbers = [self.add(*leaf) for leaf in leaves]
        return [self.add(5, 0, i) for i in numbers] if nots else numbers

    def join(self, kind, parts):
        """The or (6) or the and (7) of these."""
        last = parts[0]
        for i in parts[1:]:
            last = self.add(kind, 0, last, i)
        return last


def at_once(slots, nots):
    """The or of sets with one slot, or the and of sets with all but one."""
    nodes = Nodes()
    nodes.join(7 if nots else 6, nodes.leaves([single(p, s) for p, s in enumerate(slots)], nots))
    return nodes


def along_links(slots, nots):
    """Mu: label 1, and then one slot in each round. Nu with nots: one slot less in each."""
    loop, join, modal = (11, 7, 9) if nots else (10, 6, 8)
    nodes = Nodes()
    first, x = nodes.leaves([single(1, slots[1])], nots)[0], nodes.add(4)
    nodes.add(loop, 0, nodes.add(join, 0, first, nodes.add(modal, 4, x)))
    return nodes


def one_by_one(slots, nots):
    """The same without links: a slot is taken if the one before it has been."""
    loop, join, within, modal = (11, 7, 6, 9) if nots else (10, 6, 7, 8)
    nodes = Nodes()
    leaves, x = nodes.leaves([(12, s) for s in slots], nots), nodes.add(4)
    parts = leaves[:1]
    for before, leaf in zip(leaves, leaves[1:]):
        parts.append(nodes.add(within, 0, leaf, nodes.add(modal, EVERYWHERE, nodes.add(within, 0, before, x))))
    nodes.add(loop, 0, nodes.join(join, parts))
    return nodes


def edge_sets():
    """A set with one slot, and a label with all but this and slot 0: together, each as it is and as a not."""
    t = pieces.table
    for s in pieces.EDGES:
        d = pieces.bare_site()
        if s:
            pieces.put(d, label_at(0), s)
        pieces.put_all(d, label_at(1), 0, s)
        leaves = (*single(0, s), 0, 0), (2, 1, 0, 0)
        for kind in (6, 7):
            yield d, t(*leaves, (kind, 0, 0, 1))
            yield d, t(*leaves, (5, 0, 1 if kind == 6 else 0, 0), (kind, 0, 0 if kind == 6 else 1, 2))


def at_nil():
    """Each label on every slot but 0, so that it differs from all slots in slot 0 only; it, and its not. On slot 0 it is refused."""
    t = pieces.table
    for p in range(LABELS):
        d = pieces.labelled_site(p, *range(1, SLOTS))
        yield d, t((2, p, 0, 0))
        yield d, t((2, p, 0, 0), (5, 0, 0, 0))
        yield d, t((2, p, 0, 0), (3, 0, 0, 0), (7, 0, 0, 1), (8, EVERYWHERE, 2, 0))
        yield pieces.labelled_nil(p), t((2, p, 0, 0))
        yield pieces.labelled_site(p, 0), t((2, p, 0, 0), (8, EVERYWHERE, 0, 0))


def quarter_site():
    """Each slot's row has the slots but 0 that are at the same place in their word."""
    d = pieces.bare_site()
    for s in range(1, SLOTS):
        for t in range(s % 64, SLOTS, 64):
            if t:
                pieces.put(d, row_at(0, s), t)
    return d


def one_target(kind, way):
    """Of slots at edges, those that have themselves among their neighbours, or have no neighbour but others."""
    nodes, parts = Nodes(), []
    for s in pieces.EDGES:
        alone = nodes.add(12, s)
        parts.append(nodes.add(7, 0, alone, nodes.add(kind, way, alone if kind == 8 else nodes.add(5, 0, alone))))
    nodes.join(6, parts)
    return nodes


def by_slot():
    """Every bit of a set: alone, missing alone, and as all that a round changes; rows with a slot in each word."""
    t = pieces.table
    for slots in sixteens():
        site = single_site(slots)
        for make in (at_once, along_links):
            for nots in (False, True):
                yield site, t(*make(slots, nots))
    for slots in (pieces.EDGES, pieces.EDGES[::-1]):
        for nots in (False, True):
            yield pieces.site_a(), t(*one_by_one(slots, nots))
    yield from edge_sets()
    for way in (0, LINKS):
        for kind in (8, 9):
            yield quarter_site(), t(*one_target(kind, way))


# ---- cases with limits

TOO_HIGH = (HIGHEST_LIMIT + 1, 1 << 31, (1 << 32) - 1)


def chain_site(slots):
    """So many slots. Label 0 is on slot 1 and label 1 on slot 2, and link 4 leads from each slot to the one below it, down to 1."""
    d = bytearray(SITE_BYTES)
    for s in range(slots):
        pieces.put(d, 0, s)
        d[target_at(4, s)] = max(s - 1, 0)
    for p in (0, 1):
        pieces.put(d, label_at(p), 1 + p)
    return d


def doubled(nodes, times):
    """Or of the last node with itself, again and again: each doubles the paths to what is below."""
    return [*nodes, *((6, 0, len(nodes) - 1 + k, len(nodes) - 1 + k) for k in range(times))]


def stacked(nodes, kind, times):
    """Loops around the last node, each in the next."""
    return [*nodes, *((kind, k % VARIABLES, len(nodes) - 1 + k, 0) for k in range(times))]


TRUE, FALSE = [(0, 0, 0, 0)], [(0, 0, 0, 0), (5, 0, 0, 0)]
ONCE, TWICE = FALSE + [(10, 0, 1, 0)], TRUE + [(10, 0, 0, 0)]  # mu 0 (not true) makes one round, mu 0 true makes two


def single_loops():
    """On site A, with their rounds by hand: the last round counts, also where it is the first; nothing counts that is not reached."""
    yield TRUE, 0
    yield ONCE, 1
    yield TWICE, 2
    yield TRUE + [(11, 0, 0, 0)], 1
    yield FALSE + [(11, 0, 1, 0)], 2
    for kind in (10, 11):
        yield [(4, 0, 0, 0), (kind, 0, 0, 0)], 1
        yield [(4, 0, 0, 0), (8, 4, 0, 0), (kind, 0, 1, 0)], 1 if kind == 10 else 4
    yield TWICE + TRUE, 0
    yield TWICE + [(10, 1, 1, 0), (2, 0, 0, 0)], 0
    yield TWICE + [(5, 0, 0, 0), (10, 0, 2, 0)], 1
    for kind, param in ((5, 0), (8, 4), (9, 4), (8, EVERYWHERE)):
        yield TWICE + [(kind, param, 1, 0)], 2


def paths_to_loops():
    """Both operands count whatever the other lists, and a shared loop counts once for each path."""
    for kind in (6, 7):
        for other in (0, 1):
            both = FALSE + [(10, 0, 0, 0)]
            yield both + [(kind, 0, other, 2)], 2
            yield both + [(kind, 0, 2, other)], 2
        yield TWICE + [(kind, 0, 1, 1)], 4
        yield TWICE + [(kind, 0, 1, 1), (13 - kind, 0, 2, 1)], 6
        yield TWICE + [(5, 0, 0, 0), (10, 1, 2, 0), (kind, 0, 1, 3)], 3
        yield TWICE + [(5, 0, 0, 0), (10, 1, 2, 0), (kind, 0, 3, 1)], 3
    for k in (1, 7):
        yield doubled(ONCE, k), 1 << k
        yield doubled(TWICE, k), 2 << k


def loops_in_loops():
    """An inner loop starts again in each round, closed or not, and whatever its variable is called."""
    for v in (0, 1):
        yield TWICE + [(10, v, 1, 0)], 6
        yield TWICE + [(11, v, 1, 0)], 3
        yield TRUE + [(11, 0, 0, 0), (10, v, 1, 0)], 4
        yield TRUE + [(11, 0, 0, 0), (11, v, 1, 0)], 2
    for k in range(2, 12):
        yield stacked(TRUE, 10, k), (2 << k) - 2
        yield stacked(FALSE, 10, k), k
        yield stacked(TRUE, 11, k), k
    # R around a closed loop; around one that reads its variable: 4 + 1 + 4 + 3 + 2; and R inside a loop of the same variable
    r = nodes_of(pieces.R[:-NODE_BYTES])
    inside = [(0, 0, 0, 0), (5, 0, 4, 0)]
    yield r + inside + [(10, 1, 4, 0), (7, 0, 5, 6), (6, 0, 3, 7), (10, 0, 8, 0)], 12
    yield r + inside + [(4, 1, 0, 0), (8, 4, 6, 0), (6, 0, 1, 7), (10, 1, 8, 0), (7, 0, 5, 9), (6, 0, 3, 10), (10, 0, 11, 0)], 14
    yield r + [(10, 0, 3, 0), (8, 4, 4, 0), (6, 0, 0, 5), (10, 0, 6, 0)], 10
    # two loops share one that reads their variable: 1 + 1 from the empty set, and 1 + 2 from the full one
    shared = [(4, 0, 0, 0), (4, 1, 0, 0), (6, 0, 0, 1), (10, 1, 2, 0)]
    yield shared + [(10, 0, 3, 0), (11, 0, 3, 0), (6, 0, 4, 5)], 5


def longest_loop(nots):
    """Mu that takes one slot more in each round, nil last, from behind; nu of what is left. The last of 257 rounds changes nothing."""
    loop, join, within, modal = (11, 7, 6, 9) if nots else (10, 6, 7, 8)
    nodes = Nodes()
    first, nil, last = nodes.leaves([(2, 0), (3, 0), (12, SLOTS - 1)], nots)
    x = nodes.add(4)
    step = nodes.add(join, 0, first, nodes.add(modal, 4, x))
    onto_nil = nodes.add(within, 0, nil, nodes.add(modal, EVERYWHERE, nodes.add(within, 0, last, x)))
    nodes.add(loop, 0, nodes.add(join, 0, step, onto_nil))
    return nodes


def nested(depth):
    """Loops in loops, mu and nu in turn, each of which reads the variable of the one around it: on a chain each makes as many rounds as there
    are slots. Sixteen deep it has 133 nodes."""
    nodes = Nodes()
    start, nowhere, inner = nodes.add(2, 0), nodes.add(2, LABELS - 1), None
    for v in reversed(range(depth)):
        body = nodes.add(8, 4, nodes.add(4, v))
        if v % 2 == 0:
            body = nodes.add(6, 0, start, body)
        if v > 0:
            body = nodes.add(6, 0, body, nodes.add(7, 0, nowhere, nodes.add(4, v - 1)))
        if inner is not None:
            body = nodes.add(6, 0, body, nodes.add(7, 0, nowhere, inner))
        inner = nodes.add(10 + v % 2, v, body)
    return nodes


def forked(depth):
    """Both loops over what is below, a mu and a nu of one variable, which read the variable of the loops around them: all is evaluated afresh for
    each, and a list that goes on after its limit does not come to an end."""
    nodes = Nodes([(4, 0, 0, 0), (4, 1, 0, 0)])
    last = 0
    for k in range(1, depth + 1):
        body = nodes.add(6, 0, last, k % 2)
        last = nodes.add(6, 0, nodes.add(10, 1 - k % 2, body), nodes.add(11, 1 - k % 2, body))
    nodes.add(10, depth % 2, last)
    return nodes


def million():
    """On a chain of 125 slots: 125 rounds, with 124 inside each, on 64 paths."""
    nodes = Nodes()
    inner = nodes.add(10, 1, nodes.add(6, 0, nodes.add(2, 1), nodes.add(8, 4, nodes.add(4, 1))))
    step = nodes.add(6, 0, nodes.add(2, 0), nodes.add(8, 4, nodes.add(4, 0)))
    nodes.add(10, 0, nodes.add(6, 0, step, nodes.add(7, 0, nodes.add(2, LABELS - 1), inner)))
    return doubled(nodes, 6)


def one_more(nodes):
    """The nodes with a loop of one round beside them, as the left and as the right operand."""
    n = len(nodes)
    loop = [(0, 0, 0, 0), (5, 0, n, 0), (10, 0, n + 1, 0)]
    yield [*nodes, *loop, (6, 0, n - 1, n + 2)]
    yield [*nodes, *loop, (6, 0, n + 2, n - 1)]


def many_rounds():
    """Sites and conditions of hundreds of rounds and more; None: more than any limit allows."""
    a, long = pieces.site_a(), chain_site(SLOTS)
    for nots in (False, True):
        nodes = longest_loop(nots)
        yield long, nodes, 257
        yield long, [*nodes, (10, 1, len(nodes) - 1, 0)], 258 if nots else 516
    for slots, depth, rounds in ((8, 1, 8), (8, 2, 72), (8, 3, 584), (8, 4, 4680), (12, 3, 1884)):
        yield chain_site(slots), nested(depth), rounds
    for depth, rounds in ((1, 7), (2, 24), (6, 2024)):
        yield a, forked(depth), rounds
    yield chain_site(125), million(), HIGHEST_LIMIT
    for nodes in one_more(million()):
        yield chain_site(125), nodes, None
    for k in (19, 20, 32, 64, 2000):
        yield a, doubled(ONCE, k), 1 << k if k < 20 else None
    for k in (18, 19, NODES - 1):
        yield a, stacked([(2, 0, 0, 0)], 10 + k % 2, k), (2 << k) - 2 if k < 19 else None
    yield a, stacked(FALSE, 10, NODES - 2), NODES - 2
    yield a, stacked(TRUE, 11, NODES - 1), NODES - 1


def around(rounds):
    """Every limit up to the rounds and one more, or those about them; and those at the highest."""
    if rounds is None:
        return 0, 1, 5000, HIGHEST_LIMIT, TOO_HIGH[0]
    near = range(rounds + 2) if rounds < 8 else (0, rounds // 2, rounds - 1, rounds, min(rounds + 1, HIGHEST_LIMIT))
    return *near, HIGHEST_LIMIT, TOO_HIGH[rounds % 3]


def known_rounds():
    a = pieces.site_a()
    small = [(a, nodes, rounds) for make in (single_loops, paths_to_loops, loops_in_loops) for nodes, rounds in make()]
    for site, nodes, rounds in [(a, nodes_of(pieces.R), 4), *small, *many_rounds()]:
        condition = pieces.table(*nodes)
        found = outcome(site, condition)[1]
        assert (found and found[1]) == rounds, (nodes[-9:], found, rounds)
        yield site, condition, around(rounds)


# for lists that come to no end; the highest takes a second, so it is left to desk_test.c
SHORT = (0, 1, 5000, *TOO_HIGH)


def never_ending():
    yield chain_site(40), pieces.table(*nested(16))
    yield pieces.site_a(), pieces.table(*forked(500))


def limits_and_faults():
    """A limit that is too high, and one that is too low, beside each item that a site or a condition meets."""
    a, t = pieces.site_a(), pieces.table
    for site in (a[:-1], pieces.old_site(a), with_bytes(a, pieces.NAME_FAULTS[0]), pieces.labelled_nil(3), with_bytes(a, pieces.LINK_FAULTS[0])):
        for condition in (pieces.R, pieces.R[:-1]):
            yield site, condition, (0, HIGHEST_LIMIT, *TOO_HIGH)
    odd = [(4, 2, 0, 0), (5, 0, 5, 0), (11, 2, 6, 0)]
    for condition in (b"", pieces.R[:-1], pieces.R + t((13, 0, 0, 0)), pieces.R + t(*odd), pieces.R + t((4, 2, 0, 0), (6, 0, 4, 5))):
        yield a, condition, (0, 3, HIGHEST_LIMIT, *TOO_HIGH)


def some_body(rng, nodes, loops, v):
    """A leaf, a way to the variable, and perhaps loops or variables that are there already; joined in turn."""
    leaf = nodes.add(*rng.choice(((2, rng.randrange(3)), (12, rng.randrange(10)), (3, rng.randrange(4)))))
    step = nodes.add(rng.choice((8, 8, 9)), rng.choice((0, 4, 4, LINKS, GENERAL + LINKS)), nodes.add(4, v))
    last = nodes.add(rng.choice((6, 6, 7)), 0, leaf, step)
    for other in rng.choices(loops + [nodes.add(4, 1 - v)], k=rng.randrange(3)):
        last = nodes.add(rng.choice((6, 7)), 0, *rng.choice(((last, other), (other, last))))
    return last


def random_shared(rng):
    """A closed table whose loops are shared by other loops and by ors and ands."""
    nodes, loops = Nodes(), []
    for _ in range(rng.randrange(2, 6)):
        v = rng.randrange(2)
        loops.append(nodes.add(rng.choice((10, 11)), v, some_body(rng, nodes, loops, v)))
    last = loops[-1]
    for other in rng.choices(loops, k=rng.randrange(1, 4)):
        last = nodes.add(rng.choice((6, 7)), 0, *rng.choice(((last, other), (other, last))))
    for v in (0, 1):
        last = nodes.add(rng.choice((10, 11)), v, last)
    return pieces.table(*nodes)


def random_chain(rng):
    """A chain with some links and labels more, and some names on it."""
    n = rng.randrange(3, 12)
    d = chain_site(n)
    slots = range(1, n)
    for _ in range(rng.randrange(6)):
        pieces.put(d, row_at(0, rng.choice(slots)), rng.choice(slots))
        pieces.put(d, label_at(rng.randrange(3)), rng.choice(slots))
        d[NAMES_AT + rng.randrange(1, 4)] = rng.choice(slots)
    return d


def random_rounds(rng):
    """Loops in loops and shared loops, with limits about their rounds."""
    for k in range(90):
        site, condition = random_chain(rng), (random_shared if k % 3 else random_condition)(rng)
        found = outcome(site, condition)[1]
        yield site, condition, around(found and found[1])


def with_limits(rng):
    yield from known_rounds()
    yield from ((site, condition, SHORT) for site, condition in never_ending())
    yield from limits_and_faults()
    yield from random_rounds(rng)


def cases(rng):
    """Without a word about limits: each under the highest one."""
    t = pieces.table
    yield from by_hand()
    yield from by_name()
    yield from by_slot()
    yield from at_nil()
    # every way, both modalities
    site = random_site(rng, 60)
    for way in range(WAYS):
        for kind in (8, 9):
            yield site, t((2, 3, 0, 0), (1, 0, 0, 0), (6, 0, 0, 1), (kind, way, rng.choice((1, 2)), 0))
            yield site, t((12, rng.randrange(SLOTS), 0, 0), (5, 0, 0, 0), (kind, way, rng.choice((0, 1)), 0))
    for _ in range(60):
        yield random_site(rng, rng.choice((0, 5, 30, 120))), random_condition(rng)
    site = random_site(rng, 80)
    for _ in range(60):
        yield site, random_condition(rng)


def encode_limits(limits):
    return bytes([len(limits)]) + b"".join(map(pieces.encode_number, limits))


def main():
    sys.setrecursionlimit(10000)
    rng = random.Random(SEED)
    stdin, stdout = bytearray(), []
    plain = [(site, condition, (HIGHEST_LIMIT,)) for site, condition in cases(rng)]
    for site, condition, limits in itertools.chain(plain, with_limits(rng)):
        stdin += pieces.encode(pieces.SITE, site) + pieces.encode(pieces.CONDITION, condition) + encode_limits(limits)
        stdout += [line(site, condition, limit) for limit in limits]
    pieces.write("test_lists", stdin, stdout)
    sizes = [int(text.split()[0]) for text in stdout if not text.startswith("refused")]
    print(len(stdout), "cases;", len(sizes), "listed,", sum(0 < n < SLOTS for n in sizes), "of them neither empty nor full;", met, file=sys.stderr)


if __name__ == "__main__":
    main()

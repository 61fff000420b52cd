#!/usr/bin/env python3
"""Writes crates/test_verdicts/stdin and stdout: pieces of jobs, and for each the refusal that docs/SPEC.md gives it.

The items are written here once more, from docs/SPEC.md alone and in another way than in the crates
(sites as Python sets, a condition's free variables as sets of pairs), so a difference shows.

A piece is a kind (1 site, 2 condition, 3 sheet), its length and how many of its bytes are not 0
(2 bytes each, low byte first), then each such byte as its offset (2 bytes) and its value.
"""
import operator
import os
import random
import sys

from layout import *

SITE, CONDITION, SHEET = 1, 2, 3
WORDS = {SITE: "site", CONDITION: "condition", SHEET: "sheet"}
SEED = 2048
PRINTED_MOST = 1 << 20  # `rt try` gives no answer for a program that prints more


# ---- the items, as docs/SPEC.md, "Reasons" words them

def members(data, at):
    part = data[at:at + SET_BYTES]
    return {8 * i + k for i, b in enumerate(part) if b for k in range(8) if b >> k & 1} if any(part) else set()


def judge_site(d):
    if len(d) != SITE_BYTES:
        return 3, 0
    present = members(d, 0)
    names = d[NAMES_AT:NAMES_AT + NAMES]
    if 0 not in present or names[0] != 0 or any(n not in present for n in names):
        return 4, 0
    on_site = present - {0}  # where labels and the ends of links may be
    if any(not members(d, label_at(p)) <= on_site for p in range(LABELS)):
        return 5, 0
    for m in range(GENERAL):
        for s in range(SLOTS):
            row = members(d, row_at(m, s))
            if row and (s not in on_site or not row <= on_site):
                return 6, 0
    for f in range(GENERAL, LINKS):
        for s in range(SLOTS):
            t = d[target_at(f, s)]
            if t and (s not in on_site or t not in on_site):
                return 6, 0
    return None


UNARY, BINARY = {5, 8, 9, 10, 11}, {6, 7}
PARAMS = {0: 1, 1: 1, 2: LABELS, 3: NAMES, 4: VARIABLES, 5: 1, 6: 1, 7: 1, 8: WAYS, 9: WAYS, 10: VARIABLES, 11: VARIABLES, 12: SLOTS}


def nodes_of(d):
    return [(d[i], d[i + 1], d[i + 2] + 256 * d[i + 3], d[i + 4] + 256 * d[i + 5]) for i in range(0, len(d), NODE_BYTES)]


def judge_condition(d):
    if len(d) % NODE_BYTES or not NODE_BYTES <= len(d) <= TABLE_BYTES:
        return 7, 0
    nodes = nodes_of(d)
    for i, (kind, param, left, right) in enumerate(nodes):
        fits = kind in PARAMS and param < PARAMS[kind]
        fits = fits and (left < i if kind in UNARY | BINARY else left == 0)
        fits = fits and (right < i if kind in BINARY else right == 0)
        if not fits:
            return 8, i
    free = []
    for i, (kind, param, left, right) in enumerate(nodes):
        if kind == 4:
            f = {(param, 0)}
        elif kind == 5:
            f = {(v, 1 - odd) for v, odd in free[left]}
        elif kind in BINARY:
            f = free[left] | free[right]
        elif kind in (10, 11):
            if (param, 1) in free[left]:
                return 9, i
            f = {(v, odd) for v, odd in free[left] if v != param}
        elif kind in UNARY:
            f = free[left]
        else:
            f = set()
        free.append(f)
    if free[-1]:
        return 10, len(nodes) - 1
    return None


def name(x):
    return x < NAMES


def moved(x):
    return 0 < x < NAMES


def label(x):
    return x < LABELS


def link(x):
    return x < LINKS


def functional(x):
    return GENERAL <= x < LINKS


def unused(x):
    return x == 0


def slot(x):
    return x < SLOTS


OPERANDS = [
    (moved, name, unused), (moved, name, functional), (name, label, unused), (name, label, unused),
    (link, name, name), (link, name, name), (functional, name, unused), (moved, slot, unused), (name, unused, unused),
]
# each operand that is a name, as an operation and the operand's place
NAME_OPERANDS = [(op, at) for op, three in enumerate(OPERANDS) for at, ok in enumerate(three) if ok in (name, moved)]


def judge_sheet(d):
    if len(d) % EDIT_BYTES or len(d) > SHEET_BYTES:
        return 11, 0
    for i in range(0, len(d), EDIT_BYTES):
        op = d[i]
        if op >= OPERATIONS or not all(ok(x) for ok, x in zip(OPERANDS[op], d[i + 1:i + EDIT_BYTES])):
            return 12, i // EDIT_BYTES
    return None


JUDGES = {SITE: judge_site, CONDITION: judge_condition, SHEET: judge_sheet}


def judge_edition(edition):
    """Of a number that stands beside a sheet or in a trailer."""
    return None if edition in EDITIONS else (18, 0)


# ---- pieces

def put(site, at, slot):
    site[at + slot // 8] |= 1 << slot % 8


def put_target(rng, site, slots):
    target = rng.choice(slots)
    site[TARGETS_AT + SLOTS * rng.randrange(FUNCTIONAL) + rng.choice(slots)] = target


def put_labels(rng, site, slots, count, chance):
    """So many times a label on one of these slots; with this chance one on slot 0 too, which is refused."""
    for _ in range(count):
        put(site, label_at(rng.randrange(LABELS)), rng.choice(slots))
    if rng.random() < chance:
        put(site, label_at(rng.randrange(LABELS)), 0)


def put_names(rng, site, slots):
    """Few names, some or all of them; at places of their own, several at one, or at nil."""
    for n in rng.sample(range(1, NAMES), rng.choice((4, 16, NAMES - 1))):
        site[NAMES_AT + n] = rng.choice([0] + slots)


def some_name(rng, least):
    """Any name from the least on; more often one of the first or of the last, so that the names of a job meet."""
    return rng.choice((rng.randrange(least, NAMES), rng.randrange(1, 4), rng.randrange(NAMES - 3, NAMES)))


def site_a():
    d = bytearray(SITE_BYTES)
    for s in range(4):
        put(d, 0, s)
    put(d, LABELS_AT, 1)
    d[NAMES_AT + 1], d[NAMES_AT + 2] = 2, 3
    d[target_at(4, 2)], d[target_at(4, 3)] = 1, 2
    return d


# Slots where bytes and words of a set begin and end, and all of the last byte.
EDGES = (0, 7, 8, 63, 64, 127, 128, 191, 192, *range(SLOTS - 8, SLOTS))


def put_all(site, at, *but):
    """Every slot but these."""
    for s in set(range(SLOTS)) - set(but):
        put(site, at, s)


def bare_site(*but):
    """Every slot is there but these, and nothing else."""
    d = bytearray(SITE_BYTES)
    put_all(d, 0, *but)
    return d


def labelled_site(p, *slots):
    """Every slot is there, and these have label p."""
    d = bare_site()
    for s in slots:
        put(d, label_at(p), s)
    return d


def with_bytes(d, *changed):
    """A copy with these bytes, each behind its offset."""
    d = bytearray(d)
    for at, value in changed:
        d[at] = value
    return d


HIGH = range(LABELS, NAMES)  # the names whose numbers no label and no variable has
CROWD = range(8, NAMES)  # forty of them


def turned(n, by):
    """The high name that is so many behind this one, the first behind the last."""
    return HIGH[(n - HIGH[0] + by) % len(HIGH)]


def place(n):
    """The slot of a name on the spread site. The slots behind it, up to the next name's, are absent."""
    return 5 * n


def spread_site():
    """Every name at a place of its own. That of a high name has a label, and a general and a functional link to the place two names behind."""
    d = bytearray(SITE_BYTES)
    for n in range(NAMES):
        put(d, 0, place(n))
        d[NAMES_AT + n] = place(n)
    for n in HIGH:
        put(d, label_at(n % LABELS), place(n))
        put(d, row_at(n % GENERAL, place(n)), place(turned(n, 2)))
        d[target_at(GENERAL + n % FUNCTIONAL, place(n))] = place(turned(n, 2))
    return d


def crowded_site():
    """Site A with forty names at slot 1, which has label 0 and a link to it."""
    d = site_a()
    for n in CROWD:
        d[NAMES_AT + n] = 1
    return d


def twin_site(*names):
    """Site A with slots 4 and 5, which are alike but for these names at slot 5."""
    d = site_a()
    for s in (4, 5):
        put(d, 0, s)
        d[target_at(4, s)] = 1
    for n in names:
        d[NAMES_AT + n] = 5
    return d


def old_site(d):
    """The site as it is with 16 names, 32 bytes shorter. It is valid there."""
    return d[:NAMES_AT + 16] + d[TARGETS_AT:]


def table(*nodes):
    d = bytearray()
    for kind, param, left, right in nodes:
        d += bytes([kind, param, left % 256, left // 256, right % 256, right // 256])
    return d


def named(n):
    """The condition "name n"."""
    return table((3, n, 0, 0))


def joined(kind, leaves):
    """The nodes, and then the or (6) or the and (7) of all of them."""
    nodes, last = list(leaves), 0
    for i in range(1, len(nodes)):
        nodes.append((kind, 0, last, i))
        last = len(nodes) - 1
    return table(*nodes)


def names_joined(kind, names):
    return joined(kind, ((3, n, 0, 0) for n in names))


def sheet(*edits):
    return bytearray(b for edit in edits for b in (list(edit) + [0, 0, 0])[:EDIT_BYTES])


def full_table(kind):
    """A leaf, and ors as far as a table goes."""
    return table((kind, 0, 0, 0), *((6, 0, i, i) for i in range(NODES - 1)))


def label_last(p, nodes):
    """The condition "label p" in so many nodes; the last does not reach the others."""
    return table(*[(0, 0, 0, 0)] * (nodes - 1), (2, p, 0, 0))


def label_first(p, nodes):
    """The condition "not label p" in so many nodes, of which the last reaches the first."""
    return table((2, p, 0, 0), *[(0, 0, 0, 0)] * (nodes - 2), (5, 0, 0, 0))


R = table((2, 0, 0, 0), (4, 0, 0, 0), (8, 4, 1, 0), (6, 0, 0, 2), (10, 0, 3, 0))

# editions that there are not; of some the low byte, or the low two, are one that there is
UNKNOWN = 0, 3, 255, 256, (1 << 32) - 1, 257, 258, 0x10001, 0x1000002, 0x80000001, (1 << 32) - 2, 4


def site_with(*changed):
    """Site A with these bytes, each behind its offset."""
    return with_bytes(site_a(), *changed)


def sites_of_names():
    """Sites with many names, each also as it is with 16 names; item 4 for each high name; and the last name at a slot that is there."""
    for d in (spread_site(), crowded_site(), twin_site(NAMES - 1)):
        yield d
        yield old_site(d)
    yield old_site(site_a())
    for n in HIGH:
        yield site_with((NAMES_AT + n, 4))
    yield site_with((TARGETS_AT - 1, 3))


def sites_at_edges():
    """One slot is absent: a label, a link to it, a link from it; and all other slots but 0 with a label and as targets."""
    for s in EDGES[1:]:
        other = 1 + s % (SLOTS - 1)
        for at, slot in ((label_at(9), s), (row_at(1, other), s), (row_at(2, s), other)):
            d = bare_site(s)
            put(d, at, slot)
            yield d
        d = bare_site(s)
        put_all(d, label_at(9), 0, s)
        put_all(d, row_at(1, other), 0, s)
        yield d


def sites_with_labels():
    """Slot 0 has no label. Each label on other slots alone, and on slot 0 too; and on slot 0 alone."""
    for p in range(LABELS):
        for slots in (1,), (2, 7, 8, SLOTS - 1), range(1, SLOTS):
            yield labelled_site(p, *slots)
            yield labelled_site(p, 0, *slots)
        yield labelled_site(p, 0)


def labelled_nil(p):
    """Site A with this label on slot 0."""
    d = site_a()
    put(d, label_at(p), 0)
    return d


# Bytes that make site A meet item 4, and item 6: a link from slot 0 or to it, or at an absent slot.
NAME_FAULTS = (0, 14), (NAMES_AT, 1), (NAMES_AT + 1, 4), (NAMES_AT + NAMES - 1, 255)
LINK_FAULTS = (
    (row_at(0, 0), 2), (row_at(3, 0), 2), (row_at(0, 1), 1), (row_at(3, 3), 1), (row_at(1, 4), 2), (row_at(2, 1), 16),
    (target_at(4, 0), 1), (target_at(7, 0), 1), (target_at(5, 4), 1), (target_at(6, 1), 4),
)


def sites_with_two_faults():
    """A label on slot 0, and another fault: of an item before, on an absent slot, of the item behind, and of several."""
    for p in (0, LABELS - 1):
        d, other = labelled_nil(p), LABELS - 1 - p
        yield old_site(d)
        yield d[:-1]
        for fault in (*NAME_FAULTS, (label_at(p) + 31, 128), (label_at(other), 16), *LINK_FAULTS):
            yield with_bytes(d, fault)
        yield with_bytes(d, *LINK_FAULTS)
        yield with_bytes(d, *NAME_FAULTS, *LINK_FAULTS)


def sites(rng):
    yield site_a()
    for n in (0, SITE_BYTES - 1, SITE_BYTES + 1):
        yield (site_a() + b"\0")[:n]
    yield from sites_of_names()
    yield from sites_at_edges()
    yield from sites_with_labels()
    yield from sites_with_two_faults()
    for at, value in (
        (0, 14), (0, 0), (NAMES_AT, 1), (NAMES_AT + 1, 4), (NAMES_AT + NAMES - 1, 255),
        (NAMES_AT - 1, 128), (LABELS_AT, 3), (label_at(LABELS - 1), 1), (label_at(LABELS - 1), 16), (label_at(1) - 1, 128),
        (TARGETS_AT, 1), (target_at(4, 1), 4), (target_at(4, 4), 1), (target_at(7, 255), 1), (target_at(6, 255), 255),
        (ROWS_AT, 2), (row_at(0, 1), 1), (row_at(0, 1), 2), (row_at(0, 1), 16), (row_at(0, 4), 2),
        (SITE_BYTES - 1, 128), (row_at(3, 255), 1), (row_at(3, 1), 4), (row_at(1, 1), 4), (row_at(1, 1), 1),
    ):
        yield site_with((at, value))
    d = site_a()
    d[0], d[LABELS_AT], d[TARGETS_AT] = 14, 255, 1
    yield d
    d[0] = 15
    yield d
    d[LABELS_AT] = 2
    yield d
    for _ in range(40):
        d = bytearray(SITE_BYTES)
        slots = sorted(rng.sample(range(1, SLOTS), rng.randrange(1, 60)))
        for s in [0] + slots:
            put(d, 0, s)
        put_names(rng, d, slots)
        put_labels(rng, d, slots, rng.randrange(60), 0.1)
        for _ in range(rng.randrange(60)):
            put(d, row_at(rng.randrange(GENERAL), rng.choice(slots)), rng.choice(slots))
            put_target(rng, d, slots)
        for _ in range(rng.choice((0, 0, 1, 2))):
            area = rng.choice(((0, LABELS_AT), (LABELS_AT, NAMES_AT), (NAMES_AT, TARGETS_AT), (TARGETS_AT, ROWS_AT), (ROWS_AT, SITE_BYTES)))
            d[rng.randrange(*area)] ^= 1 << rng.randrange(8)
        yield d


def random_table(rng):
    nodes = []
    for i in range(rng.randrange(1, 40)):
        kind = rng.choice((2, 3, 4, 4, 12, 0, 1) if i == 0 else (4, 4, 5, 5, 6, 7, 8, 9, 10, 11, 10, 11, 2, 3, 12, 0, 1))
        child = lambda: rng.randrange(max(0, i - 4), i)
        nodes.append((
            kind,
            rng.randrange(3) if kind in (4, 10, 11) else rng.randrange(PARAMS[kind]),
            child() if kind in UNARY | BINARY else 0,
            child() if kind in BINARY else 0,
        ))
    return nodes


def nodes_at_limits():
    """Item 8: every kind, and one more, with parameters and children at their limits and behind them."""
    for kind in range(14):
        child = 1 if kind in UNARY | BINARY else 0
        right = 1 if kind in BINARY else 0
        top = PARAMS.get(kind, 1)
        for node in (
            (kind, 0, child, right), (kind, top - 1, child, right), (kind, min(top, 255), child, right), (kind, 1, child, right),
            (kind, 0, 2, right), (kind, 0, child, 2), (kind, 0, 256, right), (kind, 0, child, 256), (kind, 0, 0, 0), (kind, 255, child, right),
            *((kind, limit, child, right) for limit in (LABELS - 1, LABELS, NAMES - 1, NAMES)),
        ):
            yield table((0, 0, 0, 0), (4, 0, 0, 0), node, (0, 0, 0, 0))


def conditions(rng):
    yield R
    yield bytearray()
    for n in (5, 7, 12, 29, 31):
        yield (R + b"\0\0")[:n]
    yield full_table(0)
    yield full_table(0) + table((6, 0, NODES - 1, NODES - 1))
    yield from nodes_at_limits()
    yield table((4, 0, 0, 0), (5, 0, 0, 0), (10, 0, 1, 0))
    yield table((4, 0, 0, 0), (5, 0, 0, 0), (5, 0, 1, 0), (10, 0, 2, 0))
    yield table((4, 0, 0, 0), (5, 0, 0, 0), (11, 1, 1, 0), (10, 0, 2, 0))
    yield table((4, 0, 0, 0), (10, 0, 0, 0), (5, 0, 1, 0), (11, 0, 2, 0))
    yield table((4, 0, 0, 0), (5, 0, 0, 0), (6, 0, 0, 1), (11, 0, 2, 0), (0, 0, 0, 0))
    yield table((4, VARIABLES - 1, 0, 0))
    yield table((4, VARIABLES - 1, 0, 0), (10, VARIABLES - 2, 0, 0))
    yield table((4, VARIABLES - 1, 0, 0), (10, VARIABLES - 1, 0, 0))
    yield table((4, 3, 0, 0), (0, 0, 0, 0))
    yield names_joined(6, range(NAMES))
    yield names_joined(6, range(1, NAMES + 2))
    for _ in range(300):
        nodes = random_table(rng)
        if rng.random() < 0.5:
            i = rng.randrange(len(nodes))
            node = list(nodes[i])
            node[rng.randrange(4)] = rng.choice((0, 1, i, i + 1, 13, VARIABLES, WAYS, NAMES - 1, NAMES, 255))
            nodes[i] = tuple(node)
            nodes[i] = (nodes[i][0] % 256, nodes[i][1] % 256, nodes[i][2], nodes[i][3])
        elif rng.random() < 0.7:
            for v in range(3):
                nodes.append((rng.choice((10, 11)), v, len(nodes) - 1, 0))
        yield table(*nodes)


def first_operands(op):
    """Operands that fit; zeros for an operation that there is not."""
    if op >= OPERATIONS:
        return 0, 0, 0
    return tuple(GENERAL if ok in (link, functional) else 0 if ok is unused else 1 for ok in OPERANDS[op])


def with_operand(op, at, value):
    """An edit whose other operands fit."""
    edit = [op, *first_operands(op)]
    edit[1 + at] = value
    return edit


def sheets(rng):
    yield bytearray((6, 4, 1, 0))
    yield bytearray()
    for n in (1, 3, 5, 6):
        yield bytearray((6, 4, 1, 0, 6, 4, 1, 0))[:n]
    yield bytearray((6, 4, 1, 0)) * EDITS
    yield bytearray((6, 4, 1, 0)) * (EDITS + 1)
    yield bytearray((6, 4, 1, 0)) * (EDITS - 1) + bytearray((6, 4, 1, 1))
    bounds = sorted({0, 1, GENERAL - 1, GENERAL, LINKS - 1, LINKS, LABELS - 1, LABELS, NAMES - 1, NAMES, 255})
    for op in range(OPERATIONS + 1):
        for at in range(3):
            for value in bounds:
                yield bytearray((6, 4, 1, 0)) + bytearray(with_operand(op, at, value))
    # every name, and then a number more
    for op, at in NAME_OPERANDS:
        for end in (NAMES, NAMES + 1):
            yield sheet(*(with_operand(op, at, n) for n in range(1, end)))
    for _ in range(100):
        d = bytearray()
        for _ in range(rng.randrange(1, 12)):
            op = rng.randrange(OPERATIONS)
            d += bytes([op, *(0 if ok is unused else rng.choice([x for x in range(SLOTS) if ok(x)]) for ok in OPERANDS[op])])
        if rng.random() < 0.5:
            d[rng.randrange(len(d))] = rng.choice((0, 1, OPERATIONS, LABELS, NAMES, 255))
        yield d


PRIME = 4294967291
POWERS = [pow(257, k, PRIME) for k in range(SITE_BYTES)]


def checksum(d):
    """The sum, below a prime, of each byte and 1, times a power of 257; the last byte's is 1."""
    return (sum(map(operator.mul, POWERS, reversed(d))) + sum(POWERS[:len(d)])) % PRIME


def encode_number(n):
    return n.to_bytes(NUMBER_BYTES, "little")


def encode(kind, d):
    offsets = [i for i, b in enumerate(d) if b]
    out = bytearray([kind]) + len(d).to_bytes(2, "little") + len(offsets).to_bytes(2, "little")
    for i in offsets:
        out += i.to_bytes(2, "little") + bytes([d[i]])
    return out


def write(crate, stdin, stdout):
    folder, text = os.path.join(os.path.dirname(os.path.abspath(__file__)), "..", "crates", crate), "\n".join(stdout) + "\n"
    assert len(text) <= PRINTED_MOST, (crate, len(text))
    with open(os.path.join(folder, "stdin"), "wb") as f:
        f.write(stdin)
    with open(os.path.join(folder, "stdout"), "w") as f:
        f.write(text)


def main():
    rng = random.Random(SEED)
    stdin, stdout = bytearray(), []
    makers = {SITE: list(sites(rng)), CONDITION: list(conditions(rng)), SHEET: list(sheets(rng))}
    first = [(kind, makers[kind][0]) for kind in (SITE, CONDITION, SHEET)]
    rest = [(kind, d) for kind in (SITE, CONDITION, SHEET) for d in makers[kind][1:]]
    for kind, d in first + rest:
        stdin += encode(kind, d)
        verdict = JUDGES[kind](d)
        stdout.append(f"{WORDS[kind]} " + ("accepted" if verdict is None else "refused %d %d" % verdict))
    write("test_verdicts", stdin, stdout)
    counts = {}
    for line in stdout:
        key = " ".join(line.split()[:3]) if "refused" in line else line
        counts[key] = counts.get(key, 0) + 1
    for key in sorted(counts):
        print(counts[key], key, file=sys.stderr)


if __name__ == "__main__":
    main()

#!/usr/bin/env python3
"""Writes crates/job/stdin and stdout, and those of crates/test_jobs: jobs, and for each what is printed of it under some limits.

The trailer, the order of the items and the class numbers are written here from docs/SPEC.md alone, the
classes in another way than the crates': blocks of slots are split by what reaches a block until none is
left that splits. The single items, applying, rewriting and listing are those of pieces.py, changes.py and lists.py.

A job is stored as a piece of at most 65,535 bytes (pieces.py) and, behind it, zeros: the piece's kind is one more than their number. Its limits
follow, as behind a pair in lists.py.
"""
import functools
import itertools
import random
import struct
import sys

import changes
import lists
import pieces
from changes import FIRST, SECOND, in_editions
from layout import *
from lists import TOO_HIGH
from pieces import CROWD, HIGH, UNKNOWN, checksum, named, names_joined, sheet, turned, with_bytes

SEED = 65536


# ---- the file

def job(site, condition, sheet, edition=FIRST):
    near, middle, far = len(sheet), len(condition) + len(sheet), len(site) + len(condition) + len(sheet)
    return bytes(site) + bytes(condition) + bytes(sheet) + struct.pack("<4I", near, middle, far, edition)


def parts(file):
    """Site, condition, sheet and edition; None where item 2 is met."""
    if not TRAILER_BYTES <= len(file) <= FILE_BYTES:
        return None
    end = len(file) - TRAILER_BYTES
    near, middle, far, edition = struct.unpack_from("<4I", file, end)
    if middle < near or far < middle or far != end:
        return None
    return file[end - far:end - middle], file[end - middle:end - near], file[end - near:end], edition


# ---- classes

def class_numbers(d):
    site = lists.Site(d)
    alike = {}
    for s in lists.ALL:
        labels = tuple(s in label for label in site.labels)
        names = tuple(s == place for place in site.names)
        alike.setdefault((s in site.present, labels, names), set()).add(s)
    blocks = list(alike.values())
    waiting = list(blocks)
    while waiting:
        splitter = waiting.pop()
        for way in range(EVERYWHERE):
            reach = {s for s, targets in site.next[way].items() if targets & splitter}
            for block in [b for b in blocks if b & reach and b - reach]:
                blocks.remove(block)
                blocks += [block & reach, block - reach]
                waiting += [block & reach, block - reach]
    numbers = bytearray(SLOTS)
    for block in blocks:
        for s in block:
            numbers[s] = min(block)
    return numbers


# ---- what is printed

@functools.lru_cache(maxsize=2)
def judged(file):
    """What items 2 to 14 and 18 say of the file; where they say nothing, the site, the condition, the site after and the table."""
    four = parts(file)
    if not four:
        return (2, 0), None
    site, condition, sheet, edition = four
    verdict = pieces.judge_edition(edition) or lists.judged(site)[0] or pieces.judge_condition(condition) or pieces.judge_sheet(sheet)
    if not verdict:
        after, verdict = changes.apply(site, sheet, edition)
    if not verdict:
        table, verdict = changes.rewrite(condition, sheet, edition)
    return verdict, None if verdict else (site, condition, bytes(after), bytes(table))


def rounds(file):
    """Of both lists; None where there are more than any limit allows. Rewriting takes no path away, so that today there are not fewer."""
    site, condition, after, table = judged(file)[1]
    one, two = lists.list_slots(after, condition), lists.list_slots(site, table)
    assert not two or one and one[0] == two[0] and one[1] <= two[1], (one, two)
    return one and one[1], two and two[1]


@functools.lru_cache(maxsize=2)
def done_lines(file):
    site, condition, after, table = judged(file)[1]
    numbers, long = class_numbers(after), table + bytes(TABLE_BYTES - len(table))
    return [
        "after " + lists.answer(after, condition), "today " + lists.answer(site, table),
        "nodes %d" % (len(table) // NODE_BYTES), "classes %d" % len(set(numbers)),
        "rounds %d %d" % rounds(file) + " site %d table %d numbers %s" % (checksum(after), checksum(long), numbers.hex()),
    ]


def answer(file, limit=HIGHEST_LIMIT):
    """The lines of `job`, and one more of `test_jobs` where nothing is refused."""
    verdict = (16, 0) if limit > HIGHEST_LIMIT else judged(file)[0]
    if not verdict and any(n is None or n > limit for n in rounds(file)):
        verdict = 15, 0
    return ["refused %d %d" % verdict] if verdict else done_lines(file)


# ---- cases

def with_trailer(file, near, middle, far, edition=FIRST):
    return file[:-TRAILER_BYTES] + struct.pack("<4I", near, middle, far, edition)


A, R = pieces.site_a(), pieces.R
DT2 = sheet((6, 4, 1))
REHOMED = sheet((4, 4, 1, 2))  # in edition 1 refused with 13
J = job(A, R, DT2)
DOUBLE = [(5, 4, 1, 2)]
ODD = pieces.table((4, 0, 0, 0), (5, 0, 0, 0), (10, 0, 1, 0))
OPEN = pieces.table((0, 0, 0, 0), (4, 3, 0, 0))
FULL = pieces.full_table(2)


def by_hand():
    """The specification's small sites."""
    yield A, R, sheet()
    yield A, R, sheet((8, 1))
    yield A, R, sheet((0, 1, 2), (6, 4, 1))
    yield A, R, sheet((6, 4, 1), (0, 1, 2))
    yield A, named(3), sheet((7, 3, 4))
    yield A, named(3), sheet((7, 3, 3))
    yield A, R, sheet((4, 4, 1, 2))
    yield A, R, sheet((4, 4, 1, 1))
    yield A, named(1), sheet((1, 1, 1, 4))
    yield A, named(1), sheet((1, 1, 3, 4))
    yield A, pieces.table((0, 0, 0, 0), (5, 0, 0, 0), (9, 4, 1, 0)), sheet()
    ring = with_bytes(A, (target_at(4, 1), 3))
    for kind in (11, 10):
        yield ring, pieces.table((4, 0, 0, 0), (8, 4, 0, 0), (kind, 0, 1, 0)), sheet()
    yield A, ODD, sheet()
    yield A, pieces.table((4, 0, 0, 0), (5, 0, 0, 0), (5, 0, 1, 0), (10, 0, 2, 0)), sheet()
    # both class 4; absent slots 6
    yield with_bytes(A, (0, 63), (target_at(4, 4), 1), (target_at(4, 5), 1)), R, sheet()
    yield A, FULL, sheet()
    yield A, FULL, DT2
    yield A, FULL + pieces.table((6, 0, NODES - 1, NODES - 1)), sheet()
    yield A, pieces.table((12, 200, 0, 0), *((5, 0, i, 0) for i in range(NODES - 1))), sheet(*[(0, 1, 2)] * EDITS)


def first_met(item, file):
    """The file, of which this is said to be the first item."""
    assert judged(bytes(file))[0] == (item, 0), (item, file[-TRAILER_BYTES:].hex())
    return file


def other_trailers():
    """Trailers without the edition, and parts of one; with a site of 4 bytes the distances then pass. The last distance as it would be there, and four
    numbers in other orders."""
    end = len(J) - TRAILER_BYTES
    for n in range(TRAILER_BYTES - NUMBER_BYTES, TRAILER_BYTES):
        yield J[:end + n]
        yield J[:end] + J[-n:]
        yield bytes(n)
    yield job(A, R, b"")[:-NUMBER_BYTES]
    yield first_met(18, job(A[:4], R, sheet((4,)))[:-NUMBER_BYTES])
    yield with_trailer(J, 4, 34, end + NUMBER_BYTES)
    for numbers in (1, 4, 34, end), (4, 34, 1, end), (4, 34, end, end), (34, 34, 34, 2), (0, 0, 1, 1):
        yield with_trailer(J, *numbers)


def files():
    """Item 2: each of its reasons, and what just passes."""
    end = len(J) - TRAILER_BYTES
    yield b""
    yield J[1 - TRAILER_BYTES:]
    yield with_trailer(J, 34, 4, end)
    yield with_trailer(J, 35, 34, end)
    yield with_trailer(J, 4, end, 34)
    yield with_trailer(J, 4, end + 1, end)
    # the distances of J; and those that a site for 16 names gives, with J's site and with such a site
    yield with_trailer(J, 4, 34, 34418)
    yield with_trailer(J, 4, 34, 34386)
    yield with_trailer(job(pieces.old_site(A), R, DT2), 4, 34, 34386)
    yield with_trailer(J, 4, 34, end - 1)
    yield with_trailer(J, 4, 34, end + 1)
    yield with_trailer(J, 4, 34, 0)
    yield with_trailer(J, *[0xFFFFFFFF] * 3)
    yield with_trailer(J, 0xFFFFFFFF, 34, end)
    yield with_trailer(J, 4, 0xFFFFFFFF, end)
    yield with_trailer(J, 4, 34, 0xFFFFFFFF)
    for high in (1 << 16, 1 << 24, 1 << 31):
        yield with_trailer(J, 4, 34, end + high)
        yield with_trailer(J, 4 + high, 34 + high, end)
    yield J[1:]
    yield J + b"\0"
    yield from other_trailers()
    # equal distances: empty pieces
    yield job(A, R, b"")
    yield job(A, b"", DT2)
    yield job(b"", R, DT2)
    yield with_trailer(J, 34, 34, end)
    yield with_trailer(J, 4, end, end)
    yield with_trailer(J, end, end, end)
    # the longest file, and one byte more
    for n in (FILE_BYTES - 1, FILE_BYTES, FILE_BYTES + 1):
        yield job(A, bytes(n - TRAILER_BYTES - len(A) - len(DT2)), DT2)
        yield job(bytes(n - TRAILER_BYTES - len(R) - len(DT2)), R, DT2)
    yield bytes(FILE_BYTES + 1)


def refusals():
    """Items 3 to 14, with W."""
    yield A[:-1], R, DT2
    yield A + b"\0", R, DT2
    yield with_bytes(A, (0, 14)), R, DT2
    yield with_bytes(A, (NAMES_AT, 1)), R, DT2
    yield with_bytes(A, (LABELS_AT + 1, 1)), R, DT2
    yield with_bytes(A, (target_at(4, 1), 9)), R, DT2
    yield with_bytes(A, (row_at(0, 1), 1)), R, DT2
    for n in (0, NODE_BYTES - 1, NODE_BYTES + 1, TABLE_BYTES + NODE_BYTES):
        yield A, bytes(n), DT2
    yield A, R[:-4] + pieces.table((13, 0, 0, 0))[:4], DT2
    yield A, R + pieces.table((13, 0, 0, 0), (14, 0, 0, 0)), DT2
    yield A, R + pieces.table((5, 0, 5, 0)), DT2
    yield A, pieces.table((0, 0, 0, 0)) * 300 + pieces.table((6, 0, 299, 300)), DT2
    yield A, ODD, DT2
    yield A, R + pieces.table((0, 0, 0, 0)) * 300 + pieces.table((4, 1, 0, 0), (5, 0, 305, 0), (11, 1, 306, 0), (10, 1, 306, 0)), DT2
    yield A, OPEN, DT2
    yield A, pieces.table((0, 0, 0, 0)) * (NODES - 1) + pieces.table((4, 0, 0, 0)), DT2
    yield A, R, DT2[:3]
    yield A, R, DT2 + b"\6"
    yield A, R, DT2 * EDITS
    yield A, R, DT2 * (EDITS + 1)
    yield A, R, sheet((9,))
    yield A, R, DT2 * (EDITS - 1) + sheet((6, 3, 1))
    yield A, R, DT2 + sheet((7, 0, 9), (7, 0, 9))
    yield A, R, sheet((0, 1, 2, 1))
    yield A, R, sheet((8, 0))
    yield A, R, sheet((8, 1), (8, 1))
    yield A, R, sheet((7, 1, 9), (7, 1, 9), (8, 0))
    yield A, R, DT2 * (EDITS - 1) + sheet((4, 4, 0, 1))
    yield A, R, sheet(*DOUBLE * 8)
    yield A, R, sheet(*DOUBLE * 9)
    yield A, FULL, sheet((2, 1, 0))
    yield A, FULL, sheet((3, 1, 0), (0, 1, 2))


def limits():
    """Item 4 for each high name, and one more; items 8 and 12 for the number behind the last name, label or variable."""
    for n in (5, *HIGH):
        yield with_bytes(A, (NAMES_AT + n, 9)), R, DT2
    for kind in (2, 3, 4, 10, 11):
        yield A, R + pieces.table((kind, pieces.PARAMS[kind], 4 if kind in pieces.UNARY else 0, 0)), DT2
    for op, at in pieces.NAME_OPERANDS:
        yield A, R, DT2 + sheet(pieces.with_operand(op, at, NAMES))
    for op in (2, 3):
        yield A, R, sheet((op, HIGH[0], LABELS))


def collisions():
    """Two items met: the lower number is answered."""
    unmarked = with_bytes(A, (LABELS_AT + 1, 1))
    unlinked = with_bytes(A, (target_at(4, 9), 1))
    unfit = R + pieces.table((13, 0, 0, 0))
    yield A[:-1], R[:-1], DT2[:-1]
    yield with_bytes(A, (0, 14), (LABELS_AT + 1, 1), (target_at(4, 9), 1)), R[:-1], DT2
    yield with_bytes(unmarked, (target_at(4, 9), 1)), R[:-1], DT2
    yield unlinked, R[:-1], DT2[:-1]
    yield unlinked, R, sheet((9,))
    yield A, R[:-1], DT2[:-1]
    yield A, R[:-1], sheet((8, 0))
    yield A, ODD + pieces.table((13, 0, 0, 0)), DT2
    yield A, unfit, sheet((9,))
    yield A, ODD + OPEN[:6] + pieces.table((4, 3, 0, 0)), DT2[:-1]
    yield A, OPEN, DT2[:-1]
    yield A, OPEN, sheet((8, 0))
    yield A, R, sheet((9,), (8, 0))[:-1]
    yield A, R, sheet((8, 0), (9,))
    yield A, R, sheet((8, 0), *DOUBLE * 9)
    yield A, R, sheet(*DOUBLE * 9, (8, 0))
    yield A, R, sheet(*DOUBLE * 9, (9,))
    yield A, R, sheet(*DOUBLE * 9)[:-1]
    yield A, FULL, sheet((2, 1, 0), (8, 0))


def labels_and_nil():
    """What a planner tried: name 1 goes to nil and gets a label there, and no slot has it; without going, one has. Sites with each label on slot 0,
    alone and with another fault. AP with names at nil, and tables that come to 2,048 nodes through it, and to one more."""
    yield A, changes.some(7), sheet((0, 1, 0), changes.MARK)
    yield A, changes.some(7), sheet(changes.MARK)
    for p in range(LABELS):
        yield pieces.labelled_nil(p), R, DT2
        yield pieces.labelled_site(p, 0), R, sheet((3, 0, p))
        yield pieces.labelled_site(p, *range(1, SLOTS)), changes.some(p), sheet((2, 0, p), (3, 0, p))
    nil_labelled = pieces.labelled_nil(0)
    for fault in (*pieces.NAME_FAULTS, *pieces.LINK_FAULTS):
        yield with_bytes(nil_labelled, fault), R, DT2
    yield pieces.old_site(nil_labelled), R, DT2
    yield nil_labelled, R[:-1], DT2
    yield nil_labelled, ODD, sheet((9,))
    for site, condition, edits in changes.every_mark():
        if len(edits) > 1:
            yield site, condition, sheet(*edits)
    for condition, edits in (*changes.long_marks(), *changes.long_ways(), *changes.full_marks()):
        yield A, condition, sheet(*edits)


def classing():
    """Sites whose classes take several rounds, and the links of a sheet that joins or parts them."""
    chain = bytearray(SITE_BYTES)
    for s in range(41):
        pieces.put(chain, 0, s)
        if 0 < s < 40:
            chain[target_at(4, s)] = s + 1
    two = with_bytes(chain, (target_at(4, 20), 0))
    for s in range(1, 21):
        pieces.put(two, row_at(s % GENERAL, s), 20 + s)
        pieces.put(two, row_at(s % GENERAL, 20 + s), s)
    rings = bytearray(SITE_BYTES)
    for s in range(30):
        pieces.put(rings, 0, s)
        if s > 2:
            rings[target_at(6, s)] = s - s % 3 + (s + 1) % 3
    rings[target_at(6, 1)], rings[target_at(6, 2)] = 5, 3
    for site in (chain, two, rings):
        yield site, R, sheet()
        yield site, R, sheet((7, 1, 250), (7, 2, 251), (4, 2, 1, 2), (2, 1, 7))
    rings[NAMES_AT + 1], rings[NAMES_AT + 2] = 5, 28
    yield rings, R, sheet((6, 6, 1), (0, 1, 0), (0, 2, 0))
    yield rings, R, sheet((7, 3, 255), (8, 2), (5, 6, 1, 1))


def equals(*names):
    """Slots 1 to 60 are alike but for these names, each of which is at the slot of its number."""
    site = bytearray(SITE_BYTES)
    for s in range(61):
        pieces.put(site, 0, s)
    for n in names:
        site[NAMES_AT + n] = n
    return site


def many_names():
    """Every high name in every operand; classes that one name makes, or several; and the slot of forty names goes."""
    spread, crowd, last = pieces.spread_site(), pieces.crowded_site(), NAMES - 1
    for condition, edits in changes.high_sheets():
        yield spread, condition, sheet(*edits)
    yield spread, named(last), sheet(*((8, n) for n in HIGH[:4]))
    for kind in (6, 7):
        yield crowd, names_joined(kind, CROWD), sheet((8, last))
    for names in (), (last,):
        yield pieces.twin_site(*names), named(last), sheet()
    # only the name of their target tells slots 6 and 7 apart; then the name goes to nil, or to the twin
    twins = with_bytes(pieces.twin_site(last), (0, 255), (target_at(5, 6), 4), (target_at(5, 7), 5))
    for edits in (), [(0, last, 0)], [(1, last, last, 4)], [(0, 3, last), (8, 3)]:
        yield twins, named(last), sheet(*edits)
    yield equals(), named(last), sheet()
    yield equals(*HIGH), named(last), sheet()
    yield equals(*HIGH), named(last), sheet((0, 20, last), (0, 30, 0), (7, last, 200), (8, 40))


def apart(s, link=None):
    """Slot s has label 5. The two behind it have the same four neighbours by link 1, and are the neighbours of two others. `link`: a pair of
    these five that is linked too, which tells the two apart, and then the two others."""
    slots = [s, *(1 + (s + k) % (SLOTS - 1) for k in (0, 63, 127, 191))]
    site = pieces.bare_site()
    pieces.put(site, label_at(5), s)
    for shared in set(range(33, SLOTS, 64)) - set(slots):
        for k in (1, 2):
            pieces.put(site, row_at(1, slots[k]), shared)
    for k in (1, 2):
        pieces.put(site, row_at(2, slots[k + 2]), slots[k])
    if link:
        pieces.put(site, row_at(1, slots[link[0]]), slots[link[1]])
    return site


def at_edges():
    """Two slots that one neighbour tells apart, or none; and that neighbour goes."""
    seen = pieces.table((2, 5, 0, 0), (8, 1, 0, 0), (8, 1 + LINKS, 0, 0), (6, 0, 1, 2))
    for s in pieces.EDGES[1:]:
        for link in None, (1, 0), (0, 1):
            yield apart(s, link), seen, sheet()
        yield with_bytes(apart(s, (1, 0)), (NAMES_AT + 1, s)), seen, sheet((8, 1))


LEAVES = 6


def copies(*leaves):
    """Twice the same: leaves with a label each, slots with a link to all leaves but one, and one with a link to all. The second time these leaves
    are taken, so none of its slots is the lowest of its class; some are next to each other in one word."""
    site = pieces.bare_site()
    for leaf, joined in ((range(1, 1 + LEAVES), range(10, 11 + LEAVES)), (leaves, range(40, 41 + LEAVES))):
        for k, slot in enumerate(leaf):
            pieces.put(site, label_at(k), slot)
        for j, slot in enumerate(joined):
            for k, target in enumerate(leaf):
                if j != k:
                    pieces.put(site, row_at(1, slot), target)
    return site


def by_copies():
    """Every slot that is not the lowest of its class counts; and once a link is gone the copies differ."""
    one = pieces.table((2, 2, 0, 0), (8, 1, 0, 0))
    for leaves in range(30, 36), range(58, 64), range(61, 67), range(128, 134), range(250, 256), (20, 63, 64, 130, 200, 255):
        site = copies(*leaves)
        yield site, one, sheet()
        yield with_bytes(site, (NAMES_AT + 1, 40 + LEAVES), (NAMES_AT + 2, leaves[1])), one, sheet((5, 1, 1, 2), (0, 1, 0), (0, 2, 0))


def editions():
    """Item 18: each of its numbers in files that are accepted in edition 1, in edition 2 or in both; beside what item 2 refuses just so, and
    beside each fault of the pieces."""
    end = len(J) - TRAILER_BYTES
    for edition in UNKNOWN:
        yield first_met(18, with_trailer(J, 4, 34, end, edition))
        yield first_met(18, job(A, R, REHOMED, edition))
    for numbers in (34, 4, end), (4, 34, end - 1), (4, 34, end + 1), (4, end + 1, end), (0xFFFFFFFF, 34, end), (4, 34, 0xFFFFFFFF):
        for edition in (0, 3):
            yield first_met(2, with_trailer(J, *numbers, edition))
    yield first_met(18, J[:-1] + b"\1")
    yield first_met(18, bytes(TRAILER_BYTES - 1) + b"\1")
    yield first_met(18, bytes(TRAILER_BYTES))
    yield first_met(2, bytes(TRAILER_BYTES - 1))
    for edition in EDITIONS:
        yield first_met(3, with_trailer(bytes(TRAILER_BYTES), 0, 0, 0, edition))
    for k, case in enumerate((*refusals(), *collisions())):
        if len(case[1]) <= TABLE_BYTES // 2:
            yield first_met(18, job(*case, UNKNOWN[k % 5]))


def second_uplink():
    """The second uplink of docs/SPEC.md as a job, with the lines that are written there."""
    lines = ["after 2 0a" + 31 * "00", "today 2 0a" + 31 * "00", "nodes 14", "classes 5"]
    for three in changes.second_uplink():
        assert [answer(job(*three, edition))[:4] for edition in EDITIONS] == [["refused 13 0"], lines]
        yield three


def rehomings():
    """What changes.py has, as jobs, with the tables that come to their limit; both loops for each single edit."""
    yield from second_uplink()
    yield from changes.between_relays()
    for k, (x, y) in enumerate(changes.single_rehomings()):
        f = GENERAL + (k + 1) % FUNCTIONAL
        for condition in changes.loops_of(f):
            yield changes.homes(f), condition, sheet((4, f, x, y))
    for k, edits in enumerate(changes.several_rehomings(GENERAL)):
        yield changes.homes(GENERAL), list(changes.ways_of(GENERAL))[k % 4], sheet(*edits)
    yield from changes.rewritten_full()


def largest():
    """The longest job that is not refused: as many nodes as a table has, before and after, and as many edits as a sheet has."""
    nodes = [(3, n, 0, 0) for n in HIGH]
    nodes += [(6, 0, i, (7 * i) % len(HIGH)) for i in range(len(HIGH) - 1, NODES - 1)]
    edits = [(0, n, turned(n, 1)) for n in HIGH] + [(4, n % GENERAL, n, turned(n, 3)) for n in HIGH[:16]] + [(2, n, n % 7) for n in HIGH[16:]]
    file = job(pieces.spread_site(), pieces.table(*nodes), sheet(*edits))
    assert len(file) == 46944, len(file)
    return file


# ---- cases with limits

DT1, AT = (5, 5, 1, 2), (4, 5, 1, 2)  # of link 5, by which R does not go


def way_to(nodes, kind=8):
    """A diamond or a box of link 5 over the last node."""
    return pieces.table(*nodes, (kind, 5, len(nodes) - 1, 0))


def many_paths():
    """A loop below a way that edits rewrite: each DT1 doubles the paths to it, each AT adds one. Of the two lists only the second has them."""
    nodes = pieces.nodes_of(R)
    for kind in (8, 9):
        for k in (1, 2, 3, 5):
            yield A, way_to(nodes, kind), sheet(*[DT1] * k)
            yield A, way_to(nodes, kind), sheet(*[AT] * k)
    yield A, pieces.table(*nodes, (8, 4, 4, 0)), sheet((5, 4, 2, 1))
    yield A, way_to(nodes), sheet(*[DT1] * 8)
    yield A, way_to(lists.doubled(lists.ONCE, 12)), sheet(*[DT1] * 7)
    yield A, way_to(lists.doubled(lists.ONCE, 12)), sheet(*[DT1] * 8)
    yield A, way_to(lists.doubled(lists.ONCE, 19)), sheet(DT1)
    yield lists.chain_site(125), way_to(lists.million()), sheet(DT2)
    yield lists.chain_site(125), pieces.table(*lists.million()), sheet((0, 1, 2))


def most_paths():
    """As many paths as 2 to the power 2,000 to one loop; and 2,047 loops, each in the next."""
    for edits in (), [DT1], [(0, 1, 2)] * EDITS:
        yield A, pieces.table(*lists.doubled(lists.ONCE, 2000)), sheet(*edits)
        yield A, pieces.table(*lists.stacked(lists.TRUE, 10, NODES - 1)), sheet(*edits)


def limits_and_faults():
    """Conditions with more rounds than any limit allows, and each item from 11 to 14."""
    for condition in (pieces.table(*lists.doubled(lists.ONCE, 2000)), pieces.table(*lists.nested(16)), way_to(lists.doubled(lists.ONCE, 30))):
        for edits in (DT2[:3], sheet((9,)), sheet((8, 0)), sheet((2, 1, 0), (8, 3))):
            yield A, condition, edits
    yield A, way_to(lists.doubled(lists.ONCE, 30)), sheet(*[DT1] * 9)
    yield A, pieces.table(*lists.doubled([(2, 0, 0, 0), (10, 0, 0, 0)], NODES - 2)), sheet((2, 1, 0))


def random_limited(rng):
    """Shared loops under edits of links, of which some rewrite the ways above them."""
    for k in range(36):
        site = lists.random_chain(rng)
        nodes = pieces.nodes_of(lists.random_shared(rng))
        condition = way_to(nodes, rng.choice((8, 9))) if k % 2 else pieces.table(*nodes)
        edits = changes.random_sheet(rng, site, rng.choice((1, 2, 3)), SECOND, (4, 5, 5, 6, 0, 8))
        yield site, condition, edits + sheet(*[DT1] * rng.randrange(3))


def around(file):
    """Limits about the rounds of both lists, and the sum; all that can tell apart where the job is refused."""
    if judged(file)[0]:
        return 0, HIGHEST_LIMIT, *TOO_HIGH
    after, today = rounds(file)
    if after is None:
        return 0, 1, 5000, HIGHEST_LIMIT, TOO_HIGH[0]
    ends = [after - 1, after, after + 1] + ([] if today is None else [today - 1, today, after + today])
    return *sorted({n for n in (0, 1, *ends) if 0 <= n <= HIGHEST_LIMIT}), HIGHEST_LIMIT, *TOO_HIGH


def with_limits(rng):
    """All that items 2 to 14 and 18 refuse once more under other limits, and then jobs with limits about their rounds."""
    for file in (*files(), *(job(*four) for make in (refusals, collisions) for four in in_editions(make()))):
        yield file, (0, *TOO_HIGH)
    for file in editions():
        assert answer(bytes(file), TOO_HIGH[0]) == ["refused 16 0"]
        yield file, (0, TOO_HIGH[0])
    some = (A, R, DT2), (A, R, sheet()), (A, named(1), DT2), (A, R, REHOMED)
    for four in in_editions((*some, *many_paths(), *most_paths(), *limits_and_faults(), *random_limited(rng))):
        yield job(*four), around(job(*four))
    for edition, (site, condition) in zip((*EDITIONS, 3), itertools.cycle(lists.never_ending())):
        yield job(site, condition, sheet((2, 1, 0), (7, 3, 200)), edition), lists.SHORT


def cases(rng):
    """Without a word about limits: each under the highest one."""
    yield J
    yield largest()
    yield from files()
    yield from editions()
    for make in (by_hand, refusals, limits, collisions, labels_and_nil, classing, many_names, at_edges, by_copies, rehomings):
        for four in in_editions(make()):
            yield job(*four)
    for four in in_editions(changes.random_marks(rng)):
        yield job(*four)
    for k in range(60):
        edition = EDITIONS[k % 2]
        site = lists.random_site(rng, rng.choice((0, 5, 30, 120)))
        condition = lists.random_condition(rng)
        edits = changes.random_sheet(rng, site, rng.choice((1, 2, 3, 4, 6)), edition)
        three = [site, condition, edits]
        part = rng.randrange(12)
        if part < 3:
            three[part] = changes.damaged(rng, three[part])
        file = bytearray(job(*three, edition))
        if part == 3:
            file[rng.randrange(-TRAILER_BYTES, 0)] ^= 1 << rng.randrange(8)
        yield file


def encode(file):
    more = max(0, len(file) - (FILE_BYTES - 1))
    assert not any(file[FILE_BYTES - 1:])
    return pieces.encode(1 + more, file[:FILE_BYTES - 1])


def main():
    sys.setrecursionlimit(20000)
    rng = random.Random(SEED)
    pieces.write("job", J, answer(J)[:4])
    stdin, stdout, count = bytearray(), [], {}
    plain = [(bytes(file), (HIGHEST_LIMIT,)) for file in cases(rng)]
    for file, limits in itertools.chain(plain, with_limits(rng)):
        stdin += encode(file) + lists.encode_limits(limits)
        for lines in (answer(file, limit) for limit in limits):
            stdout += lines
            key = " ".join(lines[0].split()[:2]) if len(lines) == 1 else "done"
            count[key] = count.get(key, 0) + 1
    pieces.write("test_jobs", stdin, stdout)
    print(count, lists.met, file=sys.stderr)


if __name__ == "__main__":
    main()

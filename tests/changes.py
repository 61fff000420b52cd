#!/usr/bin/env python3
"""Writes crates/test_changes/stdin and stdout: sites, conditions and sheets with their editions, and for each what applying, rewriting and
listing answer, and the sheet's condition for going through.

Written from docs/SPEC.md alone and in another way than the crates: a site is a Python object with sets
and dictionaries, and the blocks of rewriting and the conditions of edits are the specification's own postfix
texts, read word by word. The edition is no part of an edit but stands beside it.

Behind the three pieces of a case (pieces.py) stands the edition, in four bytes, low byte first.
"""
import copy
import functools
import itertools
import random
import sys

import lists
import pieces
from layout import *
from pieces import CROWD, HIGH, named, names_joined, place, sheet, turned, with_bytes

SEED = 34384
FIRST, SECOND = EDITIONS
SHOWN_NODES = 256  # a table with more is shown by its checksum


# ---- applying

class Site:
    def __init__(self, d):
        self.present = set(pieces.members(d, 0))
        self.labels = {(p, s) for p in range(LABELS) for s in pieces.members(d, label_at(p))}
        self.names = list(d[NAMES_AT:NAMES_AT + NAMES])
        self.links = {(f, s, d[target_at(f, s)]) for f in range(GENERAL, LINKS) for s in range(SLOTS)}
        self.links = {(m, s, t) for m, s, t in self.links if t}
        self.links |= {(m, s, t) for m in range(GENERAL) for s in range(SLOTS) for t in pieces.members(d, row_at(m, s))}

    def copy(self):
        new = copy.copy(self)
        new.present, new.labels, new.names, new.links = set(self.present), set(self.labels), list(self.names), set(self.links)
        return new

    def target(self, f, s):
        return next((t for m, u, t in self.links if (m, u) == (f, s)), 0)

    def bytes(self):
        d = bytearray(SITE_BYTES)
        for s in self.present:
            pieces.put(d, 0, s)
        for p, s in self.labels:
            pieces.put(d, label_at(p), s)
        d[NAMES_AT:NAMES_AT + NAMES] = bytes(self.names)
        for m, s, t in self.links:
            if m < GENERAL:
                pieces.put(d, row_at(m, s), t)
            else:
                assert not d[target_at(m, s)], "a second target"
                d[target_at(m, s)] = t
        return d


def replaces(edit, edition):
    """AT on links 4 to 7 in edition 2."""
    op, link, _, _ = edit
    return edition == SECOND and op == 4 and link >= GENERAL


def goes_through(site, edit, edition):
    op, x, y, z = edit
    if op == 4:
        here, there = site.names[y], site.names[z]
        free = x < GENERAL or replaces(edit, edition) or site.target(x, here) in (0, there)
        return here != 0 and there != 0 and free
    if op == 7:
        return y not in site.present
    if op == 8:
        return site.names[x] != 0
    return True


def without(links, link, slot):
    """The links but those by this link from this slot."""
    return {(m, s, t) for m, s, t in links if (m, s) != (link, slot)}


def change(site, edit, edition):
    """The site that the edit leaves; what it reads is the site before."""
    op, x, y, z = edit
    new, at = site.copy(), site.names
    if op == 0:
        new.names[x] = at[y]
    elif op == 1:
        new.names[x] = site.target(z, at[y])
    elif op == 2 and at[x] != 0:
        new.labels.add((y, at[x]))
    elif op == 3:
        new.labels.discard((y, at[x]))
    elif op == 4:
        if replaces(edit, edition):
            new.links = without(site.links, x, at[y])
        new.links.add((x, at[y], at[z]))
    elif op == 5:
        new.links.discard((x, at[y], at[z]))
    elif op == 6:
        new.links = without(site.links, x, at[y])
    elif op == 7:
        new.present.add(y)
        new.names[x] = y
    elif op == 8:
        gone = at[x]
        new.present.discard(gone)
        new.labels = {(p, s) for p, s in site.labels if s != gone}
        new.links = {(m, s, t) for m, s, t in site.links if gone not in (s, t)}
        new.names = [0 if s == gone else s for s in at]
    return new


def edits_of(d):
    return [tuple(d[i:i + EDIT_BYTES]) for i in range(0, len(d), EDIT_BYTES)]


@functools.lru_cache(maxsize=4)
def opened(d):
    """Kept, since many cases in a row have the same site; no edit changes it."""
    return Site(d)


def apply(d, sheet, edition):
    site = opened(bytes(d))
    for k, edit in enumerate(edits_of(sheet)):
        if not goes_through(site, edit, edition):
            return None, (13, k)
        site = change(site, edit, edition)
    return site.bytes(), None


# ---- rewriting: the texts of docs/SPEC.md, "Rewriting"

def leaf_text(edit, kind, param):
    op, x, y, z = edit
    if op == 0 and kind == 3 and param == x:
        return "n2", {"n2": y}
    if op == 1 and kind == 3 and param == x:
        return "n2 <f-> nil n2 t <f> & <E> ! & |", {"n2": y, "f": z, "f-": z + LINKS}
    if op in (2, 3) and kind == 2 and param == y:
        return "p n nil ! & |" if op == 2 else "p n ! &", {"p": y, "n": x}
    if op == 7 and kind == 3 and param == x:
        return "k", {"k": y}
    if op == 7 and kind == 1:
        return "h k |", {"k": y}
    if op == 8 and kind == 1:
        return "h n ! &", {"n": x}
    if op == 8 and kind == 2:
        return "p n ! &", {"p": param, "n": x}
    if op == 8 and kind == 3 and param != 0:
        return "y n ! & nil n y & <E> & |", {"y": param, "n": x}
    return None


# by operation and kind; for 6 also by whether the way goes against the link
WAY_TEXTS = {
    (4, 8): "T <m> n1 n2 T & <E> & |", (4, 9): "T [m] n1 ! n2 ! T | [E] | &",
    (5, 8): "n1 ! T <m> & n2 ! T & <m> |", (5, 9): "n1 T [m] | n2 T | [m] &",
    (6, 8, False): "n ! T <f> &", (6, 9, False): "n T [f] |", (6, 8, True): "n ! T & <f->", (6, 9, True): "n T | [f-]",
    (8, 8): "n ! n ! T & <m> &", (8, 9): "n n T | [m] |",
}
# of an AT that replaces, by kind and by whether the way goes against the link
REPLACING_TEXTS = {
    (8, False): "n1 ! T <f> & n1 n2 T & <E> & |", (9, False): "n1 T [f] | n1 ! n2 ! T | [E] | &",
    (8, True): "n1 ! T & <f-> n2 n1 T & <E> & |", (9, True): "n1 T | [f-] n2 ! n1 ! T | [E] | &",
}


def way_text(edit, edition, kind, way):
    op, x, y, z = edit
    link, back = way % LINKS, way >= LINKS
    names = {"m": way, "f": way, "f-": way}
    if replaces(edit, edition) and link == x:
        return REPLACING_TEXTS[kind, back], {**names, "n1": y, "n2": z}
    if op in (4, 5) and link == x:
        names["n1"], names["n2"] = (z, y) if back else (y, z)
        return WAY_TEXTS[op, kind], names
    if op == 6 and link == x:
        return WAY_TEXTS[op, kind, back], {**names, "n": y}
    if op == 8:
        return WAY_TEXTS[op, kind], {**names, "n": x}
    return None


def text(edit, edition, kind, param):
    """The block of a node of this kind and parameter, in the words of docs/SPEC.md, "Rewriting"; None where it is copied."""
    if kind not in (8, 9):
        return leaf_text(edit, kind, param)
    return way_text(edit, edition, kind, param) if param != EVERYWHERE else None


def put_text(out, words, names, image):
    stack = []

    def node(*fields):
        out.append(fields)
        stack.append(len(out) - 1)

    for word in words.split():
        if word == "T":
            stack.append(image)
        elif word == "!":
            node(5, 0, stack.pop(), 0)
        elif word in "&|":
            right, left = stack.pop(), stack.pop()
            node(7 if word == "&" else 6, 0, left, right)
        elif word[0] in "<[":
            way = EVERYWHERE if word[1:-1] == "E" else names[word[1:-1]]
            node(8 if word[0] == "<" else 9, way, stack.pop(), 0)
        elif word == "t":
            node(0, 0, 0, 0)
        elif word == "h":
            node(1, 0, 0, 0)
        elif word == "k":
            node(12, names["k"], 0, 0)
        elif word == "p":
            node(2, names["p"], 0, 0)
        elif word == "nil":
            node(3, 0, 0, 0)
        else:
            node(3, names[word], 0, 0)
    assert len(stack) == 1
    return stack[0]


def rewrite_edit(edit, edition, nodes):
    out, images = [], []
    for kind, param, left, right in nodes:
        block = text(edit, edition, kind, param)
        if block:
            images.append(put_text(out, *block, images[left] if kind in (8, 9) else None))
        else:
            two, one = kind in pieces.BINARY, kind in pieces.UNARY
            out.append((kind, param, images[left] if one or two else 0, images[right] if two else 0))
            images.append(len(out) - 1)
    return out


def over_sheet(nodes, sheet, edition, step):
    """What a step makes of the table at each edit, the last one first."""
    for edit in reversed(edits_of(sheet)):
        nodes = step(edit, edition, nodes)
        if len(nodes) > NODES:
            return None, (14, 0)
    return pieces.table(*nodes), None


def rewrite(condition, sheet, edition):
    return over_sheet(pieces.nodes_of(condition), sheet, edition, rewrite_edit)


# ---- going through: the texts of the edits' own conditions

def own_text(edit, edition):
    """What has to hold for the edit to go through; None where it always does."""
    op, x, y, z = edit
    if op == 4:
        words = "n1 nil & <E> ! n2 nil & <E> ! &"
        if x >= GENERAL and edition == FIRST:
            words += " n1 t <m> & <E> ! n1 n2 <m> & <E> | &"
        return words, {"m": x, "n1": y, "n2": z}
    if op == 7:
        return "h k & <E> !", {"k": y}
    if op == 8:
        return "n nil & <E> !", {"n": x}
    return None


def through_edit(edit, edition, nodes):
    nodes = rewrite_edit(edit, edition, nodes)
    older, own = len(nodes) - 1, own_text(edit, edition)
    if own:
        image = put_text(nodes, *own, None)
        nodes.append((7, 0, older, image))
    return nodes


def through(sheet, edition):
    return over_sheet([(0, 0, 0, 0)], sheet, edition, through_edit)


# ---- what is printed

def results(site, condition, sheet, edition):
    """What applying, rewriting and the condition for going through give, each with the refusal before or by it."""
    unknown, illegal = pieces.judge_edition(edition), pieces.judge_sheet(sheet)

    def unless(refusal, work):
        refusal = unknown or refusal or illegal
        return (None, refusal) if refusal else work()

    return (
        unless(lists.judged(bytes(site))[0], lambda: apply(site, sheet, edition)),
        unless(pieces.judge_condition(condition), lambda: rewrite(condition, sheet, edition)),
        unless(None, lambda: through(sheet, edition)),
    )


def line(found, show):
    result, refusal = found
    return "refused %d %d" % refusal if refusal else show(result)


def show_table(d):
    nodes = len(d) // NODE_BYTES
    return "%d nodes %s" % (nodes, "sum %d" % pieces.checksum(d) if nodes > SHOWN_NODES else d.hex())


def works(site, table, after):
    """The list of a condition for going through: every slot where the sheet was applied, none where it was not."""
    line = lists.answer(site, table)
    count = int(line.split()[0]) if not line.startswith("refused") else None
    assert count in (None, 0 if after is None else SLOTS), (line, after is None)
    return line


def answer(site, condition, sheet, edition):
    found = results(site, condition, sheet, edition)
    check_editions(site, condition, sheet, edition, found)
    (after, _), (table, _), (own, _) = found
    lines = [
        line(found[0], lambda d: "applied" + "".join(" %d:%d" % (k, b) for k, b in enumerate(d) if b != site[k])),
        line(found[1], show_table),
    ]
    if after is not None and table is not None:
        one, two = lists.answer(after, condition), lists.answer(site, table)
        assert one == two, (one, two)
        lines += ["after " + one, "today " + two]
    lines.append("through " + line(found[2], show_table))
    if own is not None:
        lines.append("works " + works(site, own, after))
    return lines


# ---- what the editions have to do with each other

def rehoming(edit):
    """AT on links 4 to 7: what the editions differ in."""
    return replaces(edit, SECOND)


def cleared(edits):
    """The edits with a DT2 before each that re-homes: in edition 1 they do what the edits do in edition 2."""
    return [e for edit in edits for e in ([(6, *edit[1:3], 0)] if rehoming(edit) else []) + [edit]]


def check_editions(site, condition, sheet, edition, found):
    """Where no edit re-homes, the editions answer alike. Where one does and edition 1 goes through, edition 2 leaves the same site; and it does what
    edition 1 does with the old targets taken away."""
    if pieces.judge_edition(edition) or pieces.judge_sheet(sheet):
        return
    edits, other = edits_of(sheet), FIRST + SECOND - edition
    if not any(map(rehoming, edits)):
        assert results(site, condition, sheet, other) == found
    elif edition == SECOND and not lists.judged(bytes(site))[0]:
        after, refusal = found[0]
        assert apply(site, sheet, FIRST)[0] in (None, after)
        if refusal:
            refusal = 13, len(cleared(edits[:refusal[1] + 1])) - 1
        assert apply(site, pieces.sheet(*cleared(edits)), FIRST) == (after, refusal), (edits, refusal)


# ---- cases

def random_edit(rng, site, operations):
    op = rng.choice(operations)
    new = rng.choice([s for s in range(1, SLOTS) if s not in site.present] or [255])
    operands = {
        pieces.name: lambda: pieces.some_name(rng, 0),
        pieces.moved: lambda: pieces.some_name(rng, 1),
        pieces.label: lambda: rng.choice((rng.randrange(LABELS), rng.randrange(1, 4))),
        pieces.link: lambda: rng.choice((rng.randrange(LINKS), rng.choice((0, GENERAL)))),
        pieces.functional: lambda: rng.choice((rng.randrange(GENERAL, LINKS), GENERAL)),
        pieces.unused: lambda: 0,
        pieces.slot: lambda: new,
    }
    return (op, *(operands[o]() for o in pieces.OPERANDS[op]))


def random_sheet(rng, d, length, edition, operations=range(OPERATIONS), stray=0.01):
    """Edits that go through, but for some that need not."""
    site, sheet = Site(d), bytearray()
    for _ in range(length):
        for _ in range(20):
            edit = random_edit(rng, site, operations)
            if goes_through(site, edit, edition) or rng.random() < stray:
                break
        else:
            continue
        sheet += bytes(edit)
        if goes_through(site, edit, edition):
            site = change(site, edit, edition)
    return sheet


def every_kind():
    """A condition with every kind of node, each way under a diamond and under a box, the first names and labels and the last."""
    nodes = [(0, 0, 0, 0), (1, 0, 0, 0), (4, 0, 0, 0), (12, 7, 0, 0), (4, 1, 0, 0), (11, 1, 4, 0)]
    labels = len(nodes)
    nodes += [(2, p, 0, 0) for p in (*range(4), LABELS - 1)]
    names = len(nodes)
    nodes += [(3, n, 0, 0) for n in (*range(5), NAMES - 2, NAMES - 1)]
    below = [0, 1, 2, 3, labels, labels + 1, *(names + k for k in (0, 1, 2, 3, 6))]
    for way in range(WAYS):
        nodes += [(8, way, below[way % len(below)], 0), (9, way, len(nodes) - 3, 0)]
    nodes += [(5, 0, 1, 0), (7, 0, len(nodes), len(nodes) - 1), (6, 0, 2, len(nodes) + 1), (10, 0, len(nodes) + 2, 0)]
    return pieces.table(*nodes)


def damaged(rng, d):
    d = bytearray(d)
    if d:
        d[rng.randrange(len(d))] ^= 1 << rng.randrange(8)
    return d


A, R = pieces.site_a(), pieces.R
DT2, DOUBLE = (6, 4, 1), (5, 4, 1, 2)


def by_hand():
    """The specification's small sites, and R through k edits: 5 + 8(2^k - 1) nodes."""
    yield A, R, sheet(DT2)
    yield A, R, sheet()
    yield A, R, sheet((8, 1))
    yield A, named(1), sheet((8, 1))
    yield A, R, sheet((0, 1, 2), DT2)
    yield A, R, sheet(DT2, (0, 1, 2))
    yield A, named(3), sheet((7, 3, 4))
    yield A, named(3), sheet((7, 3, 3))
    yield A, R, sheet((4, 4, 1, 2))
    yield A, R, sheet((4, 4, 1, 1))
    yield A, named(1), sheet((1, 1, 1, 4))
    yield A, named(1), sheet((1, 1, 3, 4))
    for k in range(10):
        yield A, R, sheet(*[DOUBLE] * k)


def dense_site():
    site = bytearray(A)
    for s in (1, 2, 3):
        for m in range(GENERAL):
            for t in (1, 2, 3):
                if (s + t + m) % 3:
                    pieces.put(site, row_at(m, s), t)
        for f in range(GENERAL, LINKS):
            site[target_at(f, s)] = (s + f) % 4
        for p in range(LABELS):
            if (s + p) % 3:
                pieces.put(site, label_at(p), s)
    site[NAMES_AT + 3], site[NAMES_AT + NAMES - 1] = 2, 3
    return site


def every_edit():
    """Every operation, with operands at their bounds."""
    yield from ((0, x, y) for x, y in ((1, 2), (2, 1), (3, 3), (1, 0), (NAMES - 1, 1)))
    yield from ((1, x, y, f) for x, y, f in ((1, 2, 4), (1, 1, 4), (2, 1, 5), (3, 0, 6), (1, 3, 7)))
    yield from ((op, n, p) for op in (2, 3) for n, p in ((1, 0), (2, 3), (0, 0), (3, LABELS - 1)))
    yield from ((4, m, x, y) for m in range(LINKS) for x, y in ((1, 2), (2, 1), (1, 1), (0, 1), (3, 1), (0, 0)))
    yield from ((5, m, x, y) for m in range(LINKS) for x, y in ((1, 2), (2, 1), (1, 1), (0, 1)))
    yield from ((6, f, n) for f in range(GENERAL, LINKS) for n in (0, 1, 2))
    yield from ((7, n, k) for n, k in ((1, 4), (1, 255), (3, 7), (2, 0), (2, 3)))
    yield from ((8, n) for n in (0, 1, 2, 3))


def order():
    """The order of the items: the site before the sheet, the condition before the sheet, 12 before 13 before 14; the longest pieces; and sites
    that are refused beside a sheet that is not."""
    absent, labelled, full = bytearray(A), bytearray(A), pieces.full_table(2)
    absent[0] = 14
    pieces.put(labelled, label_at(1), 9)
    nil_labelled = pieces.labelled_nil(1)
    yield A[:-1], R[:-1], sheet((9,))
    yield A, R[:-1], sheet((9,))
    yield absent, R, sheet(DT2)
    yield labelled, R, sheet((9,))
    yield A, R, sheet((8, 0), (9,))
    yield A, R, sheet((8, 0))[:-1]
    yield A, R, sheet((8, 0), *[DOUBLE] * 9)
    yield A, R, sheet(*[DOUBLE] * 9)
    yield A, pieces.table((4, 0, 0, 0), (5, 0, 0, 0), (10, 0, 1, 0)), sheet((8, 0))
    yield A, pieces.table((4, 0, 0, 0)), sheet(DT2)
    yield A, R, sheet(*[(0, 1, 2)] * EDITS)
    yield A, R, sheet(*[(0, 1, 2)] * (EDITS + 1))
    yield A, R, sheet(*[(0, 1, 2)] * (EDITS - 1), (8, 0))
    yield A, full, sheet(DT2)
    yield A, full, sheet((2, 1, 0))
    yield A, full + pieces.table((6, 0, NODES - 1, NODES - 1)), sheet()
    yield A[:-1], R, sheet(DT2)
    yield labelled, R, sheet(DT2)
    yield pieces.old_site(A), R, sheet(DT2)
    # a label on slot 0, which no edit takes away in time
    yield nil_labelled, R, sheet(DT2)
    yield nil_labelled, R, sheet((3, 0, 1))
    yield nil_labelled, R, sheet((9,))
    yield nil_labelled, R[:-1], sheet((8, 0))
    yield pieces.old_site(nil_labelled), R, sheet(DT2)


def going():
    """Sheets on site A, name 3 at nil: each edit that may not go through, and earlier edits that make a later one go or not."""
    at, there = 4, (4, 4, 2, 1)
    yield from ([edit] for edit in ((8, 1), (7, 3, 4), (at, 0, 1, 2)))
    # a functional link: its target is there, there is none, there is another; the ends at nil
    yield from ([(at, m, x, y)] for m, x, y in ((4, 2, 1), (5, 1, 2), (4, 1, 1), (0, 0, 1), (0, 1, 0), (3, 3, 1), (7, 1, 3), (7, 3, 3)))
    yield from ([edit] for edit in ((7, 3, 0), (7, 3, 255), (8, 0), (8, 3)))
    yield [(8, 1), (7, 3, 4)]
    yield [(0, 1, 2), (8, 1)]
    yield [DT2, (at, 4, 1, 2)]
    yield [(5, 4, 2, 1), (at, 4, 2, 2)]
    yield [(5, 4, 1, 2), (at, 4, 1, 2)]
    yield [there, there]
    yield [(at, 5, 1, 2), (at, 5, 1, 1)]
    yield [(0, 3, 1), (8, 3)]
    yield [(0, 1, 3), (8, 1)]
    yield [(1, 3, 1, 4), (8, 3), (at, 4, 1, 2)]
    yield [(1, 3, 1, 4), (8, 3), (8, 3)]
    yield [(8, 1), (at, 0, 1, 2)]
    yield [(8, 1), (7, 3, 2)]
    yield [(7, 3, 4), (7, 5, 4)]
    yield [(7, 3, 4), (8, 3), (7, 5, 4)]
    yield [(7, 3, 4), (at, 4, 3, 1), (at, 6, 1, 3), (8, 3)]
    yield [(2, 1, 0), (3, 2, 1), (at, 0, 1, 2), (at, 4, 2, 1), (5, 0, 1, 2), (6, 4, 2), (at, 4, 2, 2)]


def links(zeros, fours, fives):
    """So many AT of links 0, 4 and 5, and one of 6 and 7 each, all of which go through on site A."""
    return [(4, 0, 1, 2)] * zeros + [(4, 4, 2, 1)] * fours + [(4, 5, 1, 2)] * fives + [(4, 6, 1, 2), (4, 7, 1, 2)]


def long_going():
    """As many edits as a sheet has, and tables at their limit: 1 + 12 * 11 + (25 * 16 + 6 * 16 * 15) + 25 * 3 = 2,048 nodes, and 2,049."""
    for edit in ((0, 1, 2), (1, 1, 2, 4), (2, 1, 0), (3, 1, 0), (4, 0, 1, 2), (5, 4, 1, 2), (6, 4, 1), (8, 0)):
        yield [edit] * EDITS
    for edit, most in (((4, 4, 2, 1), 16), ((7, 3, 4), 42), ((8, 1), 5)):
        yield [edit] * most
        yield [edit] * (most + 1)
    full = links(11, 16, 1)
    yield full
    yield links(8, 16, 2)
    yield [(2, 1, 0)] + full
    yield [(4, 1, 1, 2)] + full
    yield [(6, 4, 3)] + full
    yield [(8, 3)] + full
    yield full + [(0, 1, 2)] * (EDITS - len(full))
    yield full + [(8, 3)]


# ---- cases with many names

LABELS_JOINED = pieces.joined(6, ((2, p, 0, 0) for p in range(LABELS)))


def ways_joined():
    """By some way a slot has neighbours, and all of them have label 3."""
    nodes = [(2, 3, 0, 0)]
    for way in range(EVERYWHERE):
        nodes += [(8, way, 0, 0), (9, way, 0, 0), (7, 0, len(nodes), len(nodes) + 1)]
    last = 3
    for way in range(1, EVERYWHERE):
        nodes.append((6, 0, last, 3 * way + 3))
        last = len(nodes) - 1
    return pieces.table(*nodes)


def high_sheets():
    """Each high name in each operand that is a name, but for DS: on the spread site, with a condition that the edits rewrite. A sheet has as many of
    the names as the tables have room for."""
    names, halves = names_joined(6, HIGH), (HIGH[:len(HIGH) // 2], HIGH[len(HIGH) // 2:])
    yield names, [(0, n, turned(n, 1)) for n in HIGH]
    yield names, [(1, n, turned(n, 1), GENERAL + turned(n, 1) % FUNCTIONAL) for n in HIGH]
    yield LABELS_JOINED, [(op, n, (n + more) % LABELS) for op, more in ((2, 1), (3, 0)) for n in HIGH]
    for more in (1, 1 + GENERAL):
        yield ways_joined(), [(4, (n + more) % LINKS, n, turned(n, 5)) for n in HIGH]
    for half in halves:
        yield ways_joined(), [(5, n % LINKS, n, turned(n, 2)) for n in half]
    yield ways_joined(), [(6, GENERAL + n % FUNCTIONAL, n) for n in HIGH]
    for half in halves:
        yield names, [(7, n, place(n) + 1) for n in half]


def deleted(n):
    """What DS of a high name on the spread site rewrites: here, a label, names, and a way back to the name's place."""
    back = LINKS + GENERAL + n % FUNCTIONAL
    leaves = (1, 0, 0, 0), (2, n % LABELS, 0, 0), (3, n, 0, 0), (3, turned(n, 1), 0, 0)
    return pieces.table(*leaves, (8, back, 2, 0), (9, back, 3, 0), (7, 0, 1, 5), (6, 0, 4, 6), (7, 0, 0, 7), (6, 0, 2, 8))


def at_nil(n):
    """Every operation with a name that is at nil on site A; some do not go through."""
    yield from ((0, 1, n), (0, n, 1), (1, 1, n, 4), (1, n, 1, 4), (2, n, 0), (3, n, 0), (4, 0, n, 1), (4, 4, 1, n), (5, 4, n, 1), (5, 0, 1, n))
    yield from ((6, 4, n), (7, n, 4), (8, n))


def crowded():
    """The slot of forty names goes, by each of the names, and each of them is asked for; some leave before; links between names at one place."""
    low, high = CROWD[0], CROWD[-1]
    for n in CROWD:
        yield named(n), [(8, low + high - n)]
    for kind in (6, 7):
        yield names_joined(kind, CROWD), [(8, high)]
    yield names_joined(6, CROWD), [(0, high, 2), (7, low, 4), (1, 20, 1, 4), (8, 30)]
    yield ways_joined(), [(4, 0, low, high), (4, 5, high, 20), (5, 4, 1, high), (6, 5, low), (2, high, 3)]


def many_names():
    spread, crowd, twins = pieces.spread_site(), pieces.crowded_site(), pieces.twin_site(NAMES - 1)
    for condition, edits in high_sheets():
        yield spread, condition, sheet(*edits)
    for n in HIGH:
        yield spread, deleted(n), sheet((8, n))
    yield spread, pieces.table((12, place(NAMES - 1), 0, 0)), sheet(*((8, n) for n in HIGH))
    for n in (HIGH[0], NAMES - 1):
        for edit in at_nil(n):
            yield A, pieces.joined(6, ((2, 0, 0, 0), (3, n, 0, 0), (3, 1, 0, 0), (8, 4, 0, 0))), sheet(edit)
    for condition, edits in crowded():
        yield crowd, condition, sheet(*edits)
    for edits in ([], [(0, NAMES - 1, 1)], [(0, 3, NAMES - 1), (8, 3)], [(6, 4, NAMES - 1)]):
        yield twins, named(NAMES - 1), sheet(*edits)
    # a name at an absent slot, a parameter and an operand one too high
    absent = bytearray(A)
    absent[NAMES_AT + NAMES - 1] = 4
    yield absent, R, sheet(DT2)
    yield A, named(NAMES), sheet(DT2)
    for op, at in pieces.NAME_OPERANDS:
        yield A, R, sheet(DT2, pieces.with_operand(op, at, NAMES))


# ---- cases with labels and names at nil

MARK = (2, 1, 7)  # of site A, where no slot has label 7


def some(p):
    """Some slot has the label."""
    return pieces.table((2, p, 0, 0), (8, EVERYWHERE, 0, 0))


def label_conditions(p):
    """Conditions that would list another set if slot 0 had the label: it, its not, some slot has it, none has it, slot 0 has it, and loops."""
    label, x = (2, p, 0, 0), (4, 0, 0, 0)
    yield pieces.table(label)
    yield pieces.table(label, (5, 0, 0, 0))
    yield some(p)
    yield pieces.table(label, (5, 0, 0, 0), (9, EVERYWHERE, 1, 0))
    yield pieces.table(label, (3, 0, 0, 0), (7, 0, 0, 1))
    yield pieces.table(label, x, (8, EVERYWHERE, 1, 0), (3, 1, 0, 0), (7, 0, 2, 3), (6, 0, 0, 4), (10, 0, 5, 0))
    yield pieces.table(label, (5, 0, 0, 0), x, (9, EVERYWHERE, 2, 0), (7, 0, 1, 3), (11, 0, 4, 0))


def to_nil():
    """How name 1 of site A comes to nil: to name 0, to a name that is there, as a target where there is none, and when its slot goes, by this name
    or by another."""
    yield [(0, 1, 0)]
    yield [(0, 1, 3)]
    yield [(1, 1, 2, 5)]
    yield [(1, 1, 3, 4)]
    yield [(1, 1, 1, 4)] * 2
    yield [(8, 1)]
    yield [(0, 3, 1), (8, 3)]


def gone_and_back():
    """AP with a name that has come to nil; DP before it and behind it; and with the name back, or nearly so: its new target may be gone."""
    label = pieces.table((2, MARK[2], 0, 0))
    for condition in label_conditions(MARK[2]):
        yield condition, [(0, 1, 0), MARK]
        yield condition, [(8, 1), MARK]
    for edits in to_nil():
        yield some(MARK[2]), [*edits, MARK]
        yield pieces.table((2, 0, 0, 0)), [*edits, (2, 1, 0)]
        yield label, [*edits, MARK, (3, *MARK[1:])]
        yield label, [*edits, (3, *MARK[1:]), MARK]
        for back in (0, 1, 2), (1, 1, 2, 4), (7, 1, 9):
            yield label, [*edits, MARK, back]
            yield label, [*edits, MARK, back, MARK]


def long_marks():
    """As many AP as a sheet has: one with a name at nil and the others not, the other way round, all at nil; and a name that comes and goes."""
    on_site, gone, label = (2, 2, 7), (2, 3, 7), pieces.table((2, 7, 0, 0))
    for most, one in (on_site, gone), (gone, on_site):
        for at in (0, EDITS // 2, EDITS - 1):
            yield label, [one if k == at else most for k in range(EDITS)]
    yield some(7), [gone] * EDITS
    yield pieces.joined(6, ((2, 7, 0, 0), (2, 8, 0, 0))), [(0, 1, 0), MARK, (0, 1, 2), (2, 1, 8)] * (EDITS // 4)


def long_ways():
    """The longest sheets in which name 1 comes to nil, in each way: many AP there, and many once it is back on site."""
    for edits in to_nil():
        start = [*edits, *[MARK] * 30, (7, 1, 9)]
        yield some(MARK[2]), start + [MARK] * (EDITS - len(start))


def every_mark():
    """Each label, with names that have never left nil; each name, at nil or not; and a label that every slot but 0 has."""
    for n in (0, 3, HIGH[0], NAMES - 1):
        yield A, LABELS_JOINED, [(2, n, p) for p in range(LABELS)]
    for p in range(LABELS):
        yield A, some(p), [(2, NAMES - 1, p)]
    for site in (A, pieces.spread_site(), pieces.crowded_site()):
        yield site, LABELS_JOINED, [(2, n, n % LABELS) for n in range(NAMES)]
    for p in (0, LABELS - 1):
        for condition in label_conditions(p):
            yield pieces.labelled_site(p, *range(1, SLOTS)), condition, [(2, 3, p)]


def full_marks():
    """AP makes six nodes of its label: tables that come to 2,048 nodes, and to one more. CN2 makes eleven nodes of the name in the block. Another
    label is copied."""
    ap = (2, 1, 0)
    for make, edits, more in (
        (pieces.label_last, [ap], 5), (pieces.label_first, [ap] * 2, 10), (pieces.label_last, [(2, 3, 0)] * EDITS, 5 * EDITS),
        (pieces.label_first, [(1, 1, 2, 4), ap], 15),
    ):
        yield make(0, NODES - more + 1), edits
        yield make(0, NODES - more), edits
    yield pieces.label_first(1, NODES), [ap] * EDITS


def labels_and_nil():
    """What a planner tried: name 1 goes to nil and gets a label there, and no slot has it; without going, one has. Then most of the above, and edits
    that rewrite AP's block."""
    yield A, some(7), sheet((0, 1, 0), MARK)
    yield A, some(7), sheet(MARK)
    # of full tables the first two, and none of the longest ways: what is printed is limited, and jobs.py has them all
    for condition, edits in (*gone_and_back(), *long_marks(), *list(full_marks())[:2]):
        yield A, condition, sheet(*edits)
    for site, condition, edits in every_mark():
        yield site, condition, sheet(*edits)
    for edit in ((0, 1, 2), (1, 1, 2, 4), (2, 2, 7), (3, 1, 7), (7, 1, 4), (8, 1), (8, 2), (8, 0)):
        yield A, some(7), sheet(edit, MARK)


def random_marks(rng):
    """Names that come and go, and the labels that they get."""
    for _ in range(40):
        site, conditions = lists.random_site(rng, rng.choice((0, 30))), list(label_conditions(rng.randrange(1, 4)))
        yield site, rng.choice(conditions), random_sheet(rng, site, rng.choice((2, 4, 8, 16)), FIRST, (0, 1, 2, 2, 2, 2, 3, 7, 8))


# ---- cases of re-homing

# the four blocks of AT 6 2 3 in edition 2, node by node, each below its text; node 0, which is T, is label 3
BLOCKS = {
    # n1 ! T <f> & n1 n2 T & <E> & |
    (8, 6): (
        (3, 2, 0, 0), (5, 0, 1, 0), (8, 6, 0, 0), (7, 0, 2, 3), (3, 2, 0, 0), (3, 3, 0, 0), (7, 0, 6, 0), (8, 16, 7, 0), (7, 0, 5, 8), (6, 0, 4, 9),
    ),
    # n1 T [f] | n1 ! n2 ! T | [E] | &
    (9, 6): (
        (3, 2, 0, 0), (9, 6, 0, 0), (6, 0, 1, 2), (3, 2, 0, 0), (5, 0, 4, 0), (3, 3, 0, 0), (5, 0, 6, 0), (6, 0, 7, 0), (9, 16, 8, 0), (6, 0, 5, 9),
        (7, 0, 3, 10),
    ),
    # n1 ! T & <f-> n2 n1 T & <E> & |
    (8, 14): (
        (3, 2, 0, 0), (5, 0, 1, 0), (7, 0, 2, 0), (8, 14, 3, 0), (3, 3, 0, 0), (3, 2, 0, 0), (7, 0, 6, 0), (8, 16, 7, 0), (7, 0, 5, 8), (6, 0, 4, 9),
    ),
    # n1 T | [f-] n2 ! n1 ! T | [E] | &
    (9, 14): (
        (3, 2, 0, 0), (6, 0, 1, 0), (9, 14, 2, 0), (3, 3, 0, 0), (5, 0, 4, 0), (3, 2, 0, 0), (5, 0, 6, 0), (6, 0, 7, 0), (9, 16, 8, 0), (6, 0, 5, 9),
        (7, 0, 3, 10),
    ),
}


def blocks_by_hand():
    """Each block as it is written out, on a site where the slot of name 2 has another target."""
    label, edits = (2, 3, 0, 0), sheet((4, 6, 2, 3))
    for (kind, way), block in BLOCKS.items():
        condition = pieces.table(label, (kind, way, 0, 0))
        assert rewrite(condition, edits, SECOND) == (pieces.table(label, *block), None), (kind, way)
        yield dense_site(), condition, edits


def second_uplink():
    """The second uplink of docs/SPEC.md, with the numbers that are written there: slot 1 is a gateway, slot 2 a relay that leads no further, slot 3 a
    probe with an uplink to it, which gets one to the gateway. R says that an uplink chain leads to a gateway."""
    site, edits = with_bytes(A, (NAMES_AT + 1, 1), (target_at(4, 2), 0)), sheet((4, 4, 2, 1))
    after = with_bytes(site, (target_at(4, 3), 1))
    assert [apply(site, edits, edition) for edition in EDITIONS] == [(None, (13, 0)), (after, None)]
    table = rewrite(R, edits, SECOND)[0]
    assert [len(rewrite(R, edits, FIRST)[0]), len(table)] == [11 * NODE_BYTES, 14 * NODE_BYTES]
    assert [len(through(edits, edition)[0]) for edition in EDITIONS] == [26 * NODE_BYTES, 13 * NODE_BYTES]
    assert lists.outcome(site, R) == (None, ({1}, 2))
    assert lists.outcome(after, R) == lists.outcome(site, table) == (None, ({1, 3}, 3))
    yield site, R, edits


def between_relays():
    """Site A with a second relay, slot 4: the probe, slot 3, leads to the gateway by the first, and then by the second. The first may then go."""
    site, taken = with_bytes(A, (0, 31), (NAMES_AT + 3, 4), (target_at(4, 4), 1)), (4, 4, 2, 3)
    for edits, slots in ([], {1, 2, 3, 4}), ([taken], {1, 2, 3, 4}), ([taken, (8, 1)], {1, 3, 4}), ([(8, 1)], {1, 4}):
        after, _ = apply(site, sheet(*edits), SECOND)
        assert lists.outcome(after, R)[1][0] == slots, edits
        yield site, R, sheet(*edits)


def homes(f):
    """Name n at slot n, up to 6, name 7 at nil, name 8 at slot 1 too. By link f slots 1 and 4 lead to 2, 2 to 3, 5 to itself, 3 and 6 nowhere; by the
    other functional links each leads to the next, and general links lead from slot 1."""
    site = with_bytes(bytes(SITE_BYTES), (0, 127), (NAMES_AT + 8, 1), *((NAMES_AT + n, n) for n in range(1, 7)))
    for g in range(GENERAL, LINKS):
        for s, t in ((1, 2), (2, 3), (4, 2), (5, 5)) if g == f else ((s, 1 + s % 6) for s in range(1, 7)):
            site[target_at(g, s)] = t
        pieces.put(site, row_at(g - GENERAL, 1), g - 1)
    for p, s in ((0, 3), (1, 1), (1, 2), (1, 5)):
        pieces.put(site, label_at(p), s)
    return site


def single_rehomings():
    """The names of AT there: the target that there is, another, the slot itself, by this name or by another; a slot without a target, one with itself
    as its target, one that shares its target; and names at nil."""
    yield from ((1, 2), (1, 3), (1, 4), (1, 1), (1, 8), (8, 5), (6, 3), (3, 1), (5, 1), (5, 5), (4, 6), (2, 1))
    yield from ((1, 7), (7, 1), (7, 7), (1, 0), (0, 1), (0, 0))


def ways_of(f):
    """The diamond and the box of a functional link and of its reverse, over label 1."""
    for kind in (8, 9):
        for way in (f, f + LINKS):
            yield pieces.table((2, 1, 0, 0), (kind, way, 0, 0))


def loops_of(f):
    """A chain by the link leads to label 0; and every chain back stays in label 1 or slot 6."""
    yield pieces.table((2, 0, 0, 0), (4, 0, 0, 0), (8, f, 1, 0), (6, 0, 0, 2), (10, 0, 3, 0))
    yield pieces.table((2, 1, 0, 0), (12, 6, 0, 0), (6, 0, 0, 1), (4, 0, 0, 0), (9, f + LINKS, 3, 0), (7, 0, 2, 4), (11, 0, 5, 0))


def several_rehomings(f):
    """Edits there: away and back, onto itself, in a ring; the name follows the new target, or the old; the old link and the new are removed; slots
    that come and go; names that go to nil; other links between; and as many as a sheet has."""
    def to(x, y):
        return 4, f, x, y

    other = GENERAL + (f + 1) % FUNCTIONAL
    yield [to(1, 3), to(1, 4), to(1, 2)]
    yield [to(1, 1), to(8, 8), to(8, 3)]
    yield [to(1, 2), to(2, 3), to(3, 1), to(2, 1), to(1, 3)]
    yield [to(1, 3), (1, 1, 1, f), to(1, 4)]
    yield [to(1, 5), (1, 2, 8, f), (8, 2)]
    yield [(1, 2, 1, f), to(1, 5), (8, 2)]
    yield [to(1, 3), (1, 6, 4, f), (1, 1, 6, f), (8, 1), to(2, 6)]
    yield [to(1, 3), (5, f, 1, 2)]
    yield [to(1, 3), (5, f, 8, 3), to(1, 4)]
    yield [(6, f, 1), to(1, 3)]
    yield [to(1, 3), (6, f, 8), to(4, 1)]
    yield [(7, 7, 9), to(1, 7), to(7, 3), (8, 2), (2, 7, 1)]
    yield [(8, 2), to(1, 3), to(4, 1)]
    yield [to(1, 3), (8, 1), to(1, 3)]
    yield [to(1, 3), (0, 3, 0), to(1, 3)]
    yield [to(6, 3), to(1, 7)]
    yield [(4, f - GENERAL, 1, 3), to(1, 3), (4, other, 1, 3), (4, other, 8, 2)]
    yield [to(1 + k % 6, 1 + 5 * k % 7 % 6) for k in range(EDITS)]


def rehomings():
    """Each of the four functional links in turn."""
    yield from blocks_by_hand()
    yield from second_uplink()
    yield from between_relays()
    for k, (x, y) in enumerate(single_rehomings()):
        f = GENERAL + k % FUNCTIONAL
        for condition in ways_of(f):
            yield homes(f), condition, sheet((4, f, x, y))
    for f in range(GENERAL, LINKS):
        for condition, edits in list(zip(itertools.cycle(loops_of(f)), several_rehomings(f)))[f - GENERAL::FUNCTIONAL]:
            yield homes(f), condition, sheet(*edits)


def rewritten_full():
    """Tables that come to 2,048 nodes by one AT of edition 2, and to one more: its diamonds become ten nodes, its boxes eleven."""
    for kind, more in (8, 9), (9, 10):
        for way in (5, 5 + LINKS):
            for nodes in (NODES - more, NODES - more + 1):
                yield A, pieces.table((2, 0, 0, 0), *[(0, 0, 0, 0)] * (nodes - 2), (kind, way, 0, 0)), sheet((4, 5, 2, 1))


def unknown_editions():
    """Editions that there are not: beside a sheet that goes through in one or in both, and beside each fault of the pieces."""
    faults = (A, named(NAMES), sheet(DT2)), (with_bytes(A, pieces.LINK_FAULTS[0]), R, sheet()), *order()
    yield from ((A, R, sheet(edit), edition) for edition in pieces.UNKNOWN for edit in (DT2, (4, 4, 1, 2)))
    yield from ((*case, pieces.UNKNOWN[k % 5]) for k, case in enumerate(faults))


def in_editions(cases):
    """Where an edit re-homes, in both editions; else in one of them, in turn, since they answer alike."""
    for k, (site, condition, sheet) in enumerate(cases):
        both = any(len(edit) == EDIT_BYTES and rehoming(edit) for edit in edits_of(sheet))
        for edition in EDITIONS if both else EDITIONS[k % 2:][:1]:
            yield site, condition, sheet, edition


def random_cases(rng):
    for k in range(150):
        edition = EDITIONS[k % 2]
        site = lists.random_site(rng, rng.choice((0, 5, 30, 120)))
        three = [site, lists.random_condition(rng), random_sheet(rng, site, rng.choice((1, 2, 3, 4, 6)), edition)]
        part = rng.randrange(8)
        if part < 3:
            three[part] = damaged(rng, three[part])
        yield *three, edition
    for _ in range(40):
        site = lists.random_site(rng, rng.choice((0, 30, 120)))
        edits = random_sheet(rng, site, rng.choice((1, 2, 3, 4, 6)), SECOND, (0, 1, 4, 4, 4, 5, 6, 7, 8), 0.1)
        yield from in_editions([(site, named(1), edits)])


def cases(rng):
    plain = (*by_hand(), *((A, named(1), sheet(*edits)) for edits in (*going(), *long_going())), *many_names(), *labels_and_nil(), *order())
    yield from in_editions(plain)
    site, condition = dense_site(), every_kind()
    for edition in EDITIONS:
        for edit in every_edit():
            yield site, condition, sheet(edit), edition
    yield from in_editions(rehomings())
    for case in unknown_editions():
        assert results(*case) == ((None, (18, 0)),) * 3, case[3]
        yield case
    yield from random_cases(rng)
    yield from in_editions(random_marks(rng))


def main():
    sys.setrecursionlimit(20000)
    rng = random.Random(SEED)
    stdin, stdout, count = bytearray(), [], {}
    for site, condition, sheet, edition in cases(rng):
        for kind, d in ((pieces.SITE, site), (pieces.CONDITION, condition), (pieces.SHEET, sheet)):
            stdin += pieces.encode(kind, d)
        stdin += pieces.encode_number(edition)
        lines = answer(site, condition, sheet, edition)
        stdout += lines
        for line in lines:
            words = line.split()
            told = 3 if "refused" in words[1:] else 2 if words[0] in ("refused", "works") else 1
            key = "nodes" if words[1:2] == ["nodes"] else " ".join(words[:told])
            count[key] = count.get(key, 0) + 1
    pieces.write("test_changes", stdin, stdout)
    print(count, file=sys.stderr)


if __name__ == "__main__":
    main()

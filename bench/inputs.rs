//! Sites, conditions, sheets and job files to measure on. All but `named` use only names that an earlier build has too.

use crate::desk::{E, GENERAL, LABELS_AT, NAMES, NAMES_AT, NODE, ROWS, ROWS_AT, SET, SITE, SLOTS, TARGETS_AT, VARIABLES};
use crate::earlier::names;

/// The same numbers in every run.
pub struct Random(u64);

impl Random {
    pub fn new() -> Random {
        Random(0x9e37_79b9_7f4a_7c15)
    }

    pub fn below(&mut self, limit: usize) -> usize {
        self.0 ^= self.0 << 13;
        self.0 ^= self.0 >> 7;
        self.0 ^= self.0 << 17;
        (self.0 >> 11) as usize % limit
    }
}

// ---- sites

fn put(set: &mut [u8], slot: usize) {
    set[slot / 8] |= 1 << (slot % 8);
}

/// Slots 0 to n - 1 present, label 0 on slot 1, name k at slot k where that is present.
pub fn bare(n: usize) -> Vec<u8> {
    let mut site = vec![0; SITE];
    (0..n).for_each(|s| put(&mut site, s));
    put(&mut site[LABELS_AT..], 1);
    for k in 1..names().min(n) {
        site[NAMES_AT + k] = k as u8;
    }
    site
}

/// The site with each name k but 0 at slot `slot(k)`.
pub fn named(mut site: Vec<u8>, slot: fn(usize) -> usize) -> Vec<u8> {
    (1..NAMES).for_each(|k| site[NAMES_AT + k] = slot(k) as u8);
    site
}

/// Link 4 from each slot to the one below it, link 5 to the half of its number.
pub fn chain(n: usize) -> Vec<u8> {
    let mut site = bare(n);
    for s in 2..n {
        site[TARGETS_AT + s] = (s - 1) as u8;
        site[TARGETS_AT + SLOTS + s] = (s / 2) as u8;
    }
    site
}

/// A chain, with `arcs` random arcs from each slot by each general link.
pub fn random(n: usize, arcs: usize) -> Vec<u8> {
    let mut site = chain(n);
    let mut random = Random::new();
    for row in (0..GENERAL).flat_map(|m| (1..n).map(move |s| ROWS_AT + ROWS * m + SET * s)) {
        (0..arcs).for_each(|_| put(&mut site[row..], 1 + random.below(n - 1)));
    }
    site
}

/// A chain, with every arc by every general link.
pub fn full(n: usize) -> Vec<u8> {
    let mut site = chain(n);
    for row in (0..GENERAL).flat_map(|m| (1..n).map(move |s| ROWS_AT + ROWS * m + SET * s)) {
        (1..n).for_each(|t| put(&mut site[row..], t));
    }
    site
}

/// The same without labels, names and functional links: two classes.
pub fn uniform() -> Vec<u8> {
    let mut site = full(SLOTS);
    site[LABELS_AT..ROWS_AT].fill(0);
    site
}

/// The same with link 4 from each slot to the one below it: refinement comes in from both ends, in 128 rounds.
pub fn rounds(general: bool) -> Vec<u8> {
    let mut site = if general { uniform() } else { bare(SLOTS) };
    site[LABELS_AT..TARGETS_AT].fill(0);
    (2..SLOTS).for_each(|s| site[TARGETS_AT + s] = (s - 1) as u8);
    site
}

/// Every arc by every general link, and by every functional link a target of each slot: the slot below it, and of slot 1 the last.
pub fn homed() -> Vec<u8> {
    let mut site = full(SLOTS);
    for targets in site[TARGETS_AT..ROWS_AT].chunks_exact_mut(SLOTS) {
        (1..SLOTS).for_each(|s| targets[s] = if s > 1 { s - 1 } else { SLOTS - 1 } as u8);
    }
    site
}

/// Site A of docs/SPEC.md.
pub fn site_a() -> Vec<u8> {
    let mut site = bare(4);
    site[NAMES_AT..TARGETS_AT].fill(0);
    (site[NAMES_AT + 1], site[NAMES_AT + 2]) = (2, 3);
    (site[TARGETS_AT + 2], site[TARGETS_AT + 3]) = (1, 2);
    site
}

/// An arc by link 0.
fn arc(site: &mut [u8], from: usize, to: usize) {
    put(&mut site[ROWS_AT + SET * from..], to);
}

/// Links 0 and 4 from each slot to the one below it, down to slot 1.
pub fn path() -> Vec<u8> {
    let mut site = bare(SLOTS);
    for s in 2..SLOTS {
        arc(&mut site, s, s - 1);
        site[TARGETS_AT + s] = (s - 1) as u8;
    }
    site
}

/// The same, and from slot 1 back to the last.
pub fn ring() -> Vec<u8> {
    let mut site = path();
    arc(&mut site, 1, SLOTS - 1);
    site[TARGETS_AT + 1] = (SLOTS - 1) as u8;
    site
}

/// A path, but link 4 leads from the slots up to this one only.
pub fn cut(last: usize) -> Vec<u8> {
    let mut site = path();
    site[TARGETS_AT + last + 1..TARGETS_AT + SLOTS].fill(0);
    site
}

/// Slots 1 to 255 in 15 rows; link 0 to the next slot of the row and to the one below.
pub fn grid() -> Vec<u8> {
    const WIDTH: usize = 17;
    let mut site = bare(SLOTS);
    for s in 1..SLOTS {
        if s % WIDTH != 0 {
            arc(&mut site, s, s + 1);
        }
        if s + WIDTH < SLOTS {
            arc(&mut site, s, s + WIDTH);
        }
    }
    site
}

/// Slots 1 to 255 in layers of so many; link 0 to every slot of the next layer.
pub fn layers(width: usize) -> Vec<u8> {
    let mut site = bare(SLOTS);
    for s in 1..SLOTS {
        let next = 1 + ((s - 1) / width + 1) * width;
        (next..SLOTS.min(next + width)).for_each(|t| arc(&mut site, s, t));
    }
    site
}

pub fn slots(site: &[u8]) -> u32 {
    site[..SET].iter().map(|b| b.count_ones()).sum()
}

pub fn arcs(site: &[u8]) -> u32 {
    let general: u32 = site[ROWS_AT..].iter().map(|b| b.count_ones()).sum();
    general + site[TARGETS_AT..ROWS_AT].iter().filter(|&&t| t != 0).count() as u32
}

// ---- conditions

#[derive(Default)]
struct Table(Vec<u8>);

impl Table {
    fn len(&self) -> usize {
        self.0.len() / NODE
    }

    fn push(&mut self, kind: u8, param: usize, left: usize, right: usize) -> usize {
        let (l, r) = ((left as u16).to_le_bytes(), (right as u16).to_le_bytes());
        self.0.extend([kind, param as u8, l[0], l[1], r[0], r[1]]);
        self.len() - 1
    }

    fn label(&mut self, p: usize) -> usize {
        self.push(2, p, 0, 0)
    }

    fn variable(&mut self, x: usize) -> usize {
        self.push(4, x, 0, 0)
    }

    fn or(&mut self, a: usize, b: usize) -> usize {
        self.push(6, 0, a, b)
    }

    fn and(&mut self, a: usize, b: usize) -> usize {
        self.push(7, 0, a, b)
    }

    fn diamond(&mut self, way: usize, a: usize) -> usize {
        self.push(8, way, a, 0)
    }

    /// Nested loops; what is to stand inside the innermost, if anything, is given.
    fn nest(&mut self, depth: usize, mut inner: Option<usize>) {
        let (start, nowhere) = (self.label(0), self.label(15));
        for x in (0..depth).rev() {
            let v = self.variable(x);
            let mut body = self.diamond(4, v);
            if x % 2 == 0 {
                body = self.or(start, body);
            }
            if x > 0 {
                let outer = self.variable(x - 1);
                let none = self.and(nowhere, outer);
                body = self.or(body, none);
            }
            if let Some(inner) = inner {
                let none = self.and(nowhere, inner);
                body = self.or(body, none);
            }
            inner = Some(self.push(10 + (x % 2) as u8, x, body, 0));
        }
    }
}

/// One slot alone.
pub fn slot(k: usize) -> Vec<u8> {
    let mut t = Table::default();
    t.push(12, k, 0, 0);
    t.0
}

/// No slot: not true.
pub fn nowhere() -> Vec<u8> {
    let mut t = Table::default();
    let all = t.push(0, 0, 0, 0);
    t.push(5, 0, all, 0);
    t.0
}

/// mu 0 (label 0 or diamond `way` variable 0)
pub fn reach(way: usize) -> Vec<u8> {
    let mut t = Table::default();
    let (start, x) = (t.label(0), t.variable(0));
    let step = t.diamond(way, x);
    let body = t.or(start, step);
    t.push(10, 0, body, 0);
    t.0
}

/// Label 0, then each node the `or` of the one before with itself: 2^(n - 1) paths.
pub fn shared(n: usize) -> Vec<u8> {
    let mut t = Table::default();
    let mut last = t.label(0);
    while t.len() < n {
        last = t.or(last, last);
    }
    t.0
}

/// Label 0, then nots, diamonds and boxes of every way, each over the one before: one path.
pub fn line(n: usize) -> Vec<u8> {
    let mut t = Table::default();
    let mut last = t.label(0);
    while t.len() < n {
        let k = t.len();
        last = match k % 3 {
            0 => t.push(5, 0, last, 0),
            1 => t.diamond(k / 3 % (E + 1), last),
            _ => t.push(9, k / 3 % (E + 1), last, 0),
        };
    }
    t.0
}

/// Diamonds and boxes of the ways below `ways`, each over an `or` or `and` of the two nodes before it.
pub fn mixed(n: usize, ways: usize) -> Vec<u8> {
    let mut t = Table::default();
    t.label(0);
    t.push(1, 0, 0, 0);
    while t.len() < n {
        let k = t.len();
        match k % 4 {
            0 => t.or(k - 2, k - 1),
            1 => t.diamond(k / 4 % ways, k - 1),
            2 => t.and(k - 1, k - 2),
            _ => t.push(9, k / 4 % ways, k - 1, 0),
        };
    }
    t.0
}

/// Nested loops, mu and nu in turn. On a chain each makes as many rounds as there are slots, in every round of the one around it:
/// mu x (label 0 or <4> x or (label 15 and ..)), nu x (<4> x or (label 15 and ..)), where no slot has label 15 and `..` is the variable
/// of the loop around and the loop inside.
pub fn nested(depth: usize) -> Vec<u8> {
    let mut t = Table::default();
    t.nest(depth, None);
    t.0
}

/// The same at the end of so many nodes.
pub fn behind(n: usize, depth: usize) -> Vec<u8> {
    let mut t = Table::default();
    while t.len() < n - nested(depth).len() / NODE {
        t.label(0);
    }
    t.nest(depth, None);
    t.0
}

/// Three loops, and in the innermost body a line of so many diamonds over its variable.
pub fn around(diamonds: usize) -> Vec<u8> {
    let mut t = Table::default();
    let v = t.variable(2);
    let line = (0..diamonds).fold(v, |last, k| t.diamond(k % GENERAL, last));
    t.nest(3, Some(line));
    t.0
}

/// True, and nus around it, each in the next: a round each, since each body gives back all slots at once.
pub fn loops(n: usize) -> Vec<u8> {
    let mut t = Table::default();
    let mut last = t.push(0, 0, 0, 0);
    while t.len() < n {
        last = t.push(11, t.len() % VARIABLES, last, 0);
    }
    t.0
}

/// A loop of one round, mu 0 (not true), at the end of 2^k paths.
pub fn shared_loop(k: usize) -> Vec<u8> {
    let mut t = Table::default();
    let all = t.push(0, 0, 0, 0);
    let none = t.push(5, 0, all, 0);
    let mut last = t.push(10, 0, none, 0);
    for _ in 0..k {
        last = t.or(last, last);
    }
    t.0
}

/// Every kind of node, and each way in a diamond and in a box.
pub fn kinds() -> Vec<u8> {
    const LEAVES: [(u8, usize); 9] = [(0, 0), (1, 0), (2, 0), (2, 1), (3, 0), (3, 1), (3, 4), (12, 1), (4, 0)];
    let mut t = Table::default();
    let none = t.label(15);
    let some = LEAVES.iter().fold(none, |last, &(kind, param)| {
        let leaf = t.push(kind, param, 0, 0);
        let both = t.and(none, leaf);
        t.or(last, both)
    });
    let moved = (0..=E).fold(some, |last, way| {
        let next = t.diamond(way, last);
        t.push(9, way, next, 0)
    });
    let not = t.push(5, 0, moved, 0);
    let again = t.push(5, 0, not, 0);
    let least = t.push(10, 0, again, 0);
    t.push(11, 1, least, 0);
    t.0
}

// ---- sheets

/// A name but 0, in turn.
fn other_name(k: usize) -> u8 {
    1 + (k % (names() - 1)) as u8
}

/// AP: name 1 gains the label, again and again.
pub fn labels(n: usize, label: u8) -> Vec<u8> {
    [2, 1, label, 0].repeat(n)
}

/// DT1: link 0 from name 1 to names 1, 2, ..
pub fn cuts(n: usize) -> Vec<u8> {
    (0..n).flat_map(|k| [5, 0, 1, other_name(k)]).collect()
}

/// DS and AS of the same slot, in turn.
pub fn slots_gone(n: usize) -> Vec<u8> {
    let slot = |k: usize| 2 + (k / 2 % (names() - 2)) as u8;
    (0..n).flat_map(|k| if k % 2 == 0 { [8, slot(k), 0, 0] } else { [7, slot(k), slot(k), 0] }).collect()
}

/// CN1: names 2, 3, .. move to names 1, 2, ..
pub fn moves(n: usize) -> Vec<u8> {
    (0..n).flat_map(|k| [0, other_name(k + 1), other_name(k), 0]).collect()
}

/// AT of four links from `first` on in turn, between names that follow each other.
pub fn links(n: usize, first: usize) -> Vec<u8> {
    (0..n).flat_map(|k| [4, (first + k % 4) as u8, other_name(k), other_name(k + 1)]).collect()
}

/// AT of link 4 from each name to the next, and then to the next but one.
pub fn uplinks(n: usize) -> Vec<u8> {
    let skipped = |k: usize| k / (names() - 1);
    (0..n).flat_map(|k| [4, GENERAL as u8, other_name(k), other_name(k + 1 + skipped(k))]).collect()
}

/// The same with DT2 in front of each AT, so that there is no old target.
pub fn cleared(sheet: &[u8]) -> Vec<u8> {
    sheet.chunks_exact(4).flat_map(|at| [6, at[1], at[2], 0, at[0], at[1], at[2], at[3]]).collect()
}

/// Three edits at a time: a slot gets another target, a name moves to it, and the slot there gets another target too.
pub fn onward(n: usize) -> Vec<u8> {
    let edit = |k: usize| {
        let turn = k / 3;
        let f = (GENERAL + turn % 4) as u8;
        match k % 3 {
            0 => [4, f, 1, other_name(turn + 3)],
            1 => [1, 3, 1, f],
            _ => [4, f, 3, 2],
        }
    };
    (0..n).flat_map(edit).collect()
}

/// AS of slots 100, 101, ..
pub fn slots_added(n: usize) -> Vec<u8> {
    (0..n).flat_map(|k| [7, other_name(k), 100 + k as u8, 0]).collect()
}

/// DS of names 1, 2, ..
pub fn slots_removed(n: usize) -> Vec<u8> {
    (0..n).flat_map(|k| [8, other_name(k), 0, 0]).collect()
}

/// Eight edits at a time: a slot goes, another comes under its name, two names move there, and it gets a label and links.
pub fn plan(n: usize) -> Vec<u8> {
    let edit = |k: usize| {
        let turn = (k / 8) as u8;
        let (slot, general, functional) = (100 + turn, turn % 4, 4 + turn % 4);
        match k % 8 {
            0 => [8, 1, 0, 0],
            1 => [7, 1, slot, 0],
            2 => [0, 2, 1, 0],
            3 => [4, general, 1, 2],
            4 => [0, 3, 2, 0],
            5 => [4, functional, 1, 3],
            6 => [2, 1, 0, 0],
            _ => [4, (general + 1) % 4, 2, 3],
        }
    };
    (0..n).flat_map(edit).collect()
}

/// DS 47 times in front of CN2 and AT, which have a diamond inside another. Each DS puts two nodes on the path at each of the two, and one above
/// them: 249 nodes.
pub fn long_paths() -> Vec<u8> {
    let functional = GENERAL as u8;
    let mut sheet = [8, 0, 0, 0].repeat(47);
    sheet.extend([1, 1, 0, functional, 4, functional, 0, 1]);
    sheet
}

/// Every kind of edit but DS and AS.
pub fn small_edits(n: usize) -> Vec<u8> {
    let kinds = [[2, 1, 0, 0], [4, 0, 2, 3], [0, 4, 5, 0], [5, 1, 6, 7], [1, 8, 9, 4], [6, 5, 3, 0], [3, 2, 1, 0]];
    (0..n).flat_map(|k| kinds[k % 7]).collect()
}

// ---- job files

pub fn job(site: &[u8], cond: &[u8], sheet: &[u8], edition: u32) -> Vec<u8> {
    let mut file = [site, cond, sheet].concat();
    let trailer = [sheet.len() as u32, (sheet.len() + cond.len()) as u32, file.len() as u32, edition];
    trailer.iter().for_each(|number| file.extend(number.to_le_bytes()));
    file
}

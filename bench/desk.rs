//! A second desk in plain Rust, written from the specification alone. The proved library is timed beside it.
//!
//! The seven functions have the library's arguments and answers, test the same items in the same order, and leave the same bytes in
//! every buffer. Sets are four words; listing keeps each node's set and computes it again where a free variable has moved. Rounds are added up as
//! the tree is walked; those of a node that is known are kept with its set, and added once more. A chain comes from a search with a queue, or from
//! layers around the goal where the rows of the site lead that way.

use std::ops::{BitAnd, BitOr, Not};

// How many slots, labels, names, links and variables there are, and nodes at most. Links below GENERAL are general.
pub const SLOTS: usize = 256;
pub const LABELS: usize = 16;
pub const NAMES: usize = 48;
pub const LINKS: usize = 8;
pub const GENERAL: usize = 4;
pub const VARIABLES: usize = 16;
pub const NODES: usize = 2_048;

// The way that leads everywhere, behind the links and their reverses.
pub const E: usize = 2 * LINKS;

// The bytes of a set and of a node; where the parts of a site start; the bytes of a general link, and of the buffers.
pub const SET: usize = SLOTS / 8;
pub const NODE: usize = 6;
pub const LABELS_AT: usize = SET;
pub const NAMES_AT: usize = LABELS_AT + SET * LABELS;
pub const TARGETS_AT: usize = NAMES_AT + NAMES;
pub const ROWS_AT: usize = TARGETS_AT + SLOTS * (LINKS - GENERAL);
pub const ROWS: usize = SET * SLOTS;
pub const SITE: usize = ROWS_AT + ROWS * GENERAL;
pub const TABLE: usize = NODE * NODES;
pub const WORK: usize = SET * NODES;

// The highest limit on the rounds of a list.
pub const HIGHEST: u32 = 1_000_000;

// The editions of sheets.
pub const FIRST: u32 = 1;
pub const SECOND: u32 = 2;

// The bytes of a number in a job file's trailer, of the trailer, which has four, and of a file at most.
pub const NUMBER: usize = 4;
pub const TRAILER: usize = 4 * NUMBER;
pub const FILE: usize = 65_536;

#[derive(Debug, PartialEq)]
#[repr(C)]
pub struct Listed {
    pub reason: u32,
    pub place: u32,
    pub count: u32,
    pub rounds: u32,
}

#[derive(Debug, PartialEq)]
#[repr(C)]
pub struct Applied {
    pub reason: u32,
    pub place: u32,
}

#[derive(Debug, PartialEq)]
#[repr(C)]
pub struct Rewritten {
    pub reason: u32,
    pub place: u32,
    pub nodes: u32,
}

#[derive(Debug, PartialEq)]
#[repr(C)]
pub struct Classed {
    pub reason: u32,
    pub place: u32,
    pub count: u32,
}

#[derive(Debug, PartialEq)]
#[repr(C)]
pub struct Chained {
    pub reason: u32,
    pub place: u32,
    pub found: u32,
    pub steps: u32,
}

#[derive(Debug, PartialEq)]
#[repr(C)]
pub struct Done {
    pub reason: u32,
    pub place: u32,
    pub after: u32,
    pub today: u32,
    pub nodes: u32,
    pub classes: u32,
    pub after_rounds: u32,
    pub today_rounds: u32,
}

/// The item that is met, and W.
type Refusal = (u32, u32);

fn item(number: u32) -> Result<(), Refusal> {
    Err((number, 0))
}

// ---- sets of slots

#[derive(Clone, Copy, PartialEq)]
pub struct Set([u64; 4]);

impl Set {
    const NONE: Set = Set([0; 4]);
    const FULL: Set = Set([!0; 4]);

    fn read(bytes: &[u8]) -> Set {
        let word = |i: usize| u64::from_le_bytes(bytes[8 * i..8 * i + 8].try_into().unwrap());
        Set([word(0), word(1), word(2), word(3)])
    }

    fn write(self, bytes: &mut [u8]) {
        for (chunk, word) in bytes.chunks_exact_mut(8).zip(self.0) {
            chunk.copy_from_slice(&word.to_le_bytes());
        }
    }

    fn only(slot: usize) -> Set {
        let mut set = Set::NONE;
        set.insert(slot);
        set
    }

    fn has(&self, slot: usize) -> bool {
        self.0[slot / 64] >> (slot % 64) & 1 == 1
    }

    fn insert(&mut self, slot: usize) {
        self.0[slot / 64] |= 1 << (slot % 64);
    }

    fn is_empty(&self) -> bool {
        *self == Set::NONE
    }

    fn meets(self, other: Set) -> bool {
        !(self & other).is_empty()
    }

    fn inside(self, other: Set) -> bool {
        (self & !other).is_empty()
    }

    pub fn count(&self) -> u32 {
        self.0.iter().map(|w| w.count_ones()).sum()
    }

    fn slots(self) -> impl Iterator<Item = usize> {
        self.0.into_iter().enumerate().flat_map(|(i, mut word)| {
            std::iter::from_fn(move || {
                let bit = word.trailing_zeros() as usize;
                if bit == 64 {
                    return None;
                }
                word &= word - 1;
                Some(64 * i + bit)
            })
        })
    }
}

impl BitAnd for Set {
    type Output = Set;
    fn bitand(self, o: Set) -> Set {
        Set([self.0[0] & o.0[0], self.0[1] & o.0[1], self.0[2] & o.0[2], self.0[3] & o.0[3]])
    }
}

impl BitOr for Set {
    type Output = Set;
    fn bitor(self, o: Set) -> Set {
        Set([self.0[0] | o.0[0], self.0[1] | o.0[1], self.0[2] | o.0[2], self.0[3] | o.0[3]])
    }
}

impl Not for Set {
    type Output = Set;
    fn not(self) -> Set {
        Set([!self.0[0], !self.0[1], !self.0[2], !self.0[3]])
    }
}

// ---- the site

/// Where the target of a slot stands, for a functional link.
fn target_at(f: usize, s: usize) -> usize {
    TARGETS_AT + SLOTS * (f - GENERAL) + s
}

/// Where the targets of a slot stand, for a general link.
fn row_at(m: usize, s: usize) -> usize {
    ROWS_AT + ROWS * m + SET * s
}

#[derive(Clone, Copy)]
struct Site<'a>(&'a [u8; SITE]);

impl<'a> Site<'a> {
    fn present(self) -> Set {
        Set::read(&self.0[..SET])
    }

    fn label(self, p: usize) -> Set {
        Set::read(&self.0[LABELS_AT + SET * p..])
    }

    fn name(self, n: usize) -> usize {
        self.0[NAMES_AT + n] as usize
    }

    /// The targets of the functional link f.
    fn targets(self, f: usize) -> &'a [u8; SLOTS] {
        let at = target_at(f, 0);
        self.0[at..at + SLOTS].try_into().unwrap()
    }

    fn row(self, m: usize, s: usize) -> Set {
        Set::read(&self.0[row_at(m, s)..])
    }

    /// Items 3 to 6.
    fn check(bytes: &'a [u8]) -> Result<Site<'a>, Refusal> {
        let Ok(bytes) = bytes.try_into() else { return Err((3, 0)) };
        let site = Site(bytes);
        let present = site.present();
        if !present.has(0) || site.name(0) != 0 || !(0..NAMES).all(|n| present.has(site.name(n))) {
            item(4)?;
        }
        let on_site = present & !Set::only(0);
        if !(0..LABELS).all(|p| site.label(p).inside(on_site)) {
            item(5)?;
        }
        let row_fits = |m, s| site.row(m, s).inside(if on_site.has(s) { on_site } else { Set::NONE });
        let target_fits = |s, t: usize| t == 0 || on_site.has(s) && on_site.has(t);
        let general = (0..GENERAL).all(|m| (0..SLOTS).all(|s| row_fits(m, s)));
        let functional = (GENERAL..LINKS).all(|f| site.targets(f).iter().enumerate().all(|(s, &t)| target_fits(s, t as usize)));
        if !general || !functional {
            item(6)?;
        }
        Ok(site)
    }
}

// ---- the condition

#[derive(Clone, Copy)]
struct Node {
    kind: u8,
    param: u8,
    left: u16,
    right: u16,
}

impl Node {
    fn read(b: &[u8]) -> Node {
        Node { kind: b[0], param: b[1], left: u16::from_le_bytes([b[2], b[3]]), right: u16::from_le_bytes([b[4], b[5]]) }
    }

    fn write(self, b: &mut [u8]) {
        let (l, r) = (self.left.to_le_bytes(), self.right.to_le_bytes());
        b.copy_from_slice(&[self.kind, self.param, l[0], l[1], r[0], r[1]]);
    }

    fn fits(self, number: usize) -> bool {
        let (params, left, right) = match self.kind {
            0 | 1 => (1, false, false),
            2 => (LABELS, false, false),
            3 => (NAMES, false, false),
            4 => (VARIABLES, false, false),
            5 => (1, true, false),
            6 | 7 => (1, true, true),
            8 | 9 => (E + 1, true, false),
            10 | 11 => (VARIABLES, true, false),
            12 => (SLOTS, false, false),
            _ => return false,
        };
        let child = |used: bool, c: u16| if used { (c as usize) < number } else { c == 0 };
        (self.param as usize) < params && child(left, self.left) && child(right, self.right)
    }
}

/// The nodes, and the variables that are free in each.
struct Condition {
    nodes: Vec<Node>,
    free: Vec<u16>,
}

impl Condition {
    /// Items 7 to 10.
    fn check(bytes: &[u8]) -> Result<Condition, Refusal> {
        if bytes.is_empty() || bytes.len() % NODE != 0 || bytes.len() > TABLE {
            return Err((7, 0));
        }
        let nodes: Vec<Node> = bytes.chunks_exact(NODE).map(Node::read).collect();
        if let Some(w) = nodes.iter().enumerate().position(|(i, n)| !n.fits(i)) {
            return Err((8, w as u32));
        }
        let free = Condition::free(&nodes)?;
        if *free.last().unwrap() != 0 {
            return Err((10, nodes.len() as u32 - 1));
        }
        Ok(Condition { nodes, free })
    }

    /// The free variables of each node, from those under an even and under an odd number of nots. Item 9.
    fn free(nodes: &[Node]) -> Result<Vec<u16>, Refusal> {
        let mut masks: Vec<(u16, u16)> = Vec::with_capacity(nodes.len());
        for (i, n) in nodes.iter().enumerate() {
            let bit = 1u16.checked_shl(n.param as u32).unwrap_or(0);
            let (l, r) = (n.left as usize, n.right as usize);
            masks.push(match n.kind {
                4 => (bit, 0),
                5 => (masks[l].1, masks[l].0),
                6 | 7 => (masks[l].0 | masks[r].0, masks[l].1 | masks[r].1),
                8 | 9 => masks[l],
                10 | 11 if masks[l].1 & bit != 0 => return Err((9, i as u32)),
                10 | 11 => (masks[l].0 & !bit, masks[l].1 & !bit),
                _ => (0, 0),
            });
        }
        Ok(masks.into_iter().map(|(even, odd)| even | odd).collect())
    }
}

// ---- listing

struct Lister<'a> {
    site: Site<'a>,
    condition: &'a Condition,
    sets: Vec<Set>,
    rounds: Vec<u32>,
    known: Vec<bool>,
    variables: [Set; VARIABLES],
    made: u32,
    limit: u32,
}

impl Lister<'_> {
    /// The set and the rounds. Item 15.
    fn list(site: Site, condition: &Condition, limit: u32) -> Result<(Set, u32), Refusal> {
        let n = condition.nodes.len();
        let (sets, rounds, known) = (vec![Set::NONE; n], vec![0; n], vec![false; n]);
        let mut lister = Lister { site, condition, sets, rounds, known, variables: [Set::NONE; VARIABLES], made: 0, limit };
        let set = lister.set(n - 1);
        if lister.over() { Err((15, 0)) } else { Ok((set, lister.made)) }
    }

    /// Whether the rounds made so far are too many. The sets then do not matter any more, and nothing is begun.
    fn over(&self) -> bool {
        self.made > self.limit
    }

    fn make(&mut self, rounds: u32) {
        self.made = self.made.saturating_add(rounds);
    }

    fn set(&mut self, i: usize) -> Set {
        if self.known[i] {
            self.make(self.rounds[i]);
        } else {
            let before = self.made;
            self.sets[i] = self.compute(i);
            self.rounds[i] = self.made - before;
            self.known[i] = true;
        }
        self.sets[i]
    }

    fn compute(&mut self, i: usize) -> Set {
        let n = self.condition.nodes[i];
        let (p, l, r) = (n.param as usize, n.left as usize, n.right as usize);
        match n.kind {
            0 => Set::FULL,
            1 => self.site.present(),
            2 => self.site.label(p),
            3 => Set::only(self.site.name(p)),
            4 => self.variables[p],
            5 => !self.set(l),
            6 | 7 => {
                let t = self.set(l);
                match n.kind {
                    _ if self.over() => t,
                    6 => t | self.set(r),
                    _ => t & self.set(r),
                }
            }
            8 => {
                let t = self.set(l);
                self.diamond(p, t)
            }
            9 => {
                let t = self.set(l);
                !self.diamond(p, !t)
            }
            10 => self.fixpoint(p, l, Set::NONE),
            11 => self.fixpoint(p, l, Set::FULL),
            _ => Set::only(p),
        }
    }

    fn fixpoint(&mut self, variable: usize, body: usize, start: Set) -> Set {
        let old = self.variables[variable];
        let mut set = start;
        loop {
            self.make(1);
            self.assign(variable, body, set);
            let next = self.set(body);
            if next == set || self.over() {
                break;
            }
            set = next;
        }
        self.assign(variable, body, old);
        set
    }

    /// The nodes of a loop's body are not above it, so the flags of the others stay.
    fn assign(&mut self, variable: usize, body: usize, set: Set) {
        self.variables[variable] = set;
        for (known, free) in self.known[..=body].iter_mut().zip(&self.condition.free) {
            *known &= free >> variable & 1 == 0;
        }
    }

    fn diamond(&self, way: usize, set: Set) -> Set {
        let (site, link) = (self.site, way % LINKS);
        let mut found = Set::NONE;
        match way {
            0..GENERAL => site.present().slots().filter(|&s| site.row(link, s).meets(set)).for_each(|s| found.insert(s)),
            GENERAL..LINKS => {
                for (s, &t) in site.targets(link).iter().enumerate() {
                    if t != 0 && set.has(t as usize) {
                        found.insert(s);
                    }
                }
            }
            _ if way < LINKS + GENERAL => set.slots().for_each(|s| found = found | site.row(link, s)),
            _ if way < E => {
                let targets = site.targets(link);
                for t in set.slots().map(|s| targets[s] as usize) {
                    if t != 0 {
                        found.insert(t);
                    }
                }
            }
            _ if !set.is_empty() => found = Set::FULL,
            _ => {}
        }
        found
    }
}

// ---- the sheet

#[derive(Clone, Copy)]
enum Edit {
    Cn1(u8, u8),
    Cn2(u8, u8, u8),
    Ap(u8, u8),
    Dp(u8, u8),
    At(u8, u8, u8),
    Dt1(u8, u8, u8),
    Dt2(u8, u8),
    As(u8, u8),
    Ds(u8),
    /// AT of a functional link in edition 2, which replaces the target.
    Rt(u8, u8, u8),
}

impl Edit {
    fn read(b: &[u8], edition: u32) -> Option<Edit> {
        let (x, y, z) = (b[1], b[2], b[3]);
        let below = |x: u8, limit: usize| (x as usize) < limit;
        let (name, label, link) = (|n| below(n, NAMES), |p| below(p, LABELS), |m| below(m, LINKS));
        let (moved, functional) = (|n| n > 0 && name(n), |f| link(f) && !below(f, GENERAL));
        Some(match b[0] {
            0 if moved(x) && name(y) && z == 0 => Edit::Cn1(x, y),
            1 if moved(x) && name(y) && functional(z) => Edit::Cn2(x, y, z),
            2 if name(x) && label(y) && z == 0 => Edit::Ap(x, y),
            3 if name(x) && label(y) && z == 0 => Edit::Dp(x, y),
            4 if functional(x) && name(y) && name(z) && edition == SECOND => Edit::Rt(x, y, z),
            4 if link(x) && name(y) && name(z) => Edit::At(x, y, z),
            5 if link(x) && name(y) && name(z) => Edit::Dt1(x, y, z),
            6 if functional(x) && name(y) && z == 0 => Edit::Dt2(x, y),
            7 if moved(x) && z == 0 => Edit::As(x, y),
            8 if name(x) && y == 0 && z == 0 => Edit::Ds(x),
            _ => return None,
        })
    }
}

/// Items 11 and 12.
fn read_sheet(bytes: &[u8], edition: u32) -> Result<Vec<Edit>, Refusal> {
    if bytes.len() % 4 != 0 || bytes.len() > 256 {
        return Err((11, 0));
    }
    bytes.chunks_exact(4).enumerate().map(|(k, b)| Edit::read(b, edition).ok_or((12, k as u32))).collect()
}

fn bit(s: usize) -> u8 {
    1 << (s % 8)
}

/// Does the edit to the site's bytes, or says that it does not go through.
fn apply_edit(site: &mut [u8], edit: Edit) -> bool {
    let name = |n: u8| NAMES_AT + n as usize;
    let at = |site: &[u8], n: u8| site[name(n)] as usize;
    let label = |p: u8, s: usize| LABELS_AT + SET * p as usize + s / 8;
    match edit {
        Edit::Cn1(n1, n2) => site[name(n1)] = site[name(n2)],
        Edit::Cn2(n1, n2, f) => site[name(n1)] = site[target_at(f as usize, at(site, n2))],
        Edit::Ap(n, p) => {
            let s = at(site, n);
            if s != 0 {
                site[label(p, s)] |= bit(s);
            }
        }
        Edit::Dp(n, p) => {
            let s = at(site, n);
            site[label(p, s)] &= !bit(s);
        }
        Edit::At(m, n1, n2) => return add_link(site, m as usize, at(site, n1), at(site, n2)),
        Edit::Rt(f, n1, n2) => return replace_target(site, f as usize, at(site, n1), at(site, n2)),
        Edit::Dt1(m, n1, n2) => remove_link(site, m as usize, at(site, n1), at(site, n2)),
        Edit::Dt2(f, n) => site[target_at(f as usize, at(site, n))] = 0,
        Edit::As(n, k) => {
            let k = k as usize;
            if site[k / 8] & bit(k) != 0 {
                return false;
            }
            site[k / 8] |= bit(k);
            site[name(n)] = k as u8;
        }
        Edit::Ds(n) => {
            let s = at(site, n);
            if s == 0 {
                return false;
            }
            delete_slot(site, s);
        }
    }
    true
}

/// A slot has one target by a functional link, and no other takes its place.
fn add_link(site: &mut [u8], m: usize, s: usize, t: usize) -> bool {
    if s == 0 || t == 0 {
        return false;
    }
    if m < GENERAL {
        site[row_at(m, s) + t / 8] |= bit(t);
        return true;
    }
    let old = &mut site[target_at(m, s)];
    if *old != 0 && *old as usize != t {
        return false;
    }
    *old = t as u8;
    true
}

fn replace_target(site: &mut [u8], f: usize, s: usize, t: usize) -> bool {
    if s == 0 || t == 0 {
        return false;
    }
    site[target_at(f, s)] = t as u8;
    true
}

fn remove_link(site: &mut [u8], m: usize, s: usize, t: usize) {
    if m < GENERAL {
        site[row_at(m, s) + t / 8] &= !bit(t);
    } else if site[target_at(m, s)] as usize == t {
        site[target_at(m, s)] = 0;
    }
}

fn delete_slot(site: &mut [u8], s: usize) {
    let keep = !bit(s);
    site[s / 8] &= keep;
    for p in 0..LABELS {
        site[LABELS_AT + SET * p + s / 8] &= keep;
    }
    for place in &mut site[NAMES_AT..ROWS_AT] {
        if *place as usize == s {
            *place = 0;
        }
    }
    for f in GENERAL..LINKS {
        site[target_at(f, s)] = 0;
    }
    for rows in site[ROWS_AT..].chunks_exact_mut(ROWS) {
        rows[SET * s..SET * (s + 1)].fill(0);
        for row in rows.chunks_exact_mut(SET) {
            row[s / 8] &= keep;
        }
    }
}

/// Item 13.
fn apply_sheet(site: &mut [u8], sheet: &[Edit]) -> Result<(), Refusal> {
    match sheet.iter().position(|&edit| !apply_edit(site, edit)) {
        Some(w) => Err((13, w as u32)),
        None => Ok(()),
    }
}

// ---- rewriting

/// What an edit does to the neighbours by a way.
enum Change {
    Keep,
    Added(u8, u8),
    Removed(u8, u8),
    NoneFrom(u8),
    NoneTo(u8),
    NoneAt(u8),
    /// The first has no neighbour but the second.
    OneFrom(u8, u8),
    /// The first is a neighbour of the second alone.
    OneTo(u8, u8),
}

fn change(edit: Edit, way: u8) -> Change {
    let (link, reverse) = (way % LINKS as u8, way >= LINKS as u8);
    match edit {
        _ if way as usize == E => Change::Keep,
        Edit::Ds(n) => Change::NoneAt(n),
        Edit::At(m, a, b) if link == m && reverse => Change::Added(b, a),
        Edit::At(m, a, b) if link == m => Change::Added(a, b),
        Edit::Rt(f, a, b) if link == f && reverse => Change::OneTo(a, b),
        Edit::Rt(f, a, b) if link == f => Change::OneFrom(a, b),
        Edit::Dt1(m, a, b) if link == m && reverse => Change::Removed(b, a),
        Edit::Dt1(m, a, b) if link == m => Change::Removed(a, b),
        Edit::Dt2(f, n) if link == f && reverse => Change::NoneTo(n),
        Edit::Dt2(f, n) if link == f => Change::NoneFrom(n),
        _ => Change::Keep,
    }
}

struct Table(Vec<Node>);

impl Table {
    fn push(&mut self, kind: u8, param: u8, left: u16, right: u16) -> u16 {
        self.0.push(Node { kind, param, left, right });
        self.0.len() as u16 - 1
    }

    fn name(&mut self, n: u8) -> u16 {
        self.push(3, n, 0, 0)
    }

    fn not(&mut self, a: u16) -> u16 {
        self.push(5, 0, a, 0)
    }

    fn or(&mut self, a: u16, b: u16) -> u16 {
        self.push(6, 0, a, b)
    }

    fn and(&mut self, a: u16, b: u16) -> u16 {
        self.push(7, 0, a, b)
    }

    fn diamond(&mut self, way: u8, a: u16) -> u16 {
        self.push(8, way, a, 0)
    }

    fn boxed(&mut self, way: u8, a: u16) -> u16 {
        self.push(9, way, a, 0)
    }

    /// `old n ! &`
    fn except(&mut self, old: u16, n: u8) -> u16 {
        let n = self.name(n);
        let other = self.not(n);
        self.and(old, other)
    }

    /// `p n nil ! & |`
    fn marked(&mut self, p: u8, n: u8) -> u16 {
        let label = self.push(2, p, 0, 0);
        let n = self.name(n);
        let on_site = self.except(n, 0);
        self.or(label, on_site)
    }

    fn moved_name(&mut self, n2: u8, f: u8) -> u16 {
        let from = self.name(n2);
        let reached = self.diamond(f + LINKS as u8, from);
        let nil = self.name(0);
        let from = self.name(n2);
        let all = self.push(0, 0, 0, 0);
        let leads = self.diamond(f, all);
        let both = self.and(from, leads);
        let some = self.diamond(E as u8, both);
        let no = self.not(some);
        let there = self.and(nil, no);
        self.or(reached, there)
    }

    fn orphaned_name(&mut self, y: u8, n: u8) -> u16 {
        let old = self.name(y);
        let kept = self.except(old, n);
        let nil = self.name(0);
        let n = self.name(n);
        let y = self.name(y);
        let both = self.and(n, y);
        let some = self.diamond(E as u8, both);
        let there = self.and(nil, some);
        self.or(kept, there)
    }

    fn leaf(&mut self, edit: Edit, node: Node) -> u16 {
        let p = node.param;
        match (node.kind, edit) {
            (1, Edit::As(_, k)) => {
                let here = self.push(1, 0, 0, 0);
                let slot = self.push(12, k, 0, 0);
                self.or(here, slot)
            }
            (1, Edit::Ds(n)) => {
                let here = self.push(1, 0, 0, 0);
                self.except(here, n)
            }
            (2, Edit::Ap(n, q)) if p == q => self.marked(p, n),
            (2, Edit::Dp(n, q)) if p == q => {
                let label = self.push(2, p, 0, 0);
                self.except(label, n)
            }
            (2, Edit::Ds(n)) => {
                let label = self.push(2, p, 0, 0);
                self.except(label, n)
            }
            (3, Edit::Cn1(n1, n2)) if p == n1 => self.name(n2),
            (3, Edit::Cn2(n1, n2, f)) if p == n1 => self.moved_name(n2, f),
            (3, Edit::As(n, k)) if p == n => self.push(12, k, 0, 0),
            (3, Edit::Ds(n)) if p != 0 => self.orphaned_name(p, n),
            _ => self.push(node.kind, p, 0, 0),
        }
    }

    /// `n ! T <w> &`
    fn diamond_off(&mut self, w: u8, t: u16, n: u8) -> u16 {
        let n = self.name(n);
        let other = self.not(n);
        let old = self.diamond(w, t);
        self.and(other, old)
    }

    /// `n ! T & <w>`
    fn diamond_past(&mut self, w: u8, t: u16, n: u8) -> u16 {
        let n = self.name(n);
        let other = self.not(n);
        let rest = self.and(other, t);
        self.diamond(w, rest)
    }

    /// `old a b T & <E> & |`
    fn or_leads(&mut self, old: u16, a: u8, b: u8, t: u16) -> u16 {
        let a = self.name(a);
        let b = self.name(b);
        let hit = self.and(b, t);
        let some = self.diamond(E as u8, hit);
        let new = self.and(a, some);
        self.or(old, new)
    }

    fn diamond_after(&mut self, edit: Edit, w: u8, t: u16) -> u16 {
        match change(edit, w) {
            Change::Keep => self.diamond(w, t),
            Change::Added(a, b) => {
                let old = self.diamond(w, t);
                self.or_leads(old, a, b, t)
            }
            Change::Removed(a, b) => {
                let elsewhere = self.diamond_off(w, t, a);
                let past = self.diamond_past(w, t, b);
                self.or(elsewhere, past)
            }
            Change::NoneFrom(n) => self.diamond_off(w, t, n),
            Change::NoneTo(n) => self.diamond_past(w, t, n),
            Change::NoneAt(n) => {
                let a = self.name(n);
                let other = self.not(a);
                let past = self.diamond_past(w, t, n);
                self.and(other, past)
            }
            Change::OneFrom(a, b) => {
                let old = self.diamond_off(w, t, a);
                self.or_leads(old, a, b, t)
            }
            Change::OneTo(a, b) => {
                let old = self.diamond_past(w, t, a);
                self.or_leads(old, b, a, t)
            }
        }
    }

    /// `n T [w] |`
    fn box_off(&mut self, w: u8, t: u16, n: u8) -> u16 {
        let n = self.name(n);
        let old = self.boxed(w, t);
        self.or(n, old)
    }

    /// `n T | [w]`
    fn box_past(&mut self, w: u8, t: u16, n: u8) -> u16 {
        let n = self.name(n);
        let rest = self.or(n, t);
        self.boxed(w, rest)
    }

    /// `old a ! b ! T | [E] | &`
    fn and_leads(&mut self, old: u16, a: u8, b: u8, t: u16) -> u16 {
        let a = self.name(a);
        let other = self.not(a);
        let b = self.name(b);
        let not_b = self.not(b);
        let hit = self.or(not_b, t);
        let all = self.boxed(E as u8, hit);
        let new = self.or(other, all);
        self.and(old, new)
    }

    fn box_after(&mut self, edit: Edit, w: u8, t: u16) -> u16 {
        match change(edit, w) {
            Change::Keep => self.boxed(w, t),
            Change::Added(a, b) => {
                let old = self.boxed(w, t);
                self.and_leads(old, a, b, t)
            }
            Change::Removed(a, b) => {
                let at_a = self.box_off(w, t, a);
                let past = self.box_past(w, t, b);
                self.and(at_a, past)
            }
            Change::NoneFrom(n) => self.box_off(w, t, n),
            Change::NoneTo(n) => self.box_past(w, t, n),
            Change::NoneAt(n) => {
                let a = self.name(n);
                let past = self.box_past(w, t, n);
                self.or(a, past)
            }
            Change::OneFrom(a, b) => {
                let old = self.box_off(w, t, a);
                self.and_leads(old, a, b, t)
            }
            Change::OneTo(a, b) => {
                let old = self.box_past(w, t, a);
                self.and_leads(old, b, a, t)
            }
        }
    }

    /// `a b & <E> !`: no slot is in both.
    fn apart(&mut self, a: u16, b: u16) -> u16 {
        let both = self.and(a, b);
        let some = self.diamond(E as u8, both);
        self.not(some)
    }

    fn not_nil(&mut self, n: u8) -> u16 {
        let n = self.name(n);
        let nil = self.name(0);
        self.apart(n, nil)
    }

    /// Neither is nil.
    fn on_site(&mut self, n1: u8, n2: u8) -> u16 {
        let from = self.not_nil(n1);
        let to = self.not_nil(n2);
        self.and(from, to)
    }

    /// @n1 has no f-target, or has @n2.
    fn target_fits(&mut self, f: u8, n1: u8, n2: u8) -> u16 {
        let from = self.name(n1);
        let all = self.push(0, 0, 0, 0);
        let leads = self.diamond(f, all);
        let free = self.apart(from, leads);
        let from = self.name(n1);
        let to = self.name(n2);
        let leads = self.diamond(f, to);
        let both = self.and(from, leads);
        let there = self.diamond(E as u8, both);
        self.or(free, there)
    }

    /// The edit's own condition; none for an edit that always goes through.
    fn goes(&mut self, edit: Edit) -> Option<u16> {
        match edit {
            Edit::At(m, n1, n2) if m as usize >= GENERAL => {
                let ends = self.on_site(n1, n2);
                let fits = self.target_fits(m, n1, n2);
                Some(self.and(ends, fits))
            }
            Edit::At(_, n1, n2) | Edit::Rt(_, n1, n2) => Some(self.on_site(n1, n2)),
            Edit::As(_, k) => {
                let here = self.push(1, 0, 0, 0);
                let slot = self.push(12, k, 0, 0);
                Some(self.apart(here, slot))
            }
            Edit::Ds(n) => Some(self.not_nil(n)),
            _ => None,
        }
    }

    /// The table, and the edit's own condition behind it.
    fn and_goes(&mut self, edit: Edit) {
        let older = self.0.len() as u16 - 1;
        if let Some(own) = self.goes(edit) {
            self.and(older, own);
        }
    }

    /// Each old node's block, in order.
    fn rewrite(&mut self, old: &[Node], edit: Edit, images: &mut Vec<u16>) {
        self.0.clear();
        images.clear();
        for &node in old {
            let p = node.param;
            let image = match node.kind {
                5 => self.not(images[node.left as usize]),
                6 | 7 => self.push(node.kind, p, images[node.left as usize], images[node.right as usize]),
                8 => self.diamond_after(edit, p, images[node.left as usize]),
                9 => self.box_after(edit, p, images[node.left as usize]),
                10 | 11 => self.push(node.kind, p, images[node.left as usize], 0),
                _ => self.leaf(edit, node),
            };
            images.push(image);
        }
    }
}

/// Item 14. The last edit is taken first: each table is rewritten through it, and then `close` puts behind it what else is wanted.
fn over_sheet(nodes: &[Node], sheet: &[Edit], close: impl Fn(&mut Table, Edit)) -> Result<Vec<Node>, Refusal> {
    let (mut now, mut next) = (Table(nodes.to_vec()), Table(Vec::with_capacity(NODES)));
    let mut images = Vec::with_capacity(NODES);
    for &edit in sheet.iter().rev() {
        next.rewrite(&now.0, edit, &mut images);
        close(&mut next, edit);
        if next.0.len() > NODES {
            return Err((14, 0));
        }
        std::mem::swap(&mut now, &mut next);
    }
    Ok(now.0)
}

fn rewrite_sheet(nodes: &[Node], sheet: &[Edit]) -> Result<Vec<Node>, Refusal> {
    over_sheet(nodes, sheet, |_, _| {})
}

/// The condition for going through: true, and each edit's own condition.
fn through_sheet(sheet: &[Edit]) -> Result<Vec<Node>, Refusal> {
    over_sheet(&[Node { kind: 0, param: 0, left: 0, right: 0 }], sheet, Table::and_goes)
}

fn write_table(nodes: &[Node], out: &mut [u8]) {
    for (chunk, node) in out.chunks_exact_mut(NODE).zip(nodes) {
        node.write(chunk);
    }
    out[NODE * nodes.len()..].fill(0);
}

// ---- classes

type Classes = [u8; SLOTS];

/// Each class, split by the keys of its slots. A class has its lowest slot as its number; `next` leads to those split off it, and
/// slot 0 is never one of these.
fn split<K: PartialEq>(classes: &Classes, keys: &[K; SLOTS]) -> Classes {
    let (mut new, mut next) = (*classes, [0u8; SLOTS]);
    for s in 0..SLOTS {
        let mut class = classes[s] as usize;
        while keys[class] != keys[s] {
            if next[class] == 0 {
                next[class] = s as u8;
            }
            class = next[class] as usize;
        }
        new[s] = class as u8;
    }
    new
}

/// The neighbours of each slot, for the ways of links that are there.
fn neighbours(site: Site) -> Vec<[Set; SLOTS]> {
    let mut ways = Vec::with_capacity(E);
    for m in 0..LINKS {
        let (mut there, mut back) = ([Set::NONE; SLOTS], [Set::NONE; SLOTS]);
        for s in site.present().slots() {
            if m < GENERAL {
                there[s] = site.row(m, s);
            } else if site.targets(m)[s] != 0 {
                there[s].insert(site.targets(m)[s] as usize);
            }
            there[s].slots().for_each(|t| back[t].insert(s));
        }
        if there.iter().any(|row| !row.is_empty()) {
            ways.extend([there, back]);
        }
    }
    ways
}

/// The classes that a row meets. The lowest slot of each class stands for it; the other slots are taken one by one, or class by class
/// where that is less.
fn seen(row: Set, classes: &Classes, lowest: Set, members: &[(usize, Set)]) -> Set {
    let (mut found, others) = (row & lowest, row & !lowest);
    if (others.count() as usize) < members.len() {
        others.slots().for_each(|t| found.insert(classes[t] as usize));
    } else {
        members.iter().filter(|(_, set)| set.meets(others)).for_each(|&(class, _)| found.insert(class));
    }
    found
}

/// The classes of more than one slot, and the lowest slots of all.
fn members(classes: &Classes) -> (Vec<(usize, Set)>, Set) {
    let (mut sets, mut lowest) = ([Set::NONE; SLOTS], Set::NONE);
    for (s, &class) in classes.iter().enumerate() {
        sets[class as usize].insert(s);
        lowest.insert(class as usize);
    }
    (lowest.slots().map(|class| (class, sets[class])).filter(|(_, set)| set.count() > 1).collect(), lowest)
}

// A slot's labels are one word in `refine`, and so are its names.
const _: () = assert!(LABELS <= 64 && NAMES <= 64);

/// Rounds of refinement, until one changes nothing.
fn refine(site: Site) -> Classes {
    let marks: [[u64; 3]; SLOTS] = std::array::from_fn(|s| {
        let labels = (0..LABELS).fold(0, |bits, p| bits | (site.label(p).has(s) as u64) << p);
        let names = (0..NAMES).fold(0, |bits, n| bits | ((site.name(n) == s) as u64) << n);
        [site.present().has(s) as u64, labels, names]
    });
    let ways = neighbours(site);
    let mut classes = split(&[0; SLOTS], &marks);
    loop {
        let (members, lowest) = members(&classes);
        let mut new = classes;
        for rows in &ways {
            let keys: [Set; SLOTS] = std::array::from_fn(|s| seen(rows[s], &classes, lowest, &members));
            new = split(&new, &keys);
        }
        if new == classes {
            return classes;
        }
        classes = new;
    }
}

fn different(classes: &Classes) -> u32 {
    let mut seen = Set::NONE;
    classes.iter().for_each(|&c| seen.insert(c as usize));
    seen.count()
}

// ---- the chain

/// A chain to the goal, start first; or all slots that can be reached.
enum Search {
    Chain(Vec<u8>),
    Reached(Set),
}

/// A functional link leaves no choice.
fn follow(targets: &[u8; SLOTS], start: usize, goal: Set) -> Search {
    let (mut chain, mut seen, mut s) = (Vec::with_capacity(SLOTS), Set::NONE, start);
    loop {
        chain.push(s as u8);
        seen.insert(s);
        if goal.has(s) {
            return Search::Chain(chain);
        }
        s = targets[s] as usize;
        if s == 0 || seen.has(s) {
            return Search::Reached(seen);
        }
    }
}

/// The chain that ends at this slot, from the slot before each.
fn traced(before: &[u8; SLOTS], start: usize, last: usize) -> Vec<u8> {
    let (mut chain, mut s) = (Vec::with_capacity(SLOTS), last);
    chain.push(s as u8);
    while s != start {
        s = before[s] as usize;
        chain.push(s as u8);
    }
    chain.reverse();
    chain
}

/// Slots wait in the order of their best chains: the shorter first, and of equal ones the one with the lower slot at the first difference. The new
/// neighbours of a slot come in from the lowest up, which keeps that order. So the first slot that leads to the goal is the one to take.
fn search(start: usize, goal: Set, neighbours: impl Fn(usize) -> Set) -> Search {
    if goal.has(start) {
        return Search::Chain(vec![start as u8]);
    }
    let (mut queue, mut queued, mut taken) = ([start as u8; SLOTS], 1, 0);
    let (mut before, mut seen) = ([0; SLOTS], Set::only(start));
    while taken < queued {
        let s = queue[taken];
        taken += 1;
        let next = neighbours(s as usize);
        if let Some(last) = (next & goal).slots().next() {
            before[last] = s;
            return Search::Chain(traced(&before, start, last));
        }
        (next & !seen).slots().for_each(|t| {
            before[t] = s;
            queue[queued] = t as u8;
            queued += 1;
        });
        seen = seen | next;
    }
    Search::Reached(seen)
}

/// By the reverse of a general link the rows lead from the goal to the start. So layers of slots are made around the goal, one for each number of
/// steps. Where none has the start, the rows are turned over for a search from there.
fn search_back(site: Site, m: usize, start: usize, goal: Set) -> Search {
    let (mut layers, mut layer, mut seen) = (Vec::with_capacity(SLOTS), goal, goal);
    while !layer.has(start) {
        if layer.is_empty() {
            let reversed = reversed_rows(site, m);
            return search(start, goal, |s| reversed[s]);
        }
        let next = layer.slots().fold(Set::NONE, |rows, s| rows | site.row(m, s));
        layers.push(layer);
        layer = next & !seen;
        seen = seen | next;
    }
    let (mut chain, mut s) = (Vec::with_capacity(SLOTS), start);
    chain.push(s as u8);
    for layer in layers.into_iter().rev() {
        s = layer.slots().find(|&t| site.row(m, t).has(s)).unwrap();
        chain.push(s as u8);
    }
    Search::Chain(chain)
}

/// Turns a block of bits over: bit j of word i becomes bit i of word j. Quarters change places, then quarters of quarters, down to single bits.
fn transpose(block: &mut [u64; 64]) {
    let (mut width, mut low) = (32, u32::MAX as u64);
    while width > 0 {
        for pair in block.chunks_exact_mut(2 * width) {
            let (upper, lower) = pair.split_at_mut(width);
            for (a, b) in upper.iter_mut().zip(lower) {
                let differ = (*a >> width ^ *b) & low;
                *a ^= differ << width;
                *b ^= differ;
            }
        }
        width /= 2;
        low ^= low << width;
    }
}

/// The neighbours of each slot by the reverse of a general link. Whole blocks are turned over, since a dense link has too many arcs to take one by
/// one.
fn reversed_rows(site: Site, m: usize) -> [Set; SLOTS] {
    let mut reversed = [Set::NONE; SLOTS];
    for (i, j) in (0..4).flat_map(|i| (0..4).map(move |j| (i, j))) {
        let mut block = std::array::from_fn(|k| site.row(m, 64 * i + k).0[j]);
        transpose(&mut block);
        for (set, word) in reversed[64 * j..].iter_mut().zip(block) {
            set.0[i] = word;
        }
    }
    reversed
}

/// The same for a functional link.
fn reversed_targets(targets: &[u8; SLOTS]) -> [Set; SLOTS] {
    let mut reversed = [Set::NONE; SLOTS];
    for (s, &t) in targets.iter().enumerate().filter(|(_, &t)| t != 0) {
        reversed[t as usize].insert(s);
    }
    reversed
}

fn search_along(site: Site, way: usize, start: usize, goal: Set) -> Search {
    let (link, reverse) = (way % LINKS, way >= LINKS);
    match link {
        0..GENERAL if reverse => search_back(site, link, start, goal),
        0..GENERAL => search(start, goal, |s| site.row(link, s)),
        _ if reverse => {
            let reversed = reversed_targets(site.targets(link));
            search(start, goal, |s| reversed[s])
        }
        _ => follow(site.targets(link), start, goal),
    }
}

// ---- the seven functions

/// Item 1.
fn lengths(buffers: &[(&[u8], usize)]) -> Result<(), Refusal> {
    if buffers.iter().any(|(buffer, length)| buffer.len() != *length) {
        return Err((1, 0));
    }
    Ok(())
}

/// Item 16.
fn highest(limit: u32) -> Result<(), Refusal> {
    if limit > HIGHEST { item(16) } else { Ok(()) }
}

/// Item 18.
fn known(edition: u32) -> Result<(), Refusal> {
    if edition == FIRST || edition == SECOND { Ok(()) } else { item(18) }
}

pub fn list(site: &[u8], cond: &[u8], limit: u32, set: &mut [u8], work: &mut [u8]) -> Listed {
    let found = (|| {
        lengths(&[(set, SET), (work, WORK)])?;
        highest(limit)?;
        let site = Site::check(site)?;
        let condition = Condition::check(cond)?;
        Lister::list(site, &condition, limit)
    })();
    work.fill(0);
    match found {
        Ok((found, rounds)) => {
            found.write(set);
            Listed { reason: 0, place: 0, count: found.count(), rounds }
        }
        Err((reason, place)) => {
            set.fill(0);
            Listed { reason, place, count: 0, rounds: 0 }
        }
    }
}

pub fn apply(site: &[u8], sheet: &[u8], edition: u32, result: &mut [u8]) -> Applied {
    let done = (|| {
        lengths(&[(result, SITE)])?;
        known(edition)?;
        Site::check(site)?;
        let edits = read_sheet(sheet, edition)?;
        result.copy_from_slice(site);
        apply_sheet(result, &edits)
    })();
    let (reason, place) = done.err().unwrap_or((0, 0));
    if reason != 0 {
        result.fill(0);
    }
    Applied { reason, place }
}

/// The table in its buffer, or zeros.
fn write_answer(table: Result<Vec<Node>, Refusal>, result: &mut [u8]) -> Rewritten {
    match table {
        Ok(nodes) => {
            write_table(&nodes, result);
            Rewritten { reason: 0, place: 0, nodes: nodes.len() as u32 }
        }
        Err((reason, place)) => {
            result.fill(0);
            Rewritten { reason, place, nodes: 0 }
        }
    }
}

pub fn rewrite(cond: &[u8], sheet: &[u8], edition: u32, result: &mut [u8]) -> Rewritten {
    let table = (|| {
        lengths(&[(result, TABLE)])?;
        known(edition)?;
        let condition = Condition::check(cond)?;
        let edits = read_sheet(sheet, edition)?;
        rewrite_sheet(&condition.nodes, &edits)
    })();
    write_answer(table, result)
}

pub fn through(sheet: &[u8], edition: u32, result: &mut [u8]) -> Rewritten {
    let table = (|| {
        lengths(&[(result, TABLE)])?;
        known(edition)?;
        through_sheet(&read_sheet(sheet, edition)?)
    })();
    write_answer(table, result)
}

pub fn classes(site: &[u8], classes: &mut [u8]) -> Classed {
    let found = (|| {
        lengths(&[(classes, SLOTS)])?;
        Ok(refine(Site::check(site)?))
    })();
    match found {
        Ok(found) => {
            classes.copy_from_slice(&found);
            Classed { reason: 0, place: 0, count: different(&found) }
        }
        Err((reason, place)) => {
            classes.fill(0);
            Classed { reason, place, count: 0 }
        }
    }
}

/// Item 17.
fn way_and_start(site: Site, way: u32, start: u32) -> Result<(usize, usize), Refusal> {
    let (way, start) = (way as usize, start as usize);
    if way >= E || start >= SLOTS || !site.present().has(start) {
        return Err((17, 0));
    }
    Ok((way, start))
}

/// Items 3 to 10 and 17. The goal's list has no limit: its rounds are counted up to the highest number, which is not over itself.
fn run_chain(site: &[u8], cond: &[u8], way: u32, start: u32) -> Result<Search, Refusal> {
    let site = Site::check(site)?;
    let condition = Condition::check(cond)?;
    let (way, start) = way_and_start(site, way, start)?;
    let (goal, _) = Lister::list(site, &condition, u32::MAX)?;
    Ok(search_along(site, way, start, goal))
}

pub fn chain(site: &[u8], cond: &[u8], way: u32, start: u32, chain: &mut [u8], set: &mut [u8], work: &mut [u8]) -> Chained {
    let outcome = lengths(&[(chain, SLOTS), (set, SET), (work, WORK)]).and_then(|_| run_chain(site, cond, way, start));
    for buffer in [&mut *chain, &mut *set, work] {
        buffer.fill(0);
    }
    match outcome {
        Ok(Search::Chain(slots)) => {
            chain[..slots.len()].copy_from_slice(&slots);
            Chained { reason: 0, place: 0, found: 1, steps: slots.len() as u32 - 1 }
        }
        Ok(Search::Reached(reached)) => {
            reached.write(set);
            Chained { reason: 0, place: 0, found: 0, steps: 0 }
        }
        Err((reason, place)) => Chained { reason, place, found: 0, steps: 0 },
    }
}

/// The site, the condition and the sheet of a job file, and the edition. Items 2 and 18.
fn pieces(file: &[u8]) -> Result<([&[u8]; 3], u32), Refusal> {
    if file.len() < TRAILER || file.len() > FILE {
        return Err((2, 0));
    }
    let (body, trailer) = file.split_at(file.len() - TRAILER);
    let number = |i: usize| u32::from_le_bytes(trailer[NUMBER * i..NUMBER * (i + 1)].try_into().unwrap());
    let [sheet, condition, site] = [0, 1, 2].map(|i| number(i) as usize);
    if condition < sheet || site < condition || site != body.len() {
        return Err((2, 0));
    }
    let edition = number(3);
    known(edition)?;
    let (at, end) = (body.len() - condition, body.len() - sheet);
    Ok(([&body[..at], &body[at..end], &body[end..]], edition))
}

/// The buffers of a job.
pub struct Results<'a> {
    pub site: &'a mut [u8],
    pub table: &'a mut [u8],
    pub after: &'a mut [u8],
    pub today: &'a mut [u8],
    pub classes: &'a mut [u8],
    pub work: &'a mut [u8],
}

fn run_job(file: &[u8], limit: u32, out: &mut Results) -> Result<Done, Refusal> {
    lengths(&[(out.site, SITE), (out.table, TABLE), (out.after, SET), (out.today, SET), (out.classes, SLOTS), (out.work, WORK)])?;
    highest(limit)?;
    let ([site, cond, sheet], edition) = pieces(file)?;
    let today = Site::check(site)?;
    let condition = Condition::check(cond)?;
    let edits = read_sheet(sheet, edition)?;
    out.site.copy_from_slice(site);
    apply_sheet(out.site, &edits)?;
    let nodes = rewrite_sheet(&condition.nodes, &edits)?;
    write_table(&nodes, out.table);
    let rewritten = Condition { free: Condition::free(&nodes)?, nodes };
    let after = Site((&*out.site).try_into().unwrap());
    let (listed_after, after_rounds) = Lister::list(after, &condition, limit)?;
    let (listed_today, today_rounds) = Lister::list(today, &rewritten, limit)?;
    let classes = refine(after);
    listed_after.write(out.after);
    listed_today.write(out.today);
    out.classes.copy_from_slice(&classes);
    Ok(Done {
        reason: 0,
        place: 0,
        after: listed_after.count(),
        today: listed_today.count(),
        nodes: rewritten.nodes.len() as u32,
        classes: different(&classes),
        after_rounds,
        today_rounds,
    })
}

pub fn job(file: &[u8], limit: u32, mut out: Results) -> Done {
    let done = run_job(file, limit, &mut out);
    out.work.fill(0);
    done.unwrap_or_else(|(reason, place)| {
        for buffer in [out.site, out.table, out.after, out.today, out.classes] {
            buffer.fill(0);
        }
        Done { reason, place, after: 0, today: 0, nodes: 0, classes: 0, after_rounds: 0, today_rounds: 0 }
    })
}

//! The part `chain`. All inputs go through all sides first, and so do many more that are not timed.

use crate::desk::{E, GENERAL, LINKS, SITE, SLOTS};
use crate::{compared, inputs, measure_tables, Buffers, Call, Row};

/// A general and a functional link and their reverses, 0- and 4-. Where links branch they are general.
const WAYS: [(&str, usize); 4] = [("link 0", 0), ("link 0-", LINKS), ("link 4", GENERAL), ("link 4-", LINKS + GENERAL)];
const GENERAL_WAYS: [(&str, usize); 2] = [WAYS[0], WAYS[1]];

const LAST: usize = SLOTS - 1;

fn chain(site: &[u8], goal: &[u8], way: usize, start: usize) -> Call {
    Call::Chain(site.to_vec(), goal.to_vec(), way as u32, start as u32)
}

/// Where a line begins and ends that leads down by a link, seen along a way.
fn ends(way: usize) -> (usize, usize) {
    if way < LINKS { (LAST, 1) } else { (1, LAST) }
}

fn end_to_end(site: &[u8], way: usize) -> Call {
    let (first, last) = ends(way);
    chain(site, &inputs::slot(last), way, first)
}

/// The same where links lead up.
fn upwards(site: &[u8], way: usize) -> Call {
    let (last, first) = ends(way);
    chain(site, &inputs::slot(last), way, first)
}

/// To the slot that most steps lead to.
fn farthest(site: &[u8], way: usize, start: usize) -> Call {
    let call = |slot| chain(site, &inputs::slot(slot), way, start);
    let mut out = Buffers::new();
    let far = (1..SLOTS).max_by_key(|&slot| call(slot).rust(&mut out)[3]).unwrap();
    call(far)
}

fn lines() -> Vec<Row> {
    let mut rows = Vec::new();
    for (what, site) in [("a line", inputs::path()), ("a ring", inputs::ring())] {
        rows.extend(WAYS.map(|(along, way)| (format!("{what}, {along}"), end_to_end(&site, way))));
    }
    rows
}

fn sparse_and_dense() -> Vec<Row> {
    let (sparse, half, all) = (inputs::random(SLOTS, 3), inputs::random(SLOTS, SLOTS * 7 / 10), inputs::full(SLOTS));
    let row = |(along, way)| {
        [
            (format!("3 random arcs a slot, far goal, {along}"), farthest(&sparse, way, 1)),
            (format!("half of all arcs, goal near, {along}"), end_to_end(&half, way)),
            (format!("all arcs, goal near, {along}"), end_to_end(&all, way)),
        ]
    };
    GENERAL_WAYS.into_iter().flat_map(row).collect()
}

/// Sites with 2^27 to 2^131 chains of the same length, and one with 85.
fn many_chains() -> Vec<Row> {
    let mut sites = vec![("a grid of 15 by 17".to_string(), inputs::grid())];
    sites.extend([3, 17, 85].map(|width| (format!("{} layers of {width}", LAST / width), inputs::layers(width))));
    let rows = |(what, site): &(String, Vec<u8>)| GENERAL_WAYS.map(|(along, way)| (format!("{what}, {along}"), upwards(site, way)));
    sites.iter().flat_map(rows).collect()
}

fn no_chain() -> Vec<Row> {
    let (line, all, nowhere) = (inputs::path(), inputs::full(SLOTS), inputs::nowhere());
    let mut rows = Vec::new();
    for (along, way) in WAYS {
        let first = ends(way).0;
        rows.push((format!("a line, no goal, 255 reached, {along}"), chain(&line, &nowhere, way, first)));
        rows.push((format!("a line, goal behind, 128 reached, {along}"), chain(&line, &inputs::slot(first), way, 128)));
    }
    rows.extend(GENERAL_WAYS.map(|(along, way)| (format!("all arcs, no goal, 255 reached, {along}"), chain(&all, &nowhere, way, 1))));
    rows.push(("slot 0, 1 reached, link 0".to_string(), chain(&all, &inputs::slot(1), 0, 0)));
    rows
}

fn others() -> Vec<Row> {
    let (line, cut, a) = (inputs::path(), inputs::cut(127), inputs::site_a());
    let (label, r) = (inputs::shared(1), inputs::reach(GENERAL));
    let mut rows = Vec::new();
    rows.extend(WAYS.map(|(along, way)| (format!("a line, start in the goal, {along}"), chain(&line, &inputs::slot(1), way, 1))));
    rows.push(("a line, the goal is R, link 0".to_string(), chain(&cut, &r, 0, LAST)));
    rows.push(("a line, goal of 2^2000 rounds, link 0".to_string(), chain(&line, &inputs::shared_loop(2000), 0, LAST)));
    rows.push(("site A, to label 0, link 4".to_string(), chain(&a, &label, GENERAL, 3)));
    rows.push(("site A, to slot 3, link 4-".to_string(), chain(&a, &inputs::slot(3), LINKS + GENERAL, 1)));
    rows.push(("site A, the goal is R, link 4".to_string(), chain(&a, &r, GENERAL, 3)));
    rows
}

/// Goals: one slot or another, none, R, a table with every way, more rounds than a list may make, a free variable, and no node.
fn goals() -> Vec<Vec<u8>> {
    let free = [[0; 6], [4, 0, 0, 0, 0, 0]].concat();
    let mut goals = vec![inputs::nowhere(), inputs::reach(GENERAL), inputs::mixed(64, E + 1), free, Vec::new()];
    goals.extend([0, 3, LAST].map(inputs::slot));
    goals.push(inputs::shared_loop(20));
    goals
}

/// All ways and two too many, from slots that are there and from some that are not. A site or a goal that is refused hides that its start is too.
fn compare(two_builds: bool) {
    let (sparse, half) = (inputs::random(SLOTS, 3), inputs::random(SLOTS, SLOTS * 7 / 10));
    let sites = [inputs::site_a(), inputs::random(16, 2), sparse, half, inputs::ring(), inputs::grid(), inputs::layers(17), vec![0; SITE]];
    for (site, goal) in sites.iter().flat_map(|site| goals().into_iter().map(move |goal| (site, goal))) {
        for (way, start) in (0..E + 2).flat_map(|way| [0, 1, 2, 3, 15, 16, 128, LAST, SLOTS].map(|start| (way, start))) {
            compared(&format!("way {way} from slot {start}"), &chain(site, &goal, way, start), two_builds);
        }
    }
}

pub fn show() {
    let two_builds = cfg!(before_chain);
    compare(two_builds);
    let tables = [
        ("Chain: 254 steps", lines()),
        ("Chain: sparse and dense sites", sparse_and_dense()),
        ("Chain: many chains of equal length", many_chains()),
        ("Chain: none", no_chain()),
        ("Chain: others", others()),
    ];
    measure_tables(tables, two_builds);
}

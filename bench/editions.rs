//! The part `editions`: AT of links 4 to 7 in edition 2, which gives a slot another target while it has one. Edition 1 takes two edits for that, DT2
//! and AT, and leaves the same bytes. All inputs go through all sides first, and so do many more that are not timed.

use crate::desk::{E, FILE, FIRST, GENERAL, LINKS, SECOND, SITE, SLOTS, TRAILER};
use crate::{compared, inputs, measure_tables, Buffers, Call, Row};

/// A functional link and its reverse.
const WAYS: [(&str, usize); 2] = [("4", GENERAL), ("4-", LINKS + GENERAL)];

/// How many edits a sheet has at most.
const EDITS: usize = 64;

/// Both editions, and numbers that are none. Some of these have the low byte of one.
const NUMBERS: [u32; 9] = [FIRST, SECOND, 0, 3, 255, 256, 257, 258, u32::MAX];

/// The Rust gives the same answer and leaves the same bytes.
fn alike(a: &Call, b: &Call) -> bool {
    let (mut out_a, mut out_b) = (Buffers::new(), Buffers::new());
    a.rust(&mut out_a) == b.rust(&mut out_b) && out_a == out_b
}

/// So many AT in edition 2, and the same in edition 1 where a sheet has room.
fn rows(what: &str, counts: &[usize], sheet: impl Fn(usize) -> Vec<u8>, call: impl Fn(Vec<u8>, u32) -> Call) -> Vec<Row> {
    let mut rows = Vec::new();
    for &k in counts {
        let second = call(sheet(k), SECOND);
        if 2 * k <= EDITS {
            let first = call(inputs::cleared(&sheet(k)), FIRST);
            assert!(alike(&first, &second), "{what}: the editions differ");
            rows.push((format!("{what}: DT2, AT, edition 1"), first));
        }
        rows.push((format!("{what}: AT, edition 2"), second));
    }
    rows
}

fn functional(k: usize) -> Vec<u8> {
    inputs::links(k, GENERAL)
}

fn applying() -> Vec<Row> {
    let call = |sheet, edition| Call::Apply(inputs::homed(), sheet, edition);
    let mut rows = rows("links 4 to 7", &[1, 4, 16, 32, EDITS], functional, call);
    rows.push(("AT, CN2 there, AT from there, edition 2".to_string(), call(inputs::onward(EDITS), SECOND)));
    rows
}

/// R has one diamond.
fn rewriting_r() -> Vec<Row> {
    let along = |(along, way)| {
        let call = |sheet, edition| Call::Rewrite(inputs::reach(way), sheet, edition);
        rows(&format!("R along {along}, link 4"), &[1, 4, 16, 32, EDITS], inputs::uplinks, call)
    };
    WAYS.into_iter().flat_map(along).collect()
}

/// Diamonds and boxes of all ways. More AT fill the table.
fn rewriting_mixed() -> Vec<Row> {
    let call = |sheet, edition| Call::Rewrite(inputs::mixed(64, E + 1), sheet, edition);
    rows("links 4 to 7", &[1, 4, 16, 32, 52], functional, call)
}

fn going_through() -> Vec<Row> {
    let row = |what: &str, sheet| (format!("{what}, edition 2"), Call::Through(sheet, SECOND));
    let links = [1, 2, 4, 8, 16, 32, EDITS].map(|k| row("AT of links 4 to 7", functional(k)));
    let onward = [3, 6, 12, 18, 24].map(|k| row("AT, CN2 there, AT from there", inputs::onward(k)));
    links.into_iter().chain(onward).collect()
}

fn jobs() -> Vec<Row> {
    let sites = [("sparse", inputs::random(SLOTS, 2)), ("dense", inputs::full(SLOTS))];
    let along = |(along, way): (&str, usize)| {
        let of = |(what, site): &(&str, Vec<u8>)| {
            let call = |sheet, edition| Call::job_of(site.clone(), inputs::reach(way), sheet, edition);
            rows(&format!("R along {along}, {what}"), &[32, EDITS], inputs::uplinks, call)
        };
        sites.iter().flat_map(of).collect::<Vec<Row>>()
    };
    WAYS.into_iter().flat_map(along).collect()
}

/// Edits of every operation and of one too many: names at slots, at nil and too high, links of each kind, slots that are there and one that is not.
fn edits() -> impl Iterator<Item = Vec<u8>> {
    const OPERANDS: [u8; 6] = [0, 1, 3, 4, 7, 48];
    let operands = OPERANDS.into_iter().flat_map(|x| OPERANDS.into_iter().flat_map(move |y| OPERANDS.map(|z| [x, y, z])));
    operands.flat_map(|[x, y, z]| (0..10).map(move |operation| vec![operation, x, y, z]))
}

fn compare_edits(two_builds: bool) {
    let (site, cond) = (inputs::random(16, 2), inputs::kinds());
    for (edit, edition) in edits().flat_map(|edit| [FIRST, SECOND].map(|edition| (edit.clone(), edition))) {
        let what = format!("the edit {edit:?} of edition {edition}");
        compared(&what, &Call::Apply(site.clone(), edit.clone(), edition), two_builds);
        compared(&what, &Call::Rewrite(cond.clone(), edit.clone(), edition), two_builds);
        compared(&what, &Call::Through(edit, edition), two_builds);
    }
}

/// Item 18 comes before what a site, a condition and a sheet are refused for.
fn compare_numbers(two_builds: bool) {
    let (sites, conds) = ([inputs::site_a(), vec![0; SITE]], [inputs::reach(GENERAL), Vec::new()]);
    let sheets = [vec![4, 4, 1, 2], vec![9; 4], vec![0; 3]];
    let pieces = sites.iter().flat_map(|site| conds.iter().flat_map(|cond| sheets.iter().map(|sheet| (site.clone(), cond.clone(), sheet.clone()))));
    for ((site, cond, sheet), edition) in pieces.flat_map(|pieces| NUMBERS.map(|edition| (pieces.clone(), edition))) {
        let what = format!("edition {edition}");
        compared(&what, &Call::Apply(site.clone(), sheet.clone(), edition), two_builds);
        compared(&what, &Call::Rewrite(cond.clone(), sheet.clone(), edition), two_builds);
        compared(&what, &Call::Through(sheet.clone(), edition), two_builds);
        compared(&what, &Call::job_of(site, cond, sheet, edition), two_builds);
    }
}

/// Job files whose end is cut off, with a number of the trailer changed, with empty pieces, and about as long as they may be.
fn files(edition: u32) -> Vec<Vec<u8>> {
    let file = inputs::job(&inputs::site_a(), &inputs::reach(GENERAL), &[4, 4, 1, 2], edition);
    let (end, empty) = (file.len(), inputs::job(&[], &[], &[], edition));
    let changed = |at: usize, by: u8| {
        let mut file = file.clone();
        file[at] = file[at].wrapping_add(by);
        file
    };
    let cut = (0..=TRAILER + 1).map(|n| file[..end - n].to_vec());
    let other = (end - TRAILER..end).flat_map(|at| [1, 4, 255].map(|by| changed(at, by)));
    let ends = (0..=TRAILER).map(|n| empty[n..].to_vec());
    let long = [0, 1].map(|n| inputs::job(&vec![0; FILE - TRAILER + n], &[], &[], edition));
    cut.chain(other).chain(ends).chain(long).collect()
}

/// An earlier build gets files of its own, so these are not for it.
fn compare_files() {
    for (edition, file) in NUMBERS.into_iter().flat_map(|edition| files(edition).into_iter().map(move |file| (edition, file))) {
        let what = format!("a file of {} bytes, edition {edition}", file.len());
        compared(&what, &Call::Job(file, Vec::new(), Vec::new(), Vec::new(), edition), false);
    }
}

pub fn show() {
    let two_builds = cfg!(before_edition);
    compare_edits(two_builds);
    compare_numbers(two_builds);
    compare_files();
    let tables = [
        ("Editions: applying, where each slot has targets by links 4 to 7", applying()),
        ("Editions: rewriting R", rewriting_r()),
        ("Editions: rewriting, 64 nodes", rewriting_mixed()),
        ("Editions: through", going_through()),
        ("Editions: jobs", jobs()),
    ];
    measure_tables(tables, two_builds);
}

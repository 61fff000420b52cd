//! The earlier build that bench/beside times may have sites of 16 names. It then gets and gives sites without the bytes of the other names.
//! Its AP may make three nodes of a label, and not six. Rewriting through AP is then timed without it.
//! Its sheets may have no edition. They then mean what those of edition 1 do, and its trailers end before the edition.

use crate::desk::{FIRST, NAMES, NAMES_AT, NUMBER, SITE, SLOTS, TABLE, TARGETS_AT};
use crate::{inputs, library, Buffers, Call, Desk};
use std::sync::OnceLock;

const OLD_NAMES: usize = 16;

/// How many names it has; it is asked once. The old build refuses a site of the present length for its length, reason 3; the present one for its
/// bytes.
pub fn names() -> usize {
    static ASKED: OnceLock<usize> = OnceLock::new();
    *ASKED.get_or_init(|| {
        let refused = (library::BEFORE.classes)(&[0; SITE], &mut [0; SLOTS]);
        if refused.reason == 3 { OLD_NAMES } else { NAMES }
    })
}

/// Whether its AP makes as many nodes of a label as the present one's; it is asked once.
pub fn same_labels() -> bool {
    static ASKED: OnceLock<bool> = OnceLock::new();
    *ASKED.get_or_init(|| {
        let (label, ap) = ([2, 0, 0, 0, 0, 0], [2, 1, 0, 0]);
        let nodes = |desk: &Desk| (desk.rewrite)(&label, &ap, FIRST, &mut [0; TABLE]).nodes;
        nodes(&library::BEFORE) == nodes(&library::NOW)
    })
}

fn shortened(site: &[u8]) -> Vec<u8> {
    [&site[..NAMES_AT + names()], &site[TARGETS_AT..]].concat()
}

/// A site to call it with. The names that it does not have must be at nil, so that all sides do the same work.
fn site(site: Vec<u8>) -> Vec<u8> {
    assert!(site[NAMES_AT + names()..TARGETS_AT].iter().all(|&slot| slot == 0), "a name that the earlier build does not have");
    shortened(&site)
}

/// An edition to call it with.
fn had(edition: u32) -> u32 {
    assert!(cfg!(before_edition) || edition == FIRST, "an edition that the earlier build does not have");
    edition
}

/// A job to call it with.
fn job(today: Vec<u8>, cond: Vec<u8>, sheet: Vec<u8>, edition: u32) -> Call {
    let mut file = inputs::job(&today, &cond, &sheet, edition);
    if !cfg!(before_edition) {
        file.truncate(file.len() - NUMBER);
    }
    Call::Job(file, today, cond, sheet, edition)
}

/// The call as it is made to it.
pub fn call(call: &Call) -> Call {
    match call.clone() {
        Call::List(today, cond, limit) => Call::List(site(today), cond, limit),
        Call::Apply(today, sheet, edition) => Call::Apply(site(today), sheet, had(edition)),
        Call::Rewrite(cond, sheet, edition) => Call::Rewrite(cond, sheet, had(edition)),
        Call::Through(sheet, edition) => Call::Through(sheet, had(edition)),
        Call::Classes(today) => Call::Classes(site(today)),
        Call::Chain(today, goal, way, start) => Call::Chain(site(today), goal, way, start),
        Call::Job(_, today, cond, sheet, edition) => job(site(today), cond, sheet, had(edition)),
    }
}

/// The buffers as it has them.
pub fn buffers(out: &Buffers) -> Buffers {
    Buffers { site: shortened(&out.site), ..out.clone() }
}

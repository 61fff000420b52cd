//! The proved library's seven functions, as include/desk.h has them. With `--cfg before` also those of an earlier build (bench/beside).

use crate::desk::{Applied, Chained, Classed, Done, Listed, Rewritten};
use crate::{AskChain, Desk};

/// Declares `through` of one build. It stands apart from the others, since an earlier build may lack it; so does `chain`, and so do `list` and `job`,
/// which may have no limit there. The type of an edition is given here and below, or none for an earlier build, which may have no editions.
macro_rules! through {
    ($through:ident, [$($edition:ty)?]) => {{
        extern "C" {
            fn $through(sheet: *const u8, sheet_len: usize, $(edition: $edition,)? result: *mut u8, result_len: usize) -> Rewritten;
        }
        // Safety: as below.
        |sheet, _edition, result| unsafe {
            $through(sheet.as_ptr(), sheet.len(), $(_edition as $edition,)? result.as_mut_ptr(), result.len())
        }
    }};
}

/// Declares `chain` of one build.
macro_rules! chain {
    ($chain:ident) => {{
        extern "C" {
            fn $chain(
                site: *const u8, site_len: usize, cond: *const u8, cond_len: usize, way: u32, start: u32,
                chain: *mut u8, chain_len: usize, set: *mut u8, set_len: usize, work: *mut u8, work_len: usize,
            ) -> Chained;
        }
        // Safety: as below.
        |site, cond, way, start, chain, set, work| unsafe {
            $chain(
                site.as_ptr(), site.len(), cond.as_ptr(), cond.len(), way, start,
                chain.as_mut_ptr(), chain.len(), set.as_mut_ptr(), set.len(), work.as_mut_ptr(), work.len(),
            )
        }
    }};
}

/// Declares `list` of one build, with a limit.
macro_rules! list {
    ($list:ident) => {{
        extern "C" {
            fn $list(
                site: *const u8, site_len: usize, cond: *const u8, cond_len: usize, limit: u32,
                set: *mut u8, set_len: usize, work: *mut u8, work_len: usize,
            ) -> Listed;
        }
        // Safety: as below.
        |site, cond, limit, set, work| unsafe {
            $list(
                site.as_ptr(), site.len(), cond.as_ptr(), cond.len(), limit,
                set.as_mut_ptr(), set.len(), work.as_mut_ptr(), work.len(),
            )
        }
    }};
}

/// Declares `job` of one build, with a limit.
macro_rules! job {
    ($job:ident) => {{
        extern "C" {
            fn $job(
                file: *const u8, file_len: usize, limit: u32, site: *mut u8, site_len: usize, table: *mut u8, table_len: usize,
                after: *mut u8, after_len: usize, today: *mut u8, today_len: usize,
                classes: *mut u8, classes_len: usize, work: *mut u8, work_len: usize,
            ) -> Done;
        }
        // Safety: as below.
        |file, limit, out| unsafe {
            $job(
                file.as_ptr(), file.len(), limit, out.site.as_mut_ptr(), out.site.len(), out.table.as_mut_ptr(), out.table.len(),
                out.after.as_mut_ptr(), out.after.len(), out.today.as_mut_ptr(), out.today.len(),
                out.classes.as_mut_ptr(), out.classes.len(), out.work.as_mut_ptr(), out.work.len(),
            )
        }
    }};
}

/// Declares `list` of an earlier build, without a limit. It tells no rounds.
#[cfg(all(before, not(before_limit)))]
macro_rules! old_list {
    ($list:ident) => {{
        #[repr(C)]
        struct Answer([u32; 3]);
        extern "C" {
            fn $list(
                site: *const u8, site_len: usize, cond: *const u8, cond_len: usize,
                set: *mut u8, set_len: usize, work: *mut u8, work_len: usize,
            ) -> Answer;
        }
        // Safety: as below.
        |site, cond, _, set, work| {
            let Answer([reason, place, count]) = unsafe {
                $list(
                    site.as_ptr(), site.len(), cond.as_ptr(), cond.len(),
                    set.as_mut_ptr(), set.len(), work.as_mut_ptr(), work.len(),
                )
            };
            Listed { reason, place, count, rounds: 0 }
        }
    }};
}

/// Declares `job` of an earlier build, without a limit.
#[cfg(all(before, not(before_limit)))]
macro_rules! old_job {
    ($job:ident) => {{
        #[repr(C)]
        struct Answer([u32; 6]);
        extern "C" {
            fn $job(
                file: *const u8, file_len: usize, site: *mut u8, site_len: usize, table: *mut u8, table_len: usize,
                after: *mut u8, after_len: usize, today: *mut u8, today_len: usize,
                classes: *mut u8, classes_len: usize, work: *mut u8, work_len: usize,
            ) -> Answer;
        }
        // Safety: as below.
        |file, _, out| {
            let Answer([reason, place, after, today, nodes, classes]) = unsafe {
                $job(
                    file.as_ptr(), file.len(), out.site.as_mut_ptr(), out.site.len(), out.table.as_mut_ptr(), out.table.len(),
                    out.after.as_mut_ptr(), out.after.len(), out.today.as_mut_ptr(), out.today.len(),
                    out.classes.as_mut_ptr(), out.classes.len(), out.work.as_mut_ptr(), out.work.len(),
                )
            };
            Done { reason, place, after, today, nodes, classes, after_rounds: 0, today_rounds: 0 }
        }
    }};
}

/// Declares what else one build exports, and makes a desk of it.
macro_rules! library {
    (
        $name:ident: $apply:ident $rewrite:ident $classes:ident, [$($edition:ty)?], $limited:expr,
        $list:expr, $job:expr, $through:expr, $chain:expr
    ) => {
        extern "C" {
            fn $apply(
                site: *const u8, site_len: usize, sheet: *const u8, sheet_len: usize, $(edition: $edition,)?
                result: *mut u8, result_len: usize,
            ) -> Applied;
            fn $rewrite(
                cond: *const u8, cond_len: usize, sheet: *const u8, sheet_len: usize, $(edition: $edition,)?
                result: *mut u8, result_len: usize,
            ) -> Rewritten;
            fn $classes(site: *const u8, site_len: usize, classes: *mut u8, classes_len: usize) -> Classed;
        }

        // Safety: each pointer comes with the length of what it points to, and Rust's references do not overlap.
        pub const $name: Desk = Desk {
            limited: $limited,
            list: $list,
            apply: |site, sheet, _edition, result| unsafe {
                $apply(
                    site.as_ptr(), site.len(), sheet.as_ptr(), sheet.len(), $(_edition as $edition,)?
                    result.as_mut_ptr(), result.len(),
                )
            },
            rewrite: |cond, sheet, _edition, result| unsafe {
                $rewrite(
                    cond.as_ptr(), cond.len(), sheet.as_ptr(), sheet.len(), $(_edition as $edition,)?
                    result.as_mut_ptr(), result.len(),
                )
            },
            through: $through,
            classes: |site, classes| unsafe { $classes(site.as_ptr(), site.len(), classes.as_mut_ptr(), classes.len()) },
            chain: $chain,
            job: $job,
        };
    };
}

const CHAIN: AskChain = chain!(desk_chain);
#[cfg(before_chain)]
const OLD_CHAIN: AskChain = chain!(before_chain);
#[cfg(all(before, not(before_chain)))]
const OLD_CHAIN: AskChain = |_, _, _, _, _, _, _| unreachable!("not timed");

library!(
    NOW: desk_apply desk_rewrite desk_classes, [u32], true, list!(desk_list), job!(desk_job), through!(desk_through, [u32]), CHAIN
);
#[cfg(before_edition)]
library!(
    BEFORE: before_apply before_rewrite before_classes, [u32], true, list!(before_list), job!(before_job),
    through!(before_through, [u32]), OLD_CHAIN
);
#[cfg(all(before_limit, not(before_edition)))]
library!(
    BEFORE: before_apply before_rewrite before_classes, [], true, list!(before_list), job!(before_job),
    through!(before_through, []), OLD_CHAIN
);
#[cfg(all(before_through, not(before_limit)))]
library!(
    BEFORE: before_apply before_rewrite before_classes, [], false, old_list!(before_list), old_job!(before_job),
    through!(before_through, []), OLD_CHAIN
);
#[cfg(all(before, not(before_through)))]
library!(
    BEFORE: before_apply before_rewrite before_classes, [], false, old_list!(before_list), old_job!(before_job),
    |_, _, _| unreachable!("not timed"), OLD_CHAIN
);

// Without an earlier build the present one stands here, and is not timed twice.
#[cfg(not(before))]
pub const BEFORE: Desk = NOW;

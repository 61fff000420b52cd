//! The operations on sets one by one, in nanoseconds: by the byte, as the library had them before they went by the word; as it has them now
//! (libset_exports.a); and on sets of four words in the benchmark's Rust, which tests no lengths. With `--cfg before_sets` an earlier build of
//! libset_exports.a stands in the place of the loops over bytes (bench/beside).

use crate::desk::{Set, SET};
use crate::inputs::Random;
use crate::{columns, samples, time, times_title, SAMPLE};
use std::hint::black_box;

// How many pairs of sets a pass takes. No set is used again soon, so no call waits for what the one before it has stored.
const PAIRS: usize = 64;

// A call takes a few nanoseconds, so there are as many samples as for two builds.
const SAMPLES: usize = 41;

/// A set as bytes, and where the Rust looks at it, as four words.
#[repr(C, align(32))]
#[derive(Clone, Copy, PartialEq)]
struct Bytes([u8; SET]);

impl Bytes {
    fn words(&self) -> &Set {
        // Safety: four words are 32 bytes with any values, and they are aligned.
        unsafe { &*(self as *const Bytes).cast() }
    }

    fn words_mut(&mut self) -> &mut Set {
        // Safety: as above.
        unsafe { &mut *(self as *mut Bytes).cast() }
    }
}

type Ring = Vec<[Bytes; 2]>;

/// A pass calls a function once on each pair of a ring. The answers are added up.
type Pass = fn(&mut Ring) -> u32;

macro_rules! pass {
    ($call:expr) => {
        |ring| ring.iter_mut().map(|[a, b]| black_box(u32::from(($call)(a, b)))).sum()
    };
}

/// The operations of one side.
struct Operations {
    union: Pass,
    meet: Pass,
    complement: Pass,
    equal: Pass,
    count: Pass,
}

/// The operations behind the functions of these names, which take each set as a pointer and a length.
macro_rules! operations {
    ($union:ident $meet:ident $complement:ident $equal:ident $count:ident) => {
        // Safety: each pointer comes with the length of what it points to, and Rust's references do not overlap.
        Operations {
            union: pass!(|a: &mut Bytes, b: &Bytes| unsafe { $union(a.0.as_mut_ptr(), SET, b.0.as_ptr(), SET); 0u32 }),
            meet: pass!(|a: &mut Bytes, b: &Bytes| unsafe { $meet(a.0.as_mut_ptr(), SET, b.0.as_ptr(), SET); 0u32 }),
            complement: pass!(|a: &mut Bytes, _: &Bytes| unsafe { $complement(a.0.as_mut_ptr(), SET); 0u32 }),
            equal: pass!(|a: &Bytes, b: &Bytes| unsafe { $equal(a.0.as_ptr(), SET, b.0.as_ptr(), SET) }),
            count: pass!(|a: &Bytes, _: &Bytes| unsafe { $count(a.0.as_ptr(), SET) }),
        }
    };
}

/// The same, of a library.
macro_rules! library {
    ($union:ident $meet:ident $complement:ident $equal:ident $count:ident) => {{
        extern "C" {
            fn $union(dst: *mut u8, dst_len: usize, src: *const u8, src_len: usize);
            fn $meet(dst: *mut u8, dst_len: usize, src: *const u8, src_len: usize);
            fn $complement(set: *mut u8, len: usize);
            fn $equal(a: *const u8, a_len: usize, b: *const u8, b_len: usize) -> bool;
            fn $count(set: *const u8, len: usize) -> u32;
        }
        operations!($union $meet $complement $equal $count)
    }};
}

const NOW: Operations = library!(set_union set_meet set_complement set_equal set_count);
#[cfg(before_sets)]
const BEFORE: Operations = library!(before_union before_meet before_complement before_equal before_count);
#[cfg(not(before_sets))]
const BEFORE: Operations = operations!(bytes_union bytes_meet bytes_complement bytes_equal bytes_count);

// In the Rust as in the others the functions are called and not put in place. Its sets are four words by their type, so it tests no lengths.
const RUST: Operations = Operations {
    union: pass!(|a: &mut Bytes, b: &Bytes| { rust_union(a.words_mut(), b.words()); 0u32 }),
    meet: pass!(|a: &mut Bytes, b: &Bytes| { rust_meet(a.words_mut(), b.words()); 0u32 }),
    complement: pass!(|a: &mut Bytes, _: &Bytes| { rust_complement(a.words_mut()); 0u32 }),
    equal: pass!(|a: &Bytes, b: &Bytes| rust_equal(a.words(), b.words())),
    count: pass!(|a: &Bytes, _: &Bytes| rust_count(a.words())),
};

#[inline(never)]
fn rust_union(dst: &mut Set, src: &Set) {
    *dst = *dst | *src;
}

#[inline(never)]
fn rust_meet(dst: &mut Set, src: &Set) {
    *dst = *dst & *src;
}

#[inline(never)]
fn rust_complement(set: &mut Set) {
    *set = !*set;
}

#[inline(never)]
fn rust_equal(a: &Set, b: &Set) -> bool {
    a == b
}

#[inline(never)]
fn rust_count(set: &Set) -> u32 {
    set.count()
}

// What the library had: loops over bytes without a test of the index, not told that the sets do not overlap. With the rustc that this was checked
// with (1.95, LLVM 22) the machine code is that of the build before the change, instruction for instruction; another may make something else of the
// loops. They are `no_mangle` so that the tests of the lengths stay.
#[cfg(not(before_sets))]
mod bytes {
    use super::SET;

    #[no_mangle]
    #[inline(never)]
    pub unsafe extern "C" fn bytes_union(dst: *mut u8, dst_len: usize, src: *const u8, src_len: usize) {
        if dst_len != SET || src_len != SET {
            return;
        }
        for i in 0..SET {
            *dst.add(i) |= *src.add(i);
        }
    }

    #[no_mangle]
    #[inline(never)]
    pub unsafe extern "C" fn bytes_meet(dst: *mut u8, dst_len: usize, src: *const u8, src_len: usize) {
        if dst_len != SET || src_len != SET {
            return;
        }
        for i in 0..SET {
            *dst.add(i) &= *src.add(i);
        }
    }

    #[no_mangle]
    #[inline(never)]
    pub unsafe extern "C" fn bytes_complement(set: *mut u8, len: usize) {
        if len != SET {
            return;
        }
        for i in 0..SET {
            *set.add(i) = !*set.add(i);
        }
    }

    #[no_mangle]
    #[inline(never)]
    pub unsafe extern "C" fn bytes_equal(a: *const u8, a_len: usize, b: *const u8, b_len: usize) -> bool {
        if a_len != SET || b_len != SET {
            return false;
        }
        for i in 0..SET {
            if *a.add(i) != *b.add(i) {
                return false;
            }
        }
        true
    }

    #[no_mangle]
    #[inline(never)]
    pub unsafe extern "C" fn bytes_count(set: *const u8, len: usize) -> u32 {
        if len != SET {
            return 0;
        }
        let mut n = 0;
        for i in 0..SET {
            n += (*set.add(i)).count_ones();
        }
        n
    }
}
#[cfg(not(before_sets))]
use bytes::{bytes_complement, bytes_count, bytes_equal, bytes_meet, bytes_union};

/// Pairs of random sets, the second made from the first.
fn ring(second: impl Fn(&mut Random, Bytes) -> Bytes) -> Ring {
    let mut random = Random::new();
    let pair = |_| {
        let first = any(&mut random);
        [first, second(&mut random, first)]
    };
    (0..PAIRS).map(pair).collect()
}

fn any(random: &mut Random) -> Bytes {
    Bytes(std::array::from_fn(|_| random.below(256) as u8))
}

/// One bit of a byte the other way round.
fn other(random: &mut Random, mut set: Bytes, byte: usize) -> Bytes {
    set.0[byte] ^= 1 << random.below(8);
    set
}

/// A pass of each side. The answers and the sets have to be the same.
fn compare(what: &str, passes: &[Pass], rings: &mut [Ring]) -> u32 {
    let answers: Vec<u32> = passes.iter().zip(&mut *rings).map(|(pass, ring)| pass(ring)).collect();
    assert!(answers.iter().all(|&answer| answer == answers[0]), "{what}: the answers differ, {answers:?}");
    assert!(rings.iter().all(|ring| *ring == rings[0]), "{what}: the sets differ");
    answers[0]
}

/// Times the passes of the sides, and compares their results before and after. Returns the first answer.
fn measure(what: &str, ring: Ring, pass: fn(&Operations) -> Pass) -> u32 {
    let passes = [NOW, BEFORE, RUST].map(|side| pass(&side));
    let mut rings = vec![ring; passes.len()];
    let answer = compare(what, &passes, &mut rings);
    let mut sample = |side: usize, turns| time(turns, || _ = black_box(passes[side](&mut rings[side])));
    // Ten is even, so the complements of these turns leave the sets as they were.
    let turns = (SAMPLE.as_secs_f64() / sample(0, 10)).max(1.0) as u32;
    let times = samples(SAMPLES, passes.len(), |side| sample(side, turns) * 1e9 / PAIRS as f64);
    compare(what, &passes, &mut rings);
    println!("{what:44} {}", columns(&times));
    answer
}

/// Times equality, which has to hold of so many pairs.
fn equality(what: &str, ring: Ring, equal: usize) {
    let answer = measure(&format!("equal: {what}"), ring, |side| side.equal);
    assert_eq!(answer as usize, equal, "equal: {what}");
}

pub fn show() {
    let before = if cfg!(before_sets) { "the earlier build" } else { "by the byte" };
    println!("\nSets: one call; before is {before}");
    println!("{:44} {}", "operation", times_title("ns", true));
    let random = || ring(|random, _| any(random));
    measure("union", random(), |side| side.union);
    measure("meet", random(), |side| side.meet);
    measure("complement", random(), |side| side.complement);
    equality("the same slots", ring(|_, set| set), PAIRS);
    for byte in [0, 15, 31] {
        let differ = ring(|random, set| other(random, set, byte));
        equality(&format!("other slots in byte {byte}"), differ, 0);
    }
    let one = ring(|random, set| {
        let byte = random.below(SET);
        other(random, set, byte)
    });
    equality("other slots in any one byte", one, 0);
    measure("count", random(), |side| side.count);
}

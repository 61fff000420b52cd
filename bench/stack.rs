//! How much stack each function takes: it is called in a thread whose stack is painted before and looked at after.

use crate::desk::{E, GENERAL, NODES, SECOND, SLOTS};
use crate::{inputs, Buffers, Call};
use std::ffi::c_void;

const STACK: usize = 8 << 20;
const PAINT: u8 = 0xA5;

/// Room for a `pthread_attr_t` of any Linux.
#[repr(C, align(16))]
struct Attributes([u8; 128]);

extern "C" {
    fn pthread_attr_init(attributes: *mut Attributes) -> i32;
    fn pthread_attr_setstack(attributes: *mut Attributes, stack: *mut c_void, length: usize) -> i32;
    fn pthread_create(
        thread: *mut usize, attributes: *const Attributes, start: extern "C" fn(*mut c_void) -> *mut c_void, argument: *mut c_void,
    ) -> i32;
    fn pthread_join(thread: usize, result: *mut *mut c_void) -> i32;
}

#[repr(C, align(4096))]
#[derive(Clone, Copy)]
struct Page([u8; 4096]);

struct Task<'a> {
    call: Option<&'a Call>,
    out: Buffers,
}

extern "C" fn run(task: *mut c_void) -> *mut c_void {
    // Safety: `used` passes a task of its own, and waits for this thread.
    let task = unsafe { &mut *(task as *mut Task) };
    if let Some(call) = task.call {
        assert_eq!(call.library(&mut task.out)[0], 0);
    }
    std::ptr::null_mut()
}

/// The bytes of a thread's stack that were touched. A thread that calls nothing touches some too.
fn used(call: Option<&Call>) -> usize {
    let mut stack = vec![Page([PAINT; 4096]); STACK / 4096];
    let mut task = Task { call, out: Buffers::new() };
    let (mut attributes, mut thread) = (Attributes([0; 128]), 0);
    // Safety: the stack and the task live until the thread is joined.
    unsafe {
        assert_eq!(pthread_attr_init(&mut attributes), 0);
        assert_eq!(pthread_attr_setstack(&mut attributes, stack.as_mut_ptr().cast(), STACK), 0);
        assert_eq!(pthread_create(&mut thread, &attributes, run, (&raw mut task).cast()), 0);
        assert_eq!(pthread_join(thread, std::ptr::null_mut()), 0);
    }
    let untouched = stack.iter().flat_map(|page| page.0).take_while(|&b| b == PAINT).count();
    STACK - untouched
}

pub fn show() {
    let (dense, loops, mixed) = (inputs::full(SLOTS), inputs::loops(NODES), inputs::mixed(512, E));
    let sheet = inputs::slots_gone(1);
    let base = used(None);
    println!("\nStack of the library, bytes");
    for (what, call) in [
        ("listing, 2,047 nested loops", Call::list(dense.clone(), loops.clone())),
        ("listing, a line of 2,048 nodes", Call::list(dense.clone(), inputs::line(NODES))),
        ("listing, one node", Call::list(dense.clone(), inputs::shared(1))),
        ("applying, 64 edits", Call::apply(dense.clone(), inputs::slots_gone(64))),
        ("rewriting, to 1,792 nodes", Call::rewrite(mixed.clone(), sheet.clone())),
        ("rewriting R, 64 AT of edition 2", Call::Rewrite(inputs::reach(GENERAL), inputs::uplinks(64), SECOND)),
        ("rewriting, a line of 2,048 nodes", Call::rewrite(inputs::line(NODES), Vec::new())),
        ("going through, 31 AT, to 2,036 nodes", Call::through(inputs::links(31, GENERAL))),
        ("going through, 64 AT of edition 2", Call::Through(inputs::links(64, GENERAL), SECOND)),
        ("going through, 42 AS, to 1,975 nodes", Call::through(inputs::slots_added(42))),
        ("going through, a path of 249 nodes", Call::through(inputs::long_paths())),
        ("classes", Call::Classes(dense.clone())),
        ("the chain, 254 steps", Call::Chain(inputs::path(), inputs::slot(1), 0, SLOTS as u32 - 1)),
        ("the chain, 2,047 nested loops", Call::Chain(dense.clone(), loops.clone(), 0, 1)),
        ("the job, 2,047 nested loops", Call::job(dense, loops, Vec::new())),
    ] {
        println!("{what:40} {:>9}", used(Some(&call)) - base);
    }
}

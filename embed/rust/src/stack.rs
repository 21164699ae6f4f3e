//! How much stack a call takes, and whether the thread that it is made on has as much left.
//!
//! # How deep the calls of an evaluation go
//!
//! The library counts a result before it writes it. Both walk over codes and along chains of names in loops, and call
//! themselves where a name has an entry to be unfolded, or an item has a stack of its own and is not the last of its
//! stack. Counting counts the definitions first, oldest first, and then calls itself for none of them. Writing does not
//! call itself where a name is the last node of a code and its entry's item is an abstraction, as a definition is, but
//! where that is written already: a call copies it then, and makes no other.
//!
//! With each call a number falls that starts at the cells and names taken, and it is proved that it does not fall below 0.
//! The two bounds that are told are closer. They are argued here, and tested, but not proved: without definitions there are
//! no more calls inside one another than cells, as each has a cell to itself, its entry's or its item's; and with definitions or
//! without no more than one for each four nodes, as each has four nodes of the node store to itself.
//!
//! For a node that a run takes is part of exactly one code that its state holds, or has been used up by exactly one
//! enter, beta or subst: each of these removes the first node of the code, a leave moves a code, and the nodes of a copy
//! are newly taken. On demand a beta that renames also drops the variable that is its argument, and makes no entry; the
//! names that it puts into the body stand at nodes of the body. A cell is taken by an enter, and an entry is made by a
//! beta or is a definition. From the top of a result down to the deepest call no item is passed twice, since nothing stands
//! for a part of itself. So these nodes are different ones:
//!
//! - a name inside an abstraction: the abstraction, the name, the enter of its entry's cell, the beta that made the entry;
//!   where writing calls itself and the entry is an abstraction, also an application and a node behind the name;
//! - a definition's name inside an abstraction: the abstraction, an application, the name, and a node behind the name;
//! - a name with a stack that is not empty: the same enter and beta, and of the stack's first cell the enter and the first node;
//! - a name alone as an item of a stack: the same enter and beta, the enter of the item's cell, and the name;
//! - an item with a stack of its own, not the last of its stack: of its cell and of the next one the enter and the first node;
//! - a name that is written already: the name, the nodes of what is copied, which no call around it is in, and the enter of its
//!   entry's cell and the beta, or for a definition the abstraction around the name or the enter of the item's cell.
//!
//! Only a name that is the whole result has three, and the deepest call has one more that is not in the list.
//!
//! Four nodes are what the last kind takes, in counting and in writing, and two cells. In counting the first kind takes four
//! nodes and one cell, and in writing six. The second kind takes four, and no cell. A result has at most 16,384 nodes, of which a
//! level of the last kind writes four and one of the second three: with node stores beyond 16,384, or 21,845 with a
//! prelude, less is taken than is told, with the largest by about a sixth.
//!
//! No function of an import or an export calls itself: see [`STACK_FOR_AN_EXCHANGE`](crate::STACK_FOR_AN_EXCHANGE).

use std::ops::Range;

/// Bytes of stack that an evaluation takes whatever the stores are: for arrays of its own and of the checks of the file and of the
/// definitions, and the C library where it binds a name at its first use.
pub const STACK_FOR_A_CALL: usize = 106_496;

/// Bytes of stack that an evaluation takes while it counts and writes a result, with the first level. The checks are over then,
/// and what they took is free again.
pub const STACK_FOR_A_RESULT: usize = 69_632;

/// Bytes of stack that each further level of writing takes. One of counting takes fewer.
pub const STACK_FOR_A_LEVEL: usize = 192;

/// The most that any stores make an evaluation take, with a prelude or without.
pub const MOST_STACK_NEEDED: usize = stack_needed(super::MOST_COUNTED, super::MOST_COUNTED);

/// The most bytes of stack that an evaluation without a prelude takes with stores of so many nodes and cells. A store is as long
/// as its shortest array.
///
/// There are no more levels than cells, nor than one for each four nodes.
pub const fn stack_needed(nodes: usize, cells: usize) -> usize {
    let nodes = if nodes < super::MOST_COUNTED { nodes } else { super::MOST_COUNTED };
    let levels = if cells < nodes / 4 { cells } else { nodes / 4 };
    let result = STACK_FOR_A_RESULT + STACK_FOR_A_LEVEL * levels;
    if result < STACK_FOR_A_CALL { STACK_FOR_A_CALL } else { result }
}

/// The most bytes of stack that an evaluation with a prelude takes with a node store of this length, whatever its cells are: a level
/// that comes of a definition has four nodes too, but no cell.
pub const fn stack_needed_with(nodes: usize) -> usize { stack_needed(nodes, super::MOST_COUNTED) }

/// Left over beside what is needed: for the wrapper's own frames, a guard page, and a signal that arrives.
const MARGIN: usize = 16 << 10;
/// What a new thread gets beside what is needed, as the C library keeps its thread locals on its stack. Memory that is not touched costs nothing.
const MARGIN_OF_A_THREAD: usize = 1 << 20;

/// Does the work here, where this thread has `bytes` of stack left, and else on a thread of its own that has.
pub(crate) fn with_stack<T: Send>(bytes: usize, work: impl FnOnce() -> T + Send) -> T {
    if left().is_some_and(|left| left >= bytes + MARGIN) {
        return work();
    }
    let size = bytes + MARGIN_OF_A_THREAD;
    std::thread::scope(|scope| {
        let thread = std::thread::Builder::new().name("glow".into()).stack_size(size).spawn_scoped(scope, work);
        let thread = thread.unwrap_or_else(|why| panic!("glow: a thread with {size} bytes of stack could not be started: {why}"));
        thread.join().unwrap_or_else(|panic| std::panic::resume_unwind(panic))
    })
}

/// The bytes between here and the end of this thread's stack; none where they are not known, as on a stack that is not the thread's own.
fn left() -> Option<usize> {
    thread_local!(static BOUNDS: Option<Range<usize>> = bounds());
    let mark = 0u8;
    let here = std::hint::black_box(std::ptr::addr_of!(mark)) as usize;
    BOUNDS.with(|bounds| bounds.as_ref().filter(|bounds| bounds.contains(&here)).map(|bounds| here - bounds.start))
}

/// The addresses of this thread's stack. The first thread's grows to the limit that the system sets it.
#[cfg(target_os = "linux")]
fn bounds() -> Option<Range<usize>> {
    use std::ffi::{c_int, c_ulong, c_void};
    /// As large as `pthread_attr_t`, which has 56 bytes, or larger.
    type Attributes = [u64; 16];
    extern "C" {
        fn pthread_self() -> c_ulong;
        fn pthread_getattr_np(thread: c_ulong, attributes: *mut Attributes) -> c_int;
        fn pthread_attr_getstack(attributes: *const Attributes, start: *mut *mut c_void, size: *mut usize) -> c_int;
        fn pthread_attr_destroy(attributes: *mut Attributes) -> c_int;
    }
    let mut attributes: Attributes = [0; 16];
    let (mut start, mut size) = (std::ptr::null_mut(), 0);
    // SAFETY: plain calls of the C library. The attributes are filled in by the first, read by the second and given back
    // by the third, and each pointer is to a local that is large enough.
    let known = unsafe {
        pthread_getattr_np(pthread_self(), &mut attributes) == 0 && {
            let known = pthread_attr_getstack(&attributes, &mut start, &mut size) == 0;
            pthread_attr_destroy(&mut attributes);
            known
        }
    };
    known.then(|| start as usize..start as usize + size)
}

#[cfg(not(target_os = "linux"))]
fn bounds() -> Option<Range<usize>> { None }

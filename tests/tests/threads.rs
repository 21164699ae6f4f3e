//! The wrapper's `evaluate`, on both machines, on stacks of all sizes: the right answer, and no crash.
#![cfg(feature = "library")]
use glow_tests::case::deep_calls;
use glow_tests::families::{definition_chain, inert_chain_across};
use glow_tests::flat::{canonical, v};
use glow_tests::machine::{BOTH, GLOW_BUDGET};
use glow_tests::painted::on_stack;
use glow_tests::prelude::encode;
use std::ffi::c_void;
use std::os::raw::c_int;
use std::process::Command;

#[test]
fn threads_of_all_sizes() {
    for kibibytes in [32, 64, 96, 128, 256, 512, 1024, 2048, 3072, 4096, 6144, 8192] {
        std::thread::Builder::new().stack_size(kibibytes << 10).spawn(deep_calls).unwrap().join().unwrap_or_else(|_| panic!("on {kibibytes} KiB"));
    }
}

/// Where the thread has enough stack, the call stays on it; where not, next to nothing is used of it. The 2 MiB of a thread of Rust's
/// standard library are enough for glow's stores.
#[test]
fn another_thread_only_where_needed() {
    let file = canonical(2, &inert_chain_across(4095, v(1))).file();
    let prelude = encode(&definition_chain(4095).iter().enumerate().map(|(k, t)| canonical(k, t).file()).collect::<Vec<_>>());
    let named = canonical(4095, &v(4094)).file();
    let mut stores = glow::Stores::glow();
    let needed = stores.stack_needed();
    assert_eq!(needed, stores.stack_needed_with());
    for rules in BOTH {
        for bytes in [8 << 20, 2 << 20, needed + (128 << 10)] {
            assert!(on_stack(bytes, || { stores.evaluate(rules.into(), &file, GLOW_BUDGET); }) > needed * 93 / 100);
            assert!(on_stack(bytes, || { stores.evaluate_with(rules.into(), &prelude, &named, GLOW_BUDGET).unwrap(); }) > needed * 93 / 100);
        }
        for bytes in [1 << 19, needed] {
            assert!(on_stack(bytes, || { stores.evaluate(rules.into(), &file, GLOW_BUDGET); }) < needed / 16);
            assert!(on_stack(bytes, || { stores.evaluate_with(rules.into(), &prelude, &named, GLOW_BUDGET).unwrap(); }) < needed / 16);
        }
    }
}

/// The first thread of a program, with its stack limited by the system.
#[test]
fn the_first_thread() {
    let mut tried = 0;
    for limit in ["128", "256", "1024", "2048", "8192", "unlimited"] {
        let ran = Command::new("sh").args(["-c", "ulimit -S -s \"$1\" || exit 9; exec \"$0\"", env!("CARGO_BIN_EXE_first_thread"), limit]).output().unwrap();
        if ran.status.code() == Some(9) { println!("the system allows no limit of {limit}"); continue; }
        assert_eq!(String::from_utf8_lossy(&ran.stdout), "right\n", "{limit}: {:?} {}", ran.status, String::from_utf8_lossy(&ran.stderr));
        tried += 1;
    }
    assert!(tried >= 4);
}

/// A stack that is not the thread's own, as coroutines have: 64 KiB, by makecontext.
#[test]
fn a_stack_of_another_making() {
    /// A `ucontext_t` of Linux on x86-64: flags, link, the stack's start, flags and size, and more that we do not look at.
    #[repr(C, align(16))]
    struct Context { flags: u64, link: *mut Context, start: *mut c_void, stack_flags: c_int, size: usize, more: [u64; 256] }
    extern "C" {
        fn getcontext(context: *mut Context) -> c_int;
        fn makecontext(context: *mut Context, work: extern "C" fn(), words: c_int, ...);
        fn swapcontext(from: *mut Context, to: *const Context) -> c_int;
    }
    extern "C" fn work() {
        if std::panic::catch_unwind(deep_calls).is_err() { std::process::abort(); }
    }
    let mut stack = vec![0u128; (64 << 10) / 16];
    let empty = || Context { flags: 0, link: std::ptr::null_mut(), start: std::ptr::null_mut(), stack_flags: 0, size: 0, more: [0; 256] };
    let (mut here, mut there) = (empty(), empty());
    // SAFETY: the context is made on a stack of ours that outlives it, and goes back here at its end; a panic in `work` ends the process.
    unsafe {
        assert_eq!(getcontext(&mut there), 0);
        there.link = &mut here;
        there.start = stack.as_mut_ptr().cast();
        there.size = stack.len() * 16;
        makecontext(&mut there, work, 0);
        assert_eq!(swapcontext(&mut here, &there), 0);
    }
}

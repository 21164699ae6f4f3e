//! The library's two machines through its wrapper, each beside the same machine on plain arrays: steps per second, or
//! instructions; and the two side by side. `exchange` has its import and export of binary lambda calculus, `definitions` calls with a
//! prelude of named definitions.
//!
//! Stores are the largest (32,768 nodes, cells and names; renumber 32,768; output 16,384), made once
//! and NOT cleared between calls, the same for both. A call is load, run and, at normal, writing the
//! result. "all" is such a call; "run" is the same call with a renumber store of length 0, so that it
//! makes all steps, and is then refused by 11 before a result is counted or written. A time is the best of
//! fifteen short rounds, and the two sides take their rounds by turns, so that a machine that slows down for a
//! while slows both. The library is called as it is, on the stack that is there; what the wrapper's care for the
//! stack costs is measured apart, after the table.
//!
//!     cargo run --release -p glow-bench            (--no-default-features: the plain machines alone)
//!     cargo run --release -p glow-bench -- --instructions    (each machine's, and then both side by side)
//!     cargo run --release -p glow-bench -- --on-demand    (that machine's times; --instructions --on-demand; --first likewise)
//!     cargo run --release -p glow-bench -- --text  (the program; GLOW_BIN names another)
//!     cargo run --release -p glow-bench -- --exchange    (import and export; with --instructions behind it, instructions)
//!     cargo run --release -p glow-bench -- --definitions    (a library of named definitions; with --instructions behind it, instructions)
//!     cargo run --release -p glow-bench -- --growth    (t_n of proposition 3 beside the old way)
//!     bench/run.sh                                 all of them, kept in bench/last.txt and bench/growth.txt
mod definitions;
mod exchange;
#[cfg(feature = "library")]
mod growth;
mod instructions;
mod library;
mod machines;
mod text;

use glow_tests::families::*;
use glow_tests::flat::*;
use std::time::Instant;

const ROUNDS: usize = 15;
/// The length of a round in seconds.
const ROUND: f64 = 0.01;
/// A budget that no case uses up.
const AMPLE: u32 = 1_000_000;
/// The length of the renumber store in a call that writes its result, and in one that does not.
const ALL: usize = 32_768;
const RUN: usize = 0;

/// The machines, in the order of their numbers in the C function.
#[derive(Clone, Copy, Debug, PartialEq, Eq)]
pub enum Machine { First, OnDemand }

impl Machine {
    const BOTH: [Machine; 2] = [Machine::First, Machine::OnDemand];
    /// What a table of this machine begins with.
    fn heading(self) -> &'static str { match self { Machine::First => "", Machine::OnDemand => "on demand; " } }
    #[cfg(feature = "library")]
    fn of_library(self) -> glow::Machine { match self { Machine::First => glow::Machine::First, Machine::OnDemand => glow::Machine::OnDemand } }
}

struct Arrays { tags: Vec<u8>, args: Vec<u16>, codes: Vec<u16>, owns: Vec<u16>, nexts: Vec<u16>, places: Vec<u16>, renumber: Vec<u16>, out_tags: Vec<u8>, out_args: Vec<u16> }

impl Arrays {
    fn largest() -> Arrays {
        Arrays { tags: vec![0; 32_768], args: vec![0; 32_768], codes: vec![0; 32_768], owns: vec![0; 32_768], nexts: vec![0; 32_768], places: vec![0; 32_768], renumber: vec![0; 32_768], out_tags: vec![0; 16_384], out_args: vec![0; 16_384] }
    }
}

fn plain_call(s: &mut Arrays, machine: Machine, file: &[u8], renumber: usize) -> [u64; 12] {
    let mut report = [0; 12];
    let mut lent = plain::Lent { tags: &mut s.tags, args: &mut s.args, codes: &mut s.codes, owns: &mut s.owns, nexts: &mut s.nexts, places: &mut s.places, renumber: &mut s.renumber[..renumber], out_tags: &mut s.out_tags, out_args: &mut s.out_args };
    plain::evaluate(machine as u32, file, AMPLE, &mut lent, &mut report);
    report
}

#[cfg(feature = "library")]
fn library_call(s: &mut Arrays, machine: Machine, file: &[u8], renumber: usize) -> [u64; 12] {
    let mut report = [0; 12];
    glow::evaluate_in_on_this_stack(machine.of_library(), file, AMPLE, &mut s.tags, &mut s.args, &mut s.codes, &mut s.owns, &mut s.nexts, &mut s.places, &mut s.renumber[..renumber], &mut s.out_tags, &mut s.out_args, &mut report);
    report
}
#[cfg(not(feature = "library"))]
fn library_call(_: &mut Arrays, _: Machine, _: &[u8], _: usize) -> [u64; 12] { [0; 12] }

/// As `library_call`, by the call of the wrapper that may be made on any thread.
#[cfg(feature = "library")]
fn careful_call(s: &mut Arrays, machine: Machine, file: &[u8], renumber: usize) -> [u64; 12] {
    let mut report = [0; 12];
    glow::evaluate_in(machine.of_library(), file, AMPLE, &mut s.tags, &mut s.args, &mut s.codes, &mut s.owns, &mut s.nexts, &mut s.places, &mut s.renumber[..renumber], &mut s.out_tags, &mut s.out_args, &mut report);
    report
}
#[cfg(not(feature = "library"))]
fn careful_call(_: &mut Arrays, _: Machine, _: &[u8], _: usize) -> [u64; 12] { [0; 12] }

/// Terms with `free` free names, one for each size; a term that stands alone has one size, which says nothing.
struct Family { name: &'static str, free: usize, sizes: &'static [usize], make: fn(usize) -> Flat }

fn families() -> Vec<Family> {
    fn family(name: &'static str, free: usize, sizes: &'static [usize], make: fn(usize) -> Flat) -> Family { Family { name, free, sizes, make } }
    vec![
        family("t_n of proposition 3", 1, &[13, 100, 200, 400, 800, 1600, 3276], open_explosion),
        family("u_n of (4)", 1, &[8, 16, 32, 64, 125], u4),
        family("n functions passed along", 1, &[8, 64, 442, 885, 1023], passed_along),
        family("passed along n times, used once", 2, &[8, 32, 120, 250, 500], handed_on),
        family("s_n I of proposition 7", 0, &[5, 11, 100, 500, 1000, 2000], s7),
        family("s_n i of section 10", 2, &[2, 4, 6, 8, 9], |n| s10(n, &v(W))),
        family("2 ^ n shown", 2, &[2, 4, 6, 8, 10], |n| shown(apply(power(), [church(2), church(n)]))),
        family("n * n shown", 2, &[5, 10, 20, 40, 80], |n| shown(apply(product(), [church(n), church(n)]))),
        family("renamings", 1, &[500, 1000, 2000, 4000], renamings),
        family("copying: y d d, d of n binders", 1, &[500, 1000, 2000, 5000], |n| a(l(9_500_000, apply(v(Y), [v(9_500_000), v(9_500_000)])), nested_abstractions(n))),
        family("copying: 30 copies of n arguments", 1, &[60, 120, 240, 480], |n| copied_chain(&v(Y), n, 30, v(Y))),
        family("omega to the end of the store", 0, &[1], |_| omega()),
        family("omega 3 to the end of the store", 0, &[1], |_| omega3()),
        family("fixed point to the end of the store", 1, &[1], |_| z_loop()),
        family("nothing to do: 16383 abstractions", 0, &[16_383], nested_abstractions),
        family("only shifting: 8191 to the left", 1, &[8191], |n| left_nested(n, Y)),
        family("only shifting: 8191 to the right", 1, &[8191], |n| right_nested(n, Y)),
    ]
}

/// The numeral n, handed on by n functions and applied by one more: (\x. (\x. .. (\x. x y i) .. x) x) n. 5 n + 10 nodes.
fn handed_on(n: usize) -> Flat {
    const X: u32 = 9_500_000;
    let mut out = Vec::new();
    for _ in 0..=n { out.extend([F::A, F::L(X)]); }
    out.extend(shown(v(X)));
    out.extend(vec![F::V(X); n]);
    out.extend(church(n));
    out
}

/// A file to measure on a machine, with what a call that writes its result reports.
pub struct Case { machine: Machine, name: String, file: Vec<u8>, nodes: usize, report: [u64; 12] }

impl Case {
    /// Makes each call on the file once on both sides, which must report the same; without a result the same steps are made.
    fn new(s: &mut Arrays, machine: Machine, family: &Family, n: usize) -> Case {
        let term = (family.make)(n);
        let name = if family.sizes.len() > 1 { format!("{}, n = {n}", family.name) } else { family.name.to_string() };
        let file = canonical(family.free, &term).file();
        let report = plain_call(s, machine, &file, ALL);
        let run = plain_call(s, machine, &file, RUN);
        assert!(run[2..] == report[2..] && (8..=11).contains(&run[0]), "{name}: {run:?}");
        if cfg!(feature = "library") { assert_eq!([ALL, RUN].map(|renumber| library_call(s, machine, &file, renumber)), [report, run], "{name}"); }
        Case { machine, name, file, nodes: term.len(), report }
    }
    fn beta(&self) -> u64 { self.report[2] }
    fn steps(&self) -> u64 { self.report[2..7].iter().sum() }
    /// Nodes taken.
    fn taken(&self) -> u64 { self.report[7] }
    fn end(&self) -> String { match self.report[0] { 0 => "normal".to_string(), n => format!("refused {n}") } }
}

/// A side, and the length of the renumber store in its calls.
type Side = (fn(&mut Arrays, Machine, &[u8], usize) -> [u64; 12], usize);

/// Seconds per call of each side, the best of its rounds.
fn times<const N: usize>(s: &mut Arrays, machine: Machine, file: &[u8], sides: [Side; N]) -> [f64; N] {
    let mut best = [f64::MAX; N];
    for _ in 0..ROUNDS {
        for (best, (call, renumber)) in best.iter_mut().zip(sides) {
            call(s, machine, file, renumber);
            let start = Instant::now();
            let mut calls = 0u64;
            while start.elapsed().as_secs_f64() < ROUND { for _ in 0..4 { call(s, machine, file, renumber); } calls += 4; }
            *best = best.min(start.elapsed().as_secs_f64() / calls as f64);
        }
    }
    best
}

/// Prints the case's row, and returns the seconds of a call that writes its result.
fn time_row(s: &mut Arrays, case: &Case) -> f64 {
    let Case { machine, name, file, nodes, .. } = case;
    let (steps, taken, end) = (case.steps(), case.taken(), case.end());
    let speed = |seconds: f64| steps as f64 / seconds / 1e6;
    if cfg!(feature = "library") {
        let [la, lr, pa, pr] = times(s, *machine, file, [(library_call, ALL), (library_call, RUN), (plain_call, ALL), (plain_call, RUN)]);
        println!("{name:42} {nodes:6} {steps:6} {taken:6} {end:10} | {:8.1} {:8.1} | {:8.1} {:8.1} | {:7.1} {:7.1} | {:5.2} {:5.2}",
            la * 1e6, lr * 1e6, pa * 1e6, pr * 1e6, speed(lr), speed(pr), la / pa, lr / pr);
        la
    } else {
        let [pa, pr] = times(s, *machine, file, [(plain_call, ALL), (plain_call, RUN)]);
        println!("{name:42} {nodes:6} {steps:6} {taken:6} {end:10} | {:8.1} {:8.1} | {:7.1}", pa * 1e6, pr * 1e6, speed(pr));
        pa
    }
}

fn time_table(machine: Machine) {
    println!("{}largest stores, made once, NOT cleared between calls; microseconds per call; millions of steps per second from the calls that write no result", machine.heading());
    if cfg!(feature = "library") {
        println!("{:42} {:>6} {:>6} {:>6} {:10} | {:>8} {:>8} | {:>8} {:>8} | {:>7} {:>7} | {:>5} {:>5}", "", "file", "steps", "nodes", "end", "lib all", "lib run", "pl. all", "pl. run", "lib M/s", "pl. M/s", "all", "run");
    }
    let s = &mut Arrays::largest();
    for family in families() {
        let mut last: Option<(usize, f64, u64)> = None;
        for &n in family.sizes {
            let case = Case::new(s, machine, &family, n);
            let seconds = time_row(s, &case);
            if let Some((m, before, steps_before)) = last {
                println!("{:42} n x {:.2}: steps x {:.2}, time x {:.2}", "", n as f64 / m as f64, case.steps() as f64 / steps_before.max(1) as f64, seconds / before);
            }
            last = Some((n, seconds, case.steps()));
        }
    }
}

/// What it costs that a call of the wrapper may be made on any thread: where there is stack enough it only looks, and
/// else the call is made on a thread of its own.
fn care_rows() {
    let file = canonical(1, &renamings(1)).file();
    for (what, bytes) in [("64 MiB", 64 << 20), ("2 MiB", 2 << 20)] {
        let work = || {
            let [bare, careful] = times(&mut Arrays::largest(), Machine::First, &file, [(library_call, ALL), (careful_call, ALL)]);
            println!("a file of 4 nodes, on a stack of {what}: {:.3} microseconds as it is, {:.3} by the call for any thread", bare * 1e6, careful * 1e6);
        };
        std::thread::scope(|scope| std::thread::Builder::new().stack_size(bytes).spawn_scoped(scope, work).unwrap().join().unwrap());
    }
}

fn time_tables(machines: &[Machine]) {
    for (k, &machine) in machines.iter().enumerate() {
        if k > 0 { println!(); }
        time_table(machine);
    }
    if cfg!(feature = "library") { care_rows(); }
}

fn unknown(words: &[&str]) -> ! {
    eprintln!("glow-bench: {} is not known; there are --instructions, --text, --exchange, --exchange --instructions, --definitions, --definitions --instructions and, with the library, --growth; and, alone or behind --instructions, --first or --on-demand", words.join(" "));
    std::process::exit(2)
}

fn work() {
    let words: Vec<String> = std::env::args().skip(1).collect();
    let words: Vec<&str> = words.iter().map(String::as_str).collect();
    match words[..] {
        [] => time_tables(&Machine::BOTH),
        ["--first"] => time_tables(&[Machine::First]),
        ["--on-demand"] => time_tables(&[Machine::OnDemand]),
        ["--instructions"] => instructions::tables(&Machine::BOTH),
        ["--instructions", "--first"] => instructions::tables(&[Machine::First]),
        ["--instructions", "--on-demand"] => instructions::tables(&[Machine::OnDemand]),
        ["--text"] => text::table(),
        ["--exchange"] => exchange::time_table(),
        ["--exchange", "--instructions"] => exchange::instruction_table(),
        ["--definitions"] => definitions::time_tables(),
        ["--definitions", "--instructions"] => definitions::instruction_tables(),
        #[cfg(feature = "library")]
        ["--growth"] => growth::table(),
        ["--calls", ref numbers @ ..] => instructions::make_calls(numbers),
        ["--exchange-calls", ref numbers @ ..] => exchange::make_calls(numbers),
        ["--definitions-passes", ref numbers @ ..] => definitions::make_passes(numbers),
        _ => unknown(&words),
    }
}

fn main() { std::thread::Builder::new().stack_size(64 << 20).spawn(work).unwrap().join().unwrap(); }

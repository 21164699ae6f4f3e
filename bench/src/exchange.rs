//! Binary lambda calculus: the library's import and export beside the plain ones, bits per second, or instructions per bit.
//!
//! A call turns packed bits into a term file, or a term file into packed bits, with all tests of either. The output is one
//! array, made once and NOT cleared between calls, the same for both sides. Bits are counted without the padding. Times and
//! instructions are measured as in the other tables; calls on many bits take fewer rounds, and a round may be one call.
use crate::{instructions, Family, ROUND, ROUNDS};
use glow_tests::families::*;
use glow_tests::flat::*;
use glow_tests::prng::Prng;
use plain::exchange as plain_side;
use std::io::Read;
use std::time::Instant;

/// Calls on more bits than this are timed one by one.
const MANY: usize = 10_000;
/// Calls on more bits than this have fewer rounds, and their instructions are those of one call.
const VERY_MANY: usize = 1_000_000;
/// On more bits than this, no instructions are counted.
const TOO_MANY: usize = 20_000_000;

#[cfg(feature = "library")]
mod library_side {
    extern "C" {
        fn glow_import(bits: *const u8, bits_len: usize, f: u32, out: *mut u8, out_len: usize, report: *mut u64, report_len: usize) -> u32;
        fn glow_export(file: *const u8, file_len: usize, out: *mut u8, out_len: usize, report: *mut u64, report_len: usize) -> u32;
    }

    fn answer(status: u32, report: [u64; 2]) -> Result<usize, u32> {
        match status { 0 => Ok(report[1] as usize), 3 => Err(report[0] as u32), other => panic!("the status {other}") }
    }

    pub fn import(bits: &[u8], f: u32, out: &mut [u8]) -> Result<usize, u32> {
        let mut report = [0; 2];
        // the slices are live for the whole call, each with its own length, and no two overlap; so in export
        let status = unsafe { glow_import(bits.as_ptr(), bits.len(), f, out.as_mut_ptr(), out.len(), report.as_mut_ptr(), report.len()) };
        answer(status, report)
    }

    pub fn export(file: &[u8], out: &mut [u8]) -> Result<usize, u32> {
        let mut report = [0; 2];
        let status = unsafe { glow_export(file.as_ptr(), file.len(), out.as_mut_ptr(), out.len(), report.as_mut_ptr(), report.len()) };
        answer(status, report)
    }
}
#[cfg(not(feature = "library"))]
mod library_side {
    pub fn import(_: &[u8], _: u32, _: &mut [u8]) -> Result<usize, u32> { Ok(0) }
    pub fn export(_: &[u8], _: &mut [u8]) -> Result<usize, u32> { Ok(0) }
}

/// Exactly n nodes with f free names, at least one; applications split anywhere, so that the nesting is moderate.
fn random_term(r: &mut Prng, f: usize, n: usize, depth: u32, out: &mut Flat) {
    const BOUND: u32 = 1 << 20;
    if n == 1 {
        let name = r.below(depth as usize + f) as u32;
        out.push(F::V(if name < depth { BOUND + name } else { name - depth }));
    } else if n == 2 || r.one_in(3) {
        out.push(F::L(BOUND + depth));
        random_term(r, f, n - 1, depth + 1, out);
    } else {
        let left = r.between(1, n - 2);
        out.push(F::A);
        random_term(r, f, left, depth, out);
        random_term(r, f, n - 1 - left, depth, out);
    }
}

fn families() -> Vec<Family> {
    fn random(n: usize) -> Flat { let mut out = Flat::new(); random_term(&mut Prng(n as u64), 4, n, 0, &mut out); out }
    vec![
        Family { name: "the identity", free: 0, sizes: &[1], make: |_| id() },
        Family { name: "numeral n", free: 0, sizes: &[10, 1000], make: church },
        Family { name: "a random term of n nodes", free: 4, sizes: &[300, 16_384], make: random },
        Family { name: "8191 applications to the left", free: 1, sizes: &[8191], make: |n| left_nested(n, Y) },
        Family { name: "8191 applications to the right", free: 1, sizes: &[8191], make: |n| right_nested(n, Y) },
        Family { name: "16383 abstractions, bound by the outermost", free: 0, sizes: &[16_383], make: nested_abstractions },
        Family { name: "8192 times the free name n", free: 16_384, sizes: &[1500, 16_383], make: |n| left_nested(8191, n as u32) },
    ]
}

/// A term as a file and as packed bits.
struct Case { name: String, f: u32, nodes: usize, length: usize, file: Vec<u8>, bits: Vec<u8> }

impl Case {
    /// Both sides must turn the file into the same bits, and those into the file.
    fn new(family: &Family, n: usize) -> Case {
        let term = (family.make)(n);
        let name = if family.sizes.len() > 1 { format!("{}, n = {n}", family.name) } else { family.name.to_string() };
        let f = family.free as u32;
        let file = canonical(family.free, &term).file();
        let mut out = vec![0; 20_000_000];
        let written = plain_side::export(&file, &mut out).expect("bits");
        let bits = out[..written].to_vec();
        assert!(plain_side::import(&bits, f, &mut out) == Ok(file.len()) && out[..file.len()] == file, "{name}");
        if cfg!(feature = "library") {
            assert!(library_side::export(&file, &mut out) == Ok(bits.len()) && out[..bits.len()] == bits, "{name}");
            assert!(library_side::import(&bits, f, &mut out) == Ok(file.len()) && out[..file.len()] == file, "{name}");
        }
        Case { name, f, nodes: term.len(), length: length(&bits), file, bits }
    }

    /// An output that is long enough for either.
    fn output(&self) -> Vec<u8> { vec![0; self.file.len().max(self.bits.len())] }
}

/// The bits without the padding: a term's last bit is the zero behind its last one.
fn length(bits: &[u8]) -> usize {
    let last = bits.iter().rposition(|&byte| byte != 0).expect("a one");
    8 * last + 8 - bits[last].trailing_zeros() as usize + 1
}

/// Import and export by the library, import and export in plain Rust.
type Side = fn(&Case, &mut [u8]) -> Result<usize, u32>;
const SIDES: [Side; 4] = [
    |case, out| library_side::import(&case.bits, case.f, out), |case, out| library_side::export(&case.file, out),
    |case, out| plain_side::import(&case.bits, case.f, out), |case, out| plain_side::export(&case.file, out),
];

/// Seconds per call of each side, the best of its rounds.
fn times(case: &Case) -> [f64; 4] {
    let rounds = if case.length > VERY_MANY { 3 } else { ROUNDS };
    let together = if case.length > MANY { 1 } else { 100 };
    let mut out = case.output();
    let mut best = [f64::MAX; 4];
    for _ in 0..rounds {
        for (best, side) in best.iter_mut().zip(SIDES) {
            let start = Instant::now();
            let mut calls = 0u64;
            while calls == 0 || start.elapsed().as_secs_f64() < ROUND { for _ in 0..together { side(case, &mut out).expect("bytes"); } calls += together; }
            *best = best.min(start.elapsed().as_secs_f64() / calls as f64);
        }
    }
    best
}

pub fn time_table() {
    println!("binary lambda calculus; one output, made once, NOT cleared between calls; import: packed bits to a term file, export: back");
    if cfg!(feature = "library") {
        println!("{:42} {:>6} {:>9} | {:^41} | {:^31} | {:^11}", "", "", "", "microseconds per call", "millions of bits per second", "lib / plain");
        println!("{:42} {:>6} {:>9} | {:>9} {:>9} | {:>9} {:>9} | {:>7} {:>7} {:>7} {:>7} | {:>5} {:>5}", "", "nodes", "bits",
            "lib imp", "lib exp", "pl. imp", "pl. exp", "lib imp", "lib exp", "pl. imp", "pl. exp", "imp", "exp");
    }
    for family in families() {
        for &n in family.sizes {
            let case = Case::new(&family, n);
            let [li, le, pi, pe] = times(&case);
            let Case { name, nodes, length, .. } = &case;
            let speed = |seconds: f64| *length as f64 / seconds / 1e6;
            if cfg!(feature = "library") {
                println!("{name:42} {nodes:6} {length:9} | {:9.2} {:9.2} | {:9.2} {:9.2} | {:7.1} {:7.1} {:7.1} {:7.1} | {:5.2} {:5.2}",
                    li * 1e6, le * 1e6, pi * 1e6, pe * 1e6, speed(li), speed(le), speed(pi), speed(pe), li / pi, le / pe);
            } else {
                println!("{name:42} {nodes:6} {length:9} | {:9.2} {:9.2} | {:7.1} {:7.1}", pi * 1e6, pe * 1e6, speed(pi), speed(pe));
            }
        }
    }
}

pub fn instruction_table() {
    if !instructions::can_be_counted() { return; }
    println!("binary lambda calculus; instructions executed, by callgrind; import: packed bits to a term file, export: back");
    println!("{:42} {:>6} {:>9} | {:^43} | {:^31} | {:^11}", "", "", "", "per call", "per bit", "lib / plain");
    println!("{:42} {:>6} {:>9} | {:>10} {:>10} {:>10} {:>10} | {:>7} {:>7} {:>7} {:>7} | {:>5} {:>5}", "", "nodes", "bits",
        "lib imp", "lib exp", "pl. imp", "pl. exp", "lib imp", "lib exp", "pl. imp", "pl. exp", "imp", "exp");
    for family in families() {
        for &n in family.sizes {
            let case = Case::new(&family, n);
            if case.length > TOO_MANY { continue; }
            let [li, le, pi, pe] = instructions_per_call(&case);
            let Case { name, nodes, length, .. } = &case;
            let per_bit = |count: f64| count / *length as f64;
            println!("{name:42} {nodes:6} {length:9} | {li:10.0} {le:10.0} {pi:10.0} {pe:10.0} | {:7.2} {:7.2} {:7.2} {:7.2} | {:5.2} {:5.2}",
                per_bit(li), per_bit(le), per_bit(pi), per_bit(pe), li / pi, le / pe);
        }
    }
}

fn instructions_per_call(case: &Case) -> [f64; 4] {
    let (few, more) = if case.length > VERY_MANY { (0, 1) } else { (1, 5) };
    let input = [&case.file[..], &case.bits].concat();
    let count = |calls: [u64; 4]| {
        let mut words = vec!["--exchange-calls".to_string(), case.f.to_string(), case.file.len().to_string()];
        words.extend(calls.map(|n| n.to_string()));
        instructions::count(&words, &input)
    };
    let before = count([few; 4]);
    [0, 1, 2, 3].map(|kind| {
        let mut calls = [few; 4];
        calls[kind] += more;
        (count(calls) - before) as f64 / more as f64
    })
}

/// The child that is counted: `--exchange-calls F LENGTH`, a number of calls for each side, and at standard input the file, of
/// this length, and behind it the bits.
pub fn make_calls(words: &[&str]) {
    let numbers: Vec<usize> = words.iter().map(|word| word.parse().expect("a number")).collect();
    let [f, file_length, lib_import, lib_export, plain_import, plain_export] = numbers[..] else { panic!("--exchange-calls takes six numbers") };
    let mut file = Vec::new();
    std::io::stdin().read_to_end(&mut file).expect("the file and the bits");
    let bits = file.split_off(file_length);
    let case = Case { name: String::new(), f: f as u32, nodes: 0, length: 0, file, bits };
    let mut out = case.output();
    for (side, calls) in SIDES.iter().zip([lib_import, lib_export, plain_import, plain_export]) {
        for _ in 0..calls { side(&case, &mut out).expect("bytes"); }
    }
}

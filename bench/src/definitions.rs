//! Named definitions: a library of 200 definitions and 200 terms that use it, times or instructions.
//!
//! A term goes through each machine three times: by the library with the definitions as a prelude, by the library as one file in which they
//! are arguments, and by the plain machine with the prelude. Each call checks and loads all definitions, and writes the result. Stores are
//! the largest, made once and NOT cleared between calls. A pass goes over the terms of a kind one after the other; a time is the best of
//! fifteen short rounds, in which the three sides make their passes by turns. The last row is the sum of those of the 200 terms.
use crate::library::{library, Library, Program, DEFINITIONS, TERMS};
use crate::{instructions, Arrays, Machine, ALL, AMPLE, ROUND, ROUNDS};
use std::io::Read;
use std::time::Instant;

/// The library with the prelude, the library with the definitions as arguments, and the plain machine with the prelude.
type Side = fn(&mut Arrays, Machine, &Library, &Program) -> [u64; 12];
const SIDES: [Side; 3] = [
    |s, machine, library, program| library_call(s, machine, &library.prelude, &program.file),
    |s, machine, _, program| crate::library_call(s, machine, &program.applied, ALL),
    |s, machine, library, program| plain_call(s, machine, &library.prelude, &program.file),
];

fn plain_call(s: &mut Arrays, machine: Machine, prelude: &[u8], file: &[u8]) -> [u64; 12] {
    let mut report = [0; 12];
    let mut lent = plain::Lent { tags: &mut s.tags, args: &mut s.args, codes: &mut s.codes, owns: &mut s.owns, nexts: &mut s.nexts, places: &mut s.places, renumber: &mut s.renumber, out_tags: &mut s.out_tags, out_args: &mut s.out_args };
    plain::evaluate_with(machine as u32, prelude, file, AMPLE, &mut lent, &mut report);
    report
}

#[cfg(feature = "library")]
fn library_call(s: &mut Arrays, machine: Machine, prelude: &[u8], file: &[u8]) -> [u64; 12] {
    let mut report = [0; 12];
    glow::evaluate_with_in_on_this_stack(machine.of_library(), prelude, file, AMPLE, &mut s.tags, &mut s.args, &mut s.codes, &mut s.owns, &mut s.nexts, &mut s.places, &mut s.renumber, &mut s.out_tags, &mut s.out_args, &mut report);
    report
}
#[cfg(not(feature = "library"))]
fn library_call(_: &mut Arrays, _: Machine, _: &[u8], _: &[u8]) -> [u64; 12] { [0; 12] }

/// What a side reports, and the nodes that it writes, with `less` taken from each name.
fn answer(s: &mut Arrays, machine: Machine, library: &Library, program: &Program, side: Side, less: usize) -> ([u64; 12], Vec<(u8, usize)>) {
    let report = side(s, machine, library, program);
    let node = |(&tag, &argument): (&u8, &u16)| (tag, argument as usize - if tag < 2 { less } else { 0 });
    (report, s.out_tags.iter().zip(&s.out_args).take(report[1] as usize).map(node).collect())
}

/// The betas and the steps that a program takes with the prelude, once the three sides are seen to agree. Each ends with a normal form, and both
/// with the prelude report the same. As an argument each definition takes a beta, an enter, a leave-fun and a cell, and two nodes more. The term
/// written is the same, but that with the prelude its names begin behind those of the definitions.
fn agreed(s: &mut Arrays, machine: Machine, library: &Library, program: &Program) -> [u64; 2] {
    let [with, applied, plain] = SIDES;
    let expected = answer(s, machine, library, program, plain, DEFINITIONS);
    let (report, term) = &expected;
    assert!(report[0] == 0 && report[1] > 0, "{report:?}");
    if cfg!(feature = "library") {
        assert_eq!(answer(s, machine, library, program, with, DEFINITIONS), expected);
        let (as_arguments, written) = answer(s, machine, library, program, applied, 0);
        let [beta, subst, enter, leave_fun, leave_inert, nodes, cells, names]: [u64; 8] = report[2..10].try_into().expect("eight numbers");
        let d = DEFINITIONS as u64;
        assert_eq!(as_arguments[..10], [0, report[1], beta + d, subst, enter + d, leave_fun + d, leave_inert, nodes + 2 * d, cells + d, names]);
        assert_eq!(written, *term);
    }
    [report[2], report[2..7].iter().sum()]
}

/// Programs of a kind, or of all: how many there are, their betas and steps with the prelude, and what each side takes for all of them together.
#[derive(Clone, Copy, Default)]
struct Row { programs: u64, beta: u64, steps: u64, together: [f64; 3] }

fn heading(machine: Machine, library: &Library, unit: &str) {
    println!("{}{DEFINITIONS} named definitions of {} nodes together, used by {TERMS} terms; with: as a prelude, applied: as arguments in the term's own file; {unit} of calls that check and load all of them and write the result", machine.heading(), library.nodes);
    if cfg!(feature = "library") {
        println!("{:42} {:>6} {:>7} {:>7} | {:^31} | {:^35} | {:^15}", "", "", "", "", "per call", "together", "lib with /");
        println!("{:42} {:>6} {:>7} {:>7} | {:>9} {:>11} {:>9} | {:>11} {:>11} {:>11} | {:>7} {:>7}", "", "terms", "beta", "steps", "lib with", "lib applied", "pl. with", "lib with", "lib applied", "pl. with", "pl.", "applied");
    }
}

impl Row {
    fn print(&self, name: &str, digits: usize) {
        let Row { programs, beta, steps, together } = self;
        let [with, applied, plain] = together;
        let [with_call, applied_call, plain_call] = together.map(|all| all / *programs as f64);
        if cfg!(feature = "library") {
            println!("{name:42} {programs:6} {beta:7} {steps:7} | {with_call:9.digits$} {applied_call:11.digits$} {plain_call:9.digits$} | {with:11.digits$} {applied:11.digits$} {plain:11.digits$} | {:7.2} {:7.2}", with / plain, with / applied);
        } else {
            println!("{name:42} {programs:6} {beta:7} {steps:7} | {plain_call:9.digits$} | {plain:11.digits$}");
        }
    }
}

/// The rows of a machine: for each kind what `measure` says of it, and the sum of those of the terms that use the library.
fn rows(s: &mut Arrays, machine: Machine, library: &Library, digits: usize, measure: impl Fn(&mut Arrays, usize) -> [f64; 3]) {
    let mut all = Row::default();
    for (k, (name, programs)) in library.kinds.iter().enumerate() {
        let counts: Vec<[u64; 2]> = programs.iter().map(|program| agreed(s, machine, library, program)).collect();
        let row = Row { programs: programs.len() as u64, beta: counts.iter().map(|c| c[0]).sum(), steps: counts.iter().map(|c| c[1]).sum(), together: measure(s, k) };
        row.print(name, digits);
        if k > 0 { all = Row { programs: all.programs + row.programs, beta: all.beta + row.beta, steps: all.steps + row.steps, together: [0, 1, 2].map(|side| all.together[side] + row.together[side]) }; }
    }
    all.print("all", digits);
}

fn pass(s: &mut Arrays, machine: Machine, library: &Library, kind: usize, side: Side) { for program in &library.kinds[kind].1 { side(s, machine, library, program); } }

/// Seconds of a pass of each side, the best of its rounds.
fn times(s: &mut Arrays, machine: Machine, library: &Library, kind: usize) -> [f64; 3] {
    let mut best = [f64::MAX; 3];
    for _ in 0..ROUNDS {
        for (best, side) in best.iter_mut().zip(SIDES) {
            let start = Instant::now();
            let mut passes = 0u64;
            while passes == 0 || start.elapsed().as_secs_f64() < ROUND { pass(s, machine, library, kind, side); passes += 1; }
            *best = best.min(start.elapsed().as_secs_f64() / passes as f64);
        }
    }
    best
}

pub fn time_tables() {
    let (s, library) = (&mut Arrays::largest(), &library());
    for (k, machine) in Machine::BOTH.into_iter().enumerate() {
        if k > 0 { println!(); }
        heading(machine, library, "microseconds");
        rows(s, machine, library, 1, |s, kind| times(s, machine, library, kind).map(|seconds| seconds * 1e6));
    }
}

pub fn instruction_tables() {
    if !instructions::can_be_counted() { return; }
    let (s, library) = (&mut Arrays::largest(), &library());
    for (k, machine) in Machine::BOTH.into_iter().enumerate() {
        if k > 0 { println!(); }
        heading(machine, library, "instructions executed, by callgrind,");
        rows(s, machine, library, 0, |_, kind| instructions_of_a_pass(machine, library, kind));
    }
}

/// What a child takes more that makes a pass more.
fn instructions_of_a_pass(machine: Machine, library: &Library, kind: usize) -> [f64; 3] {
    let input = &pieces(library, kind);
    let [before, with @ ..] = std::thread::scope(|scope| {
        let child = |passes: [u64; 3]| scope.spawn(move || {
            let mut words = vec!["--definitions-passes".to_string(), (machine as u32).to_string()];
            words.extend(passes.map(|n| n.to_string()));
            instructions::count(&words, input)
        });
        [[1, 1, 1], [2, 1, 1], [1, 2, 1], [1, 1, 2]].map(child).map(|child| child.join().expect("a count"))
    });
    with.map(|count| (count - before) as f64)
}

/// The prelude and the two files of each program of a kind, each behind its length in four bytes.
fn pieces(library: &Library, kind: usize) -> Vec<u8> {
    let files = library.kinds[kind].1.iter().flat_map(|program| [&program.file, &program.applied]);
    std::iter::once(&library.prelude).chain(files).flat_map(|bytes| [&(bytes.len() as u32).to_le_bytes(), &bytes[..]].concat()).collect()
}

/// The child that is counted: `--definitions-passes`, the machine's number and a number of passes for each side, and the pieces at standard
/// input.
pub fn make_passes(words: &[&str]) {
    let numbers: Vec<usize> = words.iter().map(|word| word.parse().expect("a number")).collect();
    let [machine, ref passes @ ..] = numbers[..] else { panic!("--definitions-passes takes four numbers") };
    let mut input = Vec::new();
    std::io::stdin().read_to_end(&mut input).expect("the pieces");
    let mut rest = &input[..];
    let mut piece = || {
        let length = u32::from_le_bytes(rest.get(..4)?.try_into().expect("four bytes")) as usize;
        let bytes = rest[4..4 + length].to_vec();
        rest = &rest[4 + length..];
        Some(bytes)
    };
    let prelude = piece().expect("the prelude");
    let programs: Vec<Program> = std::iter::from_fn(|| Some(Program { file: piece()?, applied: piece()? })).collect();
    let (s, library) = (&mut Arrays::largest(), &Library { prelude, nodes: 0, kinds: vec![("", programs)] });
    for (side, &passes) in SIDES.into_iter().zip(passes) {
        for _ in 0..passes { pass(s, Machine::BOTH[machine], library, 0, side); }
    }
}

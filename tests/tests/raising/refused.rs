//! Files and preludes that are refused by their own faults: the same number with any budget and any stores, and no array is touched.
use crate::changes::{Answers, Changes};
use crate::grid::{uneven, Seen};
use crate::room::Room;
use crate::{terms, with_definitions, Limits, Program};
use glow_tests::families::id;
use glow_tests::file::REFUSED_FILES;
use glow_tests::flat::{canonical, v};
use glow_tests::machine::*;
use glow_tests::prelude;
use glow_tests::prng::Prng;
use glow_tests::random;

/// Small, large and largest.
const BUDGETS: [usize; 4] = [0, 1, 7, u32::MAX as usize];

fn limits(r: &mut Prng) -> Limits {
    let mut length = || match r.below(8) { 0 | 1 => 0, 2 => 1, 3 => 65_536, 4 => r.below(40_000), _ => r.below(60) };
    let [cells, nodes, names, renumber, output] = [0; 5].map(|_| length());
    let at = Limits::of([BUDGETS[r.below(4)], cells, nodes, names, renumber, output]);
    Limits { lengths: uneven(at.lengths, r.next()), ..at }
}

#[test]
fn at_any_limits() {
    let mut r = Prng(41);
    let mut room = Room::new();
    let mut changes = Changes::default();
    let mut kinds = [0u64; 20];
    let mut programs: Vec<Program> = REFUSED_FILES.iter().map(|file| Program { prelude: None, file: file.to_vec() }).collect();
    for file in REFUSED_FILES { programs.push(Program { prelude: Some(prelude::encode(&[file.to_vec()])), file: canonical(1, &v(0)).file() }); }
    while programs.len() < 1000 {
        let (f, definitions, term) = random::with_definitions(&mut r);
        let mut program = if r.one_in(3) { Program::plain(f, &term) } else { Program::with(f, &definitions, &term) };
        match &mut program.prelude { Some(prelude) if !r.one_in(4) => random::damage_prelude(&mut r, prelude), _ => random::damage(&mut r, &mut program.file) }
        if prelude::read(program.prelude(), &program.file).is_err() { programs.push(program); }
    }
    for program in &programs {
        let refusal = prelude::read(program.prelude(), &program.file).expect_err("a refusal");
        kinds[refusal as usize] += 1;
        for rules in BOTH {
            let first = room.call(rules, program, &Limits::of([0; 6]));
            assert_eq!(first, Answer::FileRefused(refusal), "{rules:?}, {program:?}");
            let mut answers = Answers::new(rules, program, &Limits::of([0; 6]));
            for _ in 0..7 {
                let limits = limits(&mut r);
                let what = || format!("{rules:?}, {limits:?} of {program:?}");
                let number = answers.number(room.call(rules, program, &limits), &limits, what);
                changes.pair(&first, answers.get(number), [true; 6], what);
            }
        }
    }
    changes.print("refused files and preludes");
    println!("{} calls; refusals 1.. {:?} 17.. {:?}", room.calls, &kinds[1..8], &kinds[17..]);
    for k in (1..8).chain(17..20) { assert!(kinds[k] >= 5, "assertion: refusal {k} came only {} times", kinds[k]); }
}

/// The examples of paper 01, a definition that is a name and one that may name itself, and small programs with one byte changed, of the file or
/// of the prelude, or with the last byte missing.
fn damaged() -> Vec<Program> {
    let mut all: Vec<Program> = REFUSED_FILES.iter().map(|file| Program { prelude: None, file: file.to_vec() }).collect();
    for definition in [v(0), id()] { all.push(Program { prelude: Some(prelude::encode(&[canonical(1, &definition).file()])), file: canonical(1, &v(0)).file() }); }
    for sound in [terms(1, 3), with_definitions(1, &[3], 1)].concat() {
        let prelude = sound.prelude.clone().unwrap_or_default();
        for (bytes, of_file) in [(&sound.file, true), (&prelude, false)] {
            for at in 0..bytes.len() {
                for now in [bytes[at].wrapping_add(1), bytes[at].wrapping_sub(1), 0xFF] {
                    let mut other = bytes.clone();
                    other[at] = now;
                    all.push(if of_file { Program { file: other, ..sound.clone() } } else { Program { prelude: Some(other), ..sound.clone() } });
                }
            }
            if let Some((_, cut)) = bytes.split_last() { all.push(if of_file { Program { file: cut.to_vec(), ..sound.clone() } } else { Program { prelude: Some(cut.to_vec()), ..sound.clone() } }); }
        }
    }
    all.retain(|program| prelude::read(program.prelude(), &program.file).is_err());
    all
}

#[test]
fn at_all_small_limits() {
    let mut room = Room::new();
    let mut seen = Seen::both();
    let mut kinds = [0u64; 20];
    let axes = [vec![0, 1, u32::MAX as usize], vec![0, 1], vec![0, 1, 2, 5], vec![0, 1, 3], vec![0, 1, 3], vec![0, 1, 3]];
    for program in damaged() {
        let refusal = prelude::read(program.prelude(), &program.file).expect_err("a refusal");
        kinds[refusal as usize] += 1;
        for one in &mut seen {
            let mut answers = Answers::new(one.rules, &program, &Limits::of([0; 6]));
            one.grid(&mut room, &program, &axes, &mut answers);
            assert_eq!((answers.distinct(), answers.get(0)), (1, &Answer::FileRefused(refusal)), "{:?}, {program:?}", one.rules);
        }
    }
    for one in &seen { one.changes.print(&format!("refused at all small limits, {:?}", one.rules)); }
    println!("{} calls; refusals 1.. {:?} 17.. {:?}", room.calls, &kinds[1..8], &kinds[17..]);
    for k in (1..8).chain(17..20) { assert!(kinds[k] >= 1, "assertion: refusal {k} did not come"); }
}

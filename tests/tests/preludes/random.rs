//! Random preludes and terms, seeded, on each machine: sound and damaged ones, lengths and budgets around what is needed, noise in the
//! stores, reports of all lengths, null pointers to what is empty; and the sound ones beside the term with the definitions put in.
use crate::{agree, Kinds, Subject};
use glow_tests::case::{print_notes, Case};
use glow_tests::machine::*;
use glow_tests::painted::on_eight_mebibytes;
use glow_tests::prng::Prng;
use glow_tests::random;

/// The budget of the run that shows what a term needs, in betas.
const MOST: u32 = 200;

fn cases(rules: Rules, seed: u64, subjects: usize) {
    let mut r = Prng(seed);
    let mut kinds = Kinds::default();
    let (mut agreed, mut too_large) = (0u64, 0u64);
    for _ in 0..subjects {
        let (f, definitions, term) = random::with_definitions(&mut r);
        let mut s = Subject::of(f, &definitions, &term);
        let sound = !r.one_in(3);
        if !sound { random::damage_prelude(&mut r, &mut s.prelude); }
        if r.one_in(30) { random::damage(&mut r, &mut s.file); }
        let full = evaluate_with(rules, &s.prelude, &s.file, MOST, &Lengths::largest());
        if sound && matches!(full, Answer::Ran(_)) {
            match s.put_in() {
                Some(file) => for budget in [MOST, random::budget(&mut r, &full, MOST)] {
                    let with = evaluate_with(rules, &s.prelude, &s.file, budget, &Lengths::largest());
                    agreed += u64::from(agree(&with, &evaluate(rules, &file, budget, &Lengths::largest())));
                },
                None => too_large += 1,
            }
        }
        for _ in 0..5 {
            let lengths = random::lengths(&mut r, &full);
            let budget = random::budget(&mut r, &full, MOST);
            let garbage = match r.below(8) { 0 => 0, 1 => 1, 2 => 2, _ => r.next() };
            let report_len = match r.below(40) { 0 => r.below(12), 1 => 13, 2 => 20, _ => 12 };
            kinds.count(&Case { rules, prelude: Some(&s.prelude), file: &s.file, budget, lengths, garbage, report_len, nulls: garbage % 2 == 1 }.check());
        }
    }
    println!("{rules:?}, seed {seed}: {}; {agreed} beside the term with the definitions put in, {too_large} of more nodes than a file has", kinds.told());
    for k in (0..13).chain([14, 17, 18, 19]) { assert!(kinds.0[k] >= 5, "outcome {k} came only {} times", kinds.0[k]); }
    assert!(agreed > subjects as u64 / 2);
    print_notes();
}

fn scaled() -> usize { std::env::var("GLOW_RANDOM_TERMS").ok().and_then(|s| s.parse().ok()).unwrap_or(20_000) }

#[test] fn seed_1() { on_eight_mebibytes(|| cases(Rules::First, 1, scaled())) }
#[test] fn seed_2_on_demand() { on_eight_mebibytes(|| cases(Rules::OnDemand, 2, scaled())) }

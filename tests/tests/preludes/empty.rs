//! The prelude of no definition: the call with it answers in every field as the call without a prelude.
use crate::Kinds;
use glow_tests::case::{print_notes, Case};
use glow_tests::enumerate::All;
use glow_tests::families::small_members;
use glow_tests::file::REFUSED_FILES;
use glow_tests::flat::{canonical, from_text};
use glow_tests::machine::*;
use glow_tests::prelude::NONE;
use glow_tests::prng::Prng;
use glow_tests::random;

/// Both calls, each compared with one answer: that of the run without a prelude.
fn both(kinds: &mut Kinds, case: Case) {
    let answer = evaluate(case.rules, case.file, case.budget, &case.lengths);
    kinds.count(&answer);
    case.check_against(&answer);
    case.with(NONE).check_against(&answer);
}

#[test]
fn as_without_one() {
    let mut kinds = Kinds::default();
    let mut all = All::default();
    let lengths = [Lengths::of(200, 60, 100, 100, 100), Lengths::of(9, 2, 4, 4, 4), Lengths::of(7, 1, 3, 3, 2), Lengths::of(0, 0, 0, 0, 0)];
    for rules in BOTH {
        for (f, most) in [(0, 8), (1, 7), (2, 6)] {
            for t in (1..=most).flat_map(|n| all.terms(f, n).to_vec()) {
                let file = canonical(f, &t).file();
                for (k, &lengths) in lengths.iter().enumerate() { for budget in [0, 1, 9] { both(&mut kinds, Case::new(rules, &file, budget, lengths).garbage(k as u64)); } }
            }
        }
        for (_, f, t) in small_members() {
            let file = canonical(f, &t).file();
            for budget in [0, 3, 100] { both(&mut kinds, Case::new(rules, &file, budget, Lengths::glow()).garbage(9)); }
        }
        for file in REFUSED_FILES { both(&mut kinds, Case::new(rules, file, 5, Lengths::of(9, 2, 4, 4, 4))); }
        for report_len in 0..14 { both(&mut kinds, Case { report_len, ..Case::new(rules, REFUSED_FILES[0], 5, Lengths::of(9, 2, 4, 4, 4)) }); }
    }
    println!("{}", kinds.told());
    for k in (0..11).chain([12, 14]) { assert!(kinds.0[k] >= 2, "outcome {k}"); }
    print_notes();
}

#[test]
fn random_terms() {
    let mut r = Prng(31);
    let mut kinds = Kinds::default();
    for _ in 0..4000 {
        let rules = BOTH[r.below(2)];
        let (f, t) = random::term(&mut r);
        if t.len() > 300 { continue; }
        let mut file = canonical(f, &t).file();
        if r.one_in(4) { random::damage(&mut r, &mut file); }
        let full = evaluate(rules, &file, 200, &Lengths::largest());
        let (lengths, budget) = (random::lengths(&mut r, &full), random::budget(&mut r, &full, 200));
        both(&mut kinds, Case::new(rules, &file, budget, lengths).garbage(r.next()));
    }
    println!("{}", kinds.told());
    print_notes();
}

/// With or without free names, the two bytes are enough, and nothing less and nothing more is.
#[test]
fn its_bytes() {
    for rules in BOTH {
        for (f, text) in [(0, "l0 v0"), (1, "v0"), (16_384, "v16383")] {
            let file = from_text(f, text).file();
            for prelude in [&[][..], &[0], &[0, 0, 0], &[0, 0, 0, 0], &[0, 1], &[1, 0], &[0; 9]] {
                Case::glow(rules, &file).with(prelude).nulls().check_against(&Answer::FileRefused(17));
            }
            assert!(matches!(Case::glow(rules, &file).with(NONE).check().run().outcome, Outcome::Normal(_)));
        }
    }
}

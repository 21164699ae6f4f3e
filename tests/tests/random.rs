//! Random cases on each machine, seeded: sound and damaged files, lengths and budgets around what is needed,
//! garbage in the stores, reports of all lengths, null pointers to what is empty.
use glow_tests::case::{print_notes, Case};
use glow_tests::flat::canonical;
use glow_tests::machine::*;
use glow_tests::prng::Prng;
use glow_tests::random;

/// The budget of the run that shows what a term needs, in betas.
const MOST: u32 = 300;

fn cases(rules: Rules, seed: u64, terms: usize) {
    let mut r = Prng(seed);
    let mut kinds = [0u64; 15];
    let mut done = 0u64;
    for _ in 0..terms {
        let (f, t) = random::term(&mut r);
        if t.len() > 16_384 { continue; }
        let mut file = canonical(f, &t).file();
        if r.one_in(3) { random::damage(&mut r, &mut file); }
        let full = evaluate(rules, &file, MOST, &Lengths::largest());
        for _ in 0..6 {
            let lengths = random::lengths(&mut r, &full);
            let budget = random::budget(&mut r, &full, MOST);
            let garbage = match r.below(8) { 0 => 0, 1 => 1, 2 => 2, _ => r.next() };
            let report_len = match r.below(40) { 0 => r.below(12), 1 => 13, 2 => 20, _ => 12 };
            let nulls = garbage % 2 == 1;
            let a = Case { rules, prelude: None, file: &file, budget, lengths, garbage, report_len, nulls }.check();
            kinds[a.kind()] += 1;
            done += 1;
        }
    }
    println!("{rules:?}, seed {seed}: {done} cases; normal {} spent {} refusals 1.. {:?}", kinds[0], kinds[14], &kinds[1..13]);
    for k in (0..13).chain([14]) { assert!(kinds[k] >= 10, "outcome {k} came only {} times", kinds[k]); }
    print_notes();
}

fn scaled() -> usize { std::env::var("GLOW_RANDOM_TERMS").ok().and_then(|s| s.parse().ok()).unwrap_or(50_000) }

#[test] fn seed_1() { glow_tests::painted::on_eight_mebibytes(|| cases(Rules::First, 1, scaled())) }
#[test] fn seed_2() { glow_tests::painted::on_eight_mebibytes(|| cases(Rules::First, 2, scaled())) }
#[test] fn seed_1_on_demand() { glow_tests::painted::on_eight_mebibytes(|| cases(Rules::OnDemand, 1, scaled())) }
#[test] fn seed_3_on_demand() { glow_tests::painted::on_eight_mebibytes(|| cases(Rules::OnDemand, 3, scaled())) }

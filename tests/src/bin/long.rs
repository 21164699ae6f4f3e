//! Longer runs by hand, each on both machines:
//!   long random [SEED] [TERMS]   random cases for ever, or as many terms as said; a line per 100,000 cases
//!   long all F N                 all terms of exactly N nodes with F free names, every budget to the betas needed and one more
//!   long slow                    results that are slow to write, timed
//!   long random-deep [SEED]      large random terms with glow's and the largest stores, on a large stack
use glow_tests::case::{print_notes, Case, LIBRARY};
use glow_tests::enumerate::All;
use glow_tests::flat::canonical;
use glow_tests::machine::*;
use glow_tests::prng::Prng;
use glow_tests::random;

fn number(at: usize, otherwise: u64) -> u64 { std::env::args().nth(at).and_then(|s| s.parse().ok()).unwrap_or(otherwise) }

/// The budget of the run that shows what a random term needs, in betas.
const MOST: u32 = 600;

fn random_cases() {
    let mut r = Prng(number(2, 1));
    let terms = number(3, u64::MAX);
    let (mut done, mut kinds) = (0u64, [0u64; 15]);
    for _ in 0..terms {
        let (f, t) = random::term(&mut r);
        if t.len() > 16_384 { continue; }
        let mut file = canonical(f, &t).file();
        if r.one_in(3) { random::damage(&mut r, &mut file); }
        let full = BOTH.map(|rules| (rules, evaluate(rules, &file, MOST, &Lengths::largest())));
        for k in 0..8 {
            let (rules, full) = &full[k % 2];
            let lengths = random::lengths(&mut r, full);
            let budget = random::budget(&mut r, full, MOST);
            let (garbage, report_len) = (if r.one_in(4) { r.below(3) as u64 } else { r.next() }, if r.one_in(40) { r.below(20) } else { 12 });
            kinds[Case { rules: *rules, prelude: None, file: &file, budget, lengths, garbage, report_len, nulls: garbage % 2 == 1 }.check().kind()] += 1;
            done += 1;
            if done % 100_000 == 0 { println!("{done} cases, normal {} spent {} refusals 1.. {:?}", kinds[0], kinds[14], &kinds[1..13]); }
        }
    }
    println!("{done} cases, normal {} spent {} refusals 1.. {:?}", kinds[0], kinds[14], &kinds[1..13]);
}

fn random_deep() {
    let mut r = Prng(number(2, 1));
    for round in 0..number(3, u64::MAX) {
        let (f, t) = loop { let (f, t) = random::term(&mut r); if t.len() > 300 && t.len() <= 16_384 { break (f, t); } };
        let file = canonical(f, &t).file();
        for lengths in [Lengths::glow(), Lengths::largest()] { for rules in BOTH { Case::new(rules, &file, GLOW_BUDGET, lengths).garbage(r.next()).check(); } }
        if round % 1000 == 999 { println!("{} large terms", round + 1); }
    }
}

fn slow() {
    for (n, nodes, lengths) in [(9, 16_300, Lengths::glow()), (11, 16_300, Lengths::glow()), (13, 16_300, Lengths::glow()), (13, 32_700, Lengths::largest())] {
        let (links, t) = glow_tests::families::slow_to_write(n, nodes);
        let file = canonical(1, &t).file();
        for rules in BOTH {
            let start = std::time::Instant::now();
            let answer = evaluate(rules, &file, GLOW_BUDGET, &lengths);
            let second = start.elapsed().as_secs_f64();
            Case::new(rules, &file, GLOW_BUDGET, lengths).check_against(&answer);
            println!("t_{n} over {links} renamings, {} nodes, {rules:?}: second implementation {second:.2} s, library {:.2} s", t.len(), start.elapsed().as_secs_f64() - second);
        }
    }
}

fn all() {
    let (f, n) = (number(2, 0) as usize, number(3, 8) as usize);
    let mut all = All::default();
    let terms = all.terms(f, n);
    let mut cases = 0u64;
    for t in terms.iter() {
        let file = canonical(f, t).file();
        let lengths = Lengths::of(600, 300, 300, 300, 300);
        for rules in BOTH {
            let full = Case::new(rules, &file, 40, lengths).check();
            cases += 1;
            for budget in 0..full.run().counts.beta as u32 + 2 { Case::new(rules, &file, budget, lengths).garbage(budget as u64).check(); cases += 1; }
        }
    }
    println!("f = {f}, {n} nodes: {} terms, {cases} cases", terms.len());
}

fn main() {
    println!("{}", if LIBRARY { "with the library" } else { "without the library: the second implementation alone" });
    let what = std::env::args().nth(1).unwrap_or_default();
    let work = move || {
        match what.as_str() { "random" => random_cases(), "random-deep" => random_deep(), "all" => all(), "slow" => slow(), _ => println!("long random [SEED] [TERMS] | long slow | long random-deep [SEED] [TERMS] | long all F N") }
        print_notes();
    };
    std::thread::Builder::new().stack_size(64 << 20).spawn(work).unwrap().join().unwrap();
}

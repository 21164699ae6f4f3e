//! What a budget means, on both machines. Against the calculus alone, by its own steps: with ample stores a run is spent exactly when the calculus
//! can make as many beta steps as the budget has, and the term after them is no fireball; else it ends at the fireball that is
//! reached. And terms that never end: spent, or refused by the store that is full first.
use glow_tests::calculus;
use glow_tests::case::{print_notes, Case};
use glow_tests::enumerate::All;
use glow_tests::families::*;
use glow_tests::file::check;
use glow_tests::flat::{a, apply, canonical, l, v, Canonical, Flat};
use glow_tests::machine::*;
use glow_tests::painted::with_large_stack;
use glow_tests::prng::Prng;
use glow_tests::random;

/// The terms of the calculus from a term on, up to a fireball, to `most_steps` steps, or to the first term of more than `most_nodes`.
struct Terms { all: Vec<Canonical>, ends_with_fireball: bool }

impl Terms {
    fn from(f: usize, file: &[u8], most_steps: usize, most_nodes: u64) -> Terms {
        let mut term = calculus::from_file(&check(file).unwrap());
        let mut all = vec![calculus::to_canonical(f, &term)];
        while all.len() <= most_steps && !calculus::is_fireball(&term) {
            term = calculus::step(&term).expect("a step, where the term is no fireball");
            if calculus::size(&term) > most_nodes { break; }
            all.push(calculus::to_canonical(f, &term));
        }
        let ends_with_fireball = calculus::is_fireball(&term) && calculus::size(&term) <= most_nodes;
        if ends_with_fireball { assert!(calculus::step(&term).is_none()); }
        Terms { all, ends_with_fireball }
    }

    fn steps(&self) -> usize { self.all.len() - 1 }

    /// The budgets that these terms tell of: two past the end, where there is one.
    fn budgets(&self) -> std::ops::RangeInclusive<usize> { if self.ends_with_fireball { 0..=self.steps() + 2 } else { 0..=self.steps() } }

    /// Whether the calculus can make so many steps and the term after them is no fireball.
    fn spent(&self, budget: usize) -> bool { !self.ends_with_fireball || budget < self.steps() }

    /// The outcome and the beta count with stores that do not end the run.
    fn outcome(&self, budget: usize, l: &Lengths) -> (Outcome, u64) {
        if self.spent(budget) { return (Outcome::Spent, budget as u64); }
        let fireball = &self.all[self.steps()];
        let outcome = if l.renumber == 0 { Outcome::Refused(11) } else if fireball.tags.len() > l.output() { Outcome::Refused(12) } else { Outcome::Normal(fireball.clone()) };
        (outcome, self.steps() as u64)
    }
}

/// How many cases there were, and how many of them were spent.
#[derive(Default)]
struct Compared { cases: u64, spent: u64 }

impl Compared {
    /// The library at every budget that the calculus tells of, with stores that do not end the run, and also with no room for the result.
    fn term(&mut self, f: usize, t: &Flat, most_steps: usize, ample: Lengths) {
        let file = canonical(f, t).file();
        let terms = Terms::from(f, &file, most_steps, 2000);
        for budget in terms.budgets() {
            for lengths in [ample, Lengths { renumber: 0, ..ample }, Lengths { out_tags: 0, ..ample }] {
                for rules in BOTH {
                    let answer = Case::new(rules, &file, budget as u32, lengths).garbage(budget as u64).check();
                    let run = answer.run();
                    assert_eq!((run.outcome.clone(), run.counts.beta), terms.outcome(budget, &lengths), "{rules:?}, budget {budget} of {}", canonical(f, t).text());
                    self.cases += 1;
                    if run.outcome == Outcome::Spent { self.spent += 1; }
                }
            }
        }
    }

    fn print(&self, what: &str) {
        println!("{what}: {} cases as the calculus says, {} of them spent", self.cases, self.spent);
        assert!(self.spent > 1000);
        print_notes();
    }
}

fn all_of(f: usize, most: usize) {
    let mut all = All::default();
    let mut compared = Compared::default();
    for n in 1..=most {
        for t in all.terms(f, n).iter() { compared.term(f, t, 8, Lengths::of(700, 150, 150, 150, 60)); }
    }
    compared.print(&format!("all terms to {most} nodes, f = {f}"));
}

#[test] fn closed() { all_of(0, 11) }
#[test] fn one_free_name() { all_of(1, 10) }
#[test] fn two_free_names() { all_of(2, 9) }

#[test]
fn families() {
    with_large_stack(|| {
        let mut compared = Compared::default();
        for (_, f, t) in small_members() { compared.term(f, &t, 60, Lengths::of(8000, 4000, 4000, 4000, 2000)); }
        compared.print("families");
    });
}

#[test]
fn random_terms() {
    with_large_stack(|| {
        let mut compared = Compared::default();
        let mut r = Prng(5);
        let mut terms = 0;
        while terms < 4000 {
            let (f, t) = random::term(&mut r);
            if t.len() > 80 || f > 500 { continue; }
            terms += 1;
            compared.term(f, &t, 20, Lengths::of(3000, 1000, 1500, 1500, 500));
        }
        compared.print("random terms");
    });
}

/// Terms that never end: two that come back to themselves, one of them with an open name, and three that grow.
fn endless() -> [(&'static str, usize, Flat); 5] {
    let (x, z) = (9_000_000, 9_000_001);
    let passing = l(x, l(z, apply(v(x), [v(x), v(z)])));
    let growing = l(x, apply(v(x), [v(x), v(Y)]));
    [
        ("omega", 0, omega()),
        ("omega that passes y along", 1, apply(passing.clone(), [passing, v(Y)])),
        ("omega y y ..", 1, a(growing.clone(), growing)),
        ("omega 3", 0, omega3()),
        ("y (y (..))", 1, open_loop()),
    ]
}

/// Stores of which one ends any run, and the refusal by which it does.
fn ending() -> Vec<(Lengths, u8)> {
    let largest = Lengths::largest();
    let mut out = vec![(Lengths::glow(), 9), (largest, 9)];
    for few in [15, 40, 100, 1000] {
        out.extend([(Lengths { nexts: few, ..largest }, 8), (Lengths { tags: 4 * few, ..largest }, 9), (Lengths { places: few, ..largest }, 10)]);
    }
    out
}

/// Small budgets are spent before a store is full, large ones never. Where a store is full after so many betas it is refused with that
/// budget already, for the refusal comes before the next beta; with one less it is spent.
#[test]
fn terms_that_never_end() {
    for ((name, f, t), rules) in endless().into_iter().flat_map(|term| BOTH.map(|rules| (term.clone(), rules))) {
        let file = canonical(f, &t).file();
        for (lengths, refusal) in ending() {
            let at = |budget: u32| { let answer = Case::new(rules, &file, budget, lengths).garbage(budget.into()).check(); (answer.run().outcome.clone(), answer.run().counts.beta) };
            let (outcome, betas) = at(u32::MAX);
            assert_eq!(outcome, Outcome::Refused(refusal), "{name} {rules:?} {lengths:?}");
            assert!(betas > 2, "{name} {rules:?} {lengths:?}: {betas} betas");
            for budget in [0, 1, 2, 1000, betas as u32 - 1, betas as u32, betas as u32 + 1, GLOW_BUDGET, 1 << 31] {
                let want = if u64::from(budget) < betas { (Outcome::Spent, u64::from(budget)) } else { (outcome.clone(), betas) };
                assert_eq!(at(budget), want, "{name} {rules:?}, budget {budget} {lengths:?}");
            }
        }
    }
    print_notes();
}

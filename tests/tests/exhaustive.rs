//! All small terms on both machines, at several budgets and store lengths, with the calculus's terms beside: the normal form, and where a
//! run is spent.
use glow_tests::calculus;
use glow_tests::case::{print_notes, Case};
use glow_tests::enumerate::All;
use glow_tests::file::check;
use glow_tests::flat::{canonical, Canonical};
use glow_tests::machine::*;

/// The budget of the run that shows what a term needs, in betas.
const MOST: u32 = 30;

/// What one machine answered: how many cases there were, and how many of each outcome.
#[derive(Default)]
struct Seen { cases: u64, kinds: [u64; 15] }

impl Seen {
    fn check(&mut self, case: Case) -> Answer {
        let answer = case.check();
        self.cases += 1;
        self.kinds[answer.kind()] += 1;
        answer
    }

    /// A term that is `c` in canonical numbering, with ample stores at several budgets, and with each store just so and one less.
    fn term(&mut self, rules: Rules, c: &Canonical, garbage: u64) {
        let (f, n, file) = (c.f, c.tags.len(), c.file());
        let ample = Lengths::of(400, 200, 200, 200, 200);
        let full = self.check(Case::new(rules, &file, MOST, ample).garbage(garbage));
        let run = full.run();
        let betas = run.counts.beta as u32;
        // the calculus
        let mut term = calculus::from_file(&check(&file).unwrap());
        assert_eq!(&calculus::to_canonical(f, &term), c);
        for _ in 0..betas { assert!(!calculus::is_fireball(&term)); term = calculus::step(&term).expect("a step of the calculus for each beta"); }
        assert!(run.outcome != Outcome::Spent || !calculus::is_fireball(&term));
        if let Outcome::Normal(result) = &run.outcome {
            assert!(calculus::step(&term).is_none() && calculus::is_fireball(&term));
            assert_eq!(&calculus::to_canonical(f, &term), result);
        }
        // budgets: with fewer than the betas above the term after so many is no fireball, as seen, and the run is spent
        let mut budgets = vec![0, 1, 2, 3, 5, 8, betas.saturating_sub(1), betas, betas + 1, u32::MAX];
        budgets.sort();
        budgets.dedup();
        for budget in budgets {
            let answer = self.check(Case::new(rules, &file, budget, ample).garbage(2));
            if budget < betas { assert_eq!((&answer.run().outcome, answer.run().counts.beta), (&Outcome::Spent, budget.into())); }
            if budget >= betas && run.outcome != Outcome::Spent { assert_eq!(answer, full); }
        }
        // each store just so and one less
        if let Outcome::Normal(result) = &run.outcome {
            let g = run.figures;
            let just = Lengths::of(g.nodes as usize, g.cells as usize, g.names as usize, g.names as usize, result.tags.len());
            let less = |x: usize| x.saturating_sub(1);
            for lengths in [just, Lengths { args: less(just.args), ..just }, Lengths { nexts: less(just.nexts), ..just }, Lengths { places: less(just.places), ..just },
                Lengths { renumber: less(just.renumber), ..just }, Lengths { out_tags: less(just.out_tags), ..just }, Lengths::of(n, 1, f + 1, f + 1, 1)] {
                self.check(Case::new(rules, &file, betas, lengths).garbage(1).nulls());
            }
        }
    }
}

fn all_of(f: usize, most: usize) {
    let mut all = All::default();
    let mut terms = 0;
    let mut seen = BOTH.map(|rules| (rules, Seen::default()));
    for n in 1..=most {
        for t in all.terms(f, n).iter() {
            terms += 1;
            for (rules, seen) in &mut seen { seen.term(*rules, &canonical(f, t), terms); }
        }
    }
    for (rules, Seen { cases, kinds }) in seen {
        println!("f = {f}, {rules:?}: all {terms} terms to {most} nodes, {cases} cases; normal {} spent {} refusals 8.. {:?}", kinds[0], kinds[14], &kinds[8..13]);
    }
    print_notes();
}

#[test] fn closed() { all_of(0, 11) }
#[test] fn one_free_name() { all_of(1, 10) }
#[test] fn two_free_names() { all_of(2, 9) }

//! All small definitions with all small terms, on both machines: at budgets around the need, with each store just so and one less, for
//! loading and for the whole run, and beside the calculus and the plain run of the term with the definitions put in.
use crate::{agree, Kinds, Subject};
use glow_tests::calculus;
use glow_tests::case::{print_notes, Case};
use glow_tests::enumerate::All;
use glow_tests::file::check;
use glow_tests::flat::{canonical, Canonical};
use glow_tests::machine::*;

/// The budget of the run that shows what a term needs, in betas.
const MOST: u32 = 12;

#[derive(Default)]
struct Seen { kinds: Kinds, subjects: u64, agreed: u64 }

impl Seen {
    fn check(&mut self, case: Case) -> Answer {
        let answer = case.check();
        self.kinds.count(&answer);
        answer
    }

    fn subject(&mut self, rules: Rules, s: &Subject, put_in: &[u8]) {
        self.subjects += 1;
        let garbage = self.subjects;
        let ample = Lengths::of(250, 60, 150, 150, 150);
        let case = |budget: u32, lengths: Lengths| Case::new(rules, &s.file, budget, lengths).with(&s.prelude);
        let full = self.check(case(MOST, ample).garbage(garbage));
        let run = full.run();
        let betas = run.counts.beta as u32;
        self.beside_the_calculus(run, put_in);
        // budgets
        let mut budgets = vec![0, 1, 2, betas.saturating_sub(1), betas, betas + 1, u32::MAX];
        budgets.sort();
        budgets.dedup();
        for budget in budgets {
            let answer = self.check(case(budget, ample).garbage(2));
            let plain = Case::new(rules, put_in, budget, ample).check();
            self.agreed += u64::from(agree(&answer, &plain));
            if budget < betas { assert_eq!((&answer.run().outcome, answer.run().counts.beta), (&Outcome::Spent, budget.into())); }
            if budget >= betas && run.outcome != Outcome::Spent { assert_eq!(answer, full); }
        }
        // what loading takes, just so and one less
        let loaded = evaluate_with(rules, &s.prelude, &s.file, 0, &Lengths { codes: 0, ..ample });
        let (nodes, names) = taken(s);
        assert!(loaded.run().figures.nodes >= nodes as u64 && loaded.run().figures.names >= names as u64);
        let just = Lengths { tags: nodes, places: names, ..ample };
        for (lengths, refusal) in [(just, None), (Lengths { tags: nodes - 1, ..just }, Some(9)), (Lengths { places: names - 1, ..just }, Some(10)), (Lengths { args: nodes - 1, places: names - 1, ..just }, Some(9))] {
            let answer = self.check(case(0, lengths).garbage(1).nulls());
            if let Some(n) = refusal { assert_eq!((&answer.run().outcome, answer.run().figures), (&Outcome::Refused(n), Figures::default())); }
            else { assert_ne!(answer.run().figures, Figures::default()); }
        }
        // what the run takes, just so and one less
        if let Outcome::Normal(result) = &run.outcome {
            let g = run.figures;
            let just = Lengths::of(g.nodes as usize, g.cells as usize, g.names as usize, g.names as usize, result.tags.len());
            let less = |x: usize| x.saturating_sub(1);
            assert_eq!(self.check(case(betas, just).garbage(garbage).nulls()), full);
            for lengths in [Lengths { args: less(just.args), ..just }, Lengths { nexts: less(just.nexts), ..just }, Lengths { places: less(just.places), ..just },
                Lengths { renumber: less(just.renumber), ..just }, Lengths { out_tags: less(just.out_tags), ..just }] {
                let answer = self.check(case(betas, lengths).garbage(garbage).nulls());
                assert!(matches!(answer.run().outcome, Outcome::Refused(_)) || lengths == just);
            }
        }
    }

    /// The term with the definitions put in makes as many steps of the calculus as the run has betas, and is then what the run tells.
    fn beside_the_calculus(&self, run: &Run, put_in: &[u8]) {
        let parsed = check(put_in).unwrap();
        let mut term = calculus::from_file(&parsed);
        for _ in 0..run.counts.beta { term = calculus::step(&term).expect("a step of the calculus for each beta"); }
        match &run.outcome {
            Outcome::Spent => assert!(!calculus::is_fireball(&term)),
            Outcome::Normal(result) => assert!(calculus::is_fireball(&term) && &calculus::to_canonical(parsed.f, &term) == result),
            Outcome::Refused(_) => {}
        }
    }
}

/// What loading takes by the paper, from the bytes: the nodes of the files, and f and their abstractions.
fn taken(s: &Subject) -> (usize, usize) {
    let (term, definitions) = glow_tests::prelude::read(&s.prelude, &s.file).unwrap();
    let files = || definitions.iter().chain([&term]);
    (files().map(|p| p.tags.len()).sum(), term.f + files().map(|p| p.count(1)).sum::<usize>())
}

/// All abstractions to so many nodes with k free names, in canonical numbering.
fn abstractions(all: &mut All, k: usize, most: usize) -> Vec<Canonical> {
    (2..=most).flat_map(|n| all.terms(k, n).iter().map(|t| canonical(k, t)).collect::<Vec<_>>()).filter(|c| c.tags[0] == 1).collect()
}

/// All preludes whose definitions have at most so many nodes, with all terms of f free names to `most` nodes.
fn all_of(f: usize, definitions: &[usize], most: usize) {
    let mut all = All::default();
    let mut preludes: Vec<Vec<Canonical>> = vec![vec![]];
    for (k, &nodes) in definitions.iter().enumerate() {
        let next = abstractions(&mut all, k, nodes);
        preludes = preludes.into_iter().flat_map(|before| next.iter().map(move |one| { let mut p = before.clone(); p.push(one.clone()); p })).collect();
    }
    let terms: Vec<Canonical> = (1..=most).flat_map(|n| all.terms(f, n).iter().map(|t| canonical(f, t)).collect::<Vec<_>>()).collect();
    let mut seen = BOTH.map(|rules| (rules, Seen::default()));
    for definitions in &preludes {
        for term in &terms {
            let s = Subject::from(definitions, term);
            let put_in = s.put_in().expect("a small term");
            for (rules, seen) in &mut seen { seen.subject(*rules, &s, &put_in); }
        }
    }
    for (rules, seen) in seen {
        println!("f = {f}, {rules:?}: {} preludes, {} terms, {}; {} beside the term with the definitions put in", preludes.len(), terms.len(), seen.kinds.told(), seen.agreed);
        assert!(seen.agreed > seen.subjects);
    }
    print_notes();
}

#[test] fn one_definition() { all_of(1, &[5], 7) }
#[test] fn one_definition_and_a_free_name() { all_of(2, &[4], 6) }
#[test] fn two_definitions() { all_of(2, &[4, 4], 4) }
#[test] fn two_definitions_and_a_free_name() { all_of(3, &[3, 4], 4) }
#[test] fn three_definitions() { all_of(3, &[3, 3, 4], 3) }

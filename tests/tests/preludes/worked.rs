//! Runs worked through by hand: the states, the counts, the figures and the allowances, and the wrapper's own call.
use crate::Subject;
use glow_tests::case::Case;
use glow_tests::flat::from_text;
use glow_tests::machine::*;

/// The written term, the counts of beta, subst, enter, leave-fun and leave-inert, the nodes, cells and names taken, and the allowances.
type Told<'a> = (&'a str, [u64; 5], [u64; 3], [u64; 2]);

fn normal(s: &Subject, first: Told, on_demand: Told) {
    for (rules, (text, counts, [nodes, cells, names], [subst_allowance, shift_allowance])) in [(Rules::First, first), (Rules::OnDemand, on_demand)] {
        let [beta, subst, enter, leave_fun, leave_inert] = counts;
        let want = Answer::Ran(Run {
            outcome: Outcome::Normal(from_text(s.f(), text)), counts: Counts { beta, subst, enter, leave_fun, leave_inert },
            figures: Figures { nodes, cells, names }, subst_allowance, shift_allowance,
        });
        for garbage in [0, 1, 2, 99] { assert_eq!(Case::glow(rules, &s.file).with(&s.prelude).garbage(garbage).check(), want); }
    }
}

/// A name alone: the first machine copies the definition, and the one on demand ends at the name, which is written as the definition.
#[test]
fn a_name_alone() {
    let s = Subject::texts(1, &["l0 v0"], "v0");
    normal(&s, ("l1 v1", [0, 1, 0, 0, 0], [5, 0, 3], [2, 0]), ("l1 v1", [0, 0, 0, 0, 0], [3, 0, 2], [1, 0]));
}

/// y I: the function is passed along.
#[test]
fn passed_along() {
    let s = Subject::texts(2, &["l0 v0"], "a1 v1 v0");
    normal(&s, ("a1 v1 l2 v2", [0, 1, 1, 1, 0], [7, 1, 4], [3, 2]), ("a1 v1 l2 v2", [0, 0, 1, 0, 1], [5, 1, 3], [1, 2]));
}

/// Under an abstraction nothing is run, and the definition is put in as the term is written.
#[test]
fn under_an_abstraction() {
    let s = Subject::texts(1, &["l0 v0"], "l1 a1 v0 v1");
    let told = |substs| ("l1 a2 l2 v2 v1", [0; 5], [6, 0, 3], [substs, 2]);
    normal(&s, told(3), told(1));
}

/// A definition that uses the one before it: id y, by \x. id x.
#[test]
fn one_by_another() {
    let s = Subject::texts(3, &["l0 v0", "l1 a1 v0 v1"], "a1 v1 v2");
    let told = |substs| ("v2", [2, 2, 2, 0, 2], [15, 2, 7], [substs, 12]);
    normal(&s, told(15), told(3));
}

/// A definition that nothing names takes its nodes and names all the same, and counts in the allowances.
#[test]
fn unused() {
    let s = Subject::texts(2, &["l0 v0", "l1 l2 a1 v2 v1"], "v1");
    normal(&s, ("l2 l3 a1 v3 v2", [0, 1, 0, 0, 0], [13, 0, 7], [4, 2]), ("l2 l3 a1 v3 v2", [0; 5], [8, 0, 5], [1, 2]));
    let s = Subject::texts(3, &["l0 v0", "l1 l2 a1 v2 v1"], "v2");
    normal(&s, ("v2", [0; 5], [8, 0, 6], [4, 2]), ("v2", [0; 5], [8, 0, 6], [1, 2]));
}

/// On demand a subst may come before the first beta: the allowance b + 1 is used up at spent.
#[test]
fn a_subst_before_the_first_beta() {
    let s = Subject::texts(2, &["l0 v0"], "a1 v0 v1");
    for (rules, substs) in [(Rules::First, 3), (Rules::OnDemand, 1)] {
        let run = Case::new(rules, &s.file, 0, Lengths::glow()).with(&s.prelude).check().run().clone();
        assert_eq!((run.outcome, run.counts.beta, run.counts.subst, run.subst_allowance), (Outcome::Spent, 0, 1, substs));
    }
}

/// The entries at the start: binders are named from f + L on, in the definitions' order, whatever their numbers in the files are.
#[test]
fn the_start() {
    let s = Subject::texts(3, &["l0 l1 a1 v0 v1", "l1 v0", "l2 a1 v1 l3 a1 v3 v2"], "a5 l3 l4 a1 v4 v3 v2");
    for rules in BOTH {
        let mut start = None;
        let answer = evaluate_with_watched(rules, &s.prelude, &s.file, GLOW_BUDGET, &Lengths::glow(), |m| { if start.is_none() { start = Some((m.shown(), m.figures)); } });
        let (shown, figures) = start.unwrap();
        assert_eq!(shown, ["`a5 l3 l4 a1 v4 v3 v2`", "–", "–", "0: `l5 l6 a1 v5 v6`, 1: `l7 v0`, 2: `l8 a1 v1 l9 a1 v9 v8`"]);
        assert_eq!(figures, Figures { nodes: 21, cells: 0, names: 10 });
        Case::glow(rules, &s.file).with(&s.prelude).check_against(&answer);
    }
}

/// Loading: 9, then 10, before the budget is looked at, with the allowances of no beta; and each store of the whole run.
#[test]
fn where_a_run_ends() {
    let s = Subject::texts(3, &["l0 v0", "l1 a1 v0 v1"], "a1 v1 v2");
    let at = |rules: Rules, budget: u32, lengths: Lengths| {
        let run = Case::new(rules, &s.file, budget, lengths).with(&s.prelude).check().run().clone();
        (run.outcome, [run.counts.beta, run.counts.subst, run.counts.enter], [run.figures.nodes, run.figures.cells, run.figures.names], [run.subst_allowance, run.shift_allowance])
    };
    let refused = Outcome::Refused;
    for (rules, v) in [(Rules::First, 5), (Rules::OnDemand, 1)] {
        assert_eq!(at(rules, 0, Lengths::of(8, 0, 4, 9, 9)), (refused(9), [0; 3], [0; 3], [v, 4]));
        assert_eq!(at(rules, 0, Lengths::of(9, 0, 4, 9, 9)), (refused(10), [0; 3], [0; 3], [v, 4]));
        assert_eq!(at(rules, 0, Lengths::of(9, 0, 5, 9, 9)), (refused(8), [0; 3], [9, 0, 5], [v, 4]));
        assert_eq!(at(rules, 0, Lengths::of(12, 1, 5, 9, 9)), (refused(9), [0, 0, 1], [9, 1, 5], [v, 4]));
        assert_eq!(at(rules, 0, Lengths::of(13, 1, 5, 9, 9)), (refused(10), [0, 0, 1], [9, 1, 5], [v, 4]));
        assert_eq!(at(rules, 0, Lengths::of(13, 1, 6, 9, 9)), (Outcome::Spent, [0, 1, 1], [13, 1, 6], [v, 4]));
        assert_eq!(at(rules, 1, Lengths::of(13, 1, 6, 9, 9)), (refused(8), [1, 1, 1], [13, 1, 6], [2 * v, 8]));
        assert_eq!(at(rules, 1, Lengths::of(14, 2, 7, 9, 9)), (refused(9), [1, 1, 2], [13, 2, 6], [2 * v, 8]));
        assert_eq!(at(rules, 1, Lengths::of(15, 2, 6, 9, 9)), (refused(10), [1, 1, 2], [13, 2, 6], [2 * v, 8]));
        assert_eq!(at(rules, 1, Lengths::of(15, 2, 7, 9, 9)), (Outcome::Spent, [1, 2, 2], [15, 2, 7], [2 * v, 8]));
        assert_eq!(at(rules, 2, Lengths::of(15, 2, 7, 6, 0)), (refused(11), [2, 2, 2], [15, 2, 7], [3 * v, 12]));
        assert_eq!(at(rules, 2, Lengths::of(15, 2, 7, 7, 0)), (refused(12), [2, 2, 2], [15, 2, 7], [3 * v, 12]));
        assert_eq!(at(rules, 2, Lengths::of(15, 2, 7, 7, 1)), (Outcome::Normal(from_text(3, "v2")), [2, 2, 2], [15, 2, 7], [3 * v, 12]));
    }
}

#[cfg(feature = "library")]
#[test]
fn the_wrapper() {
    use glow::{Answer, FileRefusal, Outcome, PreludeRefusal, Stores};
    use glow_tests::case::told_with;
    let s = Subject::texts(3, &["l0 v0", "l1 a1 v0 v1"], "a1 v1 v2");
    let mut stores = Stores::glow();
    for rules in BOTH {
        let want = evaluate_with(rules, &s.prelude, &s.file, 9, &Lengths::glow());
        assert_eq!(told_with(3, stores.evaluate_with(rules.into(), &s.prelude, &s.file, 9)), want);
        assert_eq!(told_with(3, stores.evaluate_with_on_this_stack(rules.into(), &s.prelude, &s.file, 9)), want);
        let Ok(Answer::Ran { outcome: Outcome::Normal { term }, report }) = stores.evaluate_with(rules.into(), &s.prelude, &s.file, 9) else { panic!() };
        assert_eq!((term.to_string().as_str(), report.beta), ("v2", 2));
        assert_eq!(stores.evaluate_with(rules.into(), &[0, 0], &s.file, 9), Ok(stores.evaluate(rules.into(), &s.file, 9)));
        assert_eq!(stores.evaluate_with(rules.into(), &s.prelude[1..], &s.file, 9), Err(PreludeRefusal::Bytes));
        assert_eq!(stores.evaluate_with(rules.into(), &s.prelude, &[0, 0, 0, 0], 9), Ok(Answer::FileRefused(FileRefusal::Limits)));
        assert_eq!(stores.evaluate_with(rules.into(), &[1, 0, 0, 0, 1, 0, 0, 0, 0], &s.file, 9), Ok(Answer::FileRefused(FileRefusal::Unbound)));
        assert_eq!(stores.evaluate_with(rules.into(), &[1, 0, 1, 0, 1, 0, 0, 0, 0], &s.file, 9), Err(PreludeRefusal::NotAnAbstraction));
        assert_eq!(stores.evaluate_with(rules.into(), &[1, 0, 1, 0, 2, 0, 1, 0, 1, 0, 0, 0], &s.file, 9), Err(PreludeRefusal::Place));
    }
    let numbers = || (0..30).chain([(1 << 8) + 17, (1 << 32) + 17, u64::MAX]);
    assert_eq!(numbers().filter(|&n| PreludeRefusal::of(n).is_some()).collect::<Vec<_>>(), [17, 18, 19]);
    assert_eq!([PreludeRefusal::Bytes, PreludeRefusal::NotAnAbstraction, PreludeRefusal::Place].map(PreludeRefusal::number), [17, 18, 19]);
    for nodes in [0, 1, 7, 1000, 16_384, 32_768, 100_000] { assert_eq!(glow::stack_needed_with(nodes), glow::stack_needed(nodes, nodes)); }
}

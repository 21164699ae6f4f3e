//! The list of steps itself, of the second implementation, with which the library is compared in every field: with any smaller limits it is a beginning
//! of the list with the largest, and its steps of each kind are those reported.
use crate::{chosen, need, terms, with_definitions, Limits, Program};
use glow_tests::case::{print_notes, Case};
use glow_tests::families::small_members;
use glow_tests::flat::from_text;
use glow_tests::machine::*;
use glow_tests::marked::FF;
use glow_tests::painted::on_eight_mebibytes;

/// The steps of a run in their order, and its answer. The step that fits at the last state is not made.
fn list(rules: Rules, program: &Program, limits: &Limits) -> (Vec<Step>, Answer) {
    let mut fitting = Vec::new();
    let answer = evaluate_with_watched(rules, program.prelude(), &program.file, limits.budget, &limits.lengths, |m| fitting.push(m.fits()));
    fitting.pop();
    (fitting.into_iter().map(|step| step.expect("a step between two states")).collect(), answer)
}

/// The steps of each kind.
fn counts(steps: &[Step]) -> Counts {
    let mut c = Counts::default();
    for step in steps {
        match step { Step::Beta => c.beta += 1, Step::Subst => c.subst += 1, Step::Enter => c.enter += 1, Step::LeaveFun => c.leave_fun += 1, Step::LeaveInert => c.leave_inert += 1 }
    }
    c
}

/// How many lists were compared, how many of them were shorter than the longest, and how many of these of runs that were spent.
#[derive(Default)]
struct Seen { lists: u64, shorter: u64, spent: u64, steps: u64 }

impl Seen {
    fn one(&mut self, rules: Rules, program: &Program, limits: &Limits, longest: &[Step]) {
        let (steps, answer) = list(rules, program, limits);
        let case = Case { prelude: program.prelude.as_deref(), ..Case::new(rules, &program.file, limits.budget, limits.lengths) };
        case.garbage(self.lists).check_against(&answer);
        assert!(longest.starts_with(&steps), "DISAGREEMENT: {steps:?} and {longest:?}: {case:?}", case = (rules, limits, program));
        assert_eq!(counts(&steps), answer.run().counts, "{rules:?}, {limits:?} of {program:?}");
        if answer.run().figures == Figures::default() { assert!(steps.is_empty()); }
        self.lists += 1;
        self.steps += steps.len() as u64;
        if steps.len() < longest.len() {
            self.shorter += 1;
            if answer.run().outcome == Outcome::Spent { self.spent += 1; }
        }
    }

    /// At every budget to two past what the run with the budget `most` needs, but not past `most`, and with each store at all lengths near 0 and near
    /// the need, and at every seventh between.
    fn program(&mut self, rules: Rules, program: &Program, most: u32, ample: Lengths) {
        let (longest, full) = list(rules, program, &Limits { budget: most, lengths: ample });
        let needed = need(full.run());
        for budget in (0..=needed[0] + 2).filter(|&b| b <= most as usize) { self.one(rules, program, &Limits { budget: budget as u32, lengths: ample }, &longest); }
        for store in 1..6 {
            let near = |length: &usize| *length < 12 || length + 4 > needed[store] || length % 7 == 0;
            for length in (0..=needed[store] + 1).filter(near) {
                for budget in [most, needed[0] as u32 / 2] {
                    let mut at = Limits { budget, lengths: ample }.counted().map(|n| n as usize);
                    at[store] = length;
                    self.one(rules, program, &Limits::of(at), &longest);
                }
            }
        }
    }

    fn print(&self, what: &str) {
        let Seen { lists, shorter, spent, steps } = self;
        println!("{what}: {lists} lists of {steps} steps together, {shorter} of them shorter than the longest, {spent} of these spent");
        assert!(*shorter > lists / 8 && *spent > 100 && *steps > 10_000, "assertion: too few lists are shorter than the longest, or spent");
        print_notes();
    }
}

/// Case f of paper 01 by hand, (\z. z (y z)) (\x. x), which needs two betas: what is added by the first of them, by the second, and by more.
#[test]
fn by_hand() {
    use Step::*;
    let program = Program::text(1, FF);
    let none = vec![Enter, LeaveFun];
    for (rules, one) in [(Rules::First, vec![Beta, Enter, Enter, Subst, LeaveFun, LeaveInert, Subst]), (Rules::OnDemand, vec![Beta, Enter, Enter, LeaveInert, LeaveInert, Subst])] {
        let lists = [none.clone(), [none.clone(), one.clone()].concat(), [none.clone(), one, vec![Beta]].concat()];
        let mut normal = None;
        for budget in [0, 1, 2, 3, 4, 1000, u32::MAX] {
            let (steps, answer) = list(rules, &program, &Limits { budget, lengths: Lengths::glow() });
            Case::new(rules, &program.file, budget, Lengths::glow()).check_against(&answer);
            assert_eq!(steps, lists[budget.min(2) as usize], "{rules:?}, budget {budget}");
            if budget < 2 { assert_eq!(answer.run().outcome, Outcome::Spent); } else { assert_eq!(normal.get_or_insert(answer.clone()), &answer); }
        }
        assert_eq!(normal.unwrap().run().outcome, Outcome::Normal(from_text(1, "a1 v0 l1 v1")));
    }
}

#[test]
fn small_programs() {
    let mut seen = Seen::default();
    for program in [terms(0, 7), terms(1, 6), terms(2, 5), with_definitions(1, &[4], 3), with_definitions(2, &[3, 3], 3), chosen()].concat() {
        for rules in BOTH { seen.program(rules, &program, 6, Lengths::of(120, 30, 60, 60, 60)); }
    }
    seen.print("small programs");
}

#[test]
fn families() {
    on_eight_mebibytes(|| {
        let mut seen = Seen::default();
        for (_, f, term) in small_members() {
            if term.len() > 60 { continue; }
            for rules in BOTH { seen.program(rules, &Program::plain(f, &term), 20, Lengths::of(700, 200, 200, 200, 300)); }
        }
        seen.print("families");
    });
}

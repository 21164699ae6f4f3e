//! What larger limits may change of an answer, and what they may not; how often each change was seen is counted.
use crate::{Limits, Program};
use glow_tests::machine::*;

/// Normal, spent and refused by 8 to 12.
pub const KINDS: [&str; 7] = ["normal", "spent", "8", "9", "10", "11", "12"];
const NORMAL: usize = 0;
const SPENT: usize = 1;
/// 8, 9 and 10, which end a run before a step.
const BEFORE_A_STEP: std::ops::RangeInclusive<usize> = 2..=4;
const ELEVEN: usize = 5;
const TWELVE: usize = 6;

fn kind(run: &Run) -> usize { match run.outcome { Outcome::Normal(_) => NORMAL, Outcome::Spent => SPENT, Outcome::Refused(n) => n as usize - 6 } }

/// The steps of each kind, and what is taken of each store.
fn numbers(c: &Counts, g: &Figures) -> [u64; 8] {
    [c.beta, c.subst, c.enter, c.leave_fun, c.leave_inert, g.nodes, g.cells, g.names]
}

/// Whether the second run has made the step that the first could not, or else is refused there by what is asked for next. A loading refusal
/// has figures 0. Where the result was refused, steps and figures are the same.
fn further(first: &Run, second: &Run) -> bool {
    let (c, d) = (first.counts, second.counts);
    let loading = first.figures == Figures::default();
    let same = (first.counts, first.figures) == (second.counts, second.figures);
    let taken = if loading { second.figures.nodes > 0 } else { d.subst > c.subst };
    match (&first.outcome, &second.outcome) {
        (Outcome::Normal(_), _) => false,
        (Outcome::Spent, _) => d.beta > c.beta,
        (Outcome::Refused(8), _) => d.enter > c.enter && second.figures.cells > first.figures.cells,
        (Outcome::Refused(9), Outcome::Refused(10)) => taken || same,
        (Outcome::Refused(9 | 10), _) => taken,
        (Outcome::Refused(11), Outcome::Refused(12) | Outcome::Normal(_)) => same,
        (Outcome::Refused(12), Outcome::Normal(_)) => same,
        (Outcome::Refused(_), _) => false,
    }
}

/// How many pairs of answers were compared, how many of each kind were the same, and how many became which other by larger limits.
#[derive(Default)]
pub struct Changes { same: [u64; 7], files: u64, became: [[u64; 7]; 7] }

impl Changes {
    /// Two answers of one program on one machine, the second with limits that are at least as large; `larger` are those that are larger in
    /// what counts, in the order of `Limits::counted`.
    pub fn pair(&mut self, first: &Answer, second: &Answer, larger: [bool; 6], what: impl Fn() -> String) {
        let different = |why: &str| -> ! { panic!("DISAGREEMENT: {why}: {first:?} became {second:?}: {}", what()) };
        let (a, b) = match (first, second) {
            (Answer::Ran(a), Answer::Ran(b)) => (a, b),
            (Answer::FileRefused(m), Answer::FileRefused(n)) if m == n => { self.files += 1; return; }
            _ => different("the refusal of a file or a prelude changed"),
        };
        if a == b { self.same[kind(a)] += 1; return; }
        // what ended the first run, and is larger now
        let ended_by = match a.outcome { Outcome::Normal(_) => different("a normal answer changed"), Outcome::Spent => 0, Outcome::Refused(n) => n as usize - 7 };
        if !larger[ended_by] { different("what ended the run is no larger, and the answer is another"); }
        if numbers(&a.counts, &a.figures).iter().zip(numbers(&b.counts, &b.figures)).any(|(m, n)| *m > n) { different("a count or a figure got smaller"); }
        if !further(a, b) { different("what ended the run is larger, and the run does not go on there"); }
        for (m, n) in [(a.subst_allowance, b.subst_allowance), (a.shift_allowance, b.shift_allowance)] {
            if m * (1 + b.counts.beta) != n * (1 + a.counts.beta) { different("an allowance does not go with the betas"); }
        }
        self.became[kind(a)][kind(b)] += 1;
    }

    pub fn changed(&self) -> u64 { self.became.iter().flatten().sum() }
    pub fn pairs(&self) -> u64 { self.changed() + self.same.iter().sum::<u64>() + self.files }

    pub fn print(&self, what: &str) {
        let same: Vec<String> = KINDS.iter().zip(self.same).map(|(name, count)| format!("{name} {count}")).collect();
        println!("{what}: {} pairs; {} changed; the same: {}, and of refused files {}", self.pairs(), self.changed(), same.join(", "), self.files);
        for (from, row) in KINDS.iter().zip(self.became) {
            let seen: Vec<String> = KINDS.iter().zip(row).filter(|(_, count)| *count > 0).map(|(to, count)| format!("{to} {count}")).collect();
            if !seen.is_empty() { println!("  {from} became: {}", seen.join(", ")); }
        }
    }

    /// That each answer was seen to stay, and each change that may be: spent, 8, 9 and 10 become anything, also the same with more steps; 11
    /// becomes 12 or normal, and 12 normal.
    pub fn assert_all_seen(&self, least: u64) {
        for from in 0..7 {
            assert!(self.same[from] >= least, "assertion: {} stayed only {} times", KINDS[from], self.same[from]);
            for to in 0..7 {
                let may = match from { NORMAL => false, ELEVEN => to == TWELVE || to == NORMAL, TWELVE => to == NORMAL, _ => from == SPENT || BEFORE_A_STEP.contains(&from) };
                let seen = self.became[from][to];
                assert!(if may { seen >= least } else { seen == 0 }, "assertion: {} became {} {seen} times", KINDS[from], KINDS[to]);
            }
        }
    }
}

/// The answers of one program on one machine, each kept once.
pub struct Answers {
    /// The counts and figures after each number of steps of the second implementation's run with the largest limits, and the allowances
    /// at its start; empty where the file or loading is refused.
    longest: Vec<[u16; 8]>,
    allowances: (u64, u64),
    distinct: Vec<Answer>,
    normal: Option<usize>,
    /// The smallest budget at which an answer was normal, and the largest at which one was spent.
    normal_from: Option<u32>,
    spent_to: Option<u32>,
}

impl Answers {
    pub fn new(rules: Rules, program: &Program, largest: &Limits) -> Answers {
        let mut longest = Vec::new();
        let answer = evaluate_with_watched(rules, program.prelude(), &program.file, largest.budget, &largest.lengths, |m| longest.push(numbers(&m.counts, &m.figures).map(|n| n.try_into().expect("a small number"))));
        let allowances = match &answer { Answer::Ran(run) => (run.subst_allowance / (1 + run.counts.beta), run.shift_allowance / (1 + run.counts.beta)), _ => (0, 0) };
        Answers { longest, allowances, distinct: vec![], normal: None, normal_from: None, spent_to: None }
    }

    pub fn distinct(&self) -> usize { self.distinct.len() }
    pub fn get(&self, number: usize) -> &Answer { &self.distinct[number] }

    /// The number of an answer. One that is new is the beginning of so many steps of the longest list, and if it is normal, the first that is.
    pub fn number(&mut self, answer: Answer, limits: &Limits, what: impl Fn() -> String) -> usize {
        let known = self.distinct.iter().position(|a| a == &answer);
        let number = known.unwrap_or_else(|| { self.distinct.push(answer); self.distinct.len() - 1 });
        if let Answer::Ran(run) = &self.distinct[number] {
            if known.is_none() { self.is_a_beginning(run, &what); }
            let budget = limits.budget;
            match run.outcome {
                Outcome::Normal(_) => {
                    assert_eq!(*self.normal.get_or_insert(number), number, "two normal answers: {:?}: {}", self.distinct, what());
                    self.normal_from = Some(self.normal_from.map_or(budget, |b| b.min(budget)));
                }
                Outcome::Spent => self.spent_to = Some(self.spent_to.map_or(budget, |b| b.max(budget))),
                Outcome::Refused(_) => {}
            }
        }
        number
    }

    fn is_a_beginning(&self, run: &Run, what: impl Fn() -> String) {
        let steps = run.counts.steps() as usize;
        let loading = run.figures == Figures::default();
        let there = if loading { Some([0; 8]) } else { self.longest.get(steps).map(|beginning| beginning.map(u64::from)) };
        assert_eq!(Some(numbers(&run.counts, &run.figures)), there, "the first {steps} steps of the longest run: {}", what());
        let b = 1 + run.counts.beta;
        assert_eq!((run.subst_allowance, run.shift_allowance), (b * self.allowances.0, b * self.allowances.1), "allowances: {}", what());
    }

    /// Where one machine is normal, the other, with that budget or a larger one and any stores, is normal too unless it is refused; and
    /// where both are, betas and written nodes are the same. Gives whether both are.
    pub fn across(&self, other: &Answers, what: impl Fn() -> String) -> bool {
        for (one, two) in [(self, other), (other, self)] {
            if let (Some(from), Some(to)) = (one.normal_from, two.spent_to) { assert!(to < from, "DISAGREEMENT: normal with {from} betas, and on the other machine spent with {to}: {}", what()); }
        }
        let (Some(k), Some(j)) = (self.normal, other.normal) else { return false };
        let (a, b) = (self.distinct[k].run(), other.distinct[j].run());
        assert_eq!((&a.outcome, a.counts.beta), (&b.outcome, b.counts.beta), "the two machines: {}", what());
        true
    }
}

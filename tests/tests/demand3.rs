//! Demand 3 watched from outside, on both machines: for small terms every budget from 0 to the betas needed and one more, and
//! stores that end the run before each enter and each subst. Counts and figures against the second implementation's; its
//! state, decoded, against the calculus's term after as many steps as there were betas; and at each state where the nodes are.
//! With definitions the calculus begins at the term with these put in.
use glow_tests::calculus;
use glow_tests::case::{print_notes, Case};
use glow_tests::enumerate::All;
use glow_tests::families::small_members;
use glow_tests::file::check;
use glow_tests::flat::{canonical, from_text, Flat, F};
use glow_tests::machine::*;
use glow_tests::painted::with_large_stack;
use glow_tests::prelude;
use glow_tests::prng::Prng;
use glow_tests::random;

/// The beginning of a run, told as a run that ends there, and the step that fits then.
struct Prefix { run: Run, next: Option<Step>, wanted: (u64, u64) }

impl Prefix {
    fn of(m: &Machine) -> Prefix {
        let (subst_allowance, shift_allowance) = m.allowances();
        let run = Run { outcome: Outcome::Spent, counts: m.counts, figures: m.figures, subst_allowance, shift_allowance };
        let next = m.fits();
        Prefix { run, next, wanted: if next == Some(Step::Subst) { m.wanted() } else { (0, 0) } }
    }

    /// The stores that end a run before its next step where the betas made are the budget, each with the outcome. A leave needs no store.
    fn ends(&self, ample: Lengths) -> Vec<(Lengths, Outcome)> {
        let (cells, nodes, names) = (self.run.figures.cells, self.run.figures.nodes + self.wanted.0, self.run.figures.names + self.wanted.1);
        let [cells, nodes, names] = [cells, nodes, names].map(|n| n as usize);
        match self.next {
            Some(Step::Beta) => vec![(ample, Outcome::Spent)],
            Some(Step::Enter) => vec![(Lengths { codes: cells, ..ample }, Outcome::Refused(8))],
            Some(Step::Subst) => vec![
                (Lengths { args: nodes - 1, ..ample }, Outcome::Refused(9)),
                (Lengths { tags: nodes, args: nodes, places: names - 1, ..ample }, Outcome::Refused(10)),
            ],
            _ => vec![],
        }
    }
}

/// The nodes of a run, followed from state to state.
#[derive(Default)]
struct Nodes { held: Vec<bool> }

impl Nodes {
    /// Each node taken is part of exactly one code that the state holds, or has been used up once for all: an enter, a beta and a subst use
    /// up one each, and on demand a beta that makes no entry drops its variable too. There no entry has a single node, as a bare variable
    /// would have; an abstraction has at least two. So many entries are definitions, which no beta has made.
    fn follow(&mut self, rules: Rules, definitions: usize, m: &Machine) {
        let entries = m.entries();
        let mut held = vec![false; m.figures.nodes as usize];
        for &node in m.code_and_dump().iter().chain(&entries).flatten() {
            assert!(!std::mem::replace(&mut held[node as usize], true), "a node is held twice");
        }
        assert!(self.held.iter().zip(&held).all(|(before, now)| *before || !now), "a node that was used up is held");
        let dropped = match rules { Rules::First => 0, Rules::OnDemand => m.counts.beta + definitions as u64 - entries.len() as u64 };
        let used = m.counts.enter + m.counts.beta + m.counts.subst + dropped;
        assert_eq!(held.iter().filter(|held| !**held).count() as u64, used, "the nodes that no code has, and those used up");
        assert!(rules == Rules::First || entries.iter().all(|nodes| nodes.len() > 1), "an entry of a single node");
        assert_eq!(m.figures.cells, m.counts.enter, "a cell for each enter");
        assert!(m.counts.leave_fun + m.counts.leave_inert <= m.counts.enter, "more leaves than enters");
        self.held = held;
    }
}

/// Gives how many states were compared, on both machines.
fn watch_both(f: usize, t: &Flat, budget: u32, most_nodes: u64, with_steps: bool) -> u64 {
    BOTH.iter().map(|&rules| watch(rules, None, f, t, budget, most_nodes, with_steps)).sum()
}

fn watch(rules: Rules, definitions: Option<&[Flat]>, f: usize, t: &Flat, budget: u32, most_nodes: u64, with_steps: bool) -> u64 {
    let file = canonical(f, t).file();
    let prelude = definitions.map(|all| prelude::encode(&all.iter().enumerate().map(|(k, t)| canonical(k, t).file()).collect::<Vec<_>>()));
    let given = prelude.as_deref().unwrap_or(prelude::NONE);
    let (read, read_definitions) = prelude::read(given, &file).unwrap();
    let Some(whole) = prelude::put_in(&read, &read_definitions) else { return 0 };
    let case = |budget: u32, lengths: Lengths| Case { prelude: prelude.as_deref(), ..Case::new(rules, &file, budget, lengths) };
    let lengths = Lengths::of(2000, 600, 1000, 1000, 600);
    let mut term = calculus::from_file(&check(&whole.file()).unwrap());
    let mut shown = calculus::to_canonical(f, &term);
    let (mut beta, mut too_large, mut states) = (0u64, false, 0u64);
    let mut prefixes: Vec<Prefix> = Vec::new();
    let mut nodes = Nodes::default();
    let answer = evaluate_with_watched(rules, given, &file, budget, &lengths, |m| {
        nodes.follow(rules, read_definitions.len(), m);
        prefixes.push(Prefix::of(m));
        if too_large { return; }
        while beta < m.counts.beta {
            if with_steps { assert_eq!(calculus::all_steps(&term).len(), 1); }
            term = calculus::step(&term).expect("a step for each beta");
            beta += 1;
            if calculus::size(&term) > most_nodes { too_large = true; return; }
            shown = calculus::to_canonical(f, &term);
        }
        assert_eq!(m.stands_for(), shown, "after {} betas of {}", beta, canonical(f, t).text());
        if m.fits().is_none() { assert!(calculus::all_steps(&term).is_empty() && calculus::is_fireball(&term)); }
        states += 1;
    });
    // the library: what it must say is known from the prefixes. With a budget of b it is the one before beta b + 1, or else the whole run
    for (k, prefix) in prefixes.iter().enumerate() {
        for (lengths, outcome) in prefix.ends(lengths) {
            let want = Answer::Ran(Run { outcome, ..prefix.run.clone() });
            case(prefix.run.counts.beta as u32, lengths).garbage(k as u64).check_against(&want);
        }
    }
    if answer.run().outcome != Outcome::Spent {
        let betas = answer.run().counts.beta as u32;
        for budget in [betas, betas + 1] { case(budget, lengths).check_against(&answer); }
    }
    states
}

#[test]
fn all_small_terms() {
    with_large_stack(|| {
        let mut all = All::default();
        let (mut terms, mut states) = (0u64, 0u64);
        for (f, most) in [(0, 10), (1, 8), (2, 8)] {
            for n in 1..=most {
                for t in all.terms(f, n).iter() { terms += 1; states += watch_both(f, t, 12, 2000, true); }
            }
        }
        println!("{terms} small terms, {states} states decoded and compared with the calculus, the library ended before every beta, enter and subst");
        print_notes();
    });
}

#[test]
fn families() {
    with_large_stack(|| {
        let mut states = 0;
        for (_, f, t) in small_members() { states += watch_both(f, &t, 120, 3000, true); }
        println!("families: {states} states");
        print_notes();
    });
}

#[test]
fn random_terms() {
    with_large_stack(|| {
        let (mut terms, mut states) = (0u64, 0u64);
        let mut r = Prng(3);
        while terms < 6000 {
            let (f, t) = random::term(&mut r);
            if t.len() > 80 || f > 500 { continue; }
            terms += 1;
            states += watch_both(f, &t, 25, 1500, false);
        }
        println!("{terms} random terms, {states} states");
        print_notes();
    });
}

/// All small terms with all small definitions.
#[test]
fn small_definitions() {
    with_large_stack(|| {
        let mut all = All::default();
        let (mut preludes, mut terms, mut states) = (0u64, 0u64, 0u64);
        for (nodes, f, most) in [(vec![4], 1, 6), (vec![4], 2, 5), (vec![3, 4], 2, 5), (vec![3, 4], 3, 4)] {
            let mut these: Vec<Vec<Flat>> = vec![vec![]];
            for (k, &nodes) in nodes.iter().enumerate() {
                let next: Vec<Flat> = (2..=nodes).flat_map(|n| all.terms(k, n).to_vec()).filter(|t| matches!(t[0], F::L(_))).collect();
                these = these.iter().flat_map(|before| next.iter().map(|one| [&before[..], std::slice::from_ref(one)].concat()).collect::<Vec<_>>()).collect();
            }
            preludes += these.len() as u64;
            for t in (1..=most).flat_map(|n| all.terms(f, n).to_vec()) {
                for definitions in &these {
                    terms += 1;
                    for rules in BOTH { states += watch(rules, Some(definitions), f, &t, 6, 500, true); }
                }
            }
        }
        println!("{preludes} preludes, {terms} terms with one of them, {states} states");
        print_notes();
    });
}

#[test]
fn random_definitions() {
    with_large_stack(|| {
        let (mut terms, mut states) = (0u64, 0u64);
        let mut r = Prng(5);
        while terms < 2000 {
            let (f, definitions, t) = random::with_definitions(&mut r);
            if t.len() > 80 || f > 500 || definitions.iter().any(|t| t.len() > 60) || definitions.len() > 20 { continue; }
            terms += 1;
            for rules in BOTH { states += watch(rules, Some(&definitions), f, &t, 25, 1500, false); }
        }
        println!("{terms} random terms with definitions, {states} states");
        print_notes();
    });
}

/// `consults_chain` can see something. One rule is weakened: a variable with an abstraction as entry leaves like an inert one, and is
/// not copied, where the stack is empty. Then (\x. (\y. y z) x) (\w. w) comes to y, whose entry holds x, whose entry holds \w. w,
/// and stops there, at a term that is no fireball. By the five rules it ends at z, and no state of its run consults a chain. On demand
/// the rule is weak in the same way, and that is why a beta with a bare variable makes no entry: it comes to x, not to y, and ends at z.
#[test]
fn a_weakened_rule_meets_a_chain() {
    use Step::*;
    let file = from_text(1, "a7 l1 a4 l2 a1 v2 v0 v1 l3 v3").file();
    let mut m = Machine::start(Rules::First, &check(&file).unwrap(), &[]);
    for (fits, made) in [(Enter, Enter), (LeaveFun, LeaveFun), (Beta, Beta), (Enter, Enter), (Subst, LeaveInert), (Beta, Beta), (Enter, Enter), (LeaveInert, LeaveInert)] {
        assert!(m.fits() == Some(fits) && !m.consults_chain());
        m.make_step(made);
    }
    assert_eq!(m.shown(), ["`v2`", "`v0`", "–", "1: `l3 v3`, 2: `v1`"]);
    assert!(m.fits().is_none() && m.consults_chain());
    assert_eq!(m.stands_for(), from_text(1, "a2 l1 v1 v0"));

    for (rules, substs) in [(Rules::First, 2), (Rules::OnDemand, 1)] {
        let right = evaluate_watched(rules, &file, GLOW_BUDGET, &Lengths::glow(), |m| assert!(!m.consults_chain()));
        assert_eq!((&right.run().outcome, right.run().counts.beta, right.run().counts.subst), (&Outcome::Normal(from_text(1, "v0")), 3, substs));
        Case::glow(rules, &file).check_against(&right);
    }
}

//! The two machines beside each other: the marked cases on demand with numbers worked out by hand, the steps by which the machines
//! differ, their agreement through the library alone, and numbers that are no machine's.
use glow_tests::case::{print_notes, Case};
use glow_tests::flat::from_text;
use glow_tests::machine::*;
use glow_tests::marked::*;

/// The outcome, the counts of beta, subst, enter, leave-fun and leave-inert, and the nodes, cells and names taken.
type Told = (Outcome, [u64; 5], [u64; 3]);

fn told(run: &Run) -> Told {
    let (c, s) = (run.counts, run.figures);
    (run.outcome.clone(), [c.beta, c.subst, c.enter, c.leave_fun, c.leave_inert], [s.nodes, s.cells, s.names])
}

fn on_demand(f: usize, text: &str, budget: u32, lengths: Lengths) -> Run {
    let file = from_text(f, text).file();
    for g in [0, 1, 2, 99] { Case::new(Rules::OnDemand, &file, budget, lengths).garbage(g).check(); }
    Case::new(Rules::OnDemand, &file, budget, lengths).check().run().clone()
}

fn normal(f: usize, text: &str) -> Outcome { Outcome::Normal(from_text(f, text)) }

/// The marked cases of 01, of which 02, request 2, has changed g, h and j. a, b, c, e, g and h are as on the first machine: in c and g a
/// beta renames instead of making an entry, which none of these numbers shows. d ends at its variable, without a copy, and so does i. f makes one subst
/// for two. j leaves its variable bare, and copies only the one that is applied.
#[test]
fn a_to_j() {
    let glow = Lengths::glow();
    let at = |f: usize, text: &str, budget: u32, lengths: Lengths| told(&on_demand(f, text, budget, lengths));
    assert_eq!(at(1, "v0", GLOW_BUDGET, glow), (normal(1, "v0"), [0, 0, 0, 0, 0], [1, 0, 1]));
    assert_eq!(at(0, "l0 v0", GLOW_BUDGET, glow), (normal(0, "l0 v0"), [0, 0, 0, 0, 0], [2, 0, 1]));
    assert_eq!(at(1, C, GLOW_BUDGET, glow), (normal(1, "v0"), [1, 0, 1, 0, 1], [4, 1, 2]));
    assert_eq!(at(0, D, GLOW_BUDGET, glow), (normal(0, "l0 v0"), [1, 0, 1, 1, 0], [5, 1, 2]));
    assert_eq!(at(1, "a1 v0 v0", GLOW_BUDGET, glow), (normal(1, "a1 v0 v0"), [0, 0, 1, 0, 1], [3, 1, 1]));
    assert_eq!(at(1, FF, GLOW_BUDGET, glow), (normal(1, "a1 v0 l1 v1"), [2, 1, 3, 1, 2], [11, 3, 4]));
    assert_eq!(at(1, C, 1, glow), (normal(1, "v0"), [1, 0, 1, 0, 1], [4, 1, 2]));
    assert_eq!(at(1, C, 0, glow), (Outcome::Spent, [0, 0, 1, 0, 1], [4, 1, 2]));
    assert_eq!(at(0, D, GLOW_BUDGET, Lengths { tags: 6, args: 6, ..glow }), (normal(0, "l0 v0"), [1, 0, 1, 1, 0], [5, 1, 2]));
    assert_eq!(at(0, J, 2, glow), (Outcome::Spent, [2, 2, 3, 1, 2], [17, 3, 4]));
    let f = on_demand(1, FF, GLOW_BUDGET, glow);
    assert_eq!((f.subst_allowance, f.shift_allowance), (3, 18));
    assert_eq!(printed(&Answer::Ran(f)), "normal\nbeta 2\nsubst 1 of 3\nenter 3\nleave 1 2\nshift 6 of 18\nstore 11 3 4\nterm a1 v0 l1 v1\n");
    print_notes();
}

/// Each store just so and one less, where the machine on demand asks for it, and the budget.
#[test]
fn where_a_run_ends() {
    let glow = Lengths::glow();
    let at = |f: usize, text: &str, budget: u32, lengths: Lengths| { let (outcome, counts, _) = told(&on_demand(f, text, budget, lengths)); (outcome, counts) };
    let refused = Outcome::Refused;
    // loading: 9 before 10, with the allowances of no beta
    let loading = on_demand(1, FF, 0, Lengths { tags: 8, places: 0, ..glow });
    assert_eq!((told(&loading), loading.subst_allowance, loading.shift_allowance), ((refused(9), [0; 5], [0; 3]), 1, 6));
    assert_eq!(told(&on_demand(1, FF, 0, Lengths { places: 2, ..glow })), (refused(10), [0; 5], [0; 3]));
    // f needs 11 nodes, 3 cells and 4 names, and writes 4 nodes
    let just = Lengths::of(11, 3, 4, 4, 4);
    assert_eq!(at(1, FF, 2, just), (normal(1, "a1 v0 l1 v1"), [2, 1, 3, 1, 2]));
    assert_eq!(at(1, FF, 1, just), (Outcome::Spent, [1, 1, 3, 1, 2]));
    assert_eq!(at(1, FF, 0, just), (Outcome::Spent, [0, 0, 1, 1, 0]));
    assert_eq!(at(1, FF, 1, Lengths { nexts: 2, ..just }), (refused(8), [1, 0, 2, 1, 0]));
    assert_eq!(at(1, FF, 1, Lengths { args: 10, places: 3, ..just }), (refused(9), [1, 0, 3, 1, 2]));
    assert_eq!(at(1, FF, 1, Lengths { places: 3, ..just }), (refused(10), [1, 0, 3, 1, 2]));
    assert_eq!(at(1, FF, 2, Lengths { renumber: 3, out_tags: 3, ..just }), (refused(11), [2, 1, 3, 1, 2]));
    assert_eq!(at(1, FF, 2, Lengths { out_tags: 3, ..just }), (refused(12), [2, 1, 3, 1, 2]));
    // d takes nothing behind its beta
    assert_eq!(at(0, D, 1, Lengths::of(5, 1, 2, 2, 2)), (normal(0, "l0 v0"), [1, 0, 1, 1, 0]));
    assert_eq!(at(0, D, 0, Lengths::of(5, 1, 2, 2, 2)), (Outcome::Spent, [0, 0, 1, 1, 0]));
    assert_eq!(at(0, D, 1, Lengths::of(5, 1, 2, 1, 2)), (refused(11), [1, 0, 1, 1, 0]));
    assert_eq!(at(0, D, 1, Lengths::of(5, 1, 2, 2, 1)), (refused(12), [1, 0, 1, 1, 0]));
    // j: a renaming beta is counted and asks for the budget; the stores of the subst before the next one come first
    assert_eq!(at(0, J, 0, glow), (Outcome::Spent, [0, 0, 1, 1, 0]));
    assert_eq!(at(0, J, 1, glow), (Outcome::Spent, [1, 1, 2, 1, 1]));
    assert_eq!(at(0, J, 2, Lengths { args: 16, ..glow }), (refused(9), [2, 1, 3, 1, 2]));
    assert_eq!(at(0, J, 2, Lengths { places: 3, ..glow }), (refused(10), [2, 1, 3, 1, 2]));
    assert_eq!(at(0, J, 2, Lengths { owns: 2, ..glow }), (refused(8), [2, 1, 2, 1, 1]));
    assert_eq!(at(0, J, 1, Lengths { args: 16, places: 3, owns: 2, ..glow }), (Outcome::Spent, [1, 1, 2, 1, 1]));
    // c's beta renames: the cell and the name stay taken
    assert_eq!(at(1, C, 1, Lengths::of(4, 1, 2, 2, 1)), (normal(1, "v0"), [1, 0, 1, 0, 1]));
    assert_eq!(at(1, C, 1, Lengths::of(4, 0, 2, 2, 1)), (refused(8), [0; 5]));
    assert_eq!(at(1, C, 1, Lengths::of(4, 1, 1, 2, 1)), (refused(10), [0; 5]));
    assert_eq!(at(1, C, 1, Lengths::of(4, 1, 2, 1, 1)), (refused(11), [1, 0, 1, 0, 1]));
    print_notes();
}

/// The states of a run on demand, each with the step that fits there: code, stack, dump, entries.
fn states(f: usize, text: &str) -> Vec<([String; 4], Option<Step>)> {
    let mut all = Vec::new();
    let file = from_text(f, text).file();
    let answer = evaluate_watched(Rules::OnDemand, &file, GLOW_BUDGET, &Lengths::glow(), |m| all.push((m.shown(), m.fits())));
    Case::glow(Rules::OnDemand, &file).check_against(&answer);
    all
}

fn assert_states(shown: &[([String; 4], Option<Step>)], right: &[([&str; 4], Option<Step>)]) {
    let shown: Vec<([&str; 4], Option<Step>)> = shown.iter().map(|([a, b, c, d], step)| ([a.as_str(), b, c, d], *step)).collect();
    assert_eq!(shown, right);
}

/// Example 5 of source document 000: the states that it shows, which are the last five.
#[test]
fn example_5() {
    use Step::*;
    let all = states(1, FF);
    assert_eq!(all.iter().map_while(|(_, step)| *step).take(5).collect::<Vec<_>>(), [Enter, LeaveFun, Beta, Enter, Enter]);
    assert_states(&all[5..], &[
        (["`v1`", "–", "`v0`, `v1`", "1: `l2 v2`"], Some(LeaveInert)),
        (["`v0`", "`v1`", "`v1`", "1: `l2 v2`"], Some(LeaveInert)),
        (["`v1`", "`v0` [`v1`]", "–", "1: `l2 v2`"], Some(Subst)),
        (["`l3 v3`", "`v0` [`v1`]", "–", "1: `l2 v2`"], Some(Beta)),
        (["`v3`", "–", "–", "1: `l2 v2`, 3: `v0` [`v1`]"], None),
    ]);
}

/// What a beta renames. A variable is bare with no entry, with an inert one and with an abstraction as entry; with a stack of its own it is
/// not. The name goes into the whole body: into both parts, behind an inner abstraction and below it. That it goes into no application's
/// size these states cannot show: an application of the second implementation holds no size, and the ones shown are worked out. Only the
/// library could rename one, which `states` sees by comparing the answers, as does `sizes_equal_to_the_name`.
#[test]
fn what_is_renamed() {
    use Step::*;
    // (\x. (\z. z y) x) (y y): x has an inert entry, and z is renamed to it
    assert_states(&states(1, "a7 l1 a4 l2 a1 v2 v0 v1 a1 v0 v0")[6..], &[
        (["`v1`", "–", "`l2 a1 v2 v0`", "1: `v0` [`v0`]"], Some(LeaveInert)),
        (["`l2 a1 v2 v0`", "`v1`", "–", "1: `v0` [`v0`]"], Some(Beta)),
        (["`a1 v1 v0`", "–", "–", "1: `v0` [`v0`]"], Some(Enter)),
        (["`v0`", "–", "`v1`", "1: `v0` [`v0`]"], Some(LeaveInert)),
        (["`v1`", "`v0`", "–", "1: `v0` [`v0`]"], None),
    ]);
    // the same with \w. w for y y: x has an abstraction as entry
    assert_states(&states(1, "a7 l1 a4 l2 a1 v2 v0 v1 l3 v3")[3..], &[
        (["`a4 l2 a1 v2 v0 v1`", "–", "–", "1: `l3 v3`"], Some(Enter)),
        (["`v1`", "–", "`l2 a1 v2 v0`", "1: `l3 v3`"], Some(LeaveInert)),
        (["`l2 a1 v2 v0`", "`v1`", "–", "1: `l3 v3`"], Some(Beta)),
        (["`a1 v1 v0`", "–", "–", "1: `l3 v3`"], Some(Enter)),
        (["`v0`", "–", "`v1`", "1: `l3 v3`"], Some(LeaveInert)),
        (["`v1`", "`v0`", "–", "1: `l3 v3`"], Some(Subst)),
        (["`l4 v4`", "`v0`", "–", "1: `l3 v3`"], Some(Beta)),
        (["`v0`", "–", "–", "1: `l3 v3`"], None),
    ]);
    // a free name, into all of the body
    assert_states(&states(1, "a10 l1 a6 a1 v1 l2 a1 v2 v1 l3 v1 v0")[2..4], &[
        (["`l1 a6 a1 v1 l2 a1 v2 v1 l3 v1`", "`v0`", "–", "–"], Some(Beta)),
        (["`a6 a1 v0 l2 a1 v2 v0 l3 v0`", "–", "–", "–"], Some(Enter)),
    ]);
}

/// Bodies with an application whose left part has as many nodes as the number of the bound name says. If the beta renamed this size too, the
/// right part would be looked for where it is not, and the answer would be another, whichever way the run comes by the application.
#[test]
fn sizes_equal_to_the_name() {
    let at = |f: usize, text: &str| told(&on_demand(f, text, GLOW_BUDGET, Lengths::glow()));
    // (\x. x x (\w. w)) y, entered at once: by the size 0, 1 or 2 for 3 the right part would begin inside the left one
    for y in 0..3 {
        let result = normal(3, &format!("a3 a1 v{y} v{y} l3 v3"));
        assert_eq!(at(3, &format!("a7 l3 a3 a1 v3 v3 l4 v4 v{y}")), (result, [1, 0, 3, 1, 2], [9, 3, 5]));
    }
    // (\x. x (\w. w)) ((\z. z) (y y)), entered at once: by the size 3 for 1 it would be the argument of the whole
    assert_eq!(at(1, "a5 l1 a1 v1 l2 v2 a2 l3 v3 a1 v0 v0"), (normal(1, "a3 a1 v0 v0 l1 v1"), [2, 0, 4, 1, 3], [12, 4, 4]));
    // (\x. (\g. g g) (\w. x (\z. z))) y: entered in a copy of the inner abstraction
    assert_eq!(at(1, "a11 l1 a4 l2 a1 v2 v2 l3 a1 v1 l4 v4 v0"), (normal(1, "a1 v0 l1 v1"), [3, 1, 4, 2, 2], [18, 4, 7]));
    // (\x. \w. x (\z. z)) y: never entered, and written
    assert_eq!(at(1, "a6 l1 l2 a1 v1 l3 v3 v0"), (normal(1, "l1 a1 v0 l2 v2"), [1, 0, 1, 0, 1], [8, 1, 4]));
    print_notes();
}

#[cfg(feature = "library")]
mod library {
    use super::*;
    use glow_tests::case;
    use glow_tests::enumerate::All;
    use glow_tests::families::{r4, small_members, u4, Y};
    use glow_tests::file::REFUSED_FILES;
    use glow_tests::flat::{apply, canonical, v, Flat};
    use glow_tests::painted::on_eight_mebibytes;
    use glow_tests::prng::Prng;
    use glow_tests::random;

    /// What the library said of both machines.
    #[derive(Default)]
    struct Compared { pairs: u64, normal: u64, spent: u64, refused: u64, fewer: u64 }

    impl Compared {
        fn refused(run: &Run) -> bool { matches!(run.outcome, Outcome::Refused(_)) }

        /// Two runs of one file with one budget: where neither is refused by a store, the outcome, the nodes written and the betas are the same.
        fn pair(&mut self, one: &Run, other: &Run, what: impl Fn() -> String) {
            self.pairs += 1;
            if Self::refused(one) || Self::refused(other) { self.refused += 1; return; }
            assert_eq!((&one.outcome, one.counts.beta), (&other.outcome, other.counts.beta), "{}", what());
            if one.outcome == Outcome::Spent { self.spent += 1; } else { self.normal += 1; }
        }

        /// The two machines with the same stores: the same enters and as many leaves, and on demand no more substs, nodes and names. So the
        /// machine on demand is not refused where the first is not.
        fn same_stores(&mut self, first: &Run, on_demand: &Run, what: impl Fn() -> String) {
            self.pair(first, on_demand, &what);
            if Self::refused(first) { return; }
            let (c, d, g, h) = (first.counts, on_demand.counts, first.figures, on_demand.figures);
            assert!(!Self::refused(on_demand), "{}", what());
            assert_eq!((c.enter, c.leave_fun + c.leave_inert, g.cells), (d.enter, d.leave_fun + d.leave_inert, h.cells), "{}", what());
            assert!(d.subst <= c.subst && h.nodes <= g.nodes && h.names <= g.names, "{}", what());
            assert_eq!((on_demand.subst_allowance, on_demand.shift_allowance), (d.beta + 1, first.shift_allowance), "{}", what());
            assert!(d.subst <= d.beta && d.shift() <= on_demand.shift_allowance, "{}", what());
            if d.subst < c.subst { self.fewer += 1; }
        }

        fn print(&self, what: &str) {
            let Compared { pairs, normal, spent, refused, fewer } = self;
            println!("{what}: {pairs} pairs of runs, {normal} normal, {spent} spent, {refused} with a refusal; {fewer} times fewer substs on demand");
            assert!(*normal > 200 && *spent > 200 && *fewer > 100);
        }
    }

    /// A library call on one machine.
    fn call(stores: &mut glow::Stores, rules: Rules, f: usize, file: &[u8], budget: u32) -> Run {
        case::told(f, stores.evaluate_on_this_stack(rules.into(), file, budget)).run().clone()
    }

    /// Two sets of stores, and the budget that shows what a term needs.
    struct Both { stores: [glow::Stores; 2], most: u32, compared: Compared }

    impl Both {
        fn new(stores: [glow::Stores; 2], most: u32) -> Both { Both { stores, most, compared: Compared::default() } }

        /// Both machines with both sets of stores, at these budgets or at each to two past the betas made; each run against each other.
        fn term(&mut self, f: usize, t: &Flat, budgets: Option<&[u32]>) {
            let file = canonical(f, t).file();
            let betas = call(&mut self.stores[0], Rules::First, f, &file, self.most).counts.beta as u32;
            let every: Vec<u32> = (0..=betas + 2).collect();
            for &budget in budgets.unwrap_or(&every) {
                let what = || format!("budget {budget} of {}", canonical(f, t).text());
                let [[a, b], [c, d]] = [0, 1].map(|k| BOTH.map(|rules| call(&mut self.stores[k], rules, f, &file, budget)));
                self.compared.same_stores(&a, &b, what);
                self.compared.same_stores(&c, &d, what);
                for (one, other) in [(&a, &d), (&b, &c), (&a, &c), (&b, &d)] { self.compared.pair(one, other, what); }
            }
        }
    }

    /// Every small term at every budget, with ample stores and with scarce ones.
    fn all_of(f: usize, most: usize) {
        let mut all = All::default();
        let mut both = Both::new([glow::Stores::new(700, 150, 150, 150, 100), glow::Stores::new(most + 4, 4, f + 6, f + 5, most)], 8);
        let mut terms = 0;
        for n in 1..=most { for t in all.terms(f, n).iter() { terms += 1; both.term(f, t, None); } }
        both.compared.print(&format!("all {terms} terms to {most} nodes, f = {f}"));
        assert!(both.compared.refused > 1000);
    }

    #[test] fn closed() { all_of(0, 11) }
    #[test] fn one_free_name() { all_of(1, 10) }
    #[test] fn two_free_names() { all_of(2, 9) }

    #[test]
    fn families() {
        on_eight_mebibytes(|| {
            let mut both = Both::new([glow::Stores::largest(), glow::Stores::new(300, 60, 60, 60, 90)], 60);
            for (_, f, t) in small_members() { both.term(f, &t, None); }
            both.compared.print("families");
        });
    }

    #[test]
    fn random_terms() {
        on_eight_mebibytes(|| {
            let mut both = Both::new([glow::Stores::new(4000, 2000, 20_000, 20_000, 2000), glow::Stores::new(150, 40, 1200, 1200, 60)], 100);
            let (mut r, mut terms) = (Prng(23), 0);
            while terms < 20_000 {
                let (f, t) = random::term(&mut r);
                if t.len() > 3000 { continue; }
                terms += 1;
                let (few, many) = (r.below(12) as u32, r.below(300) as u32);
                both.term(f, &t, Some(&[0, 1, 2, 3, few, many]));
            }
            both.compared.print(&format!("{terms} random terms"));
        });
    }

    /// u_n of (4) has no subst on demand, and n on the first machine; the written nodes are the same.
    #[test]
    fn equation_4() {
        let mut stores = glow::Stores::largest();
        for n in 0..=90 {
            let file = canonical(1, &u4(n)).file();
            let [first, on_demand] = BOTH.map(|rules| call(&mut stores, rules, 1, &file, 1));
            assert_eq!((first.counts.subst, on_demand.counts.subst), (n as u64, 0));
            let result = apply(v(Y), vec![r4(n); n]);
            if result.len() > 16_384 { assert_eq!([first.outcome, on_demand.outcome], [Outcome::Refused(12), Outcome::Refused(12)]); continue; }
            let right = Outcome::Normal(canonical(1, &result));
            assert_eq!([&first.outcome, &on_demand.outcome], [&right, &right]);
        }
    }

    /// A number that is no machine's: status 5, and nothing is touched, whatever the file, the stores and the report are. It is asked first:
    /// before the report's length, and before the file.
    #[test]
    fn no_such_machine() {
        let sound = [from_text(1, "v0").file(), from_text(0, D).file(), from_text(1, FF).file(), from_text(0, J).file()];
        let files: Vec<&[u8]> = sound.iter().map(|file| &file[..]).chain(REFUSED_FILES).chain([&[][..]]).collect();
        let numbers = (2..10).chain((3..32).flat_map(|bit| [(1u32 << bit) - 1, 1 << bit, (1 << bit) + 1])).chain([u32::MAX - 1, u32::MAX]);
        let mut calls = 0;
        for machine in numbers {
            for file in &files {
                for lengths in [Lengths::of(40, 20, 20, 20, 20), Lengths::of(0, 0, 0, 0, 0), Lengths::of(3, 0, 1, 0, 2)] {
                    for report_len in [0, 1, 11, 12, 20] {
                        for (garbage, budget) in [(0, 0), (1, u32::MAX), (99, 5)] {
                            case::check_no_such_machine(&Case { report_len, ..Case::new(Rules::First, file, budget, lengths).garbage(garbage) }, machine);
                            calls += 1;
                        }
                    }
                }
            }
        }
        for file in &files { case::check_no_such_machine(&Case::glow(Rules::OnDemand, file), 2); }
        println!("{calls} calls with a number that is no machine's");
    }
}

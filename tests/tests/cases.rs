//! Every worked case of 01 and 02, the table's examples, the order of the tests, and the traps' cases: the numbers are the first
//! machine's, and each case is compared on both. `machines` has the numbers on demand.
use glow_tests::file::REFUSED_FILES;
use glow_tests::case::{print_notes, Case};
use glow_tests::file::check;
use glow_tests::flat::from_text;
use glow_tests::machine::*;
use glow_tests::marked::*;

fn counts(beta: u64, subst: u64, enter: u64, leave_fun: u64, leave_inert: u64) -> Counts { Counts { beta, subst, enter, leave_fun, leave_inert } }
fn figures(nodes: u64, cells: u64, names: u64) -> Figures { Figures { nodes, cells, names } }

fn glow(f: usize, text: &str) -> Answer { with(f, text, GLOW_BUDGET, Lengths::glow()) }
/// The first machine's answer, both machines having been compared.
fn with(f: usize, text: &str, budget: u32, lengths: Lengths) -> Answer {
    let file = from_text(f, text).file();
    for rules in BOTH { for g in [0, 1, 2, 99] { Case::new(rules, &file, budget, lengths).garbage(g).check(); } }
    Case::new(Rules::First, &file, budget, lengths).check()
}
fn normal(f: usize, text: &str) -> Outcome { Outcome::Normal(from_text(f, text)) }

#[test]
fn a_to_j() {
    let a = glow(1, "v0");
    assert_eq!((&a.run().outcome, a.run().counts), (&normal(1, "v0"), counts(0, 0, 0, 0, 0)));
    let b = glow(0, "l0 v0");
    assert_eq!((&b.run().outcome, b.run().counts), (&normal(0, "l0 v0"), counts(0, 0, 0, 0, 0)));
    let c = glow(1, C);
    assert_eq!((&c.run().outcome, c.run().counts, c.run().figures), (&normal(1, "v0"), counts(1, 0, 1, 0, 1), figures(4, 1, 2)));
    let d = glow(0, D);
    assert_eq!((&d.run().outcome, d.run().counts, d.run().figures), (&normal(0, "l0 v0"), counts(1, 1, 1, 1, 0), figures(7, 1, 3)));
    let e = glow(1, "a1 v0 v0");
    assert_eq!((&e.run().outcome, e.run().counts), (&normal(1, "a1 v0 v0"), counts(0, 0, 1, 0, 1)));
    let f = glow(1, FF);
    assert_eq!(printed(&f), "normal\nbeta 2\nsubst 2 of 12\nenter 3\nleave 2 1\nshift 6 of 18\nstore 13 3 5\nterm a1 v0 l1 v1\n");
    assert_eq!(from_text(1, FF).file().len(), 31);
    let g = with(1, C, 1, Lengths::glow());
    assert_eq!((&g.run().outcome, g.run().counts, g.run().figures), (&normal(1, "v0"), counts(1, 0, 1, 0, 1), figures(4, 1, 2)));
    let h = with(1, C, 0, Lengths::glow());
    assert_eq!((&h.run().outcome, h.run().counts, h.run().figures), (&Outcome::Spent, counts(0, 0, 1, 0, 1), figures(4, 1, 2)));
    let i = with(0, D, GLOW_BUDGET, Lengths { tags: 6, args: 6, ..Lengths::glow() });
    assert_eq!((&i.run().outcome, i.run().counts.beta, i.run().counts.subst), (&Outcome::Refused(9), 1, 0));
    let j = with(0, J, 2, Lengths::glow());
    assert_eq!((&j.run().outcome, j.run().counts, j.run().figures), (&Outcome::Spent, counts(2, 4, 3, 3, 0), figures(25, 3, 6)));
    print_notes();
}

#[test]
fn table_examples() {
    for (file, n) in REFUSED_FILES.into_iter().zip(1..) {
        for rules in BOTH {
            assert_eq!(Case::glow(rules, file).check(), Answer::FileRefused(n));
            for report_len in 0..15 { Case { report_len, ..Case::new(rules, file, 5, Lengths::glow()) }.check(); }
            Case::new(rules, file, 0, Lengths::of(0, 0, 0, 0, 0)).check();
        }
    }
    let refused = |a: Answer, n: u8| assert_eq!(a.run().outcome, Outcome::Refused(n), "refusal {n}");
    refused(with(1, C, GLOW_BUDGET, Lengths { codes: 0, ..Lengths::glow() }), 8);
    refused(with(1, C, GLOW_BUDGET, Lengths { owns: 0, ..Lengths::glow() }), 8);
    refused(with(1, C, GLOW_BUDGET, Lengths { nexts: 0, ..Lengths::glow() }), 8);
    refused(with(0, D, GLOW_BUDGET, Lengths { tags: 6, ..Lengths::glow() }), 9);
    refused(with(0, D, GLOW_BUDGET, Lengths { args: 6, ..Lengths::glow() }), 9);
    refused(with(0, D, GLOW_BUDGET, Lengths { places: 2, ..Lengths::glow() }), 10);
    refused(with(0, D, GLOW_BUDGET, Lengths { renumber: 2, ..Lengths::glow() }), 11);
    refused(with(1, FF, GLOW_BUDGET, Lengths { out_tags: 3, ..Lengths::glow() }), 12);
    refused(with(1, FF, GLOW_BUDGET, Lengths { out_args: 3, ..Lengths::glow() }), 12);
    refused(with(1, FF, GLOW_BUDGET, Lengths { out_args: 3, renumber: 4, ..Lengths::glow() }), 11);
    // loading: 9 before 10 before the budget; no step and figures 0, with the allowances of b = 0
    for budget in [0, 7] {
        let nine = with(1, FF, budget, Lengths { tags: 8, places: 0, ..Lengths::glow() });
        assert_eq!((&nine.run().outcome, nine.run().figures, nine.run().subst_allowance, nine.run().shift_allowance), (&Outcome::Refused(9), figures(0, 0, 0), 4, 6));
        let ten = with(1, FF, budget, Lengths { places: 2, ..Lengths::glow() });
        assert_eq!((&ten.run().outcome, ten.run().figures, ten.run().subst_allowance), (&Outcome::Refused(10), figures(0, 0, 0), 4));
    }
    // the budget and every store just so, and one less, at case f
    let just = Lengths::of(13, 3, 5, 5, 4);
    assert!(matches!(with(1, FF, 2, just).run().outcome, Outcome::Normal(_)));
    assert_eq!(with(1, FF, 1, just).run().outcome, Outcome::Spent);
    refused(with(1, FF, 2, Lengths { nexts: 2, ..just }), 8);
    refused(with(1, FF, 2, Lengths { args: 12, ..just }), 9);
    refused(with(1, FF, 2, Lengths { places: 4, ..just }), 10);
    refused(with(1, FF, 2, Lengths { renumber: 4, ..just }), 11);
    refused(with(1, FF, 2, Lengths { out_tags: 3, ..just }), 12);
    print_notes();
}

/// The budget counts beta steps alone, and is asked only where a beta is next. `at` gives the outcome and the counts of a run.
#[test]
fn where_the_budget_is_asked() {
    let at = |f: usize, text: &str, budget: u32, lengths: Lengths| { let a = with(f, text, budget, lengths); (a.run().outcome.clone(), a.run().counts) };
    let glow = Lengths::glow();
    let refused = Outcome::Refused;
    // shifts and substs are made with no budget left: all of a fireball's shifts, those before the first beta, and those behind the last
    assert_eq!(at(1, "v0", 0, glow), (normal(1, "v0"), counts(0, 0, 0, 0, 0)));
    assert_eq!(at(0, "l0 v0", 0, glow), (normal(0, "l0 v0"), counts(0, 0, 0, 0, 0)));
    assert_eq!(at(1, "a1 v0 v0", 0, glow), (normal(1, "a1 v0 v0"), counts(0, 0, 1, 0, 1)));
    assert_eq!(at(1, "a4 a1 v0 l1 v1 a1 v0 v0", 0, glow), (normal(1, "a4 a1 v0 l1 v1 a1 v0 v0"), counts(0, 0, 3, 1, 2)));
    assert_eq!(at(0, D, 0, glow), (Outcome::Spent, counts(0, 0, 1, 1, 0)));
    assert_eq!(at(1, FF, 0, glow), (Outcome::Spent, counts(0, 0, 1, 1, 0)));
    // f's second beta comes behind two enters, two leaves and two substs
    assert_eq!(at(1, FF, 1, glow), (Outcome::Spent, counts(1, 2, 3, 2, 1)));
    assert_eq!(at(0, D, 1, glow), (normal(0, "l0 v0"), counts(1, 1, 1, 1, 0)));
    assert_eq!(at(0, J, 0, glow), (Outcome::Spent, counts(0, 0, 1, 1, 0)));
    assert_eq!(at(0, J, 1, glow), (Outcome::Spent, counts(1, 2, 2, 2, 0)));
    // a store that is full before the next beta, with the budget used up: the store's refusal
    assert_eq!(at(1, C, 0, Lengths { codes: 0, ..glow }), (refused(8), counts(0, 0, 0, 0, 0)));
    assert_eq!(at(0, D, 1, Lengths { tags: 6, ..glow }), (refused(9), counts(1, 0, 1, 1, 0)));
    assert_eq!(at(0, D, 1, Lengths { places: 2, ..glow }), (refused(10), counts(1, 0, 1, 1, 0)));
    assert_eq!(at(1, FF, 1, Lengths { nexts: 1, ..glow }), (refused(8), counts(1, 0, 1, 1, 0)));
    assert_eq!(at(0, J, 2, Lengths { args: 24, ..glow }), (refused(9), counts(2, 3, 3, 3, 0)));
    assert_eq!(at(0, J, 2, Lengths { places: 5, ..glow }), (refused(10), counts(2, 3, 3, 3, 0)));
    assert_eq!(at(0, J, 2, Lengths { owns: 2, ..glow }), (refused(8), counts(2, 2, 2, 2, 0)));
    // the same stores where a beta that the budget forbids comes first
    assert_eq!(at(0, D, 0, Lengths { tags: 6, places: 2, ..glow }), (Outcome::Spent, counts(0, 0, 1, 1, 0)));
    assert_eq!(at(1, FF, 0, Lengths { nexts: 1, ..glow }), (Outcome::Spent, counts(0, 0, 1, 1, 0)));
    assert_eq!(at(0, J, 1, Lengths { args: 24, places: 5, owns: 2, ..glow }), (Outcome::Spent, counts(1, 2, 2, 2, 0)));
    // where no step fits, 11 and 12 whatever is left of the budget
    for budget in [1, 2] {
        assert_eq!(at(1, C, budget, Lengths { renumber: 1, ..glow }), (refused(11), counts(1, 0, 1, 0, 1)));
        assert_eq!(at(1, C, budget, Lengths { out_args: 0, ..glow }), (refused(12), counts(1, 0, 1, 0, 1)));
    }
    assert_eq!(at(1, C, 0, Lengths { renumber: 0, out_args: 0, ..glow }), (Outcome::Spent, counts(0, 0, 1, 0, 1)));
    assert_eq!(at(1, "v0", 0, Lengths { renumber: 0, ..glow }).0, refused(11));
    assert_eq!(at(1, "v0", 0, Lengths { out_tags: 0, ..glow }).0, refused(12));
}

/// Budgets that would be used up if only some of their bits were read, or if they had a sign.
#[test]
fn budgets_of_thirty_two_bits() {
    for bits in 8..32u32 {
        for budget in [1 << bits, (1 << bits) + 1, (1u32 << bits).wrapping_neg()] {
            assert!(matches!(with(1, FF, budget, Lengths::glow()).run().outcome, Outcome::Normal(_)));
        }
    }
    assert!(matches!(with(1, FF, u32::MAX, Lengths::glow()).run().outcome, Outcome::Normal(_)));
}

/// Files that several refusals fit: the first counts.
#[test]
fn order_of_the_file_refusals() {
    let of = |b: &[u8]| { for rules in BOTH { Case::glow(rules, b).check(); } check(b).err() };
    assert_eq!(of(&[]), Some(1));
    assert_eq!(of(&[1, 0xff, 0, 0]), Some(2)); // both limits
    assert_eq!(of(&[0x01, 0x40, 1, 0, 9]), Some(2)); // f = 16385 before the length
    assert_eq!(of(&[0x00, 0x40, 1, 0, 0, 0, 0]), None); // f = 16384
    assert_eq!(of(&[0x00, 0x40, 1, 0, 0, 0xff, 0x3f]), None);
    assert_eq!(of(&[0x00, 0x40, 1, 0, 0, 0x00, 0x40]), Some(7));
    assert_eq!(of(&[0, 0, 1, 0x40, 9]), Some(2)); // n = 16385
    assert_eq!(of(&[1, 0, 1, 0, 9, 0, 0, 0]), Some(3)); // length before tag
    assert_eq!(of(&[1, 0, 2, 0, 2, 9, 0, 0, 0, 0]), Some(4)); // tag before shape
    assert_eq!(of(&[1, 0, 2, 0, 0, 0, 9, 0, 9, 0]), Some(5)); // two terms, unbound names
    assert_eq!(of(&[0, 0, 1, 0, 1, 5, 0]), Some(5)); // shape before binder
    assert_eq!(of(&[0, 0, 2, 0, 1, 0, 1, 0, 7, 0]), Some(6)); // binder before unbound
    // the bound name of a sibling
    assert_eq!(of(&from_text(0, "a2 l0 v0 l1 v0").file()), Some(7));
    assert_eq!(of(&from_text(0, "a2 l0 v1 l1 v1").file()), Some(7));
    assert_eq!(of(&from_text(1, "a1 v0 v0").file()), None);
    assert_eq!(of(&from_text(1, "a2 v0 v0").file()), Some(5));
    assert_eq!(of(&from_text(1, "a0 v0 v0").file()), Some(5));
    assert_eq!(of(&from_text(1, "a1 v0").file()), Some(5));
    assert_eq!(of(&from_text(1, "a65535 v0 v0").file()), Some(5));
    print_notes();
}

/// Lengths that would look sound if only 16 of their bits were read.
#[test]
fn lengths_beyond_sixteen_bits() {
    for text in [C, D, FF] {
        let f = if text == D { 0 } else { 1 };
        let sound = from_text(f, text).file();
        for extra in [1, 3, 65_535, 65_536, 65_537, 131_072, 3 * 65_536, 1 << 24] {
            let mut long = sound.clone();
            long.resize(sound.len() + extra, 0);
            for rules in BOTH { assert_eq!(Case::new(rules, &long, 9, Lengths::of(50, 50, 50, 50, 50)).check(), Answer::FileRefused(3)); }
        }
        let want = with(f, text, 50, Lengths::glow());
        for k in [32_767, 32_768, 32_769, 65_535, 65_536, 65_537, 65_538, 98_304, 131_072, 131_073] {
            assert_eq!(with(f, text, 50, Lengths::of(k, k, k, k, k)), want);
            let just = Lengths::of(13, 3, 5, 5, 4);
            for lengths in [Lengths { tags: k, ..just }, Lengths { args: k, ..just }, Lengths { codes: k, ..just }, Lengths { owns: k, ..just }, Lengths { nexts: k, ..just },
                Lengths { places: k, ..just }, Lengths { renumber: k, ..just }, Lengths { out_tags: k, ..just }, Lengths { out_args: k, ..just }] {
                assert_eq!(with(f, text, 50, lengths), want);
            }
        }
        for rules in BOTH { for report_len in [0, 1, 11, 12, 13, 65_536, 65_540] { Case { report_len, ..Case::new(rules, &sound, 50, Lengths::glow()) }.check(); } }
    }
}

/// Null with the length 0, as C programs lend an array that they have not: for each array, for all of a store, and for all at once.
#[test]
fn null_and_length_0() {
    type Emptied = fn(&mut Lengths);
    let empty: [Emptied; 15] = [
        |_| {}, |l| l.tags = 0, |l| l.args = 0, |l| l.codes = 0, |l| l.owns = 0, |l| l.nexts = 0, |l| l.places = 0, |l| l.renumber = 0, |l| l.out_tags = 0, |l| l.out_args = 0,
        |l| (l.tags, l.args) = (0, 0), |l| (l.codes, l.owns, l.nexts) = (0, 0, 0), |l| (l.out_tags, l.out_args) = (0, 0), |l| (l.places, l.renumber) = (0, 0), |l| *l = Lengths::of(0, 0, 0, 0, 0),
    ];
    for rules in BOTH {
        let mut seen = [0u64; 15];
        for (f, text) in [(1, "v0"), (0, "l0 v0"), (1, C), (0, D), (1, "a1 v0 v0"), (1, FF), (0, J)] {
            let sound = from_text(f, text).file();
            for file in [&sound[..], &sound[..3], &[]] {
                for empty in empty {
                    for lengths in [Lengths::glow(), Lengths::of(13, 3, 5, 5, 4)] {
                        let mut lengths = lengths;
                        empty(&mut lengths);
                        for budget in [0, 1, 2, 3, 1000] {
                            for garbage in [0, 1, 99] { seen[Case::new(rules, file, budget, lengths).garbage(garbage).nulls().check().kind()] += 1; }
                            for report_len in [0, 11] { Case { report_len, ..Case::new(rules, file, budget, lengths) }.nulls().check(); }
                        }
                    }
                }
            }
        }
        // normal, spent, no file, and each store that may be empty
        for kind in [0, 1, 8, 9, 10, 11, 12, 14] { assert!(seen[kind] > 0, "{rules:?}, outcome {kind}"); }
    }
    print_notes();
}

/// Each case after each other one, on the same machine and on the other, with the stores as that one left them: entries that are there
/// and mean nothing any more.
#[cfg(feature = "library")]
#[test]
fn stores_as_the_last_call_left_them() {
    let texts = [(1, "v0"), (0, "l0 v0"), (1, C), (0, D), (1, "a1 v0 v0"), (1, FF), (0, J), (2, "a1 v0 l2 v2"), (0, "a2 l0 l1 v0 l2 l3 v2")];
    let lengths = Lengths::of(200, 100, 100, 100, 100);
    let mut stores = glow::Stores::new(200, 100, 100, 100, 100);
    for first in texts {
        for (f, text) in texts {
            for (before, rules) in [(BOTH[0], BOTH[0]), (BOTH[0], BOTH[1]), (BOTH[1], BOTH[0]), (BOTH[1], BOTH[1])] {
                stores.evaluate_on_this_stack(before.into(), &from_text(first.0, first.1).file(), 10);
                let file = from_text(f, text).file();
                let answer = glow_tests::case::told(f, stores.evaluate_on_this_stack(rules.into(), &file, 10));
                assert_eq!(answer, evaluate(rules, &file, 10, &lengths), "{text}, {rules:?}, after {}, {before:?}", first.1);
            }
        }
    }
}

//! Terms that never end, at budgets and lengths of all sizes; and lengths beyond what a store counts, which change nothing.
use crate::changes::Answers;
use crate::grid::{Axes, Seen};
use crate::room::Room;
use crate::{need, Limits, Program};
use glow_tests::families::*;
use glow_tests::flat::{a, apply, l, v};
use glow_tests::machine::*;
use glow_tests::painted::on_eight_mebibytes;

const X: u32 = 9_000_000;
const Z: u32 = 9_000_001;

/// About what all stores and the output count, about what 16 bits hold, and more.
const BEYOND: [usize; 13] = [16_383, 16_384, 16_385, 32_767, 32_768, 32_769, 40_000, 65_535, 65_536, 65_537, 70_000, 98_304, 131_072];

fn ascending(mut axis: Vec<usize>) -> Vec<usize> { axis.sort(); axis.dedup(); axis }

/// Grids of the budget with each of these stores alone; the others are as in `ample`.
fn alone(stores: std::ops::Range<usize>, budgets: &[usize], ample: [usize; 6], lengths: impl Fn(usize) -> Vec<usize>) -> Vec<Axes> {
    stores.map(|store| {
        let mut axes = ample.map(|n| vec![n]);
        axes[0] = ascending(budgets.to_vec());
        axes[store] = ascending(lengths(store));
        axes
    }).collect()
}

/// Terms that come back to themselves, with an open name or without, and terms that grow; with a definition too.
fn endless() -> Vec<Program> {
    let passing = l(X, l(Z, apply(v(X), [v(X), v(Z)])));
    let growing = l(X, apply(v(X), [v(X), v(Y)]));
    vec![
        Program::plain(0, &omega()), Program::plain(1, &apply(passing.clone(), [passing, v(Y)])), Program::plain(1, &a(growing.clone(), growing)),
        Program::plain(0, &omega3()), Program::plain(1, &open_loop()), Program::with(1, &[delta()], &a(v(0), v(0))),
    ]
}

/// Spent with small budgets and refused with large ones, never normal: at each length of a store, and with the largest budget always refused.
#[test]
fn terms_that_never_end() {
    on_eight_mebibytes(|| {
        let budgets = [0, 1, 2, 3, 4, 5, 10, 30, 100, 1000, 65_535, 65_536, 1 << 31, u32::MAX as usize];
        let lengths = |_| (0..24).chain([30, 50, 100, 500]).chain(BEYOND).collect::<Vec<_>>();
        let ample = [0, 33_000, 33_000, 33_000, 5, 5];
        let mut room = Room::new();
        let mut seen = Seen::both();
        for program in endless() {
            for one in &mut seen {
                let mut answers = Answers::new(one.rules, &program, &Limits { budget: u32::MAX, lengths: Lengths::largest() });
                for axes in alone(1..4, &budgets, ample, lengths) { one.grid(&mut room, &program, &axes, &mut answers); }
                let all: Vec<&Outcome> = (0..answers.distinct()).map(|k| &answers.get(k).run().outcome).collect();
                assert!(all.iter().all(|outcome| !matches!(outcome, Outcome::Normal(_))), "assertion: a term that never ends is normal");
                for outcome in [Outcome::Spent, Outcome::Refused(8), Outcome::Refused(9), Outcome::Refused(10)] { assert!(all.contains(&&outcome), "assertion: {outcome:?} was not seen of {program:?}"); }
                for length in lengths(0) {
                    let answer = room.call(one.rules, &program, &Limits::of([u32::MAX as usize, length, length, length, 5, 5]));
                    assert!(matches!(answer.run().outcome, Outcome::Refused(8..=10)), "assertion: {:?} with the largest budget", answer.run());
                }
            }
        }
        for one in &seen { one.changes.print(&format!("terms that never end, {:?}", one.rules)); }
        println!("{} calls", room.calls);
    });
}

/// Programs with what the largest stores let a run have, or a little more: by machine the outcomes that come with each length ample.
fn largest() -> Vec<(&'static str, Program, [Outcome; 2])> {
    let refused = Outcome::Refused;
    let full = |program: &Program| BOTH.map(|rules| evaluate_with(rules, program.prelude(), &program.file, GLOW_BUDGET, &Lengths::largest()).run().outcome.clone());
    let normal = |name: &'static str, program: Program| {
        let outcomes = full(&program);
        assert!(outcomes.iter().all(|outcome| matches!(outcome, Outcome::Normal(_))), "{name}");
        (name, program, outcomes)
    };
    // (\x. y x x) t: 3 nodes more than twice t
    let twice = |t| a(l(X, apply(v(Y), [v(X), v(X)])), t);
    vec![
        normal("a result of 16384 nodes", Program::plain(0, &nested_abstractions(16_383))),
        normal("a result of 16383 nodes", Program::plain(1, &open_explosion(13))),
        ("a result of 16385 nodes", Program::plain(1, &twice(right_nested(4095, Y))), [refused(12), refused(12)]),
        normal("32768 names", Program::with(16_384, &[nested_abstractions(16_000)], &nested_abstractions(384))),
        ("32769 names", Program::with(16_384, &[nested_abstractions(16_000)], &nested_abstractions(385)), [refused(10), refused(10)]),
        // more cells than a file has applications: the argument is dropped, and then the definition is run
        normal("11002 cells", Program::with(2, &[l(X, left_nested(4000, X))], &a(l(Z, a(v(0), v(1))), right_nested(7000, 1)))),
        ("nodes without end", Program::plain(0, &omega()), [refused(9), refused(9)]),
    ]
}

/// Each store from one short of the need to four times what it counts, at budgets around the need and far beyond.
#[test]
fn lengths_that_do_not_count() {
    on_eight_mebibytes(|| {
        let mut room = Room::new();
        let mut seen = Seen::both();
        for (name, program, outcomes) in largest() {
            for (one, outcome) in seen.iter_mut().zip(&outcomes) {
                let largest = Limits { budget: u32::MAX, lengths: Lengths::largest() };
                let needed = need(evaluate_with(one.rules, program.prelude(), &program.file, largest.budget, &largest.lengths).run());
                let budgets = [needed[0].saturating_sub(1), needed[0], needed[0] + 1, u32::MAX as usize];
                let ample = [0, 33_000, 40_000, 33_000, 40_000, 17_000];
                let mut answers = Answers::new(one.rules, &program, &largest);
                let lengths = |store: usize| [needed[store].saturating_sub(1), needed[store], needed[store] + 1].into_iter().chain(BEYOND).collect();
                for axes in alone(1..6, &budgets, ample, lengths) { one.grid(&mut room, &program, &axes, &mut answers); }
                for (k, length) in BEYOND.into_iter().skip(4).enumerate() {
                    let answer = room.call(one.rules, &program, &Limits::of([[GLOW_BUDGET as usize, u32::MAX as usize][k % 2], length, length, length, length, length]));
                    assert_eq!(&answer.run().outcome, outcome, "{name}, {:?}, with {length} of each", one.rules);
                }
            }
        }
        for one in &seen { one.changes.print(&format!("lengths that do not count, {:?}", one.rules)); }
        println!("{} calls", room.calls);
    });
}

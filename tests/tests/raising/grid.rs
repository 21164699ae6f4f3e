//! Small programs at every budget and with every length: grids of limits, in which each answer is compared with those beside it that have one
//! limit smaller. Every two limits of a grid, one at least as large as the other, are joined by steps that each raise one limit to the next. If
//! the answer is the same along all steps, it is the same at both ends. Else the first step at which it changes raises what ended the run,
//! which is then larger at the far end than at the near one; from that step on no count and no figure gets smaller. And an answer that is
//! normal changes at no step. So what holds of the pairs beside each other holds of all.
use crate::changes::{Answers, Changes};
use crate::room::Room;
use crate::{chosen, need, terms, with_definitions, Limits, Program};
use glow_tests::machine::*;

/// The values of each limit, ascending, in the order of `Limits::counted`.
pub type Axes = [Vec<usize>; 6];

/// The arrays of a store lent with different lengths, of which the shortest is the same as before: which are longer, the number says.
pub fn uneven(mut l: Lengths, number: u64) -> Lengths {
    let x = number.wrapping_mul(0x9E37_79B9_7F4A_7C15) >> 32;
    let more = |bits: u64| (x >> bits & 3) as usize;
    if x & 1 == 0 { l.tags += more(2) } else { l.args += more(2) }
    match x >> 4 & 3 { 0 => { l.codes += more(6); l.owns += more(8) } 1 => { l.owns += more(6); l.nexts += more(8) } 2 => { l.nexts += more(6); l.codes += more(8) } _ => {} }
    if x & 2 == 0 { l.out_tags += more(10) } else { l.out_args += more(10) }
    l
}

/// What has been seen of one machine.
pub struct Seen { pub rules: Rules, pub changes: Changes }

impl Seen {
    pub fn both() -> [Seen; 2] { BOTH.map(|rules| Seen { rules, changes: Changes::default() }) }

    /// The answers at all limits of the grid, each against those beside it with one limit smaller.
    pub fn grid(&mut self, room: &mut Room, program: &Program, axes: &Axes, answers: &mut Answers) {
        let mut strides = [1; 6];
        for k in 1..6 { strides[k] = strides[k - 1] * axes[k - 1].len(); }
        let all = strides[5] * axes[5].len();
        let mut numbers: Vec<u16> = Vec::with_capacity(all);
        // where in each axis the limits are
        let mut places = [0; 6];
        let limits_at = |places: [usize; 6]| Limits::of([0, 1, 2, 3, 4, 5].map(|k| axes[k][places[k]]));
        loop {
            let (at, even) = (numbers.len(), limits_at(places));
            let limits = Limits { lengths: uneven(even.lengths, at as u64), ..even };
            let number = answers.number(room.call(self.rules, program, &limits), &limits, || format!("{:?}, {limits:?} of {program:?}", self.rules));
            for k in 0..6 {
                if places[k] == 0 { continue; }
                let mut smaller = places;
                smaller[k] -= 1;
                let mut larger = [false; 6];
                larger[k] = even.counted()[k] > limits_at(smaller).counted()[k];
                let below = numbers[at - strides[k]].into();
                self.changes.pair(answers.get(below), answers.get(number), larger, || format!("{:?}, from {:?} to {limits:?} of {program:?}", self.rules, limits_at(smaller)));
            }
            numbers.push(number.try_into().unwrap());
            let Some(next) = (0..6).find(|&k| places[k] + 1 < axes[k].len()) else { break };
            places[..next].fill(0);
            places[next] += 1;
        }
        assert_eq!(numbers.len(), all, "all limits of the grid");
    }
}

/// Budgets to two past the need and the largest, and lengths to one past the need.
fn around(needed: [usize; 6]) -> Axes {
    let mut axes = needed.map(|n| (0..=n + 1).collect::<Vec<_>>());
    axes[0].extend([needed[0] + 2, u32::MAX as usize]);
    axes
}

/// A grid of all limits.
fn whole(needed: [usize; 6]) -> Vec<Axes> { vec![around(needed)] }

/// Grids of the budget with each store alone, and of each two stores with two budgets around the need; the other stores are ample.
fn planes(needed: [usize; 6]) -> Vec<Axes> {
    let axes = around(needed);
    let ample = needed.map(|n| vec![n + 3]);
    let mut grids = Vec::new();
    for one in 1..6 {
        let mut grid = ample.clone();
        grid[0] = axes[0].clone();
        grid[one] = axes[one].clone();
        grids.push(grid.clone());
        for two in one + 1..6 {
            grid[0] = vec![needed[0].saturating_sub(1), needed[0]];
            grid[0].dedup();
            grid[two] = axes[two].clone();
            grids.push(grid.clone());
            grid[two] = ample[two].clone();
        }
    }
    grids
}

/// All grids of each program on both machines, around what a run of `most` betas needs, and the two machines across. Gives what was seen.
fn see(name: &str, programs: &[Program], most: u32, grids: impl Fn([usize; 6]) -> Vec<Axes>) -> [Seen; 2] {
    let mut room = Room::new();
    let mut seen = Seen::both();
    let (mut distinct, mut agreed, mut longer) = (0, 0, 0);
    for program in programs {
        let [first, on_demand] = [0, 1].map(|k| {
            let full = evaluate_with(BOTH[k], program.prelude(), &program.file, most, &Lengths::of(200, 40, 80, 80, 80));
            longer += usize::from(full.run().outcome == Outcome::Spent);
            let needed = need(full.run());
            let largest = Limits::of(needed.map(|n| n + 3));
            let mut answers = Answers::new(BOTH[k], program, &Limits { budget: u32::MAX, ..largest });
            for axes in grids(needed) { seen[k].grid(&mut room, program, &axes, &mut answers); }
            distinct += answers.distinct();
            answers
        });
        agreed += usize::from(first.across(&on_demand, || format!("{program:?}")));
    }
    println!("{name}: {} programs, {} calls, {distinct} distinct answers; {agreed} programs normal on both machines, {longer} runs of more than {most} betas", programs.len(), room.calls);
    for one in &seen {
        one.changes.print(&format!("{name}, {:?}", one.rules));
        assert!(one.changes.changed() * 50 > one.changes.pairs(), "assertion: too few pairs changed");
    }
    assert!(agreed * 2 > programs.len(), "assertion: only {agreed} normal on both machines");
    seen
}

fn all_seen(seen: [Seen; 2], least: u64) { for one in seen { one.changes.assert_all_seen(least); } }

#[test]
fn all_limits_of_the_smallest_terms() {
    let programs: Vec<Program> = [terms(0, 6), terms(1, 5), terms(2, 3)].concat();
    see("all limits", &programs, 2, whole);
}

#[test]
fn all_limits_with_definitions() {
    let programs: Vec<Program> = [with_definitions(1, &[4], 2), with_definitions(1, &[3], 3), with_definitions(2, &[2, 2], 3)].concat();
    see("all limits, with definitions", &programs, 2, whole);
}

#[test]
fn all_limits_of_chosen_programs() { all_seen(see("all limits, chosen", &chosen(), 2, whole), 10) }

#[test]
fn one_store_and_two() {
    let programs: Vec<Program> = [terms(0, 8), terms(1, 7), terms(2, 5)].concat();
    all_seen(see("one store and two", &programs, 4, planes), 10);
}

#[test]
fn one_store_and_two_with_definitions() {
    let programs: Vec<Program> = [with_definitions(1, &[4], 5), with_definitions(2, &[3, 4], 3)].concat();
    all_seen(see("one store and two, with definitions", &programs, 4, planes), 10);
}

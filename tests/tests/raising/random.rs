//! Random programs and the families at scale: limits that are raised at random several times in a row, one array or several at a time, and each
//! answer against all with smaller limits before it, on both machines.
use crate::changes::{Answers, Changes};
use crate::room::Room;
use crate::{need, Limits, Program};
use glow_tests::families::*;
use glow_tests::flat::{apply, v};
use glow_tests::machine::*;
use glow_tests::painted::on_eight_mebibytes;
use glow_tests::prng::Prng;
use glow_tests::random;

/// What is needed, a little more, or less.
fn small(r: &mut Prng, needed: usize) -> usize {
    match r.below(6) { 0 => needed.saturating_sub(1), 1 => needed, 2 => needed + 1, 3 => needed.saturating_sub(r.below(6)), 4 => r.below(needed + 1), _ => needed - r.below(needed / 4 + 1) }
}

/// A number that is at least as large: one more, a few more, about what is needed, or far more.
fn raised(r: &mut Prng, now: usize, needed: usize, far: usize) -> usize {
    match r.below(10) { 0 | 1 => now + 1, 2 | 3 => now + r.below(8), 4 | 5 => now.max(needed), 6 => now.max(needed.saturating_sub(1)), 7 => now + r.below(needed + 1), 8 => now.max(needed + r.below(20)), _ => now.max(far) }
}

/// Limits that grow: in each the budget and every array are at least as large as in the one before.
fn growing(r: &mut Prng, needed: [usize; 6], count: usize, far: usize) -> Vec<Limits> {
    let [betas, cells, nodes, names, renumber, output] = needed;
    let mut all = vec![Limits::of(needed.map(|n| small(r, n)))];
    while all.len() < count {
        let mut next = *all.last().unwrap();
        for _ in 0..r.between(1, 4) {
            let l = &mut next.lengths;
            let (store, needed): (Vec<&mut usize>, usize) = match r.below(6) {
                0 => { next.budget = raised(r, next.budget as usize, betas, u32::MAX as usize).min(u32::MAX as usize) as u32; continue; }
                1 => (vec![&mut l.codes, &mut l.owns, &mut l.nexts], cells),
                2 => (vec![&mut l.tags, &mut l.args], nodes),
                3 => (vec![&mut l.places], names),
                4 => (vec![&mut l.renumber], renumber),
                _ => (vec![&mut l.out_tags, &mut l.out_args], output),
            };
            // one array of the store, or all of them, each by as much as it happens
            let (alone, which) = (r.one_in(3), r.below(store.len()));
            for (k, length) in store.into_iter().enumerate() { if !alone || k == which { *length = raised(r, *length, needed, far); } }
        }
        all.push(next);
    }
    all
}

/// Limits of which each is that of the one or of the other that is larger.
fn joined(one: &Limits, two: &Limits) -> Limits {
    let (p, q) = (one.counted(), two.counted());
    let mut k = 0;
    Limits::of(p.map(|n| { k += 1; n.max(q[k - 1]) as usize }))
}

/// Both machines.
struct Both { room: Room, changes: [Changes; 2], programs: u64, agreed: u64, ends: [u64; 15] }

impl Both {
    fn new() -> Both { Both { room: Room::new(), changes: [Changes::default(), Changes::default()], programs: 0, agreed: 0, ends: [0; 15] } }

    /// Several rows of growing limits, each answer against those before it in its row; and of all rows together that they have no two normal
    /// answers. `most` is the budget of the run that shows what the program needs, and `far` a length that is more than that.
    fn program(&mut self, r: &mut Prng, program: &Program, most: u32, rows: usize, far: usize) {
        self.programs += 1;
        let full = BOTH.map(|rules| evaluate_with(rules, program.prelude(), &program.file, most, &Lengths::largest()));
        let needed = full.each_ref().map(|answer| match answer { Answer::Ran(run) => need(run), _ => [9; 6] });
        let rows: Vec<Vec<Limits>> = (0..rows).map(|k| growing(r, needed[k % 2], 8, far)).collect();
        let largest = rows.iter().map(|row| *row.last().unwrap()).reduce(|one, two| joined(&one, &two)).unwrap();
        let [first, on_demand] = [0, 1].map(|k| {
            let mut answers = Answers::new(BOTH[k], program, &largest);
            for row in &rows {
                let mut before: Vec<(&Limits, usize)> = Vec::new();
                for limits in row {
                    let what = || format!("{:?}, {limits:?} of {program:?}", BOTH[k]);
                    let number = answers.number(self.room.call(BOTH[k], program, limits), limits, what);
                    self.ends[answers.get(number).kind()] += 1;
                    for (smaller, below) in &before {
                        let (p, q) = (smaller.counted(), limits.counted());
                        let mut larger = [false; 6];
                        for axis in 0..6 { larger[axis] = q[axis] > p[axis]; }
                        self.changes[k].pair(answers.get(*below), answers.get(number), larger, || format!("{:?}, from {smaller:?} to {limits:?} of {program:?}", BOTH[k]));
                    }
                    before.push((limits, number));
                }
            }
            answers
        });
        self.agreed += u64::from(first.across(&on_demand, || format!("{program:?}")));
    }

    fn print(&self, what: &str) {
        println!("{what}: {} programs, {} calls; normal {} spent {} refusals 8.. {:?}; {} programs normal on both machines", self.programs, self.room.calls, self.ends[0], self.ends[14], &self.ends[8..13], self.agreed);
        for (rules, changes) in BOTH.iter().zip(&self.changes) { changes.print(&format!("{what}, {rules:?}")); }
        assert!(self.agreed * 3 > self.programs, "assertion: only {} normal on both machines", self.agreed);
    }
}

#[test]
fn random_programs() {
    on_eight_mebibytes(|| {
        let mut r = Prng(43);
        let mut both = Both::new();
        while both.programs < 2000 {
            let program = if r.one_in(2) {
                let (f, term) = random::term(&mut r);
                Program::plain(f, &term)
            } else {
                let (f, definitions, term) = random::with_definitions(&mut r);
                Program::with(f, &definitions, &term)
            };
            if program.file.len() > 3000 { continue; }
            both.program(&mut r, &program, 40, 2, 33_000);
        }
        both.print("random programs");
        for changes in &both.changes { changes.assert_all_seen(5); }
    });
}

/// The families, larger than elsewhere, some of which never end, and two libraries of definitions.
fn at_scale() -> Vec<Program> {
    let plain = Program::plain;
    let calls = 1500;
    vec![
        plain(1, &open_explosion(9)), plain(1, &open_explosion(13)), plain(1, &open_explosion(60)), plain(1, &u4(60)), plain(2, &u10(8, &v(W))), plain(2, &s10(8, &v(W))), plain(0, &s7(9)),
        plain(1, &renamings(600)), plain(1, &passed_along(100)), plain(0, &abstraction_chain(2000)), plain(2, &inert_chain_right(1000)), plain(2, &inert_chain_left(1000)),
        plain(2, &head_chain(900, v(Y))), plain(2, &shown(apply(power(), [church(2), church(8)]))), plain(1, &chain_by_numeral(church(300))),
        plain(0, &omega()), plain(0, &omega3()), plain(1, &open_loop()), plain(1, &z_loop()),
        Program::with(calls + 1, &definition_chain(calls), &apply(v(calls as u32 - 1), [v(calls as u32)])),
        Program::with(calls, &definition_chain(calls), &v(calls as u32 - 1)),
    ]
}

#[test]
fn families_at_scale() {
    on_eight_mebibytes(|| {
        let mut r = Prng(47);
        let mut both = Both::new();
        for program in at_scale() { both.program(&mut r, &program, 3000, 8, 70_000); }
        both.print("families at scale");
    });
}

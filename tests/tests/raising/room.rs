//! Calls of the library on arrays that are kept from one call to the next, so that a call finds in its stores what others have left there.
use crate::{Limits, Program};
use glow_tests::case::Number;
use glow_tests::flat::Canonical;
use glow_tests::machine::*;
use glow_tests::prng::Prng;

const GUARD: usize = 4;

/// An array of which any beginning is lent, between elements that must not change.
struct Kept<T> { now: Vec<T>, before: Vec<T>, lent: usize, noise: u64 }

impl<T: Number> Kept<T> {
    fn new(seed: u64) -> Kept<T> { Kept { now: vec![], before: vec![], lent: 0, noise: Prng(seed).next() | 1 } }

    fn noise(&mut self) -> T {
        self.noise ^= self.noise << 13;
        self.noise ^= self.noise >> 7;
        self.noise ^= self.noise << 17;
        T::of(self.noise)
    }

    /// So many elements are to be lent, with what they hold.
    fn prepare(&mut self, len: usize) {
        let end = len + 2 * GUARD;
        while self.now.len() < end { let x = self.noise(); self.now.push(x); self.before.push(x); }
        self.before[..end].copy_from_slice(&self.now[..end]);
        self.lent = len;
    }

    /// So many elements are to be lent, with noise in them.
    fn prepare_with_noise(&mut self, len: usize) {
        for k in 0..self.now.len().min(len + 2 * GUARD) { self.now[k] = self.noise(); }
        self.prepare(len);
    }

    fn lend(&mut self) -> &mut [T] { &mut self.now[GUARD..GUARD + self.lent] }
    fn held(&self) -> &[T] { &self.now[GUARD..GUARD + self.lent] }

    /// Whether nothing is changed but, of what was lent, the first so many.
    fn unchanged_but(&self, first: usize) -> bool {
        let (from, end) = (GUARD + first.min(self.lent), self.lent + 2 * GUARD);
        self.now[..GUARD] == self.before[..GUARD] && self.now[from..end] == self.before[from..end]
    }
    fn unchanged(&self) -> bool { self.unchanged_but(0) }
    fn ends_unchanged(&self) -> bool { self.unchanged_but(self.lent) }
}

/// All that is lent.
pub struct Room {
    tags: Kept<u8>, args: Kept<u16>, codes: Kept<u16>, owns: Kept<u16>, nexts: Kept<u16>, places: Kept<u16>, renumber: Kept<u16>,
    out_tags: Kept<u8>, out_args: Kept<u16>, report: Kept<u64>, pub calls: u64,
}

impl Room {
    pub fn new() -> Room {
        Room {
            tags: Kept::new(1), args: Kept::new(2), codes: Kept::new(3), owns: Kept::new(4), nexts: Kept::new(5), places: Kept::new(6), renumber: Kept::new(7),
            out_tags: Kept::new(8), out_args: Kept::new(9), report: Kept::new(10), calls: 0,
        }
    }

    /// The library's answer. Where the file or the prelude is refused nothing is touched but the first element of the report; else all of the
    /// report is given, and of the output the nodes written, and where the run is not normal none.
    pub fn call(&mut self, rules: Rules, program: &Program, limits: &Limits) -> Answer {
        let l = &limits.lengths;
        self.calls += 1;
        self.tags.prepare(l.tags); self.args.prepare(l.args);
        self.codes.prepare(l.codes); self.owns.prepare(l.owns); self.nexts.prepare(l.nexts);
        self.places.prepare(l.places); self.renumber.prepare(l.renumber);
        self.out_tags.prepare_with_noise(l.out_tags); self.out_args.prepare_with_noise(l.out_args); self.report.prepare_with_noise(12);
        let status = self.status(rules, program, limits.budget);
        let Room { tags, args, codes, owns, nexts, places, renumber, out_tags, out_args, report, .. } = self;
        let fail = |why: &str| -> ! { panic!("DISAGREEMENT: {why}: {rules:?}, {limits:?}, {program:?}") };
        let ends = tags.ends_unchanged() && args.ends_unchanged() && codes.ends_unchanged() && owns.ends_unchanged() && nexts.ends_unchanged()
            && places.ends_unchanged() && renumber.ends_unchanged() && report.ends_unchanged();
        if !ends { fail("changed outside of what was lent"); }
        let r = report.held();
        if status == glow::Status::FileRefused {
            let untouched = tags.unchanged() && args.unchanged() && codes.unchanged() && owns.unchanged() && nexts.unchanged() && places.unchanged()
                && renumber.unchanged() && out_tags.unchanged() && out_args.unchanged() && report.unchanged_but(1);
            if !untouched { fail("an array changed where the number alone is returned"); }
            if !matches!(r[0], 1..=7 | 17..=19) { fail("no refusal of a file or a prelude"); }
            return Answer::FileRefused(r[0] as u8);
        }
        let written = r[1] as usize;
        let outcome = match (status, r[0]) {
            (glow::Status::Normal, 0) if written <= l.output() => Outcome::Normal(Canonical {
                f: usize::from(program.file[0]) + 256 * usize::from(program.file[1]), tags: out_tags.held()[..written].to_vec(), args: out_args.held()[..written].to_vec(),
            }),
            (glow::Status::Spent, 0) if written == 0 => Outcome::Spent,
            (glow::Status::Refused, 8..=12) if written == 0 => Outcome::Refused(r[0] as u8),
            _ => fail(&format!("{status:?} with refusal {} and {written} nodes written", r[0])),
        };
        if !out_tags.unchanged_but(written) || !out_args.unchanged_but(written) { fail("the output changed behind the nodes written"); }
        Answer::Ran(Run {
            outcome, counts: Counts { beta: r[2], subst: r[3], enter: r[4], leave_fun: r[5], leave_inert: r[6] },
            figures: Figures { nodes: r[7], cells: r[8], names: r[9] }, subst_allowance: r[10], shift_allowance: r[11],
        })
    }

    fn status(&mut self, rules: Rules, program: &Program, budget: u32) -> glow::Status {
        let (tags, args, codes, owns, nexts) = (self.tags.lend(), self.args.lend(), self.codes.lend(), self.owns.lend(), self.nexts.lend());
        let (places, renumber, out_tags, out_args, report) = (self.places.lend(), self.renumber.lend(), self.out_tags.lend(), self.out_args.lend(), self.report.lend());
        match &program.prelude {
            None => glow::evaluate_in_on_this_stack(rules.into(), &program.file, budget, tags, args, codes, owns, nexts, places, renumber, out_tags, out_args, report),
            Some(prelude) => glow::evaluate_with_in_on_this_stack(rules.into(), prelude, &program.file, budget, tags, args, codes, owns, nexts, places, renumber, out_tags, out_args, report),
        }
    }
}

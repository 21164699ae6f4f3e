//! One case, on one of the two machines: the second implementation's answer, and the library's compared with it field by field
//! and array by array, with sentinels before and after every lent slice.
use crate::machine::{evaluate_with, Answer, Lengths, Rules};
use crate::prelude;

#[derive(Clone, Debug)]
pub struct Case<'a> {
    pub rules: Rules,
    /// for the library's call with a prelude; none for the one without
    pub prelude: Option<&'a [u8]>,
    pub file: &'a [u8],
    pub budget: u32,
    pub lengths: Lengths,
    /// what the stores hold before: 0 zeros, 1 all ones, 2 small numbers, `ONES` all ones, in the output too, else random from this seed
    pub garbage: u64,
    pub report_len: usize,
    /// whether an array of length 0 is lent by a null pointer, as C programs do
    pub nulls: bool,
}

/// For `Case::garbage`.
pub const ONES: u64 = u64::MAX;

impl<'a> Case<'a> {
    pub fn new(rules: Rules, file: &'a [u8], budget: u32, lengths: Lengths) -> Case<'a> { Case { rules, prelude: None, file, budget, lengths, garbage: 7, report_len: 12, nulls: false } }
    pub fn glow(rules: Rules, file: &'a [u8]) -> Case<'a> { Case { garbage: 0, ..Case::new(rules, file, crate::machine::GLOW_BUDGET, Lengths::glow()) } }
    pub fn garbage(mut self, g: u64) -> Self { self.garbage = g; self }
    pub fn nulls(mut self) -> Self { self.nulls = true; self }
    pub fn with(mut self, prelude: &'a [u8]) -> Self { self.prelude = Some(prelude); self }
    /// The second implementation's answer, after the library's has been compared with it. Panics on a difference.
    pub fn check(&self) -> Answer {
        let answer = evaluate_with(self.rules, self.prelude.unwrap_or(prelude::NONE), self.file, self.budget, &self.lengths);
        self.check_against(&answer);
        answer
    }
    pub fn check_against(&self, answer: &Answer) {
        if let Err(why) = compare(self, answer) {
            let shown = |bytes: &[u8]| format!("({} bytes): {}", bytes.len(), bytes.iter().take(400).map(|b| format!("{b:02x}")).collect::<Vec<_>>().join(" "));
            panic!("DISAGREEMENT: {why}\n machine {:?} budget {} lengths {:?} garbage {} report_len {} nulls {}\n second implementation: {}\n file {}\n prelude {}",
                self.rules, self.budget, self.lengths, self.garbage, self.report_len, self.nulls, crate::machine::printed(answer), shown(self.file), self.prelude.map_or("none".into(), shown));
        }
    }
}

#[cfg(not(feature = "library"))]
pub const LIBRARY: bool = false;
#[cfg(feature = "library")]
pub const LIBRARY: bool = true;

#[cfg(not(feature = "library"))]
fn compare(_: &Case, _: &Answer) -> Result<(), String> { Ok(()) }

/// Things seen that the papers leave free or that a strict reading would forbid: counted, not failed.
#[cfg(feature = "library")]
pub static NOTES: std::sync::Mutex<std::collections::BTreeMap<String, u64>> = std::sync::Mutex::new(std::collections::BTreeMap::new());
pub fn print_notes() {
    #[cfg(feature = "library")]
    for (what, count) in NOTES.lock().unwrap().iter() { println!("note: {what}: {count} times"); }
}

#[cfg(feature = "library")]
pub use library::*;
#[cfg(feature = "library")]
mod library {
    use super::*;
    use crate::machine::{Outcome, GLOW_BUDGET};
    use crate::prng::Prng;

    const GUARD: usize = 8;

    pub trait Number: Copy + PartialEq + std::fmt::Debug { fn of(n: u64) -> Self; }
    impl Number for u8 { fn of(n: u64) -> u8 { n as u8 } }
    impl Number for u16 { fn of(n: u64) -> u16 { n as u16 } }
    impl Number for u64 { fn of(n: u64) -> u64 { n } }

    /// A lent slice inside a longer array whose ends are watched.
    pub struct Lent<T> { pub now: Vec<T>, pub before: Vec<T>, len: usize, name: &'static str }
    impl<T: Number> Lent<T> {
        pub fn new(name: &'static str, len: usize, garbage: u64, r: &mut Prng) -> Lent<T> {
            let mut before: Vec<T> = match garbage {
                0 => vec![T::of(0); len + 2 * GUARD],
                1 => vec![T::of(u64::MAX); len + 2 * GUARD],
                2 => (0..len + 2 * GUARD).map(|_| T::of(r.next() % 4)).collect(),
                _ => { let mut x = r.next() | 1; (0..len + 2 * GUARD).map(|_| { x ^= x << 13; x ^= x >> 7; x ^= x << 17; T::of(x) }).collect() }
            };
            for k in 0..GUARD { before[k] = T::of(0xA5A5_A5A5_A5A5_A5A5); before[len + GUARD + k] = T::of(0x5A5A_5A5A_5A5A_5A5A); }
            Lent { now: before.clone(), before, len, name }
        }
        pub fn slice(&mut self) -> &mut [T] { &mut self.now[GUARD..GUARD + self.len] }
        pub fn held(&self) -> &[T] { &self.now[GUARD..GUARD + self.len] }
        pub fn had(&self) -> &[T] { &self.before[GUARD..GUARD + self.len] }
        pub fn ends(&self) -> Result<(), String> {
            let n = GUARD + self.len;
            if self.now[..GUARD] != self.before[..GUARD] { return Err(format!("{}: written before its start", self.name)); }
            if self.now[n..] != self.before[n..] { return Err(format!("{}: written past its end", self.name)); }
            Ok(())
        }
        pub fn unchanged_from(&self, from: usize) -> Result<(), String> {
            let from = from.min(self.len);
            match (from..self.len).find(|&k| self.held()[k] != self.had()[k]) {
                None => Ok(()),
                Some(k) => Err(format!("{}[{k}] changed from {:?} to {:?}", self.name, self.had()[k], self.held()[k])),
            }
        }
    }

    impl From<Rules> for glow::Machine {
        fn from(rules: Rules) -> glow::Machine { match rules { Rules::First => glow::Machine::First, Rules::OnDemand => glow::Machine::OnDemand } }
    }

    /// The status of the C function, called with any number for a machine and a null pointer for an array of length 0, as C programs may.
    #[allow(clippy::too_many_arguments)]
    fn with_nulls(
        machine: u32, prelude: Option<&[u8]>, file: &[u8], budget: u32, tags: &mut [u8], args: &mut [u16], codes: &mut [u16], owns: &mut [u16], nexts: &mut [u16], places: &mut [u16],
        renumber: &mut [u16], out_tags: &mut [u8], out_args: &mut [u16], report: &mut [u64],
    ) -> u32 {
        extern "C" {
            fn glow_evaluate(
                machine: u32, file: *const u8, file_len: usize, budget: u32, tags: *mut u8, tags_len: usize, args: *mut u16, args_len: usize,
                codes: *mut u16, codes_len: usize, owns: *mut u16, owns_len: usize, nexts: *mut u16, nexts_len: usize,
                places: *mut u16, places_len: usize, renumber: *mut u16, renumber_len: usize,
                out_tags: *mut u8, out_tags_len: usize, out_args: *mut u16, out_args_len: usize, report: *mut u64, report_len: usize,
            ) -> u32;
            fn glow_evaluate_with(
                machine: u32, prelude: *const u8, prelude_len: usize, file: *const u8, file_len: usize, budget: u32, tags: *mut u8, tags_len: usize, args: *mut u16, args_len: usize,
                codes: *mut u16, codes_len: usize, owns: *mut u16, owns_len: usize, nexts: *mut u16, nexts_len: usize,
                places: *mut u16, places_len: usize, renumber: *mut u16, renumber_len: usize,
                out_tags: *mut u8, out_tags_len: usize, out_args: *mut u16, out_args_len: usize, report: *mut u64, report_len: usize,
            ) -> u32;
        }
        fn start<T>(s: &mut [T]) -> *mut T { if s.is_empty() { std::ptr::null_mut() } else { s.as_mut_ptr() } }
        fn given(s: &[u8]) -> *const u8 { if s.is_empty() { std::ptr::null() } else { s.as_ptr() } }
        // SAFETY: each pointer is to a slice that is borrowed alone, as long as is said, or is null with the length 0, which glow.h allows.
        unsafe {
            match prelude {
                None => glow_evaluate(
                    machine, given(file), file.len(), budget, start(tags), tags.len(), start(args), args.len(),
                    start(codes), codes.len(), start(owns), owns.len(), start(nexts), nexts.len(),
                    start(places), places.len(), start(renumber), renumber.len(),
                    start(out_tags), out_tags.len(), start(out_args), out_args.len(), start(report), report.len(),
                ),
                Some(prelude) => glow_evaluate_with(
                    machine, given(prelude), prelude.len(), given(file), file.len(), budget, start(tags), tags.len(), start(args), args.len(),
                    start(codes), codes.len(), start(owns), owns.len(), start(nexts), nexts.len(),
                    start(places), places.len(), start(renumber), renumber.len(),
                    start(out_tags), out_tags.len(), start(out_args), out_args.len(), start(report), report.len(),
                ),
            }
        }
    }

    const NORMAL: u32 = 0;
    const SPENT: u32 = 1;
    const REFUSED: u32 = 2;
    const FILE_REFUSED: u32 = 3;
    const REPORT_TOO_SHORT: u32 = 4;
    const NO_SUCH_MACHINE: u32 = 5;

    /// The number of a status of the wrapper.
    fn number(status: glow::Status) -> u32 {
        use glow::Status::*;
        match status { Normal => NORMAL, Spent => SPENT, Refused => REFUSED, FileRefused => FILE_REFUSED, ReportTooShort => REPORT_TOO_SHORT }
    }

    /// The wrapper's answer in the second implementation's own words; f is the file's count of free names.
    pub fn told(f: usize, a: glow::Answer) -> Answer {
        use crate::flat::Canonical;
        use crate::machine::{Counts, Figures, Run};
        match a {
            glow::Answer::FileRefused(n) => Answer::FileRefused(n.number()),
            glow::Answer::Ran { outcome, report: r } => Answer::Ran(Run {
                outcome: match outcome {
                    glow::Outcome::Normal { term } => Outcome::Normal(Canonical { f, tags: term.tags, args: term.args }),
                    glow::Outcome::Spent => Outcome::Spent,
                    glow::Outcome::Refused(n) => Outcome::Refused(n.number()),
                },
                counts: Counts { beta: r.beta, subst: r.subst, enter: r.enter, leave_fun: r.leave_fun, leave_inert: r.leave_inert },
                figures: Figures { nodes: r.nodes, cells: r.cells, names: r.names },
                subst_allowance: r.subst_allowance, shift_allowance: r.shift_allowance,
            }),
        }
    }

    /// The same of a call with a prelude.
    pub fn told_with(f: usize, a: Result<glow::Answer, glow::PreludeRefusal>) -> Answer {
        match a { Ok(a) => told(f, a), Err(why) => Answer::FileRefused(why.number()) }
    }

    /// A call that needs much stack, and its answer.
    struct DeepCall { rules: Rules, prelude: Option<Vec<u8>>, f: usize, file: Vec<u8>, lengths: Lengths, answer: Answer }

    /// On each machine the deepest terms for glow's stores and for the largest, in writing and in counting, and on the first, where it is one
    /// of entries, a long chain of renamings. With a prelude a chain of definitions, for which no cell is lent.
    fn all_deep_calls() -> Vec<DeepCall> {
        use crate::families::{abstraction_chain, definition_chain, inert_chain_across, longest_copied_abstraction_chain, longest_copied_head_chain, renamings, W};
        use crate::flat::{canonical, v};
        use crate::machine::BOTH;
        let terms = [
            (&BOTH[..1], None, 1, renamings(5461), Lengths::glow()),
            (&BOTH[..], None, 2, inert_chain_across(4095, v(W)), Lengths::glow()),
            (&BOTH[..], None, 2, longest_copied_head_chain(32_768, inert_chain_across(1300, v(W))), Lengths::largest()),
            (&BOTH[..], None, 0, longest_copied_abstraction_chain(32_768), Lengths::largest()),
            (&BOTH[..], None, 0, abstraction_chain(1), Lengths::of(6, 1, 3, 3, 3)),
            (&BOTH[..], Some(definition_chain(5461)), 5461, v(5460), Lengths::of(32_768, 0, 32_768, 32_768, 16_384)),
        ];
        let mut calls = Vec::new();
        for (machines, definitions, f, term, lengths) in terms {
            let prelude = definitions.map(|all| prelude::encode(&all.iter().enumerate().map(|(k, t)| canonical(k, t).file()).collect::<Vec<_>>()));
            let file = canonical(f, &term).file();
            for &rules in machines {
                let answer = evaluate_with(rules, prelude.as_deref().unwrap_or(prelude::NONE), &file, GLOW_BUDGET, &lengths);
                assert!(matches!(answer.run().outcome, Outcome::Normal(_)));
                calls.push(DeepCall { rules, prelude: prelude.clone(), f, file: file.clone(), lengths, answer });
            }
        }
        calls
    }

    /// Calls of the wrapper's `evaluate` and `evaluate_with` that need much stack, for `tests/threads.rs` to make on small ones. Each answer is compared.
    pub fn deep_calls() {
        static CALLS: std::sync::OnceLock<Vec<DeepCall>> = std::sync::OnceLock::new();
        for DeepCall { rules, prelude, f, file, lengths: l, answer } in CALLS.get_or_init(all_deep_calls) {
            let machine = glow::Machine::from(*rules);
            let mut stores = glow::Stores::new(l.tags, l.codes, l.places, l.renumber, l.out_tags);
            let said = match prelude {
                None => told(*f, stores.evaluate(machine, file, GLOW_BUDGET)),
                Some(prelude) => told_with(*f, stores.evaluate_with(machine, prelude, file, GLOW_BUDGET)),
            };
            assert_eq!(&said, answer);
            let s = &mut stores;
            let mut report = [0; 12];
            let status = match prelude {
                None => glow::evaluate_in(machine, file, GLOW_BUDGET, &mut s.tags, &mut s.args, &mut s.codes, &mut s.owns, &mut s.nexts, &mut s.places,
                    &mut s.renumber, &mut s.out_tags, &mut s.out_args, &mut report),
                Some(prelude) => glow::evaluate_with_in(machine, prelude, file, GLOW_BUDGET, &mut s.tags, &mut s.args, &mut s.codes, &mut s.owns, &mut s.nexts, &mut s.places,
                    &mut s.renumber, &mut s.out_tags, &mut s.out_args, &mut report),
            };
            assert_eq!((status, report[2], report[3]), (glow::Status::Normal, answer.run().counts.beta, answer.run().counts.subst));
        }
    }

    fn note(what: String) { *NOTES.lock().unwrap().entry(what).or_default() += 1; }

    /// All that a case lends.
    struct Arrays {
        tags: Lent<u8>, args: Lent<u16>, codes: Lent<u16>, owns: Lent<u16>, nexts: Lent<u16>, places: Lent<u16>,
        renumber: Lent<u16>, out_tags: Lent<u8>, out_args: Lent<u16>, report: Lent<u64>,
    }

    impl Arrays {
        fn of(case: &Case) -> Arrays {
            let mut r = Prng(case.garbage);
            let l = &case.lengths;
            // the output is told from what is written by random contents, unless zeros or ones are asked for
            let (g, out) = match case.garbage { 0 => (0, 0), ONES => (1, 1), g => (g, 9) };
            Arrays {
                tags: Lent::new("tags", l.tags, g, &mut r), args: Lent::new("args", l.args, g, &mut r),
                codes: Lent::new("codes", l.codes, g, &mut r), owns: Lent::new("owns", l.owns, g, &mut r), nexts: Lent::new("nexts", l.nexts, g, &mut r),
                places: Lent::new("places", l.places, g, &mut r), renumber: Lent::new("renumber", l.renumber, g, &mut r),
                out_tags: Lent::new("out_tags", l.out_tags, out, &mut r), out_args: Lent::new("out_args", l.out_args, out, &mut r),
                report: Lent::new("report", case.report_len, 9, &mut r),
            }
        }

        /// The status of a call, by the wrapper unless it could not make it. Neither the file nor the prelude nor anything outside of the arrays
        /// may change.
        fn call(&mut self, case: &Case, machine: u32) -> Result<u32, String> {
            let given = (case.prelude.map(<[u8]>::to_vec), case.file.to_vec());
            let (tags, args, codes, owns, nexts) = (self.tags.slice(), self.args.slice(), self.codes.slice(), self.owns.slice(), self.nexts.slice());
            let (places, renumber, out_tags, out_args, report) = (self.places.slice(), self.renumber.slice(), self.out_tags.slice(), self.out_args.slice(), self.report.slice());
            let status = if case.nulls || machine != case.rules.number() {
                with_nulls(machine, case.prelude, case.file, case.budget, tags, args, codes, owns, nexts, places, renumber, out_tags, out_args, report)
            } else if let Some(prelude) = case.prelude {
                number(glow::evaluate_with_in_on_this_stack(case.rules.into(), prelude, case.file, case.budget, tags, args, codes, owns, nexts, places, renumber, out_tags, out_args, report))
            } else {
                number(glow::evaluate_in_on_this_stack(case.rules.into(), case.file, case.budget, tags, args, codes, owns, nexts, places, renumber, out_tags, out_args, report))
            };
            if given != (case.prelude.map(<[u8]>::to_vec), case.file.to_vec()) { return Err("the file or the prelude was changed".into()); }
            self.tags.ends()?; self.args.ends()?; self.codes.ends()?; self.owns.ends()?; self.nexts.ends()?; self.places.ends()?;
            self.renumber.ends()?; self.out_tags.ends()?; self.out_args.ends()?; self.report.ends()?;
            Ok(status)
        }

        /// That no node from `n` on is changed, no cell from `c` on and no name from `p` on.
        fn stores_from(&self, n: usize, c: usize, p: usize) -> Result<(), String> {
            self.tags.unchanged_from(n)?; self.args.unchanged_from(n)?;
            self.codes.unchanged_from(c)?; self.owns.unchanged_from(c)?; self.nexts.unchanged_from(c)?;
            self.places.unchanged_from(p)
        }

        /// That nothing is changed but the report.
        fn all_but_report(&self) -> Result<(), String> {
            self.stores_from(0, 0, 0)?; self.renumber.unchanged_from(0)?; self.out_tags.unchanged_from(0)?;
            self.out_args.unchanged_from(0)
        }
    }

    /// The case with a number that is no machine's: status 5, whatever the rest is, and nothing is changed.
    pub fn check_no_such_machine(case: &Case, machine: u32) {
        let mut lent = Arrays::of(case);
        let untouched = |lent: &mut Arrays| -> Result<(), String> {
            let status = lent.call(case, machine)?;
            if status != NO_SUCH_MACHINE { return Err(format!("status {status}")); }
            lent.all_but_report()?;
            lent.report.unchanged_from(0)
        };
        if let Err(why) = untouched(&mut lent) { panic!("DISAGREEMENT: machine {machine}: {why}\n{case:?}"); }
    }

    pub(super) fn compare(case: &Case, answer: &Answer) -> Result<(), String> {
        let l = &case.lengths;
        let mut lent = Arrays::of(case);
        let status = lent.call(case, case.rules.number())?;
        let Arrays { renumber, out_tags, out_args, report, .. } = &lent;
        if case.report_len < 12 {
            if status != REPORT_TOO_SHORT { return Err(format!("status {status} with a short report")); }
            lent.all_but_report()?;
            return report.unchanged_from(0);
        }
        let run = match answer {
            Answer::FileRefused(n) => {
                if status != FILE_REFUSED { return Err(format!("status {status}, not the file's refusal")); }
                if report.held()[0] != u64::from(*n) { return Err(format!("refusal {} not {n}", report.held()[0])); }
                report.unchanged_from(1)?;
                return lent.all_but_report();
            }
            Answer::Ran(run) => run,
        };
        let (want, refusal, written) = match &run.outcome {
            Outcome::Normal(t) => (NORMAL, 0, t.tags.len()),
            Outcome::Spent => (SPENT, 0, 0),
            Outcome::Refused(n) => (REFUSED, u64::from(*n), 0),
        };
        let (c, s) = (&run.counts, &run.figures);
        let expected = [refusal, written as u64, c.beta, c.subst, c.enter, c.leave_fun, c.leave_inert, s.nodes, s.cells, s.names, run.subst_allowance, run.shift_allowance];
        if status != want || report.held()[..12] != expected {
            return Err(format!("library {status} {:?}, second implementation {want} {expected:?}", &report.held()[..12]));
        }
        report.unchanged_from(12)?;
        if let Outcome::Normal(t) = &run.outcome {
            if out_tags.held()[..written] != t.tags[..] || out_args.held()[..written] != t.args[..] {
                return Err(format!("library wrote {}", crate::flat::text(&out_tags.held()[..written].iter().map(|t| t % 3).collect::<Vec<_>>(), &out_args.held()[..written])));
            }
        }
        out_tags.unchanged_from(written)?;
        out_args.unchanged_from(written)?;
        // "The renumber store is used only while the result is written."
        if renumber.unchanged_from(0).is_err() {
            match run.outcome {
                Outcome::Normal(_) => {}
                _ => return Err(format!("renumber store changed at {:?}", run.outcome)),
            }
        }
        // What a run leaves in the stores it used is free; past what a store counts nothing is used.
        if lent.stores_from(l.nodes() as usize, l.cells() as usize, l.names() as usize).is_err() { note("a store changed past the length that counts".into()); }
        if s.nodes == 0 {
            lent.stores_from(0, 0, 0).map_err(|e| format!("a loading refusal: {e}"))?;
        } else if lent.stores_from(s.nodes as usize, s.cells as usize, s.names as usize).is_err() { note("a store changed past what the figures say was taken".into()); }
        if renumber.unchanged_from(s.names as usize).is_err() { note("renumber store changed past the names in use".into()); }
        Ok(())
    }
}

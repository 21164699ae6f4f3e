//! Results in which parts come again. What an entry stands for is in a result as often as its name is met, and the library need not unfold it
//! each time: it may copy what it has written, and move the binders' numbers. Nothing of this may be seen in an answer. Each program runs on
//! both machines; an output and a renumber store that are just so, one short and longer are lent, with several things in all arrays, and stores
//! that hold what the runs before have left.
#![cfg(feature = "library")]
mod lets;
mod limits;
mod parts;
mod preludes;
mod sizes;

use glow_tests::case::{told, told_with, Case, ONES};
use glow_tests::flat::{a, apply, canonical, l, v, Flat, F};
use glow_tests::machine::{evaluate_with_watched, Answer, Lengths, Machine, Outcome, Rules, Run, BOTH};
use glow_tests::prelude::{encode, NONE};
use glow_tests::prng::Prng;

/// In betas: a term by chance may go on for ever.
const BUDGET: u32 = 700;

/// The most nodes that are written.
const LIMIT: usize = 16_384;

/// Bound names, beyond all free ones: those of lets, those of the places where parts are met, and those inside parts.
const LET: u32 = 200_000;
const P: u32 = 300_000;
const Q: u32 = 300_001;
const R: u32 = 300_002;
const BOUND: u32 = 400_000;

/// The name of a let.
fn x(k: usize) -> Flat { v(LET + k as u32) }

/// (\x0. (\x1. .. body ..) e1) e0: each of these may use the names before its own, and the body all of them.
fn lets(entries: &[Flat], body: Flat) -> Flat {
    let mut out: Flat = (0..entries.len()).flat_map(|k| [F::A, F::L(LET + k as u32)]).collect();
    out.extend(body);
    out.extend(entries.iter().rev().flatten());
    out
}

/// Two free names, or one twice.
#[derive(Clone, Copy)]
struct Scope { y: u32, w: u32 }

/// Names 0 and 1, of two.
const TWO: Scope = Scope { y: 0, w: 1 };

impl Scope {
    fn w(self) -> Flat { v(self.w) }
    /// y applied to these.
    fn inert(self, items: impl IntoIterator<Item = Flat>) -> Flat { apply(v(self.y), items) }
}

/// A place where a part d is met several times.
type Place = fn(Scope, Flat) -> Flat;

/// With no free name of their own. Those that are no application are below an abstraction from the start.
const CLOSED: [Place; 8] = [
    |_, d| l(P, d),
    |_, d| l(P, a(d.clone(), d)),
    |_, d| l(P, apply(v(P), [d.clone(), d])),
    |_, d| l(P, apply(d.clone(), [v(P), d])),
    // bound names right before and behind each
    |_, d| l(P, l(Q, apply(v(P), [d.clone(), v(Q), d.clone(), v(P), d, v(Q)]))),
    // below a binder first, and then outside of it
    |_, d| l(P, apply(v(P), [l(Q, apply(v(Q), [d.clone(), v(P), d.clone(), v(Q)])), d, v(P)])),
    // outside first, and then below two
    |_, d| l(P, apply(v(P), [d.clone(), v(P), l(Q, l(R, apply(v(R), [d.clone(), v(Q), v(P), a(v(R), d)])))])),
    |_, d| l(P, a(l(Q, a(d.clone(), v(Q))), l(R, a(v(R), a(d, v(P)))))),
];

/// With the free names y and w.
const OPEN: [Place; 16] = [
    |_, d| d,
    |s, d| s.inert([d]),
    |s, d| s.inert([d.clone(), d]),
    |s, d| s.inert(vec![d; 3]),
    |s, d| s.inert(vec![d; 7]),
    |s, d| s.inert([d.clone(), s.w(), d.clone(), s.inert([s.w()]), d, s.w()]),
    |s, d| s.inert([s.inert([d.clone()]), s.inert([d.clone(), s.w(), d.clone()]), d]),
    |s, d| a(s.w(), s.inert([d.clone(), a(s.w(), s.inert([d.clone(), d.clone()])), d])),
    // below a binder first, and then outside of it; the other way round; and both
    |s, d| s.inert([l(P, d.clone()), d]),
    |s, d| s.inert([d.clone(), l(P, d)]),
    |s, d| s.inert([l(P, apply(v(P), [d.clone(), v(P)])), d.clone(), l(Q, l(R, apply(v(Q), [d.clone(), v(R), d.clone(), v(Q)]))), d, s.w()]),
    |s, d| s.inert([d.clone(), l(P, a(d.clone(), v(P))), s.inert([l(Q, a(v(Q), d.clone()))]), d]),
    // binders before it, so that its numbers move by different distances
    |s, d| s.inert([l(P, v(P)), d.clone(), l(P, l(Q, l(R, a(v(Q), v(R))))), d.clone(), d.clone(), l(P, s.w()), s.inert([l(P, l(Q, v(P))), d])]),
    |s, d| s.inert([l(P, l(Q, apply(d.clone(), [v(P), d.clone(), v(Q)]))), l(P, a(d.clone(), a(v(P), d)))]),
    |s, d| l(P, apply(s.w(), [v(P), d.clone(), l(Q, apply(s.inert([v(Q), d.clone(), v(P)]), [d, v(Q)])), v(P)])),
    |s, d| s.inert([s.w(), l(P, s.inert([d.clone(), l(Q, a(d.clone(), v(Q))), v(P), d]))]),
];

/// A part with this many abstractions around a name that one of them binds.
fn nested(binders: usize, which: usize) -> Flat {
    let mut out: Flat = (0..binders).map(|k| F::L(BOUND + k as u32)).collect();
    out.push(F::V(BOUND + which as u32));
    out
}

/// Parts that are no redex: abstractions, in which binders are nested, stand left and right, or have no name that they bind, and names applied
/// to such.
fn parts(s: Scope) -> Vec<Flat> {
    let z = |k: u32| v(BOUND + k);
    let lz = |k: u32, body: Flat| l(BOUND + k, body);
    vec![
        nested(1, 0), nested(2, 0), nested(2, 1), nested(9, 4), nested(40, 0), nested(40, 39),
        lz(0, lz(1, a(z(0), z(1)))),
        lz(0, a(lz(1, a(z(1), z(0))), lz(2, a(z(0), z(2))))),
        lz(0, apply(z(0), [lz(1, apply(z(1), [z(0), lz(2, z(1))])), lz(3, lz(4, apply(z(4), [z(3), z(0)])))])),
        lz(0, s.w()), lz(0, lz(1, s.inert([z(1), s.w()]))), lz(0, a(lz(1, s.w()), z(0))),
        s.inert([lz(0, z(0))]), s.inert([s.w(), lz(0, lz(1, a(z(0), z(1)))), s.w()]), s.inert([lz(0, s.w()), lz(1, a(z(1), s.w()))]),
        s.inert([s.inert([lz(0, lz(1, z(0)))]), a(s.w(), s.inert([s.w(), lz(2, a(z(2), z(2)))]))]),
        s.inert([lz(0, lz(1, a(z(1), lz(2, apply(z(0), [z(1), z(2)]))))), s.w(), lz(3, z(3))]),
        s.w(), s.inert([s.w()]), s.inert([s.inert([s.w(), s.w()]), s.w()]),
    ]
}

/// A term file, with a prelude or none.
struct Program { prelude: Option<Vec<u8>>, f: usize, file: Vec<u8> }

impl Program {
    fn plain(f: usize, term: &Flat) -> Program { Program { prelude: None, f, file: canonical(f, term).file() } }

    /// The definitions in their order, each with as many free names as there are before it, and the term with f of them.
    fn with(f: usize, definitions: &[Flat], term: &Flat) -> Program {
        let files: Vec<Vec<u8>> = definitions.iter().enumerate().map(|(k, t)| canonical(k, t).file()).collect();
        Program { prelude: Some(encode(&files)), ..Program::plain(f, term) }
    }

    fn prelude(&self) -> &[u8] { self.prelude.as_deref().unwrap_or(NONE) }

    fn case(&self, rules: Rules, lengths: Lengths, garbage: u64) -> Case<'_> {
        let case = Case::new(rules, &self.file, BUDGET, lengths).garbage(garbage);
        match &self.prelude { Some(prelude) => case.with(prelude), None => case }
    }
}

/// The nodes of a result, and one past the limit where it has more; none where there is no result.
fn nodes(answer: &Answer) -> Option<usize> {
    match &answer.run().outcome { Outcome::Normal(term) => Some(term.tags.len()), Outcome::Refused(12) => Some(LIMIT + 1), _ => None }
}

/// Which of a program's comparisons are made on each machine: all 14, or four, as chance has it.
#[derive(Clone, Copy)]
enum Of { All, Some }

/// What was compared: how often, how many programs, how many results, how many parts that come again in these, and how many of them with binders.
struct Compared { all: u64, programs: u64, results: u64, again: u64, binding: u64, left: glow::Stores }

impl Compared {
    fn new() -> Compared { Compared { all: 0, programs: 0, results: 0, again: 0, binding: 0, left: glow::Stores::largest() } }

    /// Compares, and counts it. Panics on a difference. In every 64th program the second implementation also tells this answer itself.
    fn check(&mut self, case: Case, answer: &Answer) {
        self.all += 1;
        if self.programs % 64 == 1 { assert_eq!(&case.check(), answer); } else { case.check_against(answer); }
    }

    /// The program on both machines. It has a result, which may be too long.
    fn result(&mut self, of: Of, program: &Program) -> [Answer; 2] {
        let answers = self.program(of, program);
        for answer in &answers { assert!(nodes(answer).is_some(), "no result"); }
        answers
    }

    /// The same of one that need not have a result.
    fn program(&mut self, of: Of, program: &Program) -> [Answer; 2] {
        self.programs += 1;
        BOTH.map(|rules| self.on(rules, of, program))
    }

    fn on(&mut self, rules: Rules, of: Of, program: &Program) -> Answer {
        let mut again = (0, 0);
        let last = |m: &Machine| if m.fits().is_none() { again = m.again(); };
        let full = evaluate_with_watched(rules, program.prelude(), &program.file, BUDGET, &Lengths::largest(), last);
        self.left(rules, program, &full);
        let run = full.run();
        let Some(nodes) = nodes(&full) else { return full };
        self.results += 1;
        let room = nodes.min(LIMIT);
        let g = &run.figures;
        let just = Lengths::of(g.nodes as usize, g.cells as usize, g.names as usize, g.names as usize, room);
        let refused = |number: u8| Answer::Ran(Run { outcome: Outcome::Refused(number), ..run.clone() });
        let mut r = Prng(2 * self.programs + u64::from(rules.number()));
        let seed = r.next();
        // refusals, of which 11 comes first; a renumber store cannot be shorter than none
        let mut short = vec![
            (Lengths { out_tags: room - 1, ..just }, refused(12)), (Lengths { out_args: room - 1, out_tags: room + 5, ..just }, refused(12)),
            (Lengths { out_tags: room / 2, out_args: room - 1, ..just }, refused(12)),
        ];
        if g.names > 0 {
            short.push((Lengths { renumber: just.renumber - 1, ..just }, refused(11)));
            short.push((Lengths { renumber: just.renumber - 1, out_args: room - 1, ..just }, refused(11)));
        }
        let longer = Lengths { out_tags: room + r.between(1, 9), out_args: room + 40, renumber: just.renumber + r.below(3), ..just };
        let contents = [0, 2, ONES, seed];
        match of {
            Of::All => {
                for garbage in contents { self.check(program.case(rules, just, garbage), &full); }
                for garbage in contents { self.check(program.case(rules, longer, garbage), &full); }
                for (lengths, answer) in &short { self.check(program.case(rules, *lengths, contents[r.below(4)]).nulls(), answer); }
            }
            Of::Some => {
                self.check(program.case(rules, just, contents[r.below(4)]), &full);
                self.check(program.case(rules, longer, contents[r.below(4)]), &full);
                let (lengths, answer) = &short[r.below(short.len())];
                self.check(program.case(rules, *lengths, contents[r.below(4)]).nulls(), answer);
            }
        }
        if full.kind() == 0 { self.again += again.0; self.binding += again.1; }
        full
    }

    /// The program once more, with what the runs before have left in all stores.
    fn left(&mut self, rules: Rules, program: &Program, answer: &Answer) {
        self.all += 1;
        let said = match &program.prelude {
            None => told(program.f, self.left.evaluate(rules.into(), &program.file, BUDGET)),
            Some(prelude) => told_with(program.f, self.left.evaluate_with(rules.into(), prelude, &program.file, BUDGET)),
        };
        assert!(said == *answer, "with what runs before have left, {rules:?}: {said:?}, and by the second implementation {answer:?}\n file {:?}\n prelude {:?}", program.file, program.prelude);
    }

    /// What was compared; so many parts at least must have come again, and so many of them with binders.
    fn told(&self, what: &str, again: u64, binding: u64) {
        println!("{what}: {} comparisons of {} programs, {} results; {} parts come again, {} of them with binders", self.all, self.programs, self.results, self.again, self.binding);
        assert!(self.again >= again && self.binding >= binding, "too few parts come again");
    }
}

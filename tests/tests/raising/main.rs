//! Larger budgets and longer stores, on both machines (02, request 7). A normal answer is given again, whole. Any run's steps are the first of
//! those with larger limits. And an answer changes only where that which ended the run is larger now: the budget where it was spent, and
//! else the one store whose refusal it was. Answers of the library are compared with each other, and each answer of a run with
//! the beginning of as many steps of the second implementation's longest run.
#[cfg(feature = "library")]
mod beyond;
#[cfg(feature = "library")]
mod changes;
#[cfg(feature = "library")]
mod grid;
#[cfg(feature = "library")]
mod random;
#[cfg(feature = "library")]
mod refused;
#[cfg(feature = "library")]
mod room;
mod steps;

use glow_tests::enumerate::All;
use glow_tests::families::{delta, id};
use glow_tests::flat::{a, apply, canonical, from_text, l, v, Canonical, Flat};
use glow_tests::machine::*;
use glow_tests::marked::*;
use glow_tests::prelude::{encode, NONE};

/// A term file, and a prelude where the call with one is meant.
#[derive(Clone, Debug)]
pub struct Program { prelude: Option<Vec<u8>>, file: Vec<u8> }

impl Program {
    fn plain(f: usize, term: &Flat) -> Program { Program { prelude: None, file: canonical(f, term).file() } }
    fn text(f: usize, term: &str) -> Program { Program { prelude: None, file: from_text(f, term).file() } }

    /// The definitions in their order, each with as many free names as there are before it, and the term with f of them.
    fn with(f: usize, definitions: &[Flat], term: &Flat) -> Program {
        Program::from(&definitions.iter().enumerate().map(|(k, t)| canonical(k, t)).collect::<Vec<_>>(), &canonical(f, term))
    }

    fn from(definitions: &[Canonical], term: &Canonical) -> Program {
        Program { prelude: Some(encode(&definitions.iter().map(Canonical::file).collect::<Vec<_>>())), file: term.file() }
    }

    fn prelude(&self) -> &[u8] { self.prelude.as_deref().unwrap_or(NONE) }
}

/// All terms of f free names to so many nodes.
fn terms(f: usize, most: usize) -> Vec<Program> {
    let mut all = All::default();
    (1..=most).flat_map(|n| all.terms(f, n).iter().map(|t| Program::plain(f, t)).collect::<Vec<_>>()).collect()
}

/// All preludes whose definitions have at most so many nodes, each with all terms of f free names to `most` nodes.
fn with_definitions(f: usize, definitions: &[usize], most: usize) -> Vec<Program> {
    let mut all = All::default();
    let mut preludes: Vec<Vec<Canonical>> = vec![vec![]];
    for (k, &nodes) in definitions.iter().enumerate() {
        let next: Vec<Canonical> = (2..=nodes).flat_map(|n| all.terms(k, n).iter().map(|t| canonical(k, t)).collect::<Vec<_>>()).filter(|c| c.tags[0] == 1).collect();
        preludes = preludes.into_iter().flat_map(|before| next.iter().map(move |one| { let mut p = before.clone(); p.push(one.clone()); p })).collect();
    }
    let terms: Vec<Canonical> = (1..=most).flat_map(|n| all.terms(f, n).iter().map(|t| canonical(f, t)).collect::<Vec<_>>()).collect();
    preludes.iter().flat_map(|p| terms.iter().map(|t| Program::from(p, t))).collect()
}

/// Longer programs: cases c, d, f and j of paper 01; (\x. x x y) I; I I y; and with definitions a name applied, a name passed and applied, a name renamed to and
/// applied, and omega.
fn chosen() -> Vec<Program> {
    let x = 9_000_000;
    vec![
        Program::text(1, C), Program::text(0, D), Program::text(1, FF), Program::text(0, J),
        Program::plain(1, &a(l(x, apply(v(x), [v(x), v(0)])), id())),
        Program::plain(1, &apply(id(), [id(), v(0)])),
        Program::with(2, &[id()], &a(v(0), v(1))),
        Program::with(2, &[delta()], &a(v(0), a(v(1), v(0)))),
        Program::with(1, &[id()], &a(delta(), v(0))),
        Program::with(1, &[delta()], &a(v(0), v(0))),
    ]
}

/// A budget, and the lengths of the lent arrays.
#[derive(Clone, Copy, Debug)]
pub struct Limits { budget: u32, lengths: Lengths }

impl Limits {
    /// The budget, and what counts of the stores in the order of their refusals, 8 to 12: cells, nodes, names, renumber store and output.
    fn counted(&self) -> [u64; 6] {
        let l = &self.lengths;
        // no more names are in use than the name store counts, so that a longer renumber store is not longer in any way that counts
        [self.budget.into(), l.cells(), l.nodes(), l.names(), l.renumber.min(COUNTED) as u64, l.output() as u64]
    }

    /// With these numbers, in the same order.
    fn of([budget, cells, nodes, names, renumber, output]: [usize; 6]) -> Limits {
        Limits { budget: budget as u32, lengths: Lengths::of(nodes, cells, names, renumber, output) }
    }
}

/// What a run needs: the betas, and of each store the length, in the order of `Limits::counted`.
fn need(run: &Run) -> [usize; 6] {
    let (c, g) = (run.counts, run.figures);
    let written = match &run.outcome { Outcome::Normal(term) => term.tags.len(), _ => 2 };
    [c.beta as usize, g.cells as usize, g.nodes as usize, g.names as usize, g.names as usize, written]
}

//! Free names, from none to as many as there may be, of which a part has the first, the last or none; and as many binders as fit, so that the
//! numbers of the last ones are the highest that are ever written.
use crate::{lets, nested, parts, x, Compared, Of, Program, Scope, BOUND, CLOSED, LIMIT, OPEN, P};
use glow_tests::flat::{a, apply, l, v, Flat, F};
use glow_tests::machine::{Outcome, Rules, BOTH};
use glow_tests::painted::on_eight_mebibytes;

/// Whether no name in it is free.
fn closed(part: &Flat) -> bool { part.iter().all(|node| !matches!(node, F::V(name) if *name < BOUND)) }

#[test]
fn free_names() {
    on_eight_mebibytes(|| {
        let mut seen = Compared::new();
        let closed_parts: Vec<Flat> = parts(Scope { y: 0, w: 0 }).into_iter().filter(closed).collect();
        for part in &closed_parts { for place in CLOSED { seen.result(Of::All, &Program::plain(0, &lets(&[part.clone()], place(Scope { y: 0, w: 0 }, x(0))))); } }
        let mut turn = 0;
        for f in [1u32, 2, 300, 16_384] {
            let mut scopes = vec![(0, 0), (0, f - 1), (f - 1, 0), (f - 1, f - 1)];
            scopes.dedup();
            for (y, w) in scopes {
                for part in parts(Scope { y, w }) {
                    // around it are the same free names, or the others
                    for place in OPEN.into_iter().chain(CLOSED) {
                        turn += 1;
                        if f == 16_384 && turn % 5 != 0 { continue; }
                        let around = [Scope { y, w }, Scope { y: f - 1 - y, w: f - 1 - w }, Scope { y: f / 2, w: f / 2 }][turn % 3];
                        seen.result(Of::Some, &Program::plain(f as usize, &lets(&[part.clone()], place(around, x(0)))));
                    }
                }
            }
        }
        seen.told("free names", 5_000, 3_000);
    });
}

/// A part of so many abstractions: the name in it is bound by the outermost, one in the middle or the innermost, or is the first or the last free one.
fn ends(binders: usize, f: usize) -> Vec<Flat> {
    let mut all: Vec<Flat> = [0, binders / 2, binders - 1].map(|which| nested(binders, which)).to_vec();
    for name in [0, f - 1] { let mut part = nested(binders, 0); *part.last_mut().unwrap() = F::V(name as u32); all.push(part); }
    all
}

/// The program's result has so many nodes, on both machines or on the one on demand alone, and this is its highest number.
fn highest(seen: &mut Compared, machines: &[Rules], f: usize, term: &Flat, nodes: usize, most: usize) {
    let answers = seen.program(Of::All, &Program::plain(f, term));
    for rules in machines {
        let run = answers[rules.number() as usize].run();
        let Outcome::Normal(written) = &run.outcome else { panic!("{:?}", run.outcome) };
        let numbers: Vec<usize> = written.tags.iter().zip(&written.args).filter(|&(&tag, _)| tag == 1).map(|(_, &number)| number.into()).collect();
        assert_eq!((written.tags.len(), numbers.last(), numbers.len()), (nodes, Some(&most), most + 1 - f));
    }
}

/// With two variables and an application a part comes again, and all other nodes may be abstractions: no result in which one does has a higher
/// number than 32,764.
#[test]
fn highest_numbers() {
    on_eight_mebibytes(|| {
        let mut seen = Compared::new();
        let f = 16_384;
        let identity = || l(P, v(P));
        // \p. d d, where d has 8,191 nodes; and d once, below as many abstractions as the file has room for
        for d in ends(8190, f) {
            highest(&mut seen, &BOTH, f, &lets(&[d.clone()], l(P, a(x(0), x(0)))), LIMIT, 32_764);
            let once: Flat = vec![F::L(P); LIMIT - 3 - d.len()].into_iter().chain(x(0)).collect();
            highest(&mut seen, &BOTH, f, &lets(&[d], once), LIMIT - 3, 32_763);
        }
        // y d d I, where on the first machine there is no name for the second copy; and y (w d) I (w d), by a part that is inert
        for d in ends(8187, f) { highest(&mut seen, &BOTH[1..], f, &lets(&[d], apply(v(0), [x(0), x(0), identity()])), LIMIT - 2, 32_758); }
        for d in ends(8186, f) { highest(&mut seen, &BOTH, f, &lets(&[a(v(f as u32 - 1), d)], apply(v(1), [x(0), identity(), x(0)])), LIMIT, 32_756); }
        // \p. d d for d again and again, and abstractions around it for what is left: applications, and one more variable
        for levels in 2..=12usize {
            let size = |binders: usize| (0..levels).fold(binders + 1, |size, _| 2 + 2 * size);
            let binders = (1..LIMIT).take_while(|&binders| size(binders) <= LIMIT).last().unwrap();
            for d in [0, binders / 2, binders - 1].map(|which| nested(binders, which)) {
                let entries: Vec<Flat> = [d].into_iter().chain((0..levels).map(|k| l(P, a(x(k), x(k))))).collect();
                let whole: Flat = vec![F::L(P); LIMIT - size(binders)].into_iter().chain(x(levels)).collect();
                let applications = (1 << levels) - 1;
                highest(&mut seen, &BOTH, f, &lets(&entries, whole), LIMIT, f + LIMIT - (2 * applications + 1) - 1);
            }
        }
        seen.told("the highest numbers", 200, 200);
    });
}

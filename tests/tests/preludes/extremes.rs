//! The extremes of size and nesting, on both machines and a painted stack of 8 MiB: the right answer, that of the term with the definitions
//! put in where a file holds it, and no more stack than is told.
use crate::{agree, Subject};
use glow_tests::case::{Case, LIBRARY};
use glow_tests::families::{abstraction_chain, delta, id, left_nested, nested_abstractions, right_nested};
use glow_tests::flat::*;
use glow_tests::machine::*;
use glow_tests::painted::on_stack;

/// Bound names, beyond all free ones.
const X: u32 = 100_000;
const Z: u32 = 100_001;

/// `first`, and then so many definitions in all, each made from the name of the one before.
fn chain(first: Flat, count: usize, next: impl Fn(Flat) -> Flat) -> Vec<Flat> {
    std::iter::once(first).chain((1..count as u32).map(|k| next(v(k - 1)))).collect()
}

/// Definitions in a chain, and the term that names the last of them.
fn last_of(definitions: Vec<Flat>) -> (usize, Vec<Flat>, Flat) { let d = definitions.len(); (d, definitions, v(d as u32 - 1)) }

/// A chain, one free name behind it, y, and a term made from the name of the last definition and y.
fn applied(definitions: Vec<Flat>, term: impl FnOnce(Flat, Flat) -> Flat) -> (usize, Vec<Flat>, Flat) {
    let d = definitions.len();
    (d + 1, definitions, term(v(d as u32 - 1), v(d as u32)))
}

/// So many abstractions that are written from entries, and inside them the last definition.
fn behind_entries(n: usize, definitions: Vec<Flat>) -> (usize, Vec<Flat>, Flat) {
    let (f, definitions, last) = last_of(definitions);
    let mut term = abstraction_chain(n);
    term.truncate(4 * n);
    term.extend(last);
    (f, definitions, term)
}

/// With the largest stores: the outcome on the first machine and on demand, 0 for normal and 14 for spent.
type Shape = (&'static str, (usize, Vec<Flat>, Flat), [usize; 2]);

fn shapes() -> Vec<Shape> {
    let constant = |t: Flat| l(X, t);
    let head = |t: Flat| l(X, a(t, v(X)));
    let twice = |t: Flat| l(X, a(t.clone(), t));
    let seven = |t: Flat| l(X, apply(t, vec![v(X); 7]));
    vec![
        // \x. \x. .. x: the name is the last node of each definition. The first machine needs two nodes more, for its copy
        ("16382 abstractions by their names", last_of(chain(id(), 16_382, constant)), [0, 0]),
        ("16383 abstractions by their names", last_of(chain(id(), 16_383, constant)), [9, 0]),
        ("16383 by their names, one too many to write", last_of(chain(l(X, id()), 16_383, constant)), [9, 12]),
        ("16382 by their names, one too many to write", last_of(chain(l(X, l(X, id())), 16_382, constant)), [9, 12]),
        ("16381 by their names, one too many to write", last_of(chain(nested_abstractions(4), 16_381, constant)), [12, 12]),
        ("16384 definitions", last_of(chain(id(), 16_384, constant)), [9, 9]),
        ("16384 definitions, none of them named", (16_384, chain(id(), 16_384, constant), l(X, v(X))), [9, 9]),
        ("16383 definitions, none of them named", (16_384, chain(id(), 16_383, constant), v(16_383)), [0, 0]),
        // \x. (.. x) x: the name is not the last node
        ("5460 heads by their names", last_of(chain(id(), 5461, head)), [0, 0]),
        ("5461 heads by their names, too many to write", last_of(chain(id(), 5462, head)), [12, 12]),
        ("8190 heads by their names, too many to write", last_of(chain(id(), 8191, head)), [12, 12]),
        ("8191 heads by their names, too many to copy", last_of(chain(id(), 8192, head)), [9, 12]),
        ("4999 heads, and the definition 0 behind each name", last_of(chain(id(), 5000, |t| l(X, a(t, v(0))))), [12, 12]),
        ("3276 heads, and an identity behind each name", last_of(chain(id(), 3277, |t| l(X, a(t, l(Z, v(Z)))))), [0, 0]),
        ("4095 right parts by their names", last_of(chain(id(), 4096, |t| l(X, a(v(X), t)))), [0, 0]),
        ("999 heads with seven arguments", last_of(chain(id(), 1000, seven)), [0, 0]),
        ("100 heads by their names", last_of(chain(id(), 101, head)), [0, 0]),
        ("1000 heads by their names", last_of(chain(id(), 1001, head)), [0, 0]),
        ("100 abstractions by their names", last_of(chain(id(), 100, constant)), [0, 0]),
        ("1000 abstractions by their names", last_of(chain(id(), 1000, constant)), [0, 0]),
        ("heads and constants by turns", last_of(std::iter::once(id()).chain((1..8000u32).map(|k| if k % 2 == 0 { head(v(k - 1)) } else { constant(v(k - 1)) })).collect()), [0, 0]),
        // a chain below abstractions and beside applications of the term
        ("heads below an abstraction of the term", applied(chain(id(), 5400, head), |t, y| l(X, a(t, y))), [0, 0]),
        ("2000 abstractions behind entries, and then 3000 heads", behind_entries(2000, chain(id(), 3001, head)), [0, 0]),
        ("4000 abstractions behind entries, and then 4000 abstractions by their names", behind_entries(4000, chain(id(), 4000, constant)), [0, 0]),
        ("heads passed to y twice", applied(chain(id(), 2700, head), |t, y| apply(y, [t.clone(), t])), [0, 0]),
        ("2000 definitions in a row, passed to y", (2001, chain(id(), 2000, |_| id()), apply(v(2000), (0..2000).map(v))), [0, 0]),
        ("one definition passed to y 4000 times", (2, vec![l(X, id())], apply(v(1), vec![v(0); 4000])), [0, 0]),
        ("one definition passed to y 5000 times", (2, vec![l(X, id())], apply(v(1), vec![v(0); 5000])), [12, 12]),
        ("one definition passed to y 8000 times", (2, vec![l(X, id())], apply(v(1), vec![v(0); 8000])), [9, 12]),
        ("one definition below an abstraction 8191 times", (1, vec![id()], l(X, left_nested(8190, 0))), [12, 12]),
        // doubled at each definition: more than could ever be written
        ("12 doubled", last_of(chain(id(), 13, twice)), [0, 0]),
        ("13 doubled", last_of(chain(id(), 14, twice)), [12, 12]),
        ("60 doubled", last_of(chain(id(), 61, twice)), [12, 12]),
        ("7999 doubled", last_of(chain(id(), 8000, twice)), [12, 12]),
        ("60 doubled, and dropped", applied(chain(id(), 61, twice), |t, y| a(l(X, y), t)), [0, 0]),
        // run, not only written
        ("999 calls of the one before", applied(chain(id(), 1000, head), a), [0, 0]),
        ("3199 calls of the one before", applied(chain(id(), 3200, head), a), [0, 0]),
        ("2^10 calls by ten definitions", applied(chain(id(), 11, |t| l(X, a(t.clone(), a(t, v(X))))), a), [0, 0]),
        ("2^30 calls by thirty definitions", applied(chain(id(), 31, |t| l(X, a(t.clone(), a(t, v(X))))), a), [9, 9]),
        ("self-application that never ends", (1, vec![delta()], a(v(0), v(0))), [9, 9]),
        ("4000 calls of constants", applied(chain(id(), 5000, constant), |t, y| apply(t, vec![y; 4000])), [0, 0]),
        // the largest definitions
        ("one of 16384 nodes", (1, vec![l(X, left_nested(8191, X))], v(0)), [9, 0]),
        ("one of 16380 abstractions, passed to y", (2, vec![nested_abstractions(16_380)], a(v(1), v(0))), [0, 0]),
        ("one of 16380 abstractions, applied to itself", (1, vec![nested_abstractions(16_380)], a(v(0), v(0))), [9, 12]),
        ("two of 16382 nodes each", (2, vec![l(X, right_nested(8190, X)), nested_abstractions(16_381)], l(X, v(1))), [0, 0]),
        ("two of 16384 nodes each", (2, vec![l(X, left_nested(8191, X)), nested_abstractions(16_383)], v(1)), [9, 9]),
        // V and A are beyond 16,384, and beyond 65,536, where loading is refused
        ("V and A beyond 16384", (3, vec![l(X, left_nested(8191, X)), l(X, right_nested(8191, X)), l(X, left_nested(8191, X))], v(0)), [9, 9]),
        ("V and A beyond 65536", (12, vec![l(X, left_nested(8191, X)); 12], v(0)), [9, 9]),
    ]
}

#[test]
fn on_eight_mebibytes() {
    let none = on_stack(8 << 20, || {});
    let mut deepest = (0, String::new());
    let mut agreed = 0;
    for (name, (f, definitions, term), kinds) in shapes() {
        let s = Subject::of(f, &definitions, &term);
        let plain = s.put_in();
        for (rules, kind) in BOTH.into_iter().zip(kinds) {
            let taken = evaluate_with(rules, &s.prelude, &s.file, GLOW_BUDGET, &Lengths::largest()).run().figures.nodes as usize;
            let largest = Lengths::largest();
            for (which, lengths) in [("glow's stores", Lengths::glow()), ("largest stores", largest), ("no cells", Lengths { owns: 0, ..largest }), ("nodes just so", Lengths { args: taken, ..largest })] {
                let answer = evaluate_with(rules, &s.prelude, &s.file, GLOW_BUDGET, &lengths);
                let run = answer.run();
                if which == "largest stores" { assert_eq!(answer.kind(), kind, "{name}, {rules:?}: {:?}", run.figures); }
                if let Some(file) = &plain { agreed += usize::from(agree(&answer, &evaluate(rules, file, GLOW_BUDGET, &lengths))); }
                let used = library_use(rules, &s, &lengths);
                on_stack(8 << 20, || Case::new(rules, &s.file, GLOW_BUDGET, lengths).with(&s.prelude).garbage(11).check_against(&answer));
                println!("{name}, {which}, {rules:?}: {}; steps {} store {} {} {}; stack {}", answer.kind(), run.counts.steps(), run.figures.nodes, run.figures.cells, run.figures.names,
                    used.map_or("-".into(), |u| format!("{} bytes", u.saturating_sub(none))));
                if let Some(u) = used {
                    let told = told(&lengths);
                    let told = if name.ends_with("abstractions by their names") && !name.contains("entries") { told_flat() } else { told };
                    assert!(u.saturating_sub(none) <= told, "{name}: {} bytes of stack, and {told} are told", u - none);
                    if u > deepest.0 { deepest = (u, format!("{name}, {which}, {rules:?}")); }
                }
            }
        }
    }
    println!("{agreed} runs beside that of the term with the definitions put in");
    assert!(agreed > 100);
    if LIBRARY { println!("deepest use of the stack by the library: {} bytes at {}", deepest.0.saturating_sub(none), deepest.1); }
}

/// Where loading is refused the allowances are those of all files together, however many nodes these have.
fn allowances_at_a_loading_refusal() {
    for (d, rules) in [(1, Rules::First), (2, Rules::OnDemand), (9, Rules::First), (30, Rules::First), (30, Rules::OnDemand)] {
        let s = Subject::of(d + 1, &vec![l(X, left_nested(8191, X)); d], &a(v(0), v(0)));
        let run = Case::glow(rules, &s.file).with(&s.prelude).check().run().clone();
        let (variables, applications) = (2 + 8192 * d as u64, 1 + 8191 * d as u64);
        assert_eq!((run.outcome, run.figures, run.counts), (Outcome::Refused(9), Figures::default(), Counts::default()));
        assert_eq!((run.subst_allowance, run.shift_allowance), (if rules == Rules::First { variables } else { 1 }, 2 * applications));
    }
}

/// Names alone are short where all definitions are abstractions and the nodes fit: exactly enough, and one less.
fn names_at_their_limit() {
    let names = 16_384 + 16_381 + 2;
    for rules in BOTH {
        let s = Subject::of(16_384, &chain(id(), 16_381, |_| id()), &nested_abstractions(2));
        for (places, kind) in [(names, 0), (names - 1, 10), (32_768, 0), (40_000, 0)] {
            assert_eq!(Case::new(rules, &s.file, 5, Lengths { places, ..Lengths::largest() }).with(&s.prelude).check().kind(), kind);
        }
        for (renumber, kind) in [(names, 0), (names - 1, 11)] {
            assert_eq!(Case::new(rules, &s.file, 5, Lengths { renumber, ..Lengths::largest() }).with(&s.prelude).check().kind(), kind);
        }
        // one binder more than 32,768 names have room for, and one that is the last
        for (binders, kind) in [(16_384, 0), (16_385, 10)] {
            let s = Subject::of(16_384, &[nested_abstractions(16_000)], &nested_abstractions(binders - 16_000));
            assert_eq!(Case::new(rules, &s.file, 5, Lengths { places: 40_000, renumber: 40_000, ..Lengths::largest() }).with(&s.prelude).check().kind(), kind);
        }
    }
}

/// The refusals of the last of many definitions.
fn the_last_of_many() {
    let many = |last: &[u8]| {
        let mut definitions: Vec<Vec<u8>> = (0..16_383).map(|k| from_text(k, &format!("l{k} v{}", k.max(1) - 1)).file()).collect();
        definitions.push(last.to_vec());
        glow_tests::prelude::encode(&definitions)
    };
    let file = from_text(16_384, "v16383").file();
    let last = |f: usize, text: &str| from_text(f, text).file();
    for rules in BOTH {
        for (bytes, number) in [(last(16_383, "l16383 v16384"), 7), (last(16_383, "l16384 v0"), 6), (last(16_383, "v16382"), 18), (last(16_382, "l16382 v0"), 19), (last(16_384, "l16384 v0"), 19),
            (last(16_385, "l16385 v0"), 2), (last(16_383, "l16383 v0")[..9].to_vec(), 17), ([last(16_383, "l16383 v0"), vec![0]].concat(), 17)] {
            Case::glow(rules, &file).with(&many(&bytes)).check_against(&Answer::FileRefused(number));
        }
        Case::glow(rules, &from_text(16_383, "v0").file()).with(&many(&last(16_383, "l16383 v0"))).check_against(&Answer::FileRefused(17));
        assert_eq!(Case::glow(rules, &file).with(&many(&last(16_383, "l16383 v0"))).check().kind(), 9);
    }
}

/// Those that nothing is painted for.
#[test]
fn loading_and_refusals() { glow_tests::painted::on_eight_mebibytes(|| { allowances_at_a_loading_refusal(); names_at_their_limit(); the_last_of_many(); }) }

#[cfg(feature = "library")]
fn library_use(rules: Rules, s: &Subject, l: &Lengths) -> Option<usize> {
    let mut stores = glow::Stores::new(l.tags, l.codes, l.places, l.renumber, l.out_tags);
    let mut report = [0u64; 12];
    Some(on_stack(8 << 20, || {
        glow::evaluate_with_in_on_this_stack(rules.into(), &s.prelude, &s.file, GLOW_BUDGET, &mut stores.tags, &mut stores.args, &mut stores.codes, &mut stores.owns, &mut stores.nexts,
            &mut stores.places, &mut stores.renumber, &mut stores.out_tags, &mut stores.out_args, &mut report);
    }))
}
/// The stack that the wrapper tells for these stores and a prelude.
#[cfg(feature = "library")]
fn told(l: &Lengths) -> usize { glow::stack_needed_with(l.nodes() as usize) }
#[cfg(not(feature = "library"))]
fn told(_: &Lengths) -> usize { 0 }
/// The stack that the wrapper tells for a call without levels. Definitions with the name as the last node make none, however many they are.
#[cfg(feature = "library")]
fn told_flat() -> usize { glow::STACK_FOR_A_CALL }
#[cfg(not(feature = "library"))]
fn told_flat() -> usize { 0 }
#[cfg(not(feature = "library"))]
fn library_use(_: Rules, _: &Subject, _: &Lengths) -> Option<usize> { None }

//! Copies of functions of every size to 70 nodes and about 128 and 256, with few binders and with many, on both machines, and functions loaded as
//! definitions. Beside its own a function has free names, one bound outside of it, the name just below its first binder, and on demand the one
//! just above its last: these stay what they are. Nodes and names are exactly enough, and one short.
use crate::shapes::{function, term};
use crate::{just, longer, Compared, Program, BUDGET};
use glow_tests::families::id;
use glow_tests::flat::{a, apply, canonical, l, v, Canonical, Flat};
use glow_tests::machine::{evaluate_watched, Lengths, Rules, BOTH};
use glow_tests::painted::on_eight_mebibytes;
use glow_tests::prelude::encode;
use glow_tests::prng::Prng;

/// Bound names, beyond all free ones and none that `term` binds.
const OUTSIDE: u32 = 100_000;
const FUNCTION: u32 = 100_001;
const BELOW: u32 = 100_002;
const ABOVE: u32 = 100_003;

fn sizes() -> impl Iterator<Item = usize> { [2..=70, 126..=130, 254..=258].into_iter().flatten() }

/// How many names a function of so many nodes may bind: each number to 70 nodes, and else some from one to all.
fn binders(nodes: usize) -> Vec<usize> {
    let all: Vec<usize> = (1..nodes).filter(|b| (nodes - b) % 2 == 1).collect();
    if nodes <= 70 { return all; }
    [0, 1, 3, 4, 7, 8, 9, all.len() / 2, all.len() - 2, all.len() - 1].map(|k| all[k]).to_vec()
}

/// (\o. (\g. y (g I) g (g (y w)) (g w)) ((\p. F) ((\c. c) (y y)))) (y w): p is the name just below F's first binder, and c the one just above
/// its last. On the first machine p has c for its entry; on demand c is put for p, so that F itself has the name above.
fn applied_in_turn(y: u32, w: u32, function: Flat) -> Flat {
    let g = || v(FUNCTION);
    let uses = apply(v(y), [a(g(), id()), g(), a(g(), a(v(y), v(w))), a(g(), v(w))]);
    let above = a(l(ABOVE, v(ABOVE)), a(v(y), v(y)));
    a(l(OUTSIDE, a(l(FUNCTION, uses), a(l(BELOW, function), above))), a(v(y), v(w)))
}

/// (\g. y (g w) (g I)) (\o. (\h. y (h I) h) ((\p. F) (y y))): F is copied with the function around it, and then from that copy. p has an entry on
/// both machines.
fn copied_inside(y: u32, w: u32, function: Flat) -> Flat {
    let (g, again) = (|| v(FUNCTION), FUNCTION + 10);
    let inner = a(l(again, apply(v(y), [a(v(again), id()), v(again)])), a(l(BELOW, function), a(v(y), v(y))));
    a(l(FUNCTION, apply(v(y), [a(g(), v(w)), a(g(), id())])), l(OUTSIDE, inner))
}

/// The program with room to spare, with each store just so, and one short of nodes and of names. Gives the number of copies made.
fn compared(seen: &mut Compared, whose: &str, rules: Rules, program: &Program) -> u64 {
    let full = program.full(rules);
    let run = full.run();
    let exactly = just(run);
    let short_of_nodes = Lengths { tags: exactly.tags - 1, ..longer(exactly, 30) };
    let short_of_names = Lengths { places: exactly.places - 1, ..longer(exactly, 30) };
    for (what, lengths, kind) in [("room to spare", longer(exactly, 30), full.kind()), ("just so", exactly, full.kind()), ("a node short", short_of_nodes, 9), ("a name short", short_of_names, 10)] {
        let answer = seen.check(program.case(rules, lengths));
        assert_eq!(answer.kind(), kind);
        seen.of(format!("{whose}, {rules:?}: {what}"));
        if answer.run().counts.subst > 0 { seen.of(format!("{whose}, {rules:?}: comes to {kind} after a copy")); }
    }
    run.counts.subst
}

/// What came of a kind of program on each machine.
fn classes(whose: &str) -> Vec<String> {
    let all = ["room to spare", "just so", "a node short", "a name short", "comes to 0 after a copy", "comes to 9 after a copy", "comes to 10 after a copy", "comes to 14 after a copy"];
    BOTH.iter().flat_map(|rules| all.map(|what| format!("{whose}, {rules:?}: {what}"))).collect()
}

type Use = (&'static str, fn(u32, u32, Flat) -> Flat);
const USES: [Use; 2] = [("applied in turn", applied_in_turn), ("copied inside a copy", copied_inside)];

/// The names in a function's entry from which its copies are made: on the first machine the one just below its first binder, on demand the one just
/// above its last; and inside a copy on both the one just below.
#[test]
fn names_below_and_above() {
    let function = || l(7, a(v(BELOW), v(7)));
    let (in_turn, inside) = (applied_in_turn(2, 1, function()), copied_inside(2, 1, function()));
    for (rules, term, entry) in [
        (Rules::First, &in_turn, "4: `l7 a1 v6 v7`"), (Rules::OnDemand, &in_turn, "4: `l7 a1 v8 v7`"),
        (Rules::First, &inside, "11: `l14 a1 v13 v14`"), (Rules::OnDemand, &inside, "11: `l14 a1 v13 v14`"),
    ] {
        let mut met = false;
        evaluate_watched(rules, &canonical(3, term).file(), BUDGET, &Lengths::largest(), |m| met |= m.shown()[3].contains(entry));
        assert!(met, "{rules:?}: no entry {entry}");
    }
}

#[test]
fn of_arguments() {
    on_eight_mebibytes(|| {
        let mut seen = Compared::default();
        let mut r = Prng(1);
        for (whose, used) in USES {
            for nodes in sizes() {
                let mut copies = [0; 2];
                for binders in binders(nodes) {
                    let tags = function(nodes, binders, &mut r);
                    // with as many free names as there may be the copies have the highest names of all
                    let f = match binders % 16 { 7 => 16_384, 6 | 15 => 3 + r.below(300), _ => 3 };
                    let last = f as u32 - 1;
                    let body = term(&tags, &[0, last, OUTSIDE, BELOW, BELOW], &mut r);
                    let program = Program { prelude: None, file: canonical(f, &used(last, 1, body)).file() };
                    for (k, rules) in BOTH.into_iter().enumerate() { copies[k] += compared(&mut seen, whose, rules, &program); }
                }
                assert!(copies.iter().all(|&made| made > 0), "no copy of {nodes} nodes");
            }
        }
        seen.came("copies", USES.iter().flat_map(|(whose, _)| classes(whose)));
    });
}

/// So many definitions before the function, of which each but the first uses the one before; the function, which uses them; one that uses the
/// function; and a term that uses all of it.
fn library(before: usize, function: &Flat) -> Program {
    let (x, k) = (OUTSIDE, before as u32);
    let (y, w) = (k + 2, k + 3);
    let mut definitions: Vec<Flat> = (0..k).map(|j| if j == 0 { id() } else { l(x, a(v(x), v(j - 1))) }).collect();
    definitions.push(function.clone());
    definitions.push(l(x, apply(v(k), [v(x), v(k)])));
    let files: Vec<Vec<u8>> = definitions.iter().enumerate().map(|(j, t)| canonical(j, t).file()).collect();
    let term: Canonical = canonical(before + 4, &apply(v(y), [a(v(k), id()), v(k), a(v(k), a(v(y), v(w))), a(v(k + 1), v(w)), v(k + 1)]));
    Program { prelude: Some(encode(&files)), file: term.file() }
}

/// Loading just so, and one short of nodes and of names: with no more room the first copy is refused, where there is one.
fn loaded(seen: &mut Compared, rules: Rules, program: &Program) {
    let prelude = program.prelude.as_ref().unwrap();
    let (term, definitions) = glow_tests::prelude::read(prelude, &program.file).expect("a sound prelude");
    let all = || definitions.iter().chain([&term]);
    let (nodes, names) = (all().map(|p| p.tags.len()).sum(), term.f + all().map(|p| p.count(1)).sum::<usize>());
    let ample = longer(just(program.full(rules).run()), 30);
    let answer = seen.check(program.case(rules, Lengths { tags: nodes, places: names, ..ample }));
    assert_eq!((answer.run().figures.nodes, answer.run().figures.names), (nodes as u64, names as u64));
    seen.of("loading just so");
    for (class, lengths, kind) in [("loading, a node short", Lengths { args: nodes - 1, ..ample }, 9), ("loading, a name short", Lengths { places: names - 1, ..ample }, 10)] {
        let answer = seen.check(program.case(rules, lengths));
        assert_eq!((answer.kind(), answer.run().figures.nodes), (kind, 0));
        seen.of(class);
    }
}

#[test]
fn of_definitions() {
    on_eight_mebibytes(|| {
        let mut seen = Compared::default();
        let mut r = Prng(2);
        for nodes in sizes() {
            let all = binders(nodes);
            for before in [0usize, 1, 3, 9, 40] {
                let mut copies = [0; 2];
                for binders in [0, all.len() / 3, all.len() - 1].map(|k| all[k]) {
                    let tags = function(nodes, binders, &mut r);
                    let names: Vec<u32> = if before == 0 { vec![] } else { vec![0, before as u32 - 1] };
                    let program = library(before, &term(&tags, &names, &mut r));
                    for (k, rules) in BOTH.into_iter().enumerate() {
                        copies[k] += compared(&mut seen, "definitions", rules, &program);
                        loaded(&mut seen, rules, &program);
                    }
                }
                assert!(copies.iter().all(|&made| made > 0), "no copy of {nodes} nodes");
            }
        }
        seen.came("copies of definitions", classes("definitions").into_iter().chain(["loading just so", "loading, a node short", "loading, a name short"].map(String::from)));
    });
}

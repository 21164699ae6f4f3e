//! Results about the sizes at which another array is taken and at the limit, with names in them that stand for other names: chains of none to five
//! names that end in a free name, an abstraction or an applied name, met as the code, as its head, on stacks and below abstractions. The output is
//! exactly enough, and one short.
use crate::shapes::{abstractions, left_nested, right_nested, term, Shape};
use crate::{just, Compared, Program, BUDGET};
use glow_tests::families::id;
use glow_tests::flat::{a, apply, canonical, l, v, Flat, F};
use glow_tests::machine::{evaluate_with_watched, Answer, Lengths, Machine, Outcome, Rules, BOTH};
use glow_tests::painted::on_eight_mebibytes;
use glow_tests::prelude::{encode, NONE};
use glow_tests::prng::Prng;

/// Bound names, beyond all free ones and none that `term` binds.
const CHAIN: u32 = 100_000;
const Z: u32 = 100_100;
const Q: u32 = 100_101;
const PADDING: u32 = 100_102;

const LIMIT: usize = 16_384;

/// The free names y and w, and in their scope the names of a chain, from the one next to its end on; with no name the end itself.
struct Scope { y: Flat, w: Flat, chain: Vec<Flat> }

impl Scope {
    fn x(&self) -> Flat { self.chain.last().unwrap().clone() }
    /// y applied to these.
    fn inert(&self, items: impl IntoIterator<Item = Flat>) -> Flat { apply(self.y.clone(), items) }
}

/// A place where names are met, beside a term p that makes the result as large as is asked for.
type Place = (&'static str, fn(&Scope, Flat) -> Flat);

/// What stands in these is written once.
const PLACES: [Place; 11] = [
    ("the head", |s, p| a(s.x(), p)),
    ("an item before others", |s, p| s.inert([s.x(), s.x(), p])),
    ("the last item", |s, p| s.inert([p, s.w.clone(), s.x()])),
    ("the last item of an item", |s, p| s.inert([p, s.inert([s.w.clone(), s.x()])])),
    ("an item of an item before others", |s, p| s.inert([s.inert([s.x(), s.w.clone(), s.x()]), s.x(), p])),
    ("the head of an item", |s, p| s.inert([a(s.x(), s.w.clone()), s.w.clone(), s.x(), p])),
    ("all of the chain as items", |s, p| s.inert(s.chain.iter().cloned().chain([p, s.w.clone()]))),
    ("the end of an abstraction", |s, p| l(Z, s.inert([p, v(Z), s.x()]))),
    ("inside an abstraction", |s, p| l(Z, apply(v(Z), [s.x(), v(Z), p, a(s.x(), v(Z))]))),
    ("all of the chain inside two abstractions", |s, p| l(Z, apply(l(Q, apply(v(Q), s.chain.iter().cloned().chain([v(Z)]))), [p, v(Z)]))),
    ("an abstraction that is an item", |s, p| s.inert([l(Z, a(v(Z), s.x())), p, s.x()])),
];

/// Results of one to three nodes, or a few more.
const SMALL: [Place; 6] = [
    ("the code", |s, _| s.x()), ("the code applied to itself", |s, _| a(s.x(), s.x())), ("the one item", |s, _| s.inert([s.x()])),
    ("a body", |s, _| l(Z, s.x())), ("a body's last part", |s, _| l(Z, a(v(Z), s.x()))), ("the body of a body", |s, _| l(Z, l(Q, s.x()))),
];

/// What a chain ends in.
type End = (&'static str, fn(&Scope) -> Flat);
const ENDS: [End; 4] = [
    ("a free name", |s| s.w.clone()), ("an abstraction", |_| l(Z, l(Q, a(v(Q), v(Z))))), ("an applied name", |s| s.inert([s.w.clone(), s.w.clone()])),
    // on demand a name alone that has an entry, and is put for each name of the chain
    ("a name for an applied name", |s| a(id(), s.inert([s.w.clone()]))),
];

/// A chain of so many names, and what is in its scope: (\x1. (\x2. .. inside ..) x1) end.
fn chained(names: usize, y: u32, end: Flat, inside: impl FnOnce(&Scope) -> Flat) -> Flat {
    let name = |k: usize| v(CHAIN + k as u32);
    let chain = if names == 0 { vec![end.clone()] } else { (0..names).map(name).collect() };
    let body = inside(&Scope { y: v(y), w: v(y + 1), chain });
    (0..names).rev().fold(body, |body, k| a(l(CHAIN + k as u32, body), if k == 0 { end.clone() } else { name(k - 1) }))
}

/// A term, with definitions or none, of which y and w are the free names behind them.
#[derive(Clone)]
struct Subject { definitions: Vec<Flat>, names: usize, end: fn(&Scope) -> Flat, place: fn(&Scope, Flat) -> Flat }

/// How a result is made as large as is asked for: by a term in the place of p, or by one that a name in it has twice for its entry.
#[derive(Clone, Copy)]
enum Padding { Once(Shape), Twice(Shape) }

impl Subject {
    fn y(&self) -> u32 { self.definitions.len() as u32 }

    fn whole(&self, p: Flat) -> Flat {
        let scope = Scope { y: v(self.y()), w: v(self.y() + 1), chain: vec![] };
        chained(self.names, self.y(), (self.end)(&scope), |scope| (self.place)(scope, p))
    }

    fn program(&self, term: &Flat) -> Program {
        let files: Vec<Vec<u8>> = self.definitions.iter().enumerate().map(|(k, t)| canonical(k, t).file()).collect();
        Program { prelude: (!files.is_empty()).then(|| encode(&files)), file: canonical(self.definitions.len() + 2, term).file() }
    }

    /// The nodes of the result with a single node for p.
    fn least(&self) -> usize { written(&self.program(&self.whole(v(self.y() + 1))).full(Rules::First)).expect("a result") }

    /// The program whose result has so many nodes, where padding makes it so large.
    fn sized(&self, nodes: usize, padding: Padding) -> Option<Program> {
        let (y, w, room) = (v(self.y()), v(self.y() + 1), (nodes + 1).checked_sub(self.least())?);
        let filled = |shape: Shape, n: usize| term(&shape(n), &[self.y(), self.y() + 1], &mut Prng(n as u64));
        let whole = match padding {
            Padding::Once(shape) => self.whole(filled(shape, Some(room).filter(|&n| n > 0)?)),
            Padding::Twice(shape) => {
                // y p p q: with its applications and y four nodes, q one or two, and each p half of the others
                let half = room.checked_sub(5).filter(|&n| n >= 2)? / 2;
                let q = if room - 4 - 2 * half == 1 { w } else { l(Z, w) };
                a(l(PADDING, self.whole(apply(y, [v(PADDING), v(PADDING), q]))), filled(shape, half))
            }
        };
        (whole.len() <= LIMIT).then(|| self.program(&whole))
    }
}

/// How many nodes the result has, if there is one.
fn written(answer: &Answer) -> Option<usize> { match &answer.run().outcome { Outcome::Normal(term) => Some(term.tags.len()), _ => None } }

/// How many nodes the result has, if no more than one past the limit, which no output counts.
fn unfolded(rules: Rules, program: &Program) -> Option<usize> {
    let mut nodes = None;
    let last = |m: &Machine| if m.fits().is_none() { nodes = m.result(LIMIT + 1).map(|term| term.tags.len()); };
    evaluate_with_watched(rules, program.prelude.as_deref().unwrap_or(NONE), &program.file, BUDGET, &Lengths::largest(), last);
    nodes
}

/// The program's result with an output that is exactly enough and one node short, in either array, and with a renumber store that is one short.
fn compared(seen: &mut Compared, classes: &[String], program: &Program, nodes: usize) {
    for rules in BOTH {
        let full = program.full(rules);
        let exactly = just(full.run());
        let mut check = |lengths: Lengths, kind: usize| {
            assert_eq!(seen.check(program.case(rules, lengths)).kind(), kind);
            for class in classes { seen.of(format!("{class}, {rules:?}: {kind}")); }
        };
        if nodes > LIMIT {
            assert_eq!(unfolded(rules, program), Some(nodes));
            for room in [LIMIT, LIMIT + 1, LIMIT + 40] { check(Lengths { out_tags: room, out_args: room, ..exactly }, 12); }
            continue;
        }
        assert_eq!(written(&full), Some(nodes));
        check(exactly, 0);
        check(Lengths { out_tags: nodes - 1, ..exactly }, 12);
        if nodes > 2000 { continue; }
        check(Lengths { out_args: nodes - 1, out_tags: nodes + 5, ..exactly }, 12);
        check(Lengths { out_args: nodes + 5, out_tags: nodes + 5, ..exactly }, 0);
        check(Lengths { renumber: exactly.renumber - 1, ..exactly }, 11);
    }
}

/// The classes that must have come, on each machine with each of these answers.
fn came(seen: &Compared, what: &str, classes: impl IntoIterator<Item = String>, kinds: &[usize]) {
    let all = |class: String| BOTH.iter().flat_map(|rules| kinds.iter().map(|kind| format!("{class}, {rules:?}: {kind}")).collect::<Vec<_>>()).collect::<Vec<_>>();
    seen.came(what, classes.into_iter().flat_map(all));
}

const PADDINGS: [Padding; 6] = [
    Padding::Once(left_nested), Padding::Twice(right_nested), Padding::Once(abstractions), Padding::Twice(left_nested), Padding::Once(right_nested), Padding::Twice(abstractions),
];

/// Each chain, its end and the classes that it is counted under.
fn chains() -> Vec<(usize, End, String)> {
    (0..=5).flat_map(|names| ENDS.map(|end| (names, end, format!("{names} names and {}", end.0)))).collect()
}

#[test]
fn of_a_few_nodes() {
    let mut seen = Compared::default();
    for (names, (_, end), chain) in chains() {
        for (name, place) in SMALL {
            let subject = Subject { definitions: vec![], names, end, place };
            let nodes = subject.least();
            compared(&mut seen, &[chain.clone(), name.into(), format!("{nodes} nodes")], &subject.program(&subject.whole(v(0))), nodes);
        }
    }
    let classes = chains().into_iter().map(|(_, _, chain)| chain).chain(SMALL.map(|(name, _)| name.into())).chain((1..=3).map(|nodes| format!("{nodes} nodes")));
    came(&seen, "results of a few nodes", classes, &[0, 11, 12]);
}

#[test]
fn about_the_small_array() {
    let mut seen = Compared::default();
    let sizes = || [62..=67, 254..=259].into_iter().flatten();
    let mut turn = 0;
    for (names, (_, end), chain) in chains() {
        for (name, place) in PLACES {
            let subject = Subject { definitions: vec![], names, end, place };
            for nodes in sizes() {
                turn += 1;
                let Some(program) = subject.sized(nodes, PADDINGS[turn % PADDINGS.len()]) else { continue };
                compared(&mut seen, &[chain.clone(), name.into(), format!("{nodes} nodes")], &program, nodes);
            }
        }
    }
    let classes = chains().into_iter().map(|(_, _, chain)| chain).chain(PLACES.map(|(name, _)| name.into())).chain(sizes().map(|nodes| format!("{nodes} nodes")));
    came(&seen, "results about the small array", classes, &[0, 11, 12]);
}

#[test]
fn about_the_limit() {
    on_eight_mebibytes(|| {
        let mut seen = Compared::default();
        let (chains, mut turn) = (chains(), 0);
        for nodes in LIMIT - 2..=LIMIT + 1 {
            for (name, place) in PLACES {
                for padding in [PADDINGS[turn % 6], PADDINGS[(turn + 1) % 6]] {
                    // two chains in turn, so that each comes with all sizes
                    for (names, (_, end), chain) in [&chains[turn % chains.len()], &chains[(turn + 11) % chains.len()]] {
                        let subject = Subject { definitions: vec![], names: *names, end: *end, place };
                        let Some(program) = subject.sized(nodes, padding) else { continue };
                        compared(&mut seen, &[format!("{nodes} nodes"), name.into(), chain.clone()], &program, nodes);
                    }
                    turn += 1;
                }
            }
        }
        came(&seen, "results about the limit", (LIMIT - 2..=LIMIT).map(|nodes| format!("{nodes} nodes")).chain(PLACES.map(|(name, _)| name.into())).chain(chains.iter().map(|(_, _, chain)| chain.clone())), &[0, 12]);
        came(&seen, "results past the limit", [format!("{} nodes", LIMIT + 1)], &[12]);
    });
}

/// The identity, and definitions each of which has the one before for its body, or as the head or the last part of it.
fn definitions(count: usize, next: fn(Flat) -> Flat) -> Vec<Flat> { std::iter::once(id()).chain((1..count as u32).map(|k| next(v(k - 1)))).collect() }

#[test]
fn of_definitions() {
    let mut seen = Compared::default();
    let bodies: [(&str, fn(Flat) -> Flat); 3] = [("a body", |d| l(Z, d)), ("a body's head", |d| l(Z, a(d, v(Z)))), ("a body's last part", |d| l(Z, a(v(Z), d)))];
    let mut turn = 0;
    for (body, next) in bodies {
        for count in 1..=6 {
            // a definition that is the head is no part of the result
            for (name, place) in PLACES.into_iter().skip(1) {
                // the names of a chain end in the name of the last definition, just behind which is y
                let end: fn(&Scope) -> Flat = |s| match s.y[0] { F::V(y) => v(y - 1), _ => unreachable!() };
                let subject = Subject { definitions: definitions(count, next), names: turn % 3, end, place };
                for nodes in [64, 65, 66, 255, 256, 257] {
                    turn += 1;
                    let Some(program) = subject.sized(nodes, PADDINGS[turn % PADDINGS.len()]) else { continue };
                    compared(&mut seen, &[format!("{count} definitions"), format!("the one before is {body}"), name.into()], &program, nodes);
                }
            }
        }
    }
    let classes = (1..=6).map(|count| format!("{count} definitions")).chain(bodies.map(|(body, _)| format!("the one before is {body}"))).chain(PLACES[1..].iter().map(|(name, _)| (*name).into()));
    came(&seen, "results of definitions", classes, &[0, 11, 12]);
}

//! The stack of a call: what the wrapper and glow.h tell is what the library takes, and no call takes more, on either machine, with a
//! prelude and without.
#![cfg(feature = "library")]
use glow::{stack_needed, stack_needed_with, STACK_FOR_A_CALL, STACK_FOR_A_LEVEL, STACK_FOR_A_RESULT};
use glow_tests::enumerate::All;
use glow_tests::families::*;
use glow_tests::flat::*;
use glow_tests::machine::*;
use glow_tests::painted::on_stack;
use glow_tests::prelude::{encode, NONE};
use glow_tests::prng::Prng;
use glow_tests::random;

/// A bound name, beyond all free ones.
const X: u32 = 100_000;

/// Bytes of stack that a level of counting takes.
const COUNTING: usize = 96;

/// What a thread uses of its stack before it does anything.
fn a_thread() -> usize {
    static USED: std::sync::OnceLock<usize> = std::sync::OnceLock::new();
    *USED.get_or_init(|| on_stack(1 << 16, || {}))
}

/// A file, and a prelude where one goes with it.
struct Call { prelude: Option<Vec<u8>>, file: Vec<u8> }

fn plain(f: usize, t: &Flat) -> Call { Call { prelude: None, file: canonical(f, t).file() } }

fn with(definitions: &[Flat], f: usize, t: &Flat) -> Call {
    let files: Vec<Vec<u8>> = definitions.iter().enumerate().map(|(k, t)| canonical(k, t).file()).collect();
    Call { prelude: Some(encode(&files)), file: canonical(f, t).file() }
}

impl Call {
    fn answer(&self, rules: Rules, l: &Lengths) -> Answer { evaluate_with(rules, self.prelude.as_deref().unwrap_or(NONE), &self.file, GLOW_BUDGET, l) }

    fn needed(&self, l: &Lengths) -> usize {
        if self.prelude.is_some() { stack_needed_with(l.nodes() as usize) } else { stack_needed(l.nodes() as usize, l.cells() as usize) }
    }

    /// The most bytes of stack that the call used, and its status; `bytes` is the stack that it is given.
    fn used(&self, rules: Rules, bytes: usize, l: &Lengths) -> (usize, glow::Status) {
        let mut s = glow::Stores::new(l.nodes() as usize, l.cells() as usize, l.places, l.renumber, l.output());
        let mut report = [0; 12];
        let mut status = glow::Status::Spent;
        let used = on_stack(bytes, || {
            status = match &self.prelude {
                None => glow::evaluate_in_on_this_stack(rules.into(), &self.file, GLOW_BUDGET, &mut s.tags, &mut s.args, &mut s.codes, &mut s.owns,
                    &mut s.nexts, &mut s.places, &mut s.renumber, &mut s.out_tags, &mut s.out_args, &mut report),
                Some(prelude) => glow::evaluate_with_in_on_this_stack(rules.into(), prelude, &self.file, GLOW_BUDGET, &mut s.tags, &mut s.args, &mut s.codes,
                    &mut s.owns, &mut s.nexts, &mut s.places, &mut s.renumber, &mut s.out_tags, &mut s.out_args, &mut report),
            };
        });
        (used - a_thread(), status)
    }

    /// What counting and writing use, and then what counting alone does, as one node is missing in the output.
    fn both(&self, rules: Rules, bytes: usize, l: Lengths) -> [usize; 2] {
        let answer = self.answer(rules, &l);
        let Outcome::Normal(result) = &answer.run().outcome else { panic!("{:?}", answer.run().outcome) };
        let size = result.tags.len();
        let (all, status) = self.used(rules, bytes, &Lengths { out_tags: size, ..l });
        assert_eq!(status, glow::Status::Normal);
        let (counting, status) = self.used(rules, bytes, &Lengths { out_tags: size - 1, ..l });
        assert_eq!(status, glow::Status::Refused);
        [all, counting]
    }
}

/// n definitions, each \x. d x with d the one before, and a term of this shape: n levels of writing. 4 n + 2 nodes, no cell.
fn definitions(n: usize) -> Call { with(&definition_chain(n), n, &l(X, a(v(n as u32 - 1), v(X)))) }

/// The term with its free names y and i behind so many definitions.
fn behind(definitions: usize, t: Flat) -> Flat {
    t.into_iter().map(|x| match x { F::V(k) if k < 2 => F::V(k + definitions as u32), x => x }).collect()
}

/// The kinds of chains that are known, with what a link takes: bytes of writing and of counting.
type Kind = (&'static str, fn(usize) -> Call, [usize; 2]);
const KINDS: [Kind; 8] = [
    ("arguments with a stack and another behind them", |n| plain(2, &inert_chain_across(n, v(W))), [STACK_FOR_A_LEVEL, COUNTING]),
    ("abstractions behind entries, a node behind each name", |n| plain(0, &head_chain(n, id())), [STACK_FOR_A_LEVEL, COUNTING]),
    ("heads behind entries", |n| plain(2, &inert_chain_left(n)), [STACK_FOR_A_LEVEL, COUNTING]),
    ("definitions, a node behind each name", definitions, [STACK_FOR_A_LEVEL, 0]),
    ("abstractions behind entries, each name the last node", |n| plain(0, &abstraction_chain(n)), [0, COUNTING]),
    ("last arguments behind entries", |n| plain(2, &inert_chain_right(n)), [0, COUNTING]),
    ("definitions, each name the last node", |n| with(&last_names(n), n, &l(X, v(n as u32 - 1))), [0, 0]),
    ("names of names", |n| plain(1, &renamings(n)), [0, 0]),
];

/// The identity, and then definitions \x. d with d the one before.
fn last_names(n: usize) -> Vec<Flat> { std::iter::once(id()).chain((1..n as u32).map(|k| l(X, v(k - 1)))).collect() }

/// What each kind takes for a link, and without one: a level of writing takes what is told, one of counting less. The chains are so long that
/// levels take more than the checks do.
#[test]
fn of_a_level_as_told() {
    for rules in BOTH {
        for (name, chain, right) in KINDS {
            let [short, long] = [400, 500].map(|n| chain(n).both(rules, 1 << 20, Lengths::glow()));
            let links = [0, 1].map(|k| (long[k] - short[k]) as f64 / 100.0);
            println!("{rules:?}, {name}: {long:?} bytes for 500, {links:?} for a link");
            // where writing takes none, what is seen of both is what counting took
            assert_eq!(links, [right[0].max(right[1]) as f64, right[1] as f64]);
            for (long, link) in long.into_iter().zip(links) {
                if link == 0.0 {
                    assert!(long <= STACK_FOR_A_CALL);
                } else {
                    // one link more or less makes no level of its own
                    let flat = long - 499 * link as usize;
                    assert!(flat <= STACK_FOR_A_RESULT && flat * 100 >= STACK_FOR_A_RESULT * 93, "{flat} without a level");
                }
            }
        }
    }
}

/// The deepest term that is known for stores of so many nodes and cells: abstractions behind entries, each with six nodes and a cell, and
/// inside them arguments with stacks, each with four nodes and two cells. Where there is more room than a file has, heads behind entries,
/// made by copies, and inside them such arguments.
fn deepest(nodes: usize, cells: usize) -> Call {
    if nodes > 16_384 && cells > 13_500 { return plain(2, &longest_copied_head_chain(nodes.min(COUNTED), inert_chain_across(1300, v(W)))); }
    let nodes = nodes.min(16_384);
    let heads = |across: usize| cells.saturating_sub(2 * across).min((nodes - 4 * across).saturating_sub(2) / 6);
    let across = (0..=(cells / 2).min((nodes - 1) / 4)).max_by_key(|&across| across + heads(across)).unwrap();
    plain(2, &head_chain(heads(across), if across == 0 { id() } else { inert_chain_across(across, v(W)) }))
}

/// The worst that we can build stays within what is told, and takes at least so many hundredths of it.
fn within(rules: Rules, call: &Call, lengths: Lengths, percent: usize) {
    let needed = call.needed(&lengths);
    let [all, counting] = if lengths.nodes() == 0 {
        let (all, status) = call.used(rules, 8 << 20, &lengths);
        assert_eq!(status, glow::Status::Refused);
        [all; 2]
    } else {
        call.both(rules, 8 << 20, lengths)
    };
    let with = if call.prelude.is_some() { ", a prelude" } else { "" };
    println!("{rules:?}, {} nodes, {} cells{with}: at most {needed} bytes told; {all} used, {counting} in counting alone", lengths.nodes(), lengths.cells());
    assert!(all <= needed && counting <= needed);
    assert!(all * 100 >= needed * percent, "the figure is far from what was seen");
}

/// For stores of many lengths. Where a level has to have six nodes for want of cells, or writes more than a result may have, less is taken.
#[test]
fn the_worst_within_what_is_told() {
    let mut rows = vec![(0, 0, 93), (2, 0, 93), (16_384, 0, 93)];
    for cells in [1, 16, 256, 1024, 2700] { rows.extend([(6 * cells + 2, cells, 93), (16_384, cells, 93), (32_768, cells, 93)]); }
    for cells in [2, 32, 512, 2048, 8190] { rows.extend([(2 * cells + 1, cells, 93), (2 * cells + 1, 16_384, 93)]); }
    for cells in [256, 1024, 4095] { rows.push((4 * cells + 2, cells, 75)); }
    rows.extend([(16_384, 16_384, 99), (16_384, 32_768, 99), (32_768, 16_384, 81), (32_768, 32_768, 81), (100_000, 100_000, 81)]);
    for (nodes, cells, percent) in rows {
        let lengths = Lengths::of(nodes, cells, 32_768, 32_768, 16_384);
        let call = if nodes < 2 { plain(1, &v(0)) } else { deepest(nodes, cells) };
        for rules in BOTH { within(rules, &call, lengths, percent); }
    }
}

/// With preludes: definitions, for which no cell is taken, and such below what takes cells.
#[test]
fn the_worst_with_a_prelude() {
    let lengths = |nodes, cells| Lengths::of(nodes, cells, 32_768, 32_768, 16_384);
    for rules in BOTH {
        within(rules, &with(&[], 1, &v(0)), lengths(0, 0), 93);
        for levels in [1, 16, 256, 1024, 4095, 5460] {
            for cells in [0, 16_384] { within(rules, &definitions(levels), lengths(4 * levels + 2, cells), 93); }
        }
        for (across, levels) in [(300, 100), (1000, 2000), (3000, 1000)] {
            let t = behind(levels, inert_chain_across(across, l(X, a(v(2), v(X)))));
            let t = t.into_iter().map(|x| if x == F::V(2) { F::V(levels as u32 - 1) } else { x }).collect();
            within(rules, &with(&definition_chain(levels), levels + 2, &t), lengths(4 * (across + levels) + 2, 2 * across), 93);
        }
        // as deep as a result can be: heads behind entries, made by copies, and inside them definitions
        let levels = 2400;
        let t = longest_copied_head_chain(COUNTED - (4 * levels - 2), a(v(W), v(2)));
        let t = behind(levels, t).into_iter().map(|x| if x == F::V(2) { F::V(levels as u32 - 1) } else { x }).collect();
        for most in [32_768, 100_000] { within(rules, &with(&definition_chain(levels), levels + 2, &t), lengths(most, most), 84); }
    }
}

/// Abstractions around a small term, so many that their levels take more than the checks do; each has a call of its own, and the term too.
const AROUND: usize = 480;

/// Stack for a call with these levels and a hundred more.
const SMALL: usize = stack_needed(4 * (AROUND + 100), AROUND + 100) + (16 << 10);

fn around(definitions: &Option<Vec<Flat>>, f: usize, t: &Flat) -> Call {
    let t = head_chain(AROUND, t.clone());
    match definitions { None => plain(f, &t), Some(definitions) => with(definitions, f, &t) }
}

/// The levels of writing and of counting a small term: no more than a quarter of the nodes taken, and without a prelude no more than cells taken.
fn levels_of(rules: Rules, definitions: &Option<Vec<Flat>>, f: usize, t: &Flat, flat: &[usize; 2]) -> Option<[usize; 2]> {
    let lengths = Lengths::of(1000 + 6 * AROUND, 500 + AROUND, 1000 + 2 * AROUND, 1000 + 2 * AROUND, 1000 + 3 * AROUND);
    let alone = match definitions { None => plain(f, t), Some(definitions) => with(definitions, f, t) };
    let answer = alone.answer(rules, &Lengths::of(1000, 500, 1000, 1000, 1000));
    let Outcome::Normal(_) = answer.run().outcome else { return None };
    let taken = answer.run().figures;
    if taken.cells == 0 && definitions.is_none() { return None; }
    let bytes = around(definitions, f, t).both(rules, SMALL, lengths);
    // on demand no entry is made of a name alone, and there is a level less
    let levels = [0, 1].map(|k| bytes[k].saturating_sub(flat[k]).div_ceil([STACK_FOR_A_LEVEL, COUNTING][k]) as u64);
    let most = if definitions.is_some() { taken.nodes / 4 } else { taken.cells.min(taken.nodes / 4) };
    for levels in levels { assert!(levels <= most, "{levels} levels of {taken:?}"); }
    Some(levels.map(|levels| levels as usize))
}

/// How many terms there were, how many of them with a level of writing and of counting, and the most of each.
#[derive(Debug, Default)]
struct Seen { terms: usize, with_levels: [usize; 2], most: [usize; 2] }

impl Seen {
    fn note(&mut self, levels: Option<[usize; 2]>) {
        let Some(levels) = levels else { return };
        self.terms += 1;
        for (k, levels) in levels.into_iter().enumerate() {
            self.with_levels[k] += usize::from(levels > 0);
            self.most[k] = self.most[k].max(levels);
        }
    }
}

fn flat(rules: Rules) -> [usize; 2] { around(&None, 0, &id()).both(rules, SMALL, Lengths::glow()) }

#[test]
fn the_levels_of_small_terms() {
    for rules in BOTH {
        let flat = flat(rules);
        let mut seen = Seen::default();
        let mut look = |f: usize, t: &Flat| seen.note(levels_of(rules, &None, f, t, &flat));
        let mut all = All::default();
        for (f, nodes) in [(0, 9), (1, 8), (2, 7)] { for n in 1..=nodes { for t in all.terms(f, n).iter() { look(f, t); } } }
        for (_, f, t) in small_members() { look(f, &t); }
        let mut r = Prng(17);
        for _ in 0..2000 { let (f, t) = random::term(&mut r); if t.len() <= 200 && f < 500 { look(f, &t); } }
        println!("{rules:?}: {seen:?}");
        assert!(seen.with_levels.iter().all(|&n| n > 300) && seen.most.iter().all(|&most| most > 5));
    }
}

/// Small terms with two small definitions, the second of which may name the first, and chains of a few.
#[test]
fn the_levels_of_small_terms_with_a_prelude() {
    let mut all = All::default();
    let mut up_to = |f: usize, nodes: usize, abstractions: bool| -> Vec<Flat> {
        (1..=nodes).flat_map(|n| all.terms(f, n).iter().cloned().collect::<Vec<_>>()).filter(|t| !abstractions || matches!(t[0], F::L(_))).collect()
    };
    let (first, second, terms) = (up_to(0, 5, true), up_to(1, 6, true), up_to(2, 6, false));
    for rules in BOTH {
        let prelude_flat = around(&Some(Vec::new()), 0, &id()).both(rules, SMALL, Lengths::glow());
        let mut seen = Seen::default();
        let mut r = Prng(23);
        for _ in 0..6000 {
            let definitions = vec![first[r.below(first.len())].clone(), second[r.below(second.len())].clone()];
            seen.note(levels_of(rules, &Some(definitions), 2, &terms[r.below(terms.len())], &prelude_flat));
        }
        for n in 1..20 { for t in [v(n - 1), l(X, a(v(n - 1), v(X))), l(X, v(n - 1)), a(v(n - 1), id())] {
            for definitions in [definition_chain(n as usize), last_names(n as usize)] { seen.note(levels_of(rules, &Some(definitions), n as usize, &t, &prelude_flat)); }
        } }
        println!("{rules:?}, with a prelude: {seen:?}");
        assert!(seen.with_levels.iter().all(|&n| n > 300) && seen.most[0] > 15);
    }
}

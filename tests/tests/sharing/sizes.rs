//! Parts of sizes at which a loop over several nodes may end, names in use about those at which a small array may, and results about the limit.
use crate::{lets, nodes, x, Compared, Of, Place, Program, BOUND, CLOSED, LIMIT, OPEN, P, TWO};
use glow_tests::flat::{a, apply, l, v, Flat, F};
use glow_tests::machine::BOTH;
use glow_tests::painted::on_eight_mebibytes;
use glow_tests::prng::Prng;
use std::collections::BTreeSet;

const SIZES: [usize; 15] = [1, 2, 3, 7, 8, 9, 15, 16, 17, 31, 32, 33, 255, 256, 257];

/// A term of so many nodes below so many abstractions, with the names y and w too, as chance has it.
fn any(r: &mut Prng, nodes: usize, around: usize, out: &mut Flat) {
    let bound = BOUND + around as u32;
    if nodes == 1 {
        out.push(F::V(if around == 0 || r.one_in(4) { r.below(2) as u32 } else { bound - 1 - r.below(around) as u32 }));
    } else if nodes == 2 || r.one_in(3) {
        out.push(F::L(bound));
        any(r, nodes - 1, around + 1, out);
    } else {
        let left = r.between(1, nodes - 2);
        out.push(F::A);
        any(r, left, around, out);
        any(r, nodes - 1 - left, around, out);
    }
}

fn function(r: &mut Prng, nodes: usize) -> Flat { let mut out = vec![F::L(BOUND)]; any(r, nodes - 1, 1, &mut out); out }

/// Applications of names alone, nested on the left or on the right.
fn names(r: &mut Prng, nodes: usize) -> Flat {
    let name = |r: &mut Prng| vec![F::V(r.below(2) as u32)];
    let left = r.one_in(2);
    let mut out = name(r);
    for _ in 0..nodes / 2 { out = if left { a(out, name(r)) } else { a(name(r), out) }; }
    out
}

/// A name applied to names and abstractions.
fn mixed(r: &mut Prng, nodes: usize) -> Flat {
    let (mut items, mut left) = (Vec::new(), nodes - 1);
    while left > 0 {
        // what is left is for no other item, or enough for one
        let size = if left > 5 && r.one_in(2) { r.between(1, left - 4) } else { left - 1 };
        items.push(if size == 1 { TWO.w() } else { function(r, size) });
        left -= 1 + size;
    }
    TWO.inert(items)
}

/// Parts of so many nodes: applications of names alone have an odd number.
fn of_size(r: &mut Prng, nodes: usize) -> Vec<Flat> {
    let mut all = Vec::new();
    if nodes % 2 == 1 { all.push(names(r, nodes)); }
    if nodes >= 2 { all.push(function(r, nodes)); }
    if nodes >= 2 { all.push((1..nodes as u32).map(|k| F::L(BOUND + k)).chain([F::V(BOUND + 1 + r.below(nodes - 1) as u32)]).collect()); }
    if nodes >= 4 { all.push(mixed(r, nodes)); }
    assert!(all.iter().all(|part| part.len() == nodes));
    all
}

/// Each size, in each place. With the number of free names so chosen that the names in use are about 256.
#[test]
fn of_parts_and_names() {
    on_eight_mebibytes(|| {
        let (mut seen, mut r, mut met) = (Compared::new(), Prng(31), BTreeSet::new());
        let places: Vec<Place> = OPEN.into_iter().chain(CLOSED).collect();
        for nodes in SIZES.into_iter().chain(4..=6).chain(10..=14).chain([63, 64, 65, 127, 128, 129]) {
            for (k, place) in places.iter().enumerate() {
                for part in of_size(&mut r, nodes) {
                    let term = lets(&[part], place(TWO, x(0)));
                    let answers = seen.result(Of::Some, &Program::plain(2, &term));
                    if !SIZES.contains(&nodes) { continue; }
                    let names = 255 + (k + nodes) as u64 % 4;
                    for (answer, rules) in answers.iter().zip(BOTH) {
                        let Some(more) = names.checked_sub(answer.run().figures.names) else { continue };
                        let again = seen.result(Of::Some, &Program::plain(2 + more as usize, &term));
                        assert_eq!(again[rules.number() as usize].run().figures.names, names);
                        met.insert((rules.number(), names, nodes));
                    }
                }
            }
        }
        for rules in BOTH { for names in 255..=258 { for nodes in SIZES { assert!(met.contains(&(rules.number(), names, nodes)), "{rules:?} {names} {nodes}"); } } }
        seen.told("sizes of parts, and names in use", 10_000, 5_000);
    });
}

/// Many lets, more than a small array has elements, all of them met twice: forwards and back, each beside the one 256 further on, and below binders.
#[test]
fn of_many_lets() {
    on_eight_mebibytes(|| {
        let mut seen = Compared::new();
        let (z, q) = (|| vec![F::V(BOUND)], || vec![F::V(BOUND + 1)]);
        let entry = |k: usize| match k % 6 {
            _ if k % 5 == 4 => TWO.inert(vec![TWO.w(); 1 + k % 4]),
            0 => l(BOUND, l(BOUND + 1, a(q(), z()))),
            1 => TWO.inert([l(BOUND, z()), TWO.w()]),
            2 if k >= 256 => TWO.inert([x(k - 256)]),
            3 => l(BOUND, TWO.inert(vec![z(); 1 + k % 3])),
            4 if k >= 128 => a(TWO.w(), l(BOUND, a(x(k - 128), z()))),
            _ => l(BOUND, a(l(BOUND + 1, z()), z())),
        };
        for count in [15, 16, 17, 31, 32, 33, 63, 64, 65, 127, 128, 129, 253, 254, 255, 256, 257, 258, 259, 400, 511, 512, 513, 600] {
            let entries: Vec<Flat> = (0..count).map(entry).collect();
            let there = || (0..count).map(x);
            let words: [Vec<Flat>; 3] = [
                there().chain(there().rev()).collect(), there().chain(there()).collect(),
                (0..count).flat_map(|k| [x(k), x((k + 256) % count), if k % 3 == 0 { l(P, a(v(P), x(k))) } else { x((k + 128) % count) }]).collect(),
            ];
            for word in words {
                for whole in [TWO.inert(word.clone()), l(P, apply(v(P), word))] {
                    for f in [2, 300] { seen.result(Of::Some, &Program::plain(f, &lets(&entries, whole.clone()))); }
                }
            }
        }
        seen.told("many lets", 50_000, 20_000);
    });
}

/// A program whose result has so many nodes: the part `inner` times in a part of its own, as often as there is room, and for the rest names and
/// at most one abstraction, before these, behind them or between them. None where the part or the program is too large.
fn sized(part: &Flat, inner: usize, nodes: usize, order: usize) -> Option<Flat> {
    let size = 1 + inner * (part.len() + 1);
    let mut count = (nodes - 1) / (size + 1);
    if nodes - 1 - count * (size + 1) == 1 { count = count.checked_sub(1)?; }
    if count < 2 { return None; }
    let rest = nodes - 1 - count * (size + 1);
    let mut padding: Vec<Flat> = vec![TWO.w(); rest / 2];
    if rest % 2 == 1 { *padding.last_mut().unwrap() = l(BOUND, vec![F::V(BOUND)]); }
    let met = vec![x(1); count];
    let items: Vec<Flat> = match order {
        0 => padding.into_iter().chain(met).collect(),
        1 => met.into_iter().chain(padding).collect(),
        _ => { let mut all = met; let k = count / 2; all.splice(k..k, padding); all }
    };
    let term = lets(&[part.clone(), TWO.inert(vec![x(0); inner])], TWO.inert(items));
    (term.len() <= LIMIT).then_some(term)
}

/// How often a part of this size is in one that is in the result so many times.
fn fills(result: usize, times: usize, size: usize) -> usize { ((result - 4) / times - 2) / (size + 1) }

/// Results about the small arrays and about the limit, one past it too.
#[test]
fn of_results() {
    on_eight_mebibytes(|| {
        let (mut seen, mut r, mut turn) = (Compared::new(), Prng(32), 0);
        for result in [63, 64, 65, 66, 255, 256, 257, 258, 259] {
            for size in SIZES {
                for part in of_size(&mut r, size) {
                    for inner in [1, 2, 3, 5] {
                        turn += 1;
                        let Some(term) = sized(&part, inner, result, turn % 3) else { continue };
                        for answer in seen.result(Of::Some, &Program::plain(2, &term)) { assert_eq!(nodes(&answer), Some(result)); }
                    }
                }
            }
        }
        for result in LIMIT - 1..=LIMIT + 1 {
            for size in SIZES {
                for part in of_size(&mut r, size) {
                    turn += 1;
                    // the part that is met has some hundred nodes, or is a half or a third of the result
                    let shares = [fills(result, 2, size), fills(result, 3, size)];
                    for inner in [(4 + turn % 5 + 100 / size).min(2000 / size), shares[turn % 2]] {
                        let term = sized(&part, inner, result, turn % 3).expect("a program");
                        let answers = seen.result(Of::All, &Program::plain(2, &term));
                        for answer in &answers { assert_eq!(nodes(answer), Some(result)); }
                        // and with about 256 names in use, where there are fewer
                        let more = (255 + turn as u64 % 4).checked_sub(answers[turn / 4 % 2].run().figures.names);
                        if let Some(more) = more { seen.result(Of::Some, &Program::plain(2 + more as usize, &term)); }
                    }
                }
            }
        }
        seen.told("sizes of results", 10_000, 5_000);
    });
}

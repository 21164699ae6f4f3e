//! The refusals that return the number alone, and their order: every pair of defects, every set of them in two definitions, every cut, and
//! the limits of the counts. Each call has noise in all of its arrays, and changes none of them.
use crate::Subject;
use glow_tests::case::Case;
use glow_tests::file::encode as file_of;
use glow_tests::flat::from_text;
use glow_tests::machine::*;
use glow_tests::prelude::encode;

/// The one answer of both machines.
fn refused(prelude: &[u8], file: &[u8], number: u8) {
    for (k, rules) in BOTH.into_iter().enumerate() {
        let case = Case::new(rules, file, 5, Lengths::of(30, 5, 20, 20, 20)).with(prelude).garbage(prelude.len() as u64 + 3);
        let case = if k == 0 { case } else { case.nulls() };
        assert_eq!(evaluate_with(rules, prelude, file, 5, &case.lengths), Answer::FileRefused(number), "{prelude:02x?} {file:02x?}");
        case.check_against(&Answer::FileRefused(number));
    }
}

/// That the call is not refused but runs.
fn accepted(prelude: &[u8], file: &[u8]) {
    for rules in BOTH { Case::glow(rules, file).with(prelude).garbage(5).check().run(); }
}

/// Something wrong with a call.
#[derive(Clone, Copy, Debug, PartialEq, Eq)]
enum Defect {
    /// A refusal of the term file, 1 to 7.
    Term(u8),
    /// 17: a byte too many, a byte too few, one definition more than there are free names.
    Spare, Missing, TooMany,
    /// A refusal of definition k: 2, 4 to 7, 18 or 19.
    Of(usize, u8),
}
use Defect::*;

impl Defect {
    fn number(self) -> u8 { match self { Term(n) | Of(_, n) => n, Spare | Missing | TooMany => 17 } }

    /// Where its test is in the order of the tests.
    fn turn(self) -> (usize, usize, u8) {
        match self {
            Term(n) => (0, 0, n),
            Spare | Missing | TooMany => (1, 0, 17),
            Of(k, n) if n <= 7 => (2, k, n),
            Of(_, n) => (3, 0, n),
        }
    }
}

/// A file with these defects all at once. Without any it is `lf a1 vf lg vg`, g being f + 1, and for 18 this applied to the identity.
fn damaged(f: usize, defects: &[u8]) -> Vec<u8> {
    let has = |n: u8| defects.contains(&n);
    let (x, y) = (f as u16, f as u16 + 1);
    let mut tags = vec![1, 2, 0, 1, if has(4) { 3 } else { 0 }];
    let mut args = vec![x, if has(5) { 2 } else { 1 }, if has(7) { 999 } else { x }, if has(6) { y + 1 } else { y }, y];
    if has(18) {
        tags = [&[2][..], &tags, &[1, 0]].concat();
        args = [&[5][..], &args, &[y + 1, y + 1]].concat();
    }
    let mut bytes = file_of(if has(2) { 16_385 } else { f }, &tags, &args);
    if has(3) { bytes.pop(); }
    if has(1) { bytes.truncate(3); }
    bytes
}

/// How many definitions there are.
const DEFINITIONS: usize = 3;

/// A prelude and a file with these defects all at once.
fn build(defects: &[Defect]) -> (Vec<u8>, Vec<u8>) {
    let of = |k: usize| defects.iter().filter_map(move |d| match d { Of(j, n) if *j == k => Some(*n), _ => None }).collect::<Vec<u8>>();
    let definitions: Vec<Vec<u8>> = (0..DEFINITIONS).map(|k| damaged(if of(k).contains(&19) { k + 1 } else { k }, &of(k))).collect();
    let mut prelude = encode(&definitions);
    if defects.contains(&Spare) { prelude.push(0); }
    if defects.contains(&Missing) { prelude.pop(); }
    let of_the_term: Vec<u8> = defects.iter().filter_map(|d| match d { Term(n) => Some(*n), _ => None }).collect();
    (prelude, damaged(if defects.contains(&TooMany) { DEFINITIONS - 1 } else { DEFINITIONS }, &of_the_term))
}

/// That the call with these defects has the refusal whose test comes first. A spare byte and a missing one would make up for each other.
fn first_of(defects: &[Defect]) {
    if defects.contains(&Spare) && defects.contains(&Missing) { return; }
    let (prelude, file) = build(defects);
    match defects.iter().min_by_key(|d| d.turn()) {
        None => accepted(&prelude, &file),
        Some(first) => refused(&prelude, &file, first.number()),
    }
}

const OF_A_DEFINITION: [u8; 7] = [2, 4, 5, 6, 7, 18, 19];

fn all_defects() -> Vec<Defect> {
    let of = (0..DEFINITIONS).flat_map(|k| OF_A_DEFINITION.map(|n| Of(k, n)));
    (1..=7).map(Term).chain([Spare, Missing, TooMany]).chain(of).collect()
}

#[test]
fn pairs_and_threes() {
    let all = all_defects();
    first_of(&[]);
    for (i, &p) in all.iter().enumerate() {
        first_of(&[p]);
        for (j, &q) in all.iter().enumerate().skip(i + 1) {
            first_of(&[p, q]);
            for &r in &all[j + 1..] { first_of(&[p, q, r]); }
        }
    }
    first_of(&all.into_iter().filter(|&d| d != Missing).collect::<Vec<_>>());
}

/// All sets of defects in two of the definitions.
#[test]
fn all_in_two_definitions() {
    let all: Vec<Defect> = [0, 2].into_iter().flat_map(|k| OF_A_DEFINITION.map(|n| Of(k, n))).collect();
    for set in 0..1u32 << all.len() { first_of(&all.iter().enumerate().filter(|(k, _)| set >> k & 1 == 1).map(|(_, &d)| d).collect::<Vec<_>>()); }
}

/// Every cut of a prelude, also where a definition in it is damaged, and every length with bytes left over.
#[test]
fn cut_anywhere() {
    let subjects = [Subject::texts(3, &["l0 v0", "l1 l2 a1 v2 v0", "l2 a2 l3 v1 v2"], "a1 v2 v1"), Subject::texts(1, &["l0 v0"], "v0"),
        Subject::texts(260, &["l0 v0"; 1], "v259"), Subject { prelude: build(&[Of(0, 18), Of(1, 4), Of(2, 2)]).0, file: build(&[]).1 }];
    for s in &subjects {
        for length in 0..s.prelude.len() { refused(&s.prelude[..length], &s.file, 17); }
        for spare in 1..10 { for byte in [0, 1, 255] { refused(&[&s.prelude[..], &vec![byte; spare]].concat(), &s.file, 17); } }
        // a whole definition more, or the count alone more or less
        refused(&[&s.prelude[..], &s.prelude[2..]].concat(), &s.file, 17);
        for count in [s.prelude[0] + 1, s.prelude[0] - 1] { let mut p = s.prelude.clone(); p[0] = count; refused(&p, &s.file, 17); }
        let mut p = s.prelude.clone();
        p[1] = 1;
        refused(&p, &s.file, 17);
        // n of the first definition one more or one less
        for change in [1, u16::MAX] {
            let mut p = s.prelude.clone();
            let n = u16::from_le_bytes([p[4], p[5]]).wrapping_add(change);
            p[4..6].copy_from_slice(&n.to_le_bytes());
            let Answer::FileRefused(_) = evaluate_with(Rules::First, &p, &s.file, 5, &Lengths::glow()) else { panic!("accepted with another n") };
            for rules in BOTH { Case::new(rules, &s.file, 5, Lengths::of(30, 5, 300, 20, 20)).with(&p).check(); }
        }
    }
    accepted(&subjects[0].prelude, &subjects[0].file);
}

/// A definition of these raw fields, with as many bytes of nodes.
fn raw(f: u16, n: u16, bytes: usize) -> Vec<u8> { [&f.to_le_bytes()[..], &n.to_le_bytes(), &vec![1; bytes]].concat() }

/// n is taken as it is: all of its bytes have to be there, and then it is outside its limits.
#[test]
fn n_outside_its_limits() {
    let file = from_text(3, "v2").file();
    let sound = |k: usize| damaged(k, &[]);
    let with = |definitions: &[Vec<u8>], number: u8| refused(&encode(definitions), &file, number);
    for (n, bytes) in [(0, 0), (16_385, 49_155), (65_535, 196_605), (32_768, 98_304), (21_846, 65_538)] {
        let one = raw(0, n, bytes);
        with(std::slice::from_ref(&one), 2);
        with(&[one.clone(), sound(1)], 2);
        with(&[sound(0), raw(1, n, bytes)], 2);
        with(&[sound(0), raw(1, n, bytes), sound(2)], 2);
        with(&[one.clone(), one.clone(), one.clone()], 2);
        // whatever else is wrong behind it or in it
        with(&[one.clone(), damaged(1, &[4])], 2);
        with(&[damaged(0, &[18]), raw(7, n, bytes)], 2);
        with(&[damaged(1, &[]), raw(1, n, bytes)], 2);
        // an earlier definition's own refusal
        for number in [4, 5, 6, 7] { with(&[damaged(0, &[number]), raw(1, n, bytes)], number); }
        // bytes left over or missing
        refused(&[encode(std::slice::from_ref(&one)), vec![0]].concat(), &file, 17);
        refused(&encode(&[one])[..5 + bytes], &file, 17);
        if bytes > 0 { for there in [0, 1, 3, bytes / 2, bytes - 1] { with(&[raw(0, n, there)], 17); } }
    }
    for n in [65_535, 65_534, 16_385] { refused(&encode(&[raw(0, n, 30), sound(1)]), &file, 17); }
    // the largest n that is within, of tags that are no term
    with(&[raw(0, 16_384, 49_152)], 5);
    // f at its limit is within, but no place; beyond it is 2
    with(&[damaged(16_384, &[])], 19);
    for f in [16_385, 32_768, 65_535] { with(&[{ let mut bytes = damaged(0, &[]); bytes[..2].copy_from_slice(&u16::to_le_bytes(f)); bytes }], 2); }
}

/// The count: none, as many as free names, one more, and counts of two bytes.
#[test]
fn the_count() {
    let identities = |d: usize| encode(&(0..d).map(|k| from_text(k, &format!("l{k} v{k}")).file()).collect::<Vec<_>>());
    for f in [0, 1, 2, 3, 255, 256, 257, 300] {
        let file = from_text(f, &format!("l{f} v{f}")).file();
        for d in [0, 1, 2, f / 2, f.saturating_sub(1), f, f + 1, f + 2, f + 256] {
            if d <= f { accepted(&identities(d), &file) } else { refused(&identities(d), &file, 17) }
        }
    }
    let file = from_text(16_384, "v0").file();
    for d in [16_385, 40_000, 65_535] { refused(&encode(&vec![raw(0, 0, 0); d]), &file, 17); }
    refused(&encode(&vec![raw(0, 0, 0); 16_384]), &file, 2);
    refused(&[255, 255], &file, 17);
}

/// A definition may name the ones before it, and neither itself nor a later one; and it must be at its place.
#[test]
fn names_before_it() {
    let file = from_text(3, "v2").file();
    let with = |texts: [(usize, &str); 3]| encode(&texts.map(|(f, text)| from_text(f, text).file()));
    accepted(&with([(0, "l0 v0"), (1, "l1 v0"), (2, "l2 a1 v0 v1")]), &file);
    // its own name is bound in it, or unbound, but never free
    refused(&with([(0, "l0 v0"), (1, "l2 v1"), (2, "l2 v2")]), &file, 6);
    refused(&with([(0, "l0 v0"), (1, "l1 v2"), (2, "l2 v2")]), &file, 7);
    refused(&with([(0, "l0 v0"), (2, "l2 v1"), (2, "l2 v2")]), &file, 19);
    // what is free in it goes by its own f, not by its place
    refused(&with([(0, "l0 v0"), (0, "l0 v1"), (2, "l2 v2")]), &file, 7);
    refused(&with([(0, "l0 v0"), (1, "l1 v1"), (1, "l1 v2")]), &file, 7);
    refused(&with([(1, "l1 v0"), (1, "l1 v1"), (2, "l2 v2")]), &file, 19);
    // fewer free names than its place allows
    refused(&with([(0, "l0 v0"), (0, "l0 v0"), (2, "l2 v2")]), &file, 19);
    refused(&with([(0, "l0 v0"), (1, "l1 v1"), (1, "l1 v0")]), &file, 19);
    refused(&with([(0, "l0 v0"), (1, "l1 v1"), (3, "l3 v2")]), &file, 19);
    // two at each other's place
    refused(&with([(0, "l0 v0"), (2, "l2 v2"), (1, "l1 v1")]), &file, 19);
    // not an abstraction, though it comes to one; 18 of the last before 19 of the first
    refused(&with([(0, "a2 l0 v0 l1 v1"), (1, "l1 v1"), (2, "l2 v2")]), &file, 18);
    refused(&with([(0, "l0 v0"), (1, "v0"), (2, "l2 v2")]), &file, 18);
    refused(&with([(1, "l1 v1"), (1, "l1 v1"), (2, "v1")]), &file, 18);
    // a free name of the term that is no definition's is none of a definition
    refused(&with([(0, "l0 v0"), (1, "l1 v1"), (2, "l2 v3")]), &from_text(4, "v3").file(), 7);
}

/// A number that is no machine's and a report that is too short come before all of these, and touch nothing.
#[cfg(feature = "library")]
#[test]
fn before_all_others() {
    use glow_tests::case::check_no_such_machine;
    for defects in all_defects().into_iter().map(|d| vec![d]).chain([vec![]]) {
        let (prelude, file) = build(&defects);
        let case = Case::new(Rules::First, &file, 5, Lengths::of(30, 5, 20, 20, 20)).with(&prelude);
        for machine in [2, 3, 256, u32::MAX] { for report_len in [0, 11, 12] { check_no_such_machine(&Case { report_len, ..case.clone() }, machine); } }
        for rules in BOTH { for report_len in [0, 1, 11, 12, 13] { Case { rules, report_len, ..case.clone() }.check(); } }
    }
}

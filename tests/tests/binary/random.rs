//! Random terms and bits, seeded: sound and damaged, f as it was and another, rooms around what is needed, reports of all lengths, garbage
//! in the output, null pointers to what is empty.
use crate::Kinds;
use glow_tests::binary::fitted;
use glow_tests::exchange::{Exchange, Given};
use glow_tests::flat::canonical;
use glow_tests::painted::with_large_stack;
use glow_tests::prng::Prng;
use glow_tests::random;

/// Some calls, with the second implementation's answer, which is given back.
fn calls(r: &mut Prng, given: Given, kinds: &mut Kinds) -> Result<Vec<u8>, u8> {
    let answer = given.answer();
    let need = answer.as_ref().map_or(20, Vec::len);
    for _ in 0..4 {
        let room = match r.below(8) { 0 => 0, 1 | 2 => need - 1, 3 | 4 => need, 5 => r.below(need), _ => need + r.below(40) };
        let garbage = match r.below(8) { 0 => 0, 1 => 1, 2 => 2, _ => r.next() };
        let report_len = match r.below(20) { 0 => r.below(2), 1 => 3, 2 => 5, 3 => 12, _ => 2 };
        Exchange { given, room, report_len, garbage, nulls: r.one_in(2) }.check_against(&answer);
        kinds.count(&fitted(&answer, room));
    }
    answer
}

/// The f of an import: as a rule the file's, else one around it, at its limit, or one that 16 bits would take for it.
fn free_names(r: &mut Prng, f: u32) -> u32 {
    match r.below(16) { 0 => f.saturating_sub(1), 1 => f + 1, 2 => 0, 3 => 16_384, 4 => 16_385, 5 => f + 65_536, 6 => r.next() as u32, _ => f }
}

fn cases(seed: u64, terms: usize) {
    let mut r = Prng(seed);
    let (mut exported, mut imported) = (Kinds::default(), Kinds::default());
    let (mut back, mut again) = (0, 0);
    for _ in 0..terms {
        let (f, term) = random::term(&mut r);
        // longer ones than this are in `limits`
        if term.len() > 16_384 || f > 100 && term.len() > 200 { continue; }
        let file = canonical(f, &term).file();
        let bits = calls(&mut r, Given::File(&file), &mut exported).expect("a sound file");
        assert_eq!(calls(&mut r, Given::Bits(&bits, f as u32), &mut imported).as_ref(), Ok(&file));
        back += 1;
        let mut damaged = file;
        random::damage(&mut r, &mut damaged);
        let _ = calls(&mut r, Given::File(&damaged), &mut exported);
        let mut damaged = bits;
        for _ in 0..r.between(0, 2) { random::damage_bits(&mut r, &mut damaged); }
        let g = free_names(&mut r, f as u32);
        let unlike: Vec<u8> = (0..r.below(12)).map(|_| r.next() as u8).collect();
        for bits in [damaged, unlike] {
            let Ok(file) = calls(&mut r, Given::Bits(&bits, g), &mut imported) else { continue };
            assert_eq!(calls(&mut r, Given::File(&file), &mut exported), Ok(bits));
            again += 1;
        }
    }
    println!("seed {seed}: {back} terms there and back, {again} accepted bits back and there; exports: {}; imports: {}", exported.told(), imported.told());
    exported.all_came(&[0, 1, 2, 3, 4, 5, 6, 7, 12], 10);
    imported.all_came(&[0, 2, 12, 14, 15, 16], 10);
    assert!(again > terms / 20);
}

fn scaled() -> usize { std::env::var("GLOW_RANDOM_TERMS").ok().and_then(|s| s.parse().ok()).unwrap_or(20_000) }

#[test] fn seed_1() { with_large_stack(|| cases(1, scaled())) }
#[test] fn seed_2() { with_large_stack(|| cases(2, scaled())) }

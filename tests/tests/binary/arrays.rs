//! What is done to the arrays: every room, reports of all lengths, null pointers, and that one refusal comes before another.
use crate::Kinds;
use glow_tests::exchange::{Exchange, Given};
use glow_tests::file::REFUSED_FILES;
use glow_tests::flat::from_text;
use glow_tests::marked::FF;

/// Bits for each answer of an import, with f; the largest f is given with bits of each kind.
fn imports() -> Vec<(&'static [u8], u32, Result<(), u8>)> {
    vec![
        (&[0x20], 0, Ok(())), // λx. x
        (&[0x80], 1, Ok(())), // y
        (&[0x1A], 0, Ok(())), // λx. x x, which fills its byte
        (&[0x46, 0x74, 0x40], 1, Ok(())), // case f
        (&[0x20], 16_385, Err(2)),
        (&[], 16_385, Err(2)),
        (&[0x00], u32::MAX, Err(2)),
        (&[0xBF], 1 << 16, Err(2)), // with 16 bits this would be f = 0
        (&[0x21, 0x00], (1 << 16) + 1, Err(2)),
        (&[], 0, Err(14)),
        (&[], 16_384, Err(14)),
        (&[0x00], 0, Err(14)),       // four abstractions and no more
        (&[0xFF], 0, Err(14)),       // ones that go on
        (&[0x46], 1, Err(14)),       // case f's first byte
        (&[0x46, 0x74], 1, Err(14)), // and its second
        (&[0x06], 0, Err(14)),       // two abstractions, an application and its left part
        (&[0x1C], 1, Err(14)),       // an abstraction, an application, its left part, and the first half of a node
        (&[0x21], 0, Err(15)),
        (&[0x2F], 0, Err(15)),
        (&[0xBF], 1, Err(15)),
        (&[0x20, 0x00], 0, Err(15)),
        (&[0x20, 0x20], 0, Err(15)),
        (&[0x1A, 0x00], 0, Err(15)), // behind a term that ends with its byte
        (&[0x1A, 0x01], 0, Err(15)),
        (&[0x80], 0, Err(16)),
        (&[0xBF], 0, Err(16)), // before the padding is looked at
        (&[0x80, 0x00], 0, Err(16)),
        (&[0x60], 0, Err(16)), // an application of it, which the bits end inside
        (&[0x30], 0, Err(16)), // under an abstraction, one too far out
        (&[0xC0], 1, Err(16)),
    ]
}

fn exports() -> Vec<(Vec<u8>, Result<(), u8>)> {
    let accepted = [(0, "l0 v0"), (1, "v0"), (0, "l0 a1 v0 v0"), (1, FF), (40, "a1 v39 l40 v0")].map(|(f, text)| (from_text(f, text).file(), Ok(())));
    let refused = REFUSED_FILES.into_iter().zip(1..).map(|(file, n)| (file.to_vec(), Err(n)));
    accepted.into_iter().chain(refused).chain([(vec![], Err(1))]).collect()
}

/// Every room from none to more than is needed, every length of report, and every way to lend.
fn every_way(given: Given, right: Result<(), u8>, kinds: &mut Kinds) -> u64 {
    let answer = given.answer();
    assert_eq!(answer.as_ref().map(|_| ()).map_err(|n| *n), right, "{given:?}");
    let mut calls = 0;
    for room in 0..answer.as_ref().map_or(12, |bytes| bytes.len() + 6) {
        kinds.count(&glow_tests::binary::fitted(&answer, room));
        for report_len in [0, 1, 2, 3, 5, 12] {
            for garbage in [0, 1, 2, 99] {
                let case = Exchange { report_len, garbage, ..Exchange::new(given, room) };
                case.check_against(&answer);
                case.nulls().check_against(&answer);
                calls += 2;
            }
        }
    }
    calls
}

#[test]
fn every_room_and_report() {
    let (mut imported, mut exported) = (Kinds::default(), Kinds::default());
    let mut calls = 0;
    for (bits, f, right) in imports() { calls += every_way(Given::Bits(bits, f), right, &mut imported); }
    for (file, right) in exports() { calls += every_way(Given::File(&file), right, &mut exported); }
    println!("{calls} calls; of the rooms, import: {}; export: {}", imported.told(), exported.told());
    imported.all_came(&[0, 2, 12, 14, 15, 16], 10);
    exported.all_came(&[0, 1, 2, 3, 4, 5, 6, 7, 12], 10);
}

/// Lengths that would look another way if only 16 of their bits were read.
#[test]
fn lengths_beyond_sixteen_bits() {
    for (given, length) in [(Given::Bits(&[0x20], 0), 10), (Given::File(&[0, 0, 2, 0, 1, 0, 0, 0, 0, 0]), 1)] {
        let answer = given.answer();
        for room in [65_535, 65_536, 65_536 + length - 1, 65_536 + length, 131_072, 1 << 24] { Exchange::new(given, room).check_against(&answer); }
        for report_len in [65_535, 65_536, 65_537, 65_538, 131_072] { Exchange { report_len, ..Exchange::new(given, length) }.check_against(&answer); }
    }
    for spare in [1, 65_535, 65_536, 131_072, 1 << 20] {
        let mut bits = vec![0x20];
        bits.resize(1 + spare, 0);
        assert_eq!(Given::Bits(&bits, 0).check(), Err(15));
        let mut file = from_text(0, "l0 v0").file();
        file.resize(10 + spare, 0);
        assert_eq!(Given::File(&file).check(), Err(3));
    }
}

/// The wrapper's refusals have their numbers, and go there and back.
#[cfg(feature = "library")]
#[test]
fn the_wrapper() {
    use glow::ExchangeRefusal::{self, *};
    for (bits, f, _) in imports() { glow_tests::exchange::check_wrapper(Given::Bits(bits, f), &Given::Bits(bits, f).answer()); }
    for (file, _) in exports() { glow_tests::exchange::check_wrapper(Given::File(&file), &Given::File(&file).answer()); }
    let numbers: Vec<u64> = (0..20).chain([1 << 8, (1 << 32) + 12]).filter(|&n| ExchangeRefusal::of(n).is_some()).collect();
    assert_eq!(numbers, [1, 2, 3, 4, 5, 6, 7, 12, 14, 15, 16]);
    for n in numbers { assert_eq!(u64::from(ExchangeRefusal::of(n).unwrap().number()), n); }
    assert_eq!([Output, BitsTooShort, Padding, BitsLimits].map(ExchangeRefusal::number), [12, 14, 15, 16]);
    assert_eq!(ExchangeRefusal::of(2), Some(File(glow::FileRefusal::Limits)));
    assert_eq!(glow::MOST_IMPORTED, 49_156);
}

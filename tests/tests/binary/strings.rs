//! All short bit strings.
use crate::Kinds;
use glow_tests::binary::{read, unpacked};
use glow_tests::exchange::{Exchange, Given};

/// The closed terms of 0 bits, of 1 and so on, counted: sequence A114852 of the On-Line Encyclopedia of Integer Sequences.
const CLOSED: [u64; 20] = [0, 0, 0, 0, 1, 0, 1, 1, 2, 1, 6, 5, 13, 14, 37, 44, 101, 134, 298, 431];

/// All bit strings to 18 bits, padded with zeros, and all of one or two bytes, so that each padding of these is among them.
fn strings() -> impl Iterator<Item = Vec<u8>> {
    let one = (0..=255).map(|x| vec![x]);
    let two = (0..=u16::MAX).map(|x| x.to_be_bytes().to_vec());
    let three = two.clone().flat_map(|x| [0x00, 0x40, 0x80, 0xC0].map(|last| [&x[..], &[last]].concat()));
    std::iter::once(vec![]).chain(one).chain(two).chain(three)
}

/// An accepted string with another padding, or with a spare byte, is refused.
fn spoilt(string: &[u8], padding: usize, f: u32, kinds: &mut Kinds) {
    let (last, front) = string.split_last().unwrap();
    let padded = (1..1u8 << padding).map(|other| [front, &[last | other]].concat());
    let longer = [&[0x00][..], &[0x01], &[0x80], &[0xFF], &[0, 0], &[0, 1]].map(|spare| [string, spare].concat());
    for string in padded.chain(longer) {
        let answer = Given::Bits(&string, f).check();
        assert_eq!(answer, Err(15));
        kinds.count(&answer);
    }
}

fn all_with(f: u32) {
    let (mut kinds, mut spoilt_kinds) = (Kinds::default(), Kinds::default());
    let mut of_length = [0; CLOSED.len()];
    for (at, string) in strings().enumerate() {
        let given = Given::Bits(&string, f);
        let answer = given.answer();
        kinds.count(&answer);
        if answer.is_err() { Exchange::new(given, at % 2 * 30).garbage(at as u64).check_against(&answer); continue; }
        let file = given.check().unwrap();
        assert_eq!(Given::File(&file).check().as_ref(), Ok(&string));
        let bits = unpacked(&string);
        let padding = read(&bits, f as usize).unwrap().1.len();
        of_length[bits.len() - padding] += 1;
        spoilt(&string, padding, f, &mut spoilt_kinds);
    }
    println!("f = {f}: all bit strings to 18 bits, and all to two bytes: {}; of these spoilt: {}", kinds.told(), spoilt_kinds.told());
    println!("f = {f}: terms of 0, 1, .. bits: {of_length:?}");
    kinds.all_came(&[0, 14, 15, 16], 1000);
    // a term's last bits are a 1 and a 0, so that with 18 bits and padding all terms of 19 bits are there too
    if f == 0 { assert_eq!(of_length, CLOSED); }
}

#[test] fn closed() { all_with(0) }
#[test] fn one_free_name() { all_with(1) }
#[test] fn two_free_names() { all_with(2) }
#[test] fn three_free_names() { all_with(3) }

//! The limits: 16,384 nodes, f and the free names below it, runs of ones, and the longest export.
use crate::there_and_back;
use glow_tests::binary::{export, most_bits, packed, MOST_EXPORTED};
use glow_tests::exchange::{Exchange, Given};
use glow_tests::families::{left_nested, right_nested};
use glow_tests::file::MOST;
use glow_tests::flat::{canonical, l, Flat};
use glow_tests::painted::with_large_stack;

type Bits = Vec<bool>;

/// The variable that is bound k abstractions out.
fn variable(k: usize) -> Bits { let mut bits = vec![true; k + 1]; bits.push(false); bits }
fn abstractions(n: usize) -> Bits { vec![false; 2 * n] }
const APPLICATION: [bool; 2] = [false, true];

/// A shape's name, the nodes of one turn of it, and the bits of so many turns and a last variable.
type Shape = (&'static str, usize, fn(usize) -> Bits);

/// No name in these is free but 0.
const SHAPES: [Shape; 6] = [
    ("abstractions", 1, |turns| [abstractions(turns), variable(0)].concat()),
    ("the outermost of abstractions", 1, |turns| [abstractions(turns), variable(turns.saturating_sub(1))].concat()),
    ("applications nested on the left", 2, |turns| [APPLICATION.repeat(turns), variable(0).repeat(turns + 1)].concat()),
    ("applications nested on the right", 2, |turns| [[&APPLICATION[..], &variable(0)].concat().repeat(turns), variable(0)].concat()),
    ("abstractions in right parts", 3, |turns| [[&APPLICATION[..], &variable(0), &abstractions(1)].concat().repeat(turns), variable(0)].concat()),
    ("identities", 3, |turns| [[&APPLICATION[..], &abstractions(1), &variable(0)].concat().repeat(turns), variable(0)].concat()),
];

fn import(bits: &[bool], f: u32) -> Result<Vec<u8>, u8> { Given::Bits(&packed(bits), f).check() }

/// Each shape with as many nodes as one may have, filled up with abstractions, and with one more.
#[test]
fn nodes() {
    with_large_stack(|| {
        for (name, each, shape) in SHAPES {
            let turns = (MOST - 1) / each;
            let filling = MOST - 1 - each * turns;
            let right = |more: usize| [abstractions(more), shape(turns)].concat();
            let file = import(&right(filling), 1).unwrap_or_else(|n| panic!("{name}: refused {n}"));
            assert_eq!((file.len(), file[2..4] == (MOST as u16).to_le_bytes()), (4 + 3 * MOST, true), "{name}");
            there_and_back(&file);
            for more in 1..4 { assert_eq!(import(&right(filling + more), 1), Err(16), "{name}"); }
            println!("{name}: {MOST} nodes in {} bits", right(filling).len());
        }
    })
}

/// Each shape at the edges of 64 and 1,024 nodes, and with all bits of 16 and 256 bytes: there the library's arrays change.
#[test]
fn sizes_of_arrays() {
    with_large_stack(|| {
        for (name, each, shape) in SHAPES {
            for most in [64, 1024] {
                for nodes in most - 2..most + 3 {
                    let turns = (nodes - 1) / each;
                    let bits = [abstractions(nodes - 1 - each * turns), shape(turns)].concat();
                    let file = import(&bits, 1).unwrap_or_else(|n| panic!("{name}: refused {n}"));
                    assert_eq!(file.len(), 4 + 3 * nodes, "{name}");
                    there_and_back(&file);
                }
                for bytes in [most / 4 - 1, most / 4, most / 4 + 1] {
                    assert_eq!(Given::Bits(&packed(&abstractions(4 * bytes)), 0).check(), Err(14));
                }
            }
        }
    })
}

/// 16 is tested at a node's last bit: where the bits end before that, it is 14. The bits end with their bytes.
#[test]
fn the_node_beyond() {
    with_large_stack(|| {
        let refused = |bytes: &[u8]| Given::Bits(bytes, MOST as u32).check().unwrap_err();
        // as many abstractions as there may be nodes, which end with a byte; then the one node more
        let full = packed(&abstractions(MOST));
        let with = |more: &[u8]| refused(&[&full[..], more].concat());
        assert_eq!(refused(&full), 14);
        assert_eq!((with(&[0x00]), with(&[0x3F]), with(&[0x40]), with(&[0x7F])), (16, 16, 16, 16));
        assert_eq!((with(&[0x80]), with(&[0xBF]), with(&[0xFE])), (16, 16, 16));
        assert_eq!((with(&[0xFF]), with(&[0xFF; 3000])), (14, 14));
        assert_eq!((with(&[0xFF, 0x00]), with(&[0xFF, 0xFF, 0x7F])), (16, 16));
        // the same with a byte's end inside the node more, which has two bits
        let halves = [abstractions(MOST - 2), APPLICATION.to_vec(), variable(7), vec![false]].concat();
        assert_eq!(halves.len() % 8, 0);
        let full = packed(&halves);
        let with = |more: &[u8]| refused(&[&full[..], more].concat());
        assert_eq!(refused(&full), 14);
        assert_eq!((with(&[0x00]), with(&[0x80]), with(&[0xFF])), (16, 16, 16));
        // one node fewer, and the same bits are the last node's
        let right = [abstractions(MOST - 3), APPLICATION.to_vec(), variable(7), variable(9)].concat();
        assert_eq!(import(&right, 0).map(|file| file.len()), Ok(4 + 3 * MOST));
    })
}

/// f itself, with bits that are accepted, refused or none.
#[test]
fn free_names() {
    with_large_stack(|| {
        for (bits, small) in [(&[0x20][..], Ok(10)), (&[0x80], Ok(7)), (&[], Err(14)), (&[0xFF], Err(14)), (&[0x20, 0], Err(15)), (&[0x83], Err(15))] {
            for f in [1, 2, 255, 256, 16_383, 16_384] { assert_eq!(Given::Bits(bits, f).check().map(|file| file.len()), small); }
            for f in [16_385, 16_386, 32_767, 32_768, 65_535, 65_536, 65_537, 1 << 31, u32::MAX - 1, u32::MAX] { assert_eq!(Given::Bits(bits, f).check(), Err(2)); }
        }
        // the last free name and the one behind it, with no abstraction around them and with many
        for m in [0, 1, 2, 3, 100, 255, 256, 16_000, 16_383] {
            for f in [0, 1, 2, 100, 255, 256, 16_000, 16_383, 16_384] {
                let at = |k: usize| import(&[abstractions(m), variable(k)].concat(), f as u32);
                assert_eq!(at(m + f), Err(16), "{m} abstractions, f = {f}");
                if m + f == 0 { continue; }
                let file = at(m + f - 1).unwrap();
                let last = u16::from_le_bytes([file[file.len() - 2], file[file.len() - 1]]) as usize;
                assert_eq!(last, if f > 0 { f - 1 } else { 0 });
            }
        }
    })
}

/// Ones, many more than any index has; a count of 16 bits would come round to a small one.
#[test]
fn runs_of_ones() {
    with_large_stack(|| {
        let f = MOST as u32;
        for bytes in [1, 2, 3, 255, 256, 2047, 2048, 2049, 4096, 8191, 8192, 8193, 1 << 20] {
            let ones = vec![0xFF; bytes];
            assert_eq!(Given::Bits(&ones, f).check(), Err(14));
            assert_eq!(Given::Bits(&[&ones[..], &[0]].concat(), f).check().is_ok(), 8 * bytes <= MOST);
            assert_eq!(Given::Bits(&[&[0x00], &ones[..]].concat(), f).check(), Err(14));
        }
        for ones in [16_383, 16_384, 16_385, 32_767, 32_768, 32_769, 65_535, 65_536, 65_537, 65_538, 131_073, (1 << 20) + 1] {
            let right = if ones <= MOST { Ok(7) } else { Err(16) };
            assert_eq!(import(&variable(ones - 1), f).map(|file| file.len()), right, "{ones} ones");
            assert_eq!(import(&[abstractions(1), variable(ones)].concat(), f).map(|file| file.len()), right.map(|n| n + 3), "{ones} ones and one");
            assert_eq!(import(&[abstractions(1), variable(ones)].concat(), f - 1).is_ok(), ones < MOST, "{ones} ones and one");
        }
    })
}

/// More bits than a number of 32 bits can count: 2^32 ones and a few more, with a zero behind them and without.
#[cfg(feature = "library")]
#[test]
#[ignore = "takes 512 MiB, and 10 to 30 seconds"]
fn ones_beyond_32_bits() {
    let mut bits = Vec::with_capacity((1 << 29) + 1);
    bits.resize(1 << 29, 0xFF);
    let mut report = [0; 2];
    for (last, right) in [(&[][..], 14), (&[0x00], 16), (&[0x80], 16), (&[0xC0], 16), (&[0xFF], 14)] {
        bits.truncate(1 << 29);
        bits.extend(last);
        assert_eq!(glow::import_in(&bits, MOST as u32, &mut [0; 40], &mut report), glow::ExchangeStatus::Refused);
        assert_eq!(report, [right, 0]);
    }
}

/// Files with the most bits: all variables are the last free name.
fn longest() -> [(&'static str, Flat); 3] {
    let last = MOST as u32 - 1;
    [
        ("an abstraction over 8,191 applications nested on the left", l(9_000_000, left_nested(8191, last))),
        ("an abstraction over 8,191 applications nested on the right", l(9_000_000, right_nested(8191, last))),
        ("8,191 applications nested on the left", left_nested(8191, last)),
    ]
}

#[test]
fn the_longest_export() {
    let most = (0..MOST / 2).map(|a| most_bits(MOST, MOST, a)).max().unwrap();
    assert_eq!((most, most % 8), (8 * MOST_EXPORTED, 0));
    #[cfg(feature = "library")]
    assert_eq!(glow::MOST_EXPORTED, MOST_EXPORTED);
    with_large_stack(|| {
        for ((name, term), bytes) in longest().into_iter().zip([MOST_EXPORTED, MOST_EXPORTED, MOST_EXPORTED - 1024]) {
            let file = canonical(MOST, &term).file();
            let answer = export(&file);
            assert_eq!(answer.as_ref().map(Vec::len), Ok(bytes), "{name}");
            // 12 one byte short and with no room at all, and written where it just fits
            for room in [bytes, bytes - 1, 0] { Exchange::new(Given::File(&file), room).check_against(&answer); }
            let bits = answer.unwrap();
            Exchange::new(Given::Bits(&bits, MOST as u32), file.len()).check_against(&Ok(file));
            Exchange::new(Given::Bits(&bits[..bytes - 1], MOST as u32), 5).check_against(&Err(14));
            Exchange::new(Given::Bits(&bits, MOST as u32 - 1), 5).check_against(&Err(16));
            println!("{name}: {bytes} bytes");
        }
    })
}

/// The stack that the wrapper and glow.h tell is enough for the largest of each kind, and the wrapper sees to it on a small thread.
#[cfg(feature = "library")]
#[test]
fn stack() {
    use glow_tests::exchange::call;
    use glow_tests::families::nested_abstractions;
    use glow_tests::painted::on_stack;
    let thread = on_stack(1 << 20, || {});
    let mut most = 0;
    for term in [nested_abstractions(MOST - 1), left_nested(8191, 0), right_nested(8191, 0), l(9_000_000, left_nested(8191, 16_383))] {
        let file = canonical(MOST, &term).file();
        let mut bits = vec![0; MOST_EXPORTED];
        let mut report = [0; 2];
        let exporting = on_stack(1 << 20, || { assert_eq!(call(Given::File(&file), false, &mut bits, &mut report), 0); });
        bits.truncate(report[1] as usize);
        let mut back = vec![0; 4 + 3 * MOST];
        let importing = on_stack(1 << 20, || { assert_eq!(call(Given::Bits(&bits, MOST as u32), false, &mut back, &mut report), 0); });
        assert!(back[..report[1] as usize] == file);
        println!("{} bytes of stack for an export, {} for an import", exporting - thread, importing - thread);
        most = most.max(exporting).max(importing);
        let small = std::thread::Builder::new().stack_size(32 << 10).spawn(move || {
            assert!(glow::import_to_vec(&bits, MOST as u32).as_deref() == Ok(&file));
            assert!(glow::export_to_vec(&file).as_deref() == Ok(&bits));
        });
        small.unwrap().join().expect("on a small thread");
    }
    assert!(most - thread <= glow::STACK_FOR_AN_EXCHANGE, "{} bytes of stack", most - thread);
}

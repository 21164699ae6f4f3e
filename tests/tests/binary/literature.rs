//! Terms that are known from the literature on binary lambda calculus, written with indices as there: 1 is bound by the innermost abstraction.
use glow_tests::binary::{bits_of, packed};
use glow_tests::exchange::Given;
use glow_tests::flat::{canonical, Flat, F};

const BOUND: u32 = 1 << 20;

/// A term written with indices, from the front of the words, with m abstractions around it: applications up to a closing parenthesis or the end.
fn applied(words: &mut std::slice::Iter<&str>, m: u32) -> Flat {
    let mut term = Flat::new();
    while let Some(&word) = words.as_slice().first() {
        if word == ")" { break; }
        words.next();
        let part = match word {
            "λ" => { let mut body = vec![F::L(BOUND + m)]; body.extend(applied(words, m + 1)); body }
            "(" => { let part = applied(words, m); assert_eq!(words.next(), Some(&")")); part }
            index => { let index: u32 = index.parse().expect("an index"); vec![F::V(if index <= m { BOUND + m - index } else { index - m - 1 })] }
        };
        if !term.is_empty() { term.insert(0, F::A); }
        term.extend(part);
    }
    term
}

fn with_indices(text: &str) -> Flat {
    let text = text.replace('(', " ( ").replace(')', " ) ").replace('λ', " λ ");
    applied(&mut text.split_whitespace().collect::<Vec<_>>().iter(), 0)
}

const I: &str = "λ 1";
const K: &str = "λ λ 2";
const S: &str = "λ λ λ 3 1 (2 1)";
/// The self-interpreter of J. Tromp's "Binary Lambda Calculus and Combinatory Logic", of 232 bits.
const UNIVERSAL: &str = "(λ 1 1) (λ λ λ 1 (λ λ λ λ 3 (λ 5 (3 (λ 2 (3 (λ λ 3 (λ 1 2 3))) (4 (λ 4 (λ 3 1 (2 1)))))) (1 (2 (λ 1 2)) (λ 4 (λ 4 (λ 2 (1 4))) 5)))) (3 3) 2) (λ 1 ((λ 1 1) (λ 1 1)))";

const TERMS: [(&str, u32, &str, &str); 20] = [
    ("I", 0, I, "0010"),
    ("K, true", 0, K, "0000110"),
    ("K I, false, the numeral 0", 0, "λ λ 1", "000010"),
    ("S", 0, S, "00000001011110100111010"),
    ("self-application", 0, "λ 1 1", "00011010"),
    ("Ω", 0, "(λ 1 1) (λ 1 1)", "010001101000011010"),
    ("the numeral 1", 0, "λ λ 2 1", "00000111010"),
    ("the numeral 2", 0, "λ λ 2 (2 1)", "0000011100111010"),
    ("the numeral 3", 0, "λ λ 2 (2 (2 1))", "000001110011100111010"),
    ("successor", 0, "λ λ λ 2 (3 2 1)", "00000001110010111101 1010"),
    ("B, composition", 0, "λ λ λ 3 (2 1)", "0000000111100111010"),
    ("C, exchange", 0, "λ λ λ 3 1 2", "000000010111101 0110"),
    ("W", 0, "λ λ 2 1 1", "00000101110 1010"),
    ("pairing", 0, "λ λ λ 1 3 2", "000000010110 1110 110"),
    ("Y, with a self-application", 0, "λ (λ 1 1) (λ 2 (1 1))", "0001000110100001110011010"),
    ("Y, Curry's", 0, "λ (λ 2 (1 1)) (λ 2 (1 1))", "000100011100110100001110011010"),
    ("Θ, Turing's", 0, "(λ λ 1 (2 2 1)) (λ λ 1 (2 2 1))", "010000011001011101101000000110010111011010"),
    ("the universal machine", 0, UNIVERSAL, "0101000110100000000101011000000000011110000101111110011110000101110011110000001111000010110110111001111100001111100001011110100111010010110011100001101100001011111000011111000011100110111101111100111101110110000110010001101000011010"),
    ("y", 1, "1", "10"),
    ("case f: (λz. z (y z)) (λx. x)", 1, "(λ 1 (2 1)) (λ 1)", "0100 0110 0111010 0010"),
];

/// The bits give the term's file, and the file the bits, through the second implementation and the library.
#[test]
fn known_by_heart() {
    let mut bits = 0;
    for (name, f, text, shown) in TERMS {
        let string = bits_of(shown);
        let file = canonical(f as usize, &with_indices(text)).file();
        assert_eq!(Given::Bits(&packed(&string), f).check().as_ref(), Ok(&file), "{name}");
        assert_eq!(Given::File(&file).check(), Ok(packed(&string)), "{name}");
        bits += string.len();
    }
    assert_eq!(bits_of(TERMS[17].3).len(), 232);
    println!("{} terms of the literature, {bits} bits", TERMS.len());
}

/// What the terms are known for: from bits through the library to a normal form.
#[cfg(feature = "library")]
#[test]
fn known_for() {
    let mut stores = glow::Stores::glow();
    let s_k_k = format!("({S}) ({K}) ({K}) 1");
    for (text, f, result) in [
        (&s_k_k[..], 1, "v0"),
        ("(λ λ 1) 1 2", 2, "v1"),
        ("(λ λ 2) 1 2", 2, "v0"),
        ("(λ λ 2 (2 1)) (λ λ 2 (2 1)) 1 2", 2, "a1 v0 a1 v0 a1 v0 a1 v0 v1"),
        ("(λ λ λ 3 1 2) 1 2 3", 3, "a3 a1 v0 v2 v1"),
        ("(λ λ λ 3 (2 1)) 1 2 3", 3, "a1 v0 a1 v1 v2"),
        ("(λ λ λ 2 (3 2 1)) (λ λ 2 1) 1 2", 2, "a1 v0 a1 v0 v1"),
    ] {
        let bits = glow::export_to_vec(&canonical(f, &with_indices(text)).file()).unwrap();
        let file = glow::import_to_vec(&bits, f as u32).unwrap();
        for machine in [glow::Machine::First, glow::Machine::OnDemand] {
            let glow::Answer::Ran { outcome: glow::Outcome::Normal { term }, .. } = stores.evaluate(machine, &file, 1000) else { panic!("{text}") };
            assert_eq!(term.to_string(), result, "{text}");
        }
    }
}

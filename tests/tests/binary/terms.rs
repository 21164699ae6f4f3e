//! Both round trips, and what glow makes of an imported file.
use crate::there_and_back;
use glow_tests::enumerate::All;
use glow_tests::exchange::Given;
use glow_tests::families::small_members;
use glow_tests::file::check;
use glow_tests::flat::{canonical, Flat};
use glow_tests::process::examples;

/// A term's file is exported and comes back. Its bits do not depend on f; with one more free name they give the file that has one more,
/// and with one less that file, or 16 where the last name is in the term.
fn exchanged(f: usize, term: &Flat) {
    let file = canonical(f, term).file();
    let bits = there_and_back(&file);
    assert_eq!(Given::Bits(&bits, f as u32 + 1).check(), Ok(canonical(f + 1, term).file()));
    if f > 0 {
        let parsed = check(&file).unwrap();
        let named = (0..parsed.tags.len()).any(|k| parsed.tags[k] == 0 && parsed.args[k] as usize == f - 1);
        let fewer = Given::Bits(&bits, f as u32 - 1).check();
        assert_eq!(fewer, if named { Err(16) } else { Ok(canonical(f - 1, term).file()) });
    }
}

fn all_of(f: usize, most: usize) {
    let mut all = All::default();
    let mut terms = 0;
    for n in 1..=most { for term in all.terms(f, n).iter() { exchanged(f, term); terms += 1; } }
    println!("f = {f}: all {terms} terms to {most} nodes, there and back");
    assert!(terms > 10_000);
}

#[test] fn closed() { all_of(0, 11) }
#[test] fn one_free_name() { all_of(1, 10) }
#[test] fn two_free_names() { all_of(2, 9) }
#[test] fn three_free_names() { all_of(3, 8) }

/// The families of source document 000 and the examples: their files, and the names that they are printed with.
fn known() -> Vec<(String, Vec<u8>)> {
    let families = small_members().into_iter().map(|(name, f, term)| (name, canonical(f, &term).file()));
    families.chain(examples().into_iter().map(|path| (path.display().to_string(), std::fs::read(&path).unwrap()))).collect()
}

#[test]
fn known_terms() {
    for (_, file) in known() { there_and_back(&file); }
    println!("{} terms of the families and the examples, there and back", known().len());
}

/// The whole way through the library: what it exports it imports, and its answer is that of the second implementation on the first file.
#[cfg(feature = "library")]
#[test]
fn evaluated() {
    use glow_tests::case::told;
    use glow_tests::exchange::check_wrapper;
    use glow_tests::machine::{evaluate, Lengths, BOTH, GLOW_BUDGET};
    let mut stores = glow::Stores::glow();
    let mut normal = 0;
    for (name, file) in known() {
        let f = u16::from_le_bytes([file[0], file[1]]);
        let bits = glow::export_to_vec(&file).unwrap();
        check_wrapper(Given::File(&file), &Ok(bits.clone()));
        check_wrapper(Given::Bits(&bits, f.into()), &Ok(file.clone()));
        for rules in BOTH {
            let answer = told(f.into(), stores.evaluate(rules.into(), &glow::import_to_vec(&bits, f.into()).unwrap(), GLOW_BUDGET));
            assert_eq!(answer, evaluate(rules, &file, GLOW_BUDGET, &Lengths::glow()), "{name}");
            if answer.kind() == 0 { normal += 1; }
        }
    }
    println!("{} terms evaluated from bits on both machines, {normal} times to a normal form", known().len());
    assert!(normal > 100);
}

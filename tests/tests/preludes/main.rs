//! Named definitions: both machines with a prelude beside the second implementation, and beside the plain run of the term with the
//! definitions put in.
mod empty;
mod extremes;
mod random;
mod refusals;
mod small;
mod worked;

use glow_tests::file::check;
use glow_tests::flat::{canonical, from_text, Canonical, Flat};
use glow_tests::machine::*;
use glow_tests::prelude::{encode, put_in};

/// A prelude and a term file.
struct Subject { prelude: Vec<u8>, file: Vec<u8> }

impl Subject {
    /// The definitions in their order, each with as many free names as there are before it, and the term with f of them.
    fn of(f: usize, definitions: &[Flat], term: &Flat) -> Subject {
        let definitions: Vec<Canonical> = definitions.iter().enumerate().map(|(k, t)| canonical(k, t)).collect();
        Subject::from(&definitions, &canonical(f, term))
    }

    fn texts(f: usize, definitions: &[&str], term: &str) -> Subject {
        let definitions: Vec<Canonical> = definitions.iter().enumerate().map(|(k, text)| from_text(k, text)).collect();
        Subject::from(&definitions, &from_text(f, term))
    }

    fn from(definitions: &[Canonical], term: &Canonical) -> Subject {
        Subject { prelude: encode(&definitions.iter().map(Canonical::file).collect::<Vec<_>>()), file: term.file() }
    }

    fn f(&self) -> usize { u16::from_le_bytes([self.file[0], self.file[1]]).into() }

    /// The file of the term with the definitions put in, where one holds it.
    fn put_in(&self) -> Option<Vec<u8>> {
        let (term, definitions) = glow_tests::prelude::read(&self.prelude, &self.file).expect("a sound prelude");
        let file = put_in(&term, &definitions)?.file();
        assert_eq!(check(&file).expect("a sound file").f, term.f);
        Some(file)
    }
}

/// Whether no store refuses either run, and that then they have the same outcome, betas and term.
fn agree(with: &Answer, plain: &Answer) -> bool {
    let (with, plain) = (with.run(), plain.run());
    if [with, plain].iter().any(|run| matches!(run.outcome, Outcome::Refused(_))) { return false; }
    assert_eq!((&with.outcome, with.counts.beta), (&plain.outcome, plain.counts.beta), "the run with the prelude, and that of the term with the definitions put in");
    true
}

/// How often each answer came, by `Answer::kind`.
#[derive(Default)]
struct Kinds([u64; 20]);

impl Kinds {
    fn count(&mut self, answer: &Answer) { self.0[answer.kind()] += 1; }
    fn cases(&self) -> u64 { self.0.iter().sum() }
    fn told(&self) -> String { format!("{} cases; normal {} spent {} refusals 1.. {:?} 17.. {:?}", self.cases(), self.0[0], self.0[14], &self.0[1..13], &self.0[17..]) }
}

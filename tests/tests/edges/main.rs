//! The library beside the second implementation where it goes another way by size or by shape: files and results about the sizes at which
//! another array is taken, copies of functions of every size that a loop over several nodes may end in, and names that are followed to the end
//! of a chain before anything is put. Each comparison is one of `Case` or `Exchange`, and is counted under what it is about.
mod copies;
mod files;
mod results;
mod shapes;

use glow_tests::case::Case;
use glow_tests::machine::{evaluate_with, Answer, Lengths, Outcome, Rules, Run};
use glow_tests::prelude::NONE;
use std::collections::BTreeMap;

/// How many comparisons were made, and how many of each class; one may be of several.
#[derive(Default)]
struct Compared { all: u64, classes: BTreeMap<String, u64> }

impl Compared {
    /// A comparison that was made is of this class.
    fn of(&mut self, class: impl Into<String>) { *self.classes.entry(class.into()).or_default() += 1; }

    /// Compares, and counts it. Panics on a difference.
    fn check(&mut self, case: Case) -> Answer { self.all += 1; case.check() }

    /// The same for a file whose refusal the second implementation has told.
    fn refused(&mut self, case: Case, number: u8) { self.all += 1; case.check_against(&Answer::FileRefused(number)); }

    /// That each of these classes has come. With GLOW_CLASSES set in the environment the count of each is printed.
    fn came<T: AsRef<str>>(&self, what: &str, classes: impl IntoIterator<Item = T>) {
        if std::env::var("GLOW_CLASSES").is_ok() { for (class, count) in &self.classes { println!("{what}: {count:7} {class}"); } }
        let mut fewest = (u64::MAX, String::new());
        for class in classes {
            let count = self.classes.get(class.as_ref()).copied().unwrap_or(0);
            assert!(count > 0, "{what}: nothing was compared of: {}", class.as_ref());
            if count < fewest.0 { fewest = (count, class.as_ref().into()); }
        }
        println!("{what}: {} comparisons of {} classes; the fewest, {}, of: {}", self.all, self.classes.len(), fewest.0, fewest.1);
    }
}

/// In betas: a term by chance may go on for ever.
const BUDGET: u32 = 25;

/// A term file, with a prelude or none.
struct Program { prelude: Option<Vec<u8>>, file: Vec<u8> }

impl Program {
    fn case(&self, rules: Rules, lengths: Lengths) -> Case<'_> {
        let case = Case::new(rules, &self.file, BUDGET, lengths);
        match &self.prelude { Some(prelude) => case.with(prelude), None => case }
    }

    /// The second implementation's answer with the largest stores.
    fn full(&self, rules: Rules) -> Answer { evaluate_with(rules, self.prelude.as_deref().unwrap_or(NONE), &self.file, BUDGET, &Lengths::largest()) }
}

/// What a run takes, and nothing more: of the nodes, cells and names, and for the result.
fn just(run: &Run) -> Lengths {
    let (g, written) = (&run.figures, match &run.outcome { Outcome::Normal(term) => term.tags.len(), _ => 0 });
    Lengths::of(g.nodes as usize, g.cells as usize, g.names as usize, g.names as usize, written)
}

/// Longer by so many elements in each array.
fn longer(l: Lengths, by: usize) -> Lengths {
    Lengths {
        tags: l.tags + by, args: l.args + by, codes: l.codes + by, owns: l.owns + by, nexts: l.nexts + by,
        places: l.places + by, renumber: l.renumber + by, out_tags: l.out_tags + by, out_args: l.out_args + by,
    }
}

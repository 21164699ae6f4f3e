//! Evaluates a term with named definitions. `prelude PRELUDE TERM` takes a prelude and a term file, as tools/terms makes them of texts; it
//! writes the normal form to standard output, as a term file that tools/terms shows, and how the run went to standard error.
use glow::{Answer, Machine, Outcome, Stores};
use std::error::Error;
use std::io::Write;

fn main() -> Result<(), Box<dyn Error>> {
    let paths: Vec<String> = std::env::args().skip(1).collect();
    let [prelude, file] = &paths[..] else { return Err("two files are wanted, a prelude and a term file".into()) };
    let (prelude, file) = (std::fs::read(prelude)?, std::fs::read(file)?);
    match Stores::glow().evaluate_with(Machine::First, &prelude, &file, 1_000_000) {
        Ok(Answer::Ran { outcome: Outcome::Normal { term }, report }) => {
            eprintln!("normal, beta {}, store {} {} {}", report.beta, report.nodes, report.cells, report.names);
            let f = u16::from_le_bytes([file[0], file[1]]);
            Ok(std::io::stdout().write_all(&term.to_file(f))?)
        }
        Ok(other) => Err(format!("no normal form: {other:?}").into()),
        Err(why) => Err(format!("the prelude is refused by {}", why.number()).into()),
    }
}

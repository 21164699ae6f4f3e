//! Evaluates (\x. x x) y, written in the term file's own bytes.
use glow::{Answer, Machine, Outcome, Stores};

fn main() {
    let file = [1, 0, 6, 0, 2, 1, 2, 0, 0, 0, 4, 0, 1, 0, 1, 0, 1, 0, 1, 0, 0, 0];
    match Stores::glow().evaluate(Machine::First, &file, 1_000_000) {
        Answer::Ran { outcome: Outcome::Normal { term }, report } => println!("{term}, beta {}", report.beta),
        other => println!("{other:?}"),
    }
}

//! The program glow by the second implementation: a term file on standard input, the answer in text. With a FILE, which the program does
//! not take: the term with the definitions of this prelude.
use glow_tests::machine::{evaluate_with, printed, Lengths, Rules, GLOW_BUDGET};
use glow_tests::prelude::NONE;
use std::io::Read;

fn main() {
    let prelude = std::env::args().nth(1).map_or(NONE.to_vec(), |path| std::fs::read(path).expect("a prelude"));
    let mut file = Vec::new();
    std::io::stdin().take(49_157).read_to_end(&mut file).expect("standard input");
    print!("{}", printed(&evaluate_with(Rules::First, &prelude, &file, GLOW_BUDGET, &Lengths::glow())));
}

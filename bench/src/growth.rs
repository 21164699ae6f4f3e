//! What t_n of proposition 3 takes, steps and memory, the old way against the library's first machine.
//!
//! Memory is what the nodes, cells and names taken by a run amount to, by one measure for both sides: `old::bytes`. The
//! old way goes on to the first n where it fills `MEMORY`, the library to `LAST`. `picture.py` draws what is printed here.
use glow_tests::families::open_explosion;
use glow_tests::flat::canonical;
use old::{bytes, End, Machine};

/// The bytes that the old way may take: 1 GiB.
const MEMORY: u64 = 1 << 30;
const LAST: usize = 40;

pub fn table() {
    println!("t_n of proposition 3; bytes: 3 for each node taken, 6 for each cell and 2 for each name, on both sides");
    println!("the old way, which copies stuck applications, is full where its next step would take it past {MEMORY} bytes");
    println!("{:2} | {:28} | the old way", "", "the library");
    println!("{:>2} | {:>4} {:>5} {:>5}  {:10} | {:>4} {:>9} {:>10}  end", "n", "beta", "steps", "bytes", "end", "beta", "steps", "bytes");
    let mut own_where_full = None;
    for n in 0..=LAST {
        let file = canonical(1, &open_explosion(n)).file();
        let ours = library_columns(n, &file);
        let theirs = match own_where_full {
            None => { let (columns, own) = old_columns(n, &file); own_where_full = own; columns }
            Some(_) => format!("{:>4} {:>9} {:>10}  -", "-", "-", "-"),
        };
        println!("{n:2} | {ours} | {theirs}");
    }
    if let Some(own) = own_where_full { println!("where it is full, the old way's own arrays, which are of 32-bit numbers, have {own} bytes"); }
}

/// The library ends at the normal form, and refuses to write it where it is longer than the output.
fn library_columns(n: usize, file: &[u8]) -> String {
    let glow::Answer::Ran { outcome, report } = glow::Stores::largest().evaluate(glow::Machine::First, file, crate::AMPLE) else { panic!("t_{n} is refused") };
    assert_eq!(report.beta, n as u64);
    let end = match outcome {
        glow::Outcome::Normal { .. } => "normal",
        glow::Outcome::Refused(glow::Refusal::Output) => "refused 12",
        other => panic!("t_{n}: {other:?}"),
    };
    format!("{:4} {:5} {:5}  {end:10}", report.beta, report.steps(), bytes(report.nodes, report.cells, report.names))
}

/// The old way's columns and, where it is full, the bytes of its own arrays.
fn old_columns(n: usize, file: &[u8]) -> (String, Option<u64>) {
    let mut machine = Machine::load(file);
    let end = machine.run(MEMORY);
    let word = match end { End::Normal => "normal", End::Full => "full" };
    if end == End::Normal { assert_eq!(machine.counts.beta, n as u64); }
    let columns = format!("{:4} {:9} {:10}  {word}", machine.counts.beta, machine.counts.steps(), machine.bytes());
    (columns, (end == End::Full).then(|| machine.own_bytes()))
}

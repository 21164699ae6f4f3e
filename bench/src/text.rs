//! The text that the program writes: calls of `write`, and bytes per second.
//!
//! A run is a process from its start to its end, with a file for its input and a file for its output. A time is the best
//! of `RUNS`. An empty input, of which nothing is run, shows what of a time is the process.
use glow_tests::families::*;
use glow_tests::flat::*;
use glow_tests::process::{file_of, program, run};
use std::process::Command;
use std::time::Instant;

const RUNS: usize = 200;

pub fn table() {
    println!("the program, as a process; microseconds per run; millions of bytes of text per second, of the whole run and of what it takes longer than an empty input does");
    println!("{:42} {:>7} {:>7} | {:>8} | {:>8} {:>8}", "", "bytes", "writes", "run", "MB/s", "MB/s");
    let none = row("an empty input", &[], 0.0);
    for (name, free, term) in [
        ("t_13: 16383 nodes", 1, open_explosion(13)),
        ("16383 abstractions", 0, nested_abstractions(16_383)),
        ("16383 abstractions, f = 16384", 16_384, nested_abstractions(16_383)),
        ("8191 applications to the left", 1, left_nested(8191, Y)),
        ("8191 applications to the right, f = 16384", 16_384, right_nested(8191, 16_383)),
    ] {
        row(name, &canonical(free, &term).file(), none);
    }
}

/// Prints the row of a file, and returns the seconds of a run.
fn row(name: &str, file: &[u8], none: f64) -> f64 {
    let program = program();
    let pieces = run(Command::new(&program).stdin(file_of(file))).out;
    let (writes, bytes) = (pieces.len(), pieces.concat().len());
    let mut best = f64::MAX;
    for _ in 0..RUNS {
        let (input, output) = (file_of(file), file_of(&[]));
        let start = Instant::now();
        Command::new(&program).stdin(input).stdout(output).status().expect("the program runs");
        best = best.min(start.elapsed().as_secs_f64());
    }
    let speed = |seconds: f64| bytes as f64 / seconds / 1e6;
    println!("{name:42} {bytes:7} {writes:7} | {:8.0} | {:8.1} {:>8}", best * 1e6, speed(best), if none == 0.0 { "-".into() } else { format!("{:.1}", speed(best - none)) });
    best
}

//! Instructions of a call, counted by valgrind's callgrind.
//!
//! Callgrind counts a whole process. So it runs this program again as a child that does nothing but
//! make calls of four kinds on one file: once with one call of each kind, and then, for each kind,
//! with `MORE` calls more of it. The difference is those calls alone: start-up, and the first call
//! on new stores, are in both counts. Of a long call only the first is made and counted, beside none.
use crate::{families, library_call, machines, plain_call, Arrays, Case, Family, Machine, ALL, RUN};
use std::io::{Read, Write};
use std::process::{Command, Stdio};
use std::time::Instant;

const MORE: u64 = 5;
/// A call of the plain machine that takes more seconds than this is long.
const LONG: f64 = 0.001;
/// Callgrind counts a repeated string instruction once for each byte, a processor once. With these
/// settings glibc clears and copies long stretches by vector instructions, which both count alike.
const NO_STRING_INSTRUCTIONS: &str = "glibc.cpu.x86_rep_stosb_threshold=1000000000:glibc.cpu.x86_rep_movsb_threshold=1000000000";

/// Calls of each kind: the library's with the result and without, the plain machine's with it and without.
type Calls = [u64; 4];

/// Says why not, if not.
pub fn can_be_counted() -> bool {
    let valgrind = Command::new("valgrind").arg("--version").output().is_ok();
    if !cfg!(feature = "library") { println!("instructions are counted beside the library, and this benchmark is built without it"); }
    else if !valgrind { println!("valgrind is not there: no instructions are counted"); }
    cfg!(feature = "library") && valgrind
}

/// A case with the instructions of a call of each kind.
pub struct Counted { pub case: Case, pub per_call: [f64; 4] }

/// The table of each machine and, where there are two, what the library does on both.
pub fn tables(machines: &[Machine]) {
    if !can_be_counted() { return; }
    let mut counted = Vec::new();
    for (k, &machine) in machines.iter().enumerate() {
        if k > 0 { println!(); }
        counted.push(table(machine));
    }
    if let [first, on_demand] = &counted[..] {
        println!();
        machines::table(first, on_demand);
    }
}

fn table(machine: Machine) -> Vec<Counted> {
    println!("{}largest stores, made once, NOT cleared between calls; instructions executed, by callgrind, of a call with load and check of the file; all: with the result written, run: all steps and no result", machine.heading());
    println!("{:42} {:>6} {:10} | {:^39} | {:^35} | {:^11}", "", "", "", "per call", "per step", "lib / plain");
    println!("{:42} {:>6} {:10} | {:>9} {:>9} {:>9} {:>9} | {:>8} {:>8} {:>8} {:>8} | {:>5} {:>5}", "", "steps", "end",
        "lib all", "lib run", "pl. all", "pl. run", "lib all", "lib run", "pl. all", "pl. run", "all", "run");
    let s = &mut Arrays::largest();
    let mut rows = Vec::new();
    for family in families() {
        for n in counted_sizes(&family) {
            let case = Case::new(s, machine, &family, n);
            rows.push(row(s, case));
        }
    }
    rows
}

/// The first, the middle and the last size, as counting takes long.
fn counted_sizes(family: &Family) -> Vec<usize> {
    let sizes = family.sizes;
    let mut counted = vec![sizes[0], sizes[sizes.len() / 2], sizes[sizes.len() - 1]];
    counted.dedup();
    counted
}

fn row(s: &mut Arrays, case: Case) -> Counted {
    let per_call = instructions_per_call(s, &case);
    let steps = case.steps();
    let [la, lr, pa, pr] = per_call;
    let [la_step, lr_step, pa_step, pr_step] = per_call.map(|i| if steps == 0 { "-".to_string() } else { format!("{:.1}", i / steps as f64) });
    println!("{:42} {steps:6} {:10} | {la:9.0} {lr:9.0} {pa:9.0} {pr:9.0} | {la_step:>8} {lr_step:>8} {pa_step:>8} {pr_step:>8} | {:5.2} {:5.2}",
        case.name, case.end(), la / pa, lr / pr);
    Counted { case, per_call }
}

/// The children count side by side, as what else is running changes no count.
fn instructions_per_call(s: &mut Arrays, case: &Case) -> [f64; 4] {
    let start = Instant::now();
    plain_call(s, case.machine, &case.file, ALL);
    let (few, more) = if start.elapsed().as_secs_f64() > LONG { (0, 1) } else { (1, MORE) };
    let [before, with @ ..] = std::thread::scope(|scope| {
        let child = |more_of: [u64; 4]| scope.spawn(move || count_calls(case, more_of.map(|n| few + n * more)));
        [[0, 0, 0, 0], [1, 0, 0, 0], [0, 1, 0, 0], [0, 0, 1, 0], [0, 0, 0, 1]].map(child).map(|child| child.join().expect("a count"))
    });
    with.map(|count| (count - before) as f64 / more as f64)
}

/// The instructions of a child that makes these calls on the case's file.
fn count_calls(case: &Case, calls: Calls) -> u64 {
    let mut words = vec!["--calls".to_string(), (case.machine as u32).to_string()];
    words.extend(calls.map(|n| n.to_string()));
    count(&words, &case.file)
}

/// The instructions of this program as a child with these words and this standard input.
pub fn count(words: &[String], input: &[u8]) -> u64 {
    let mut child = Command::new("valgrind").env("GLIBC_TUNABLES", NO_STRING_INSTRUCTIONS).args(["--tool=callgrind", "--callgrind-out-file=/dev/null"])
        .arg(std::env::current_exe().expect("the path of this program")).args(words)
        .stdin(Stdio::piped()).stderr(Stdio::piped()).spawn().expect("valgrind starts");
    child.stdin.take().expect("a pipe").write_all(input).expect("the child reads its input");
    let said = String::from_utf8_lossy(&child.wait_with_output().expect("valgrind ends").stderr).into_owned();
    said.lines().find_map(|line| line.split_once("Collected : ")?.1.trim().parse().ok()).unwrap_or_else(|| panic!("callgrind gave no count:\n{said}"))
}

/// The child: `--calls`, the machine's number, a number of calls for each kind, and the file at standard input.
pub fn make_calls(words: &[&str]) {
    let numbers: Vec<u64> = words.iter().map(|word| word.parse().expect("a number")).collect();
    let [machine, lib_all, lib_run, plain_all, plain_run] = numbers[..] else { panic!("--calls takes five numbers") };
    let machine = Machine::BOTH[machine as usize];
    let mut file = Vec::new();
    std::io::stdin().read_to_end(&mut file).expect("the file");
    let s = &mut Arrays::largest();
    for _ in 0..lib_all { library_call(s, machine, &file, ALL); }
    for _ in 0..lib_run { library_call(s, machine, &file, RUN); }
    for _ in 0..plain_all { plain_call(s, machine, &file, ALL); }
    for _ in 0..plain_run { plain_call(s, machine, &file, RUN); }
}

//! The manual's refusals, worked runs, worked preludes, worked imports, worked file and worked prelude, each tried.
use crate::{c_enum, c_enum_text, header, manual, need, number, read, same, table, Checked};
use glow_tests::binary::fitted;
use glow_tests::case::{told, told_with, Case};
use glow_tests::exchange::{check_wrapper, Exchange, Given};
use glow_tests::flat::from_text;
use glow_tests::machine::{evaluate_with_watched, Answer, Lengths, Outcome, Rules, Step, BOTH, GLOW_BUDGET};
use glow_tests::markdown::quoted;
use glow_tests::prelude::{encode, NONE};
use glow_tests::process::{file_of, program, root, run};
use std::process::Command;

/// The case that a crate's function `number` gives this number.
fn rattle_case(path: &str, n: usize) -> Option<String> {
    let end = format!(" => {n},");
    read(path).lines().find_map(|line| line.trim().strip_prefix("Refusal::")?.strip_suffix(&end).map(String::from))
}

/// The one number from 1 to 19 that is no refusal's.
const NOT_USED: usize = 13;

/// The names of a refusal in Rattle, C and Rust. The number that is not used has none.
fn right_names(n: usize) -> Result<[String; 3], String> {
    let (source, rust) = match n {
        1..=7 => ("crates/termfile/src/lib.rt", glow::FileRefusal::of(n as u64).map(|refusal| format!("{refusal:?}"))),
        8..=13 => ("crates/tally/src/lib.rt", glow::Refusal::of(n as u64).map(|refusal| format!("{refusal:?}"))),
        17..=19 => ("crates/prelude/src/lib.rt", glow::PreludeRefusal::of(n as u64).map(|refusal| format!("{refusal:?}"))),
        _ => ("crates/binary/src/lib.rt", glow::ExchangeRefusal::of(n as u64).map(|refusal| format!("{refusal:?}"))),
    };
    let c = c_enum(&header(), "glow_refusal").into_iter().find(|(_, k)| *k == n).map(|(name, _)| name);
    let names = [rattle_case(source, n), c, rust];
    need(names.iter().all(|name| name.is_some() == (n != NOT_USED)), || format!("the names of {n} in Rattle, C and Rust: {names:?}"))?;
    Ok(names.map(|name| name.map_or("–".into(), |name| format!("`{name}`"))))
}

/// Bytes in hexadecimal, which stand in backquotes.
fn hexadecimal(cell: &str) -> Result<Vec<u8>, String> {
    let bytes = quoted(cell).concat();
    bytes.split_whitespace().map(|b| u8::from_str_radix(b, 16)).collect::<Result<_, _>>().map_err(|why| format!("{bytes}: {why}"))
}

/// `cells 0`: glow's budget and stores, but for what is said.
fn calling(said: &[&str]) -> Result<(u32, Lengths), String> {
    let (mut budget, mut l) = (GLOW_BUDGET, Lengths::glow());
    for word in said.iter().filter(|word| !word.is_empty()) {
        let (what, n) = word.split_once(' ').ok_or(format!("{word:?} is not a store and its length"))?;
        let n = number(n)?;
        match what {
            "budget" => budget = n as u32,
            "nodes" => (l.tags, l.args) = (n, n),
            "cells" => (l.codes, l.owns, l.nexts) = (n, n, n),
            "names" => l.places = n,
            "renumber" => l.renumber = n,
            "output" => (l.out_tags, l.out_args) = (n, n),
            _ => return Err(format!("{what} is no store")),
        }
    }
    Ok((budget, l))
}

/// The answer of the library, through the wrapper, and of the second implementation, which have to be the same.
fn answered(rules: Rules, file: &[u8], budget: u32, l: Lengths) -> Result<Answer, String> {
    let mut stores = glow::Stores::new(l.tags, l.codes, l.places, l.renumber, l.out_tags);
    let f = file.get(..2).map_or(0, |two| u16::from_le_bytes([two[0], two[1]]) as usize);
    let answer = told(f, stores.evaluate(rules.into(), file, budget));
    same("the library's answer", &answer, &Case::new(rules, file, budget, l).check())?;
    Ok(answer)
}

/// The same of a call with a prelude.
fn answered_with(rules: Rules, prelude: &[u8], file: &[u8], budget: u32, l: Lengths) -> Result<Answer, String> {
    let mut stores = glow::Stores::new(l.tags, l.codes, l.places, l.renumber, l.out_tags);
    let f = file.get(..2).map_or(0, |two| u16::from_le_bytes([two[0], two[1]]) as usize);
    let answer = told_with(f, stores.evaluate_with(rules.into(), prelude, file, budget));
    same("the library's answer", &answer, &Case::new(rules, file, budget, l).with(prelude).check())?;
    Ok(answer)
}

/// 1 to 7: bytes in hexadecimal, through the library, to be evaluated and to be exported, and through the program.
fn refused_file(n: usize, example: &str) -> Result<(), String> {
    let file = hexadecimal(example)?;
    for rules in BOTH { same(example, answered(rules, &file, GLOW_BUDGET, Lengths::glow())?, Answer::FileRefused(n as u8))?; }
    same(example, Given::File(&file).check(), Err(n as u8))?;
    let ended = run(Command::new(program()).stdin(file_of(&file)));
    same(example, ended.out.concat(), format!("refused {n}\n").into_bytes())
}

/// `f = 1`.
fn stated(f: &str) -> Result<usize, String> { number(f.strip_prefix("f = ").ok_or(format!("{f:?} does not tell f"))?) }

/// 8 to 12: a term, f and the length of a store, through the library, on the first machine.
fn refused_run(n: usize, example: &str) -> Result<(), String> {
    let parts: Vec<&str> = example.split(',').map(str::trim).collect();
    let [term, f, store] = parts[..] else { return Err(format!("{example}: not a term, f and a store")) };
    let f = stated(f)?;
    let (budget, l) = calling(&[store])?;
    match answered(Rules::First, &from_text(f, &quoted(term).concat()).file(), budget, l)? {
        Answer::Ran(run) => same(example, run.outcome, Outcome::Refused(n as u8)),
        Answer::FileRefused(k) => Err(format!("{example}: the file is refused by {k}")),
    }
}

/// The bytes that an import writes, or its refusal: by the second implementation, and the same by the library, through the wrapper.
fn imported(bits: &[u8], f: usize, room: usize) -> Result<Result<usize, u8>, String> {
    let given = Given::Bits(bits, u32::try_from(f).map_err(|why| format!("f = {f}: {why}"))?);
    let answer = given.check();
    check_wrapper(given, &answer);
    Exchange::new(given, room).check_against(&answer);
    Ok(fitted(&answer, room).map(<[u8]>::len))
}

/// 14 to 16: bits in hexadecimal and f, through the library.
fn refused_bits(n: usize, example: &str) -> Result<(), String> {
    let (bits, f) = example.split_once(", ").ok_or(format!("{example}: not bits and f"))?;
    same(example, imported(&hexadecimal(bits)?, stated(f)?, 64)?, Err(n as u8))
}

/// 17 to 19: a prelude in hexadecimal, a term and f, through the library, on both machines.
fn refused_prelude(n: usize, example: &str) -> Result<(), String> {
    let parts: Vec<&str> = example.split(", ").collect();
    let [prelude, term, f] = parts[..] else { return Err(format!("{example}: not a prelude, a term and f")) };
    let (prelude, file) = (hexadecimal(prelude)?, from_text(stated(f)?, &quoted(term).concat()).file());
    for rules in BOTH { same(example, answered_with(rules, &prelude, &file, GLOW_BUDGET, Lengths::glow())?, Answer::FileRefused(n as u8))?; }
    Ok(())
}

pub fn refusals(text: &str) -> Checked {
    let rows = table(text, &["number", "condition", "example", "Rattle", "C", "Rust"])?.rows;
    for (row, n) in rows.iter().zip(1..) {
        same("the refusals", number(&row[0])?, n)?;
        match n {
            1..=7 => refused_file(n, &row[2])?,
            8..=12 => refused_run(n, &row[2])?,
            NOT_USED => need(row[1].starts_with("not used") && row[2] == "–", || format!("{row:?}"))?,
            17..=19 => refused_prelude(n, &row[2])?,
            _ => refused_bits(n, &row[2])?,
        }
        same(&format!("refusal {n}"), &row[3..], &right_names(n)?)?;
    }
    Ok(rows.len())
}

/// The header has a constant for each number but the one that is not used, in whose place a comment says so.
pub fn refusals_in_c(header: &str) -> Checked {
    let numbers: Vec<usize> = c_enum(header, "glow_refusal").into_iter().map(|(_, n)| n).collect();
    same("the header's refusals", &numbers, &(1..=19).filter(|&n| n != NOT_USED).collect())?;
    let place = c_enum_text(header, "glow_refusal").split_once("= 12,").and_then(|(_, rest)| rest.split_once("= 14,")).unwrap_or_default().0;
    need(place.contains("/* 13 is not used */"), || "the header does not say that 13 is not used".into())?;
    Ok(numbers.len())
}

#[test]
fn each_refusal() { assert_eq!((refusals(&manual()), refusals_in_c(&header())), (Ok(19), Ok(18))); }

const IMPORTS: [&str; 5] = ["bits", "f", "output", "answer", "why"];

/// The imports: bits in hexadecimal, or none, f, and the length of the output, through the library.
pub fn worked_imports(text: &str) -> Checked {
    let rows = table(text, &IMPORTS)?.rows;
    for row in &rows {
        let bits = hexadecimal(&row[0])?;
        need(bits.is_empty() == (row[0] == "none"), || format!("{:?} are not bits", row[0]))?;
        let told = match imported(&bits, number(&row[1])?, number(&row[2])?)? { Ok(n) => format!("written {n}"), Err(n) => format!("refused {n}") };
        same(&format!("import of {}, f = {}", row[0], row[1]), &row[3], &told)?;
    }
    Ok(rows.len())
}

#[test]
fn each_worked_import() {
    let text = manual();
    assert!(worked_imports(&text).unwrap() >= 10);
    // each answer that an import can give is in the table
    let answers: Vec<String> = table(&text, &IMPORTS).unwrap().rows.into_iter().map(|row| row[3].clone()).collect();
    for n in [2, 12, 14, 15, 16] { assert!(answers.contains(&format!("refused {n}")), "no import is refused by {n}"); }
}

const PRELUDES: [&str; 4] = ["prelude", "term file", "answer", "why"];

/// The preludes: theirs and a term file's bytes in hexadecimal, through the library, on both machines.
pub fn worked_preludes(text: &str) -> Checked {
    let rows = table(text, &PRELUDES)?.rows;
    for row in &rows {
        let (prelude, file) = (hexadecimal(&row[0])?, hexadecimal(&row[1])?);
        need(prelude.is_empty() == (row[0] == "none"), || format!("{:?} is not a prelude", row[0]))?;
        for rules in BOTH {
            let told = match answered_with(rules, &prelude, &file, GLOW_BUDGET, Lengths::glow())? { Answer::Ran(_) => "accepted".into(), Answer::FileRefused(n) => format!("refused {n}") };
            same(&format!("the prelude {}", row[0]), &row[2], &told)?;
        }
    }
    Ok(rows.len())
}

#[test]
fn each_worked_prelude() {
    let text = manual();
    assert!(worked_preludes(&text).unwrap() >= 10);
    let answers: Vec<String> = table(&text, &PRELUDES).unwrap().rows.into_iter().map(|row| row[2].clone()).collect();
    for n in 17..=19 { assert!(answers.contains(&format!("refused {n}")), "no prelude is refused by {n}"); }
}

/// The outcome as the table has it: normal `v0`, spent, refused 9.
fn outcome_shown(outcome: &Outcome) -> String {
    match outcome { Outcome::Normal(term) => format!("normal `{}`", term.text()), Outcome::Spent => "spent".into(), Outcome::Refused(n) => format!("refused {n}") }
}

/// The worked runs of a machine, whose table's first head is `head`.
fn runs(text: &str, head: &str, rules: Rules) -> Checked {
    let rows = table(text, &[head, "f", "term", "with", "outcome", "beta", "subst", "enter", "leave-fun", "leave-inert", "nodes", "cells", "names"])?.rows;
    for (row, letter) in rows.iter().zip('a'..) {
        let (budget, l) = calling(&[&row[3]])?;
        let answer = answered(rules, &from_text(number(&row[1])?, &quoted(&row[2]).concat()).file(), budget, l)?;
        let (c, s) = (answer.run().counts, answer.run().figures);
        let right: Vec<String> = [c.beta, c.subst, c.enter, c.leave_fun, c.leave_inert, s.nodes, s.cells, s.names].map(|n| n.to_string()).into();
        same("the cases", row[0].as_str(), &letter.to_string())?;
        same(&format!("case {letter}"), &row[4], &outcome_shown(&answer.run().outcome))?;
        same(&format!("case {letter}"), &row[5..], &right)?;
    }
    Ok(rows.len())
}

pub fn worked_runs(text: &str) -> Checked { runs(text, "case", Rules::First) }
pub fn worked_runs_on_demand(text: &str) -> Checked { runs(text, "case on demand", Rules::OnDemand) }

#[test]
fn each_worked_run() { assert!(worked_runs(&manual()).unwrap() >= 10); }

#[test]
fn each_worked_run_on_demand() { assert!(worked_runs_on_demand(&manual()).unwrap() >= 10); }

/// The worked runs with definitions: those in order, each with as many free names as there are before it, the term and the machine.
pub fn worked_runs_with_definitions(text: &str) -> Checked {
    let head = ["definitions", "f", "term", "machine", "with", "outcome", "beta", "subst", "enter", "leave-fun", "leave-inert", "nodes", "cells", "names", "subst allowance", "shift allowance"];
    let rows = table(text, &head)?.rows;
    for row in &rows {
        let definitions: Vec<Vec<u8>> = quoted(&row[0]).iter().enumerate().map(|(k, text)| from_text(k, text).file()).collect();
        let rules = match row[3].as_str() { "first" => Rules::First, "on demand" => Rules::OnDemand, other => return Err(format!("{other} is no machine")) };
        let (budget, l) = calling(&[&row[4]])?;
        let answer = answered_with(rules, &encode(&definitions), &from_text(number(&row[1])?, &quoted(&row[2]).concat()).file(), budget, l)?;
        let run = answer.run();
        let (c, s) = (run.counts, run.figures);
        let right: Vec<String> = [c.beta, c.subst, c.enter, c.leave_fun, c.leave_inert, s.nodes, s.cells, s.names, run.subst_allowance, run.shift_allowance].map(|n| n.to_string()).into();
        let what = format!("{} with {} {} {}", row[2], row[0], row[3], row[4]);
        same(&what, &row[5], &outcome_shown(&run.outcome))?;
        same(&what, &row[6..], &right)?;
    }
    Ok(rows.len())
}

#[test]
fn each_worked_run_with_definitions() { assert!(worked_runs_with_definitions(&manual()).unwrap() >= 10); }

fn step_name(step: Option<Step>) -> &'static str {
    match step { None => "start", Some(Step::Beta) => "beta", Some(Step::Subst) => "subst", Some(Step::Enter) => "enter", Some(Step::LeaveFun) => "leave-fun", Some(Step::LeaveInert) => "leave-inert" }
}

const WORKED_FILE: &str = "examples/03-example-1.term";

/// The prelude of the worked runs, and the term of the one that is shown step by step.
fn worked_prelude() -> Vec<u8> { encode(&[from_text(0, "l0 v0").file(), from_text(1, "l1 a1 v0 v1").file()]) }
fn worked_file() -> Vec<u8> { std::fs::read(root().join(WORKED_FILE)).unwrap() }

/// The states of a run by the second implementation, as the manual's tables have them.
fn states(rules: Rules, prelude: &[u8], file: &[u8]) -> Vec<Vec<String>> {
    let (mut all, mut before, mut last) = (Vec::new(), None, String::new());
    evaluate_with_watched(rules, prelude, file, GLOW_BUDGET, &Lengths::glow(), |m| {
        let s = m.figures;
        let term = format!("`{}`", m.stands_for().text());
        let mut row = vec![step_name(before).to_string()];
        row.extend(m.shown());
        row.push(format!("{} {} {}", s.nodes, s.cells, s.names));
        row.push(if term == last { "same".into() } else { term.clone() });
        all.push(row);
        (before, last) = (m.fits(), term);
    });
    all
}

pub fn step_by_step(text: &str) -> Checked { steps(text, "step", states(Rules::First, NONE, &worked_file())) }
pub fn step_by_step_on_demand(text: &str) -> Checked { steps(text, "step on demand", states(Rules::OnDemand, NONE, &worked_file())) }
pub fn step_by_step_with_definitions(text: &str) -> Checked { steps(text, "step with definitions", states(Rules::First, &worked_prelude(), &from_text(3, "a1 v1 v2").file())) }

fn steps(text: &str, head: &str, right: Vec<Vec<String>>) -> Checked {
    let rows = table(text, &[head, "code", "stack", "dump", "environment", "taken", "stands for"])?.rows;
    for (row, state) in rows.iter().zip(&right) { same("the run step by step", row, state)?; }
    same("the states", rows.len(), right.len())?;
    Ok(rows.len())
}

/// The bytes of a table that has them piece by piece, each row with where it stands, are the right ones.
fn pieces(text: &str, head: &str, right: Vec<u8>) -> Checked {
    let rows = table(text, &["at", head, "what"])?.rows;
    let mut bytes = Vec::new();
    for row in &rows {
        same("the place in the bytes", number(&row[0])?, bytes.len())?;
        bytes.extend(hexadecimal(&row[1])?);
    }
    same("the worked bytes", bytes, right)?;
    Ok(rows.len())
}

pub fn byte_by_byte(text: &str) -> Checked { pieces(text, "bytes", worked_file()) }
pub fn prelude_byte_by_byte(text: &str) -> Checked { pieces(text, "bytes of the prelude", worked_prelude()) }

#[test]
fn the_worked_file() {
    assert_eq!((byte_by_byte(&manual()), step_by_step(&manual()), step_by_step_on_demand(&manual())), (Ok(12), Ok(11), Ok(10)));
    assert_eq!((prelude_byte_by_byte(&manual()), step_by_step_with_definitions(&manual())), (Ok(9), Ok(9)));
}

//! The checks themselves: each is tried on a manual or a header with a mistake in it.
use crate::links::links_lead;
use crate::named::{arrays, constants, definitions, header_table, promises, sentences};
use crate::shown::{outputs, pairs, Place};
use crate::tried::{
    byte_by_byte, prelude_byte_by_byte, refusals, refusals_in_c, step_by_step, step_by_step_on_demand, step_by_step_with_definitions, worked_imports, worked_preludes, worked_runs, worked_runs_on_demand, worked_runs_with_definitions,
};
use crate::{header, manual, Checked};
use glow_tests::process::root;

/// A mistake put into a text, which a check must find.
fn found_out_in(text: &str, check: impl Fn(&str) -> Checked, from: &str, to: &str) {
    assert!(text.contains(from), "{from:?} is not there");
    check(text).unwrap();
    assert!(check(&text.replacen(from, to, 1)).is_err(), "{to:?} for {from:?} was not found out");
}

/// One put into the manual.
fn found_out(check: impl Fn(&str) -> Checked, from: &str, to: &str) { found_out_in(&manual(), check, from, to) }

/// The block of this command, and its output.
fn one_pair(text: &str, command: &str) -> String {
    let (shown, output) = pairs(text).unwrap().into_iter().find(|(shown, _)| shown.text.contains(command)).expect("the command");
    format!("```sh\n{}```\n\n```text\n{}```\n", shown.text, output.text)
}

#[test]
fn mistakes_are_found_out() {
    found_out(refusals, "`01 00 01 00 03 00 00` |", "`01 00 01 00 02 00 00` |");
    found_out(refusals, "cells 0", "cells 1");
    found_out(refusals, "output 3", "output 4");
    found_out(refusals, "`GLOW_NO_NODES` |", "`GLOW_NO_NAMES` |");
    found_out(refusals, "| `Cells` | `GLOW", "| `Nodes` | `GLOW");
    found_out(refusals, "`Unbound`", "`Variable`");
    found_out(refusals, "| 13 | not used", "| 13 | used");
    for named in ["| `v0` | – | – | – |", "| – | `Chain` | – | – |", "| – | – | `GLOW_ENTRY` | – |", "| – | – | – | `Entry` |"] { found_out(refusals, "| – | – | – | – |", named); }
    for (from, to) in [("/* 13 is not used */", "GLOW_ENTRY = 13,"), ("/* 13 is not used */", ""), ("GLOW_NO_OUTPUT = 12,", "GLOW_NO_OUTPUT = 13,")] { found_out_in(&header(), refusals_in_c, from, to); }
    found_out(refusals, "| 14 | the bits end", "| 16 | the bits end");
    found_out(refusals, "`00`, f = 0 |", "`80`, f = 0 |");
    found_out(refusals, "`80`, f = 0 |", "`80`, f = 1 |");
    found_out(refusals, "| `Ends` |", "| `Range` |");
    found_out(refusals, "`GLOW_BITS_LIMITS` |", "`GLOW_BITS_TOO_SHORT` |");
    found_out(refusals, "`BitsTooShort` |", "`BitsLimits` |");
    found_out(refusals, "| 18 | a definition", "| 19 | a definition");
    found_out(refusals, "`01 00`, `v0`, f = 1 |", "`00 00`, `v0`, f = 1 |");
    found_out(refusals, "`01 00 01 00 01 00 00 00 00`, `v0`, f = 1 |", "`01 00 01 00 02 00 01 00 01 00 01 00`, `v0`, f = 1 |");
    found_out(refusals, "| `NotAbstraction` |", "| `Place` |");
    found_out(refusals, "`GLOW_PRELUDE_PLACE` |", "`GLOW_PRELUDE_BYTES` |");
    found_out(refusals, "`NotAnAbstraction` |", "`NotAbstraction` |");
    found_out(worked_preludes, "refused 17 | n is beyond its limit", "refused 2 | n is beyond its limit");
    found_out(worked_preludes, "refused 18 | `v0` with f = 1", "refused 19 | `v0` with f = 1");
    found_out(worked_preludes, "| `00 00 00 00` | refused 2 |", "| `01 00 01 00 00 00 00` | refused 2 |");
    found_out(worked_preludes, "| `00 00` | `01 00 01 00 00 00 00` | accepted |", "| none | `01 00 01 00 00 00 00` | accepted |");
    found_out(worked_runs_with_definitions, "| 8 | 0 | 6 | 4 | 2 |", "| 8 | 0 | 6 | 3 | 2 |");
    found_out(worked_runs_with_definitions, "| on demand | budget 0 | spent |", "| first | budget 0 | spent |");
    found_out(worked_runs_with_definitions, "| nodes 8 | refused 9 |", "| nodes 9 | refused 9 |");
    found_out(worked_imports, "| `ff` | 0 | 10 | refused 14 |", "| `ff` | 0 | 10 | refused 16 |");
    found_out(worked_imports, "| none | 16,385 | 10 | refused 2 |", "| none | 16,385 | 10 | refused 14 |");
    found_out(worked_imports, "| `1a 00` | 0 |", "| `1a` | 0 |");
    found_out(worked_imports, "| `20` | 0 | 9 |", "| `20` | 0 | 10 |");
    found_out(worked_runs, "| budget 1 | normal `v0` |", "| budget 1 | spent |");
    found_out(worked_runs, "| budget 0 | spent |", "| budget 1 | spent |");
    found_out(worked_runs, "| budget 2 | spent |", "| budget 3 | spent |");
    found_out(worked_runs, "| 25 | 3 | 6 |", "| 25 | 3 | 7 |");
    found_out(worked_runs_on_demand, "| 17 | 3 | 4 |", "| 17 | 3 | 5 |");
    found_out(worked_runs_on_demand, "| 11 | 3 | 4 |", "| 13 | 3 | 5 |");
    found_out(step_by_step, "| leave-inert | `v1` |", "| leave-fun | `v1` |");
    found_out(step_by_step, "| 11 3 4 |", "| 11 3 5 |");
    found_out(step_by_step_on_demand, "| leave-inert | `v0` | `v1` |", "| leave-fun | `v0` | `v1` |");
    found_out(step_by_step_with_definitions, "1: `l4 a1 v0 v4` | 9 0 5 |", "1: `l1 a1 v0 v1` | 9 0 5 |");
    found_out(step_by_step_with_definitions, "| `a2 l3 v3 v2` |", "| same |");
    found_out(byte_by_byte, "| 29 | `02 00` |", "| 29 | `03 00` |");
    found_out(prelude_byte_by_byte, "| 14 | `04 00` |", "| 14 | `03 00` |");
    found_out(prelude_byte_by_byte, "| 16 | `01 02", "| 15 | `01 02");
    found_out(|text| header_table(text, "element", "glow_report"), "| 5 | `GLOW_LEAVE_FUN` |", "| 5 | `GLOW_LEAVE_INERT` |");
    found_out(|text| header_table(text, "status", "glow_exchange_status"), "| 3 | `GLOW_EXCHANGE_REFUSED` |", "| 2 | `GLOW_EXCHANGE_REFUSED` |");
    found_out(|text| header_table(text, "status", "glow_status"), "| 3 | `GLOW_FILE_REFUSED` |", "| 3 | `GLOW_EXCHANGE_REFUSED` |");
    found_out(|text| header_table(text, "status", "glow_status"), "| 5 | `GLOW_NO_SUCH_MACHINE` |", "| 6 | `GLOW_NO_SUCH_MACHINE` |");
    found_out(|text| header_table(text, "machine", "glow_machine"), "| 1 | `GLOW_ON_DEMAND` |", "| 2 | `GLOW_ON_DEMAND` |");
    found_out(constants, "106,496 |", "106,497 |");
    found_out(constants, "172,032 |", "170,232 |");
    found_out(constants, "`GLOW_MOST_EXPORTED` |", "`GLOW_MOST_IMPORTED` |");
    found_out(sentences, "856,064", "856,065");
    found_out(sentences, "192 · (N / 4) bytes", "192 · (N / 2) bytes");
    found_out(sentences, "| name store | 32,768 |", "| name store | 16,384 |");
    found_out(sentences, "fewer than 2 elements the status is 4", "fewer than 3 elements the status is 4");
    found_out(arrays, "`owns`, `nexts` |", "`nexts`, `owns` |");
    found_out(arrays, "| 32,768 | enter |", "| 16,384 | enter |");
    found_out(promises, "| `demand1` |", "| `demand2` |");
    found_out(promises, "`stores_lengths`, ", "");
    found_out(promises, "| `file_back` |", "| `bits_back` |");
    found_out(promises, "| `output_is` |", "| `answer_is` |");
    found_out(promises, "| `names_kept` |", "| `names` |");
    found_out(promises, "`short_output` |", "`short_memory` |");
    found_out(promises, "| `one_normal` |", "| `normal_one` |");
    found_out(definitions, "[`harmony`]", "[`harmonies`]");
    found_out(definitions, "[`exchange_status`]", "[`status_of`]");
    found_out(|text| links_lead(&root().join("docs/REFERENCE.md"), text), "specs/Calculus.antt", "specs/Calculs.antt");
    found_out(|text| links_lead(&root().join("docs/REFERENCE.md"), text), "(#sources)", "(#source)");
    let kinds = |text: &str| pairs(text).map(|pairs| pairs.len());
    found_out(kinds, "```text\n", "```\n");
    found_out(kinds, "```sh\n", "```bash\n");
    found_out(kinds, "budget: u32,\n", "budget: u64,\n");
    found_out(kinds, "pub fn check(prelude: &[u8], free: usize)", "pub fn check(prelude: &[u8], free: u32)");
    found_out(kinds, "const uint8_t *prelude, size_t prelude_len,", "const uint8_t *prelude, uint32_t prelude_len,");
    found_out(kinds, "evaluate_with(Machine::First, &prelude, &file, 1_000_000)", "evaluate_with(Machine::First, &file, &prelude, 1_000_000)");
    found_out(kinds, "pub fn import(bits: &[u8], f: usize,", "pub fn import(bits: &[u8], f: u32,");
    found_out(kinds, "const uint8_t *bits, size_t bits_len, uint32_t f,", "const uint8_t *bits, size_t bits_len, uint16_t f,");
    let place = Place::new("mistakes");
    let shown = one_pair(&manual(), "tools/glow examples/03");
    outputs(&shown, &place).unwrap();
    assert!(outputs(&shown.replacen("beta 2", "beta 3", 1), &place).is_err() && outputs(&shown.replacen("03-example-1", "no-such", 1), &place).is_err());
    let shown = one_pair(&manual(), "tools/terms show --bits");
    outputs(&shown, &place).unwrap();
    assert!(outputs(&shown.replacen("1110 10 110", "1110 110 10", 1), &place).is_err());
    let shown = one_pair(&manual(), "--example prelude");
    outputs(&shown, &place).unwrap();
    assert!(outputs(&shown.replacen("two y (three", "three y (two", 1), &place).is_err());
}

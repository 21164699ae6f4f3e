//! The documents: what docs/REFERENCE.md and README.md show is run and compared, each row of the manual's tables is tried or held against
//! the file that it speaks of, and each link leads somewhere. A check tells how many things it looked at, or the first fault; and each check
//! is tried on a manual with a mistake in it.
#![cfg(feature = "library")]
mod links;
mod mistakes;
mod named;
mod shown;
mod tried;

use glow_tests::markdown::{tables, Table};
use glow_tests::process::root;
use std::path::PathBuf;

type Checked = Result<usize, String>;

fn read(path: &str) -> String { std::fs::read_to_string(root().join(path)).unwrap_or_else(|why| panic!("{path}: {why}")) }
fn manual() -> String { read("docs/REFERENCE.md") }

/// The files of these directories with this extension.
fn sources(dirs: &[&str], extension: &str) -> Vec<PathBuf> {
    let all = dirs.iter().flat_map(|dir| std::fs::read_dir(root().join(dir)).unwrap()).map(|entry| entry.unwrap().path());
    all.filter(|path| path.extension().is_some_and(|e| e == extension)).collect()
}

fn need(holds: bool, fault: impl FnOnce() -> String) -> Result<(), String> { if holds { Ok(()) } else { Err(fault()) } }
fn same<T: PartialEq + std::fmt::Debug>(what: &str, shown: T, right: T) -> Result<(), String> { need(shown == right, || format!("{what}: {shown:?} is shown, and {right:?} is right")) }

fn number(shown: &str) -> Result<usize, String> { shown.replace(',', "").trim().parse().map_err(|_| format!("{shown:?} is not a number")) }

/// The tables whose head begins so.
fn tables_with(text: &str, head: &[&str]) -> Result<Vec<Table>, String> {
    Ok(tables(text)?.into_iter().filter(|t| t.head.len() >= head.len() && t.head.iter().zip(head).all(|(x, y)| x == y)).collect())
}

/// The only one of these tables.
fn one(mut all: Vec<Table>, what: &str) -> Result<Table, String> {
    need(all.len() == 1, || format!("{} tables of {what}", all.len()))?;
    Ok(all.remove(0))
}

/// The one table whose head begins so.
fn table(text: &str, head: &[&str]) -> Result<Table, String> { one(tables_with(text, head)?, &format!("{head:?}")) }

fn header() -> String { read("embed/glow.h") }

/// The inside of an enum of the header, with its comments.
fn c_enum_text<'a>(header: &'a str, name: &str) -> &'a str {
    header.split(&format!("enum {name} {{")).nth(1).expect("the enum").split("};").next().unwrap()
}

/// The constants of an enum of the header. Each has its number written down.
fn c_enum(header: &str, name: &str) -> Vec<(String, usize)> {
    let code: String = c_enum_text(header, name).split("/*").map(|piece| piece.split("*/").last().unwrap()).collect();
    let constants = code.split(',').map(str::trim).filter(|item| !item.is_empty()).map(|item| item.split_once('=').expect("a number"));
    constants.map(|(name, n)| (name.trim().to_string(), n.trim().parse().expect("a number"))).collect()
}

//! A safe wrapper of the glow library: open lambda terms evaluated by the Easy GLAMOUR machine, or by the Fast GLAMOUR machine,
//! which copies functions on demand: see [`Machine`].
//!
//! ```no_run
//! use glow::{Answer, Machine, Outcome, Stores};
//! let mut stores = Stores::glow();
//! let file = [1, 0, 4, 0, 2, 1, 0, 0, 2, 0, 1, 0, 1, 0, 0, 0]; // (\x. x) y
//! if let Answer::Ran { outcome: Outcome::Normal { term }, report } = stores.evaluate(Machine::First, &file, 1000) {
//!     println!("{term} after {} beta steps", report.beta);
//! }
//! ```
//!
//! [`Stores::evaluate`] may be called on any thread. Where the thread may have too little stack for what the stores can
//! hold, the call is made on another one: see [`stack_needed`].
//!
//! [`Stores::evaluate_with`] evaluates a term with named definitions, a prelude.
//!
//! [`import`] and [`export`] bring terms over from binary lambda calculus, and back.
//!
//! Two kinds of places are `unsafe`: the calls of the four C functions, which are lent slices that are live for the whole
//! call, each with its own length, and never two that overlap; and, on Linux, calls of the C library that tell where a
//! thread's stack ends.

mod exchange;
mod stack;

use std::fmt;

pub use exchange::{
    export, export_in, export_to_vec, import, import_in, import_to_vec, ExchangeRefusal, ExchangeStatus, Exchanged,
    EXCHANGE_REPORT_LEN, MOST_EXPORTED, MOST_IMPORTED, STACK_FOR_AN_EXCHANGE,
};
pub use stack::{stack_needed, stack_needed_with, MOST_STACK_NEEDED, STACK_FOR_A_CALL, STACK_FOR_A_LEVEL, STACK_FOR_A_RESULT};

/// Elements of the report array.
pub const REPORT_LEN: usize = 12;
/// The most nodes a term file may have, and the most that are written out.
pub const MOST_NODES_IN_A_FILE: usize = 16_384;
/// The most that is counted of the node, cell and name stores.
pub const MOST_COUNTED: usize = 32_768;

mod ffi {
    extern "C" {
        pub fn glow_evaluate(
            machine: u32, file: *const u8, file_len: usize, budget: u32,
            tags: *mut u8, tags_len: usize, args: *mut u16, args_len: usize,
            codes: *mut u16, codes_len: usize, owns: *mut u16, owns_len: usize,
            nexts: *mut u16, nexts_len: usize,
            places: *mut u16, places_len: usize,
            renumber: *mut u16, renumber_len: usize,
            out_tags: *mut u8, out_tags_len: usize, out_args: *mut u16, out_args_len: usize,
            report: *mut u64, report_len: usize,
        ) -> u32;
        pub fn glow_evaluate_with(
            machine: u32, prelude: *const u8, prelude_len: usize, file: *const u8, file_len: usize, budget: u32,
            tags: *mut u8, tags_len: usize, args: *mut u16, args_len: usize,
            codes: *mut u16, codes_len: usize, owns: *mut u16, owns_len: usize,
            nexts: *mut u16, nexts_len: usize,
            places: *mut u16, places_len: usize,
            renumber: *mut u16, renumber_len: usize,
            out_tags: *mut u8, out_tags_len: usize, out_args: *mut u16, out_args_len: usize,
            report: *mut u64, report_len: usize,
        ) -> u32;
    }
}

/// The machine that evaluates.
///
/// Where no store refuses, both give the same outcome, the same count of beta steps and the same term. The other counts and
/// what is taken of the stores are each machine's own; so are the refusals that come of it.
#[derive(Clone, Copy, Debug, PartialEq, Eq)]
pub enum Machine {
    /// Easy GLAMOUR, which the program glow runs. Wherever a name that stands for a function is met, the function is copied.
    /// Each beta step takes the same short time, however long the body is. To choose where functions are mostly applied, and
    /// where a run has to be the program's, step by step.
    ///
    /// It makes at most (1 + b) V substs, with b the beta steps made and V the variables of the file and of the definitions.
    First = 0,
    /// Fast GLAMOUR. A function is copied only where it is applied: one that is only passed along takes no further nodes and
    /// no further names. For that, a beta step whose argument is a name alone puts this name into the whole body at once,
    /// which takes time with the body's length. To choose where functions are mostly passed along, as long libraries do, or
    /// where the first machine is refused for want of nodes.
    ///
    /// It makes at most 1 + b substs, however long the file and the definitions are.
    OnDemand = 1,
}

impl Machine {
    /// The number by which the library knows it.
    pub fn number(self) -> u32 { self as u32 }
}

/// What the call itself says. A machine that the library does not know, its status 5, cannot be named here.
#[derive(Clone, Copy, Debug, PartialEq, Eq)]
pub enum Status { Normal, Spent, Refused, FileRefused, ReportTooShort }

impl Status {
    fn of(number: u32) -> Status {
        match number {
            0 => Status::Normal,
            1 => Status::Spent,
            2 => Status::Refused,
            3 => Status::FileRefused,
            4 => Status::ReportTooShort,
            other => panic!("an evaluation answered {other}, which is no status of this wrapper"),
        }
    }
}

/// Refusals 1 to 7: the file is not a term file. Nothing is run and no array is changed. With a prelude, 2 and 4 to 7 may also be those
/// of a definition.
#[derive(Clone, Copy, Debug, PartialEq, Eq)]
pub enum FileRefusal {
    TooShort, Limits, Length, Tag, Shape, Binder, Unbound,
}

impl FileRefusal {
    pub fn number(self) -> u8 { self as u8 + 1 }
    pub fn of(number: u64) -> Option<FileRefusal> {
        use FileRefusal::*;
        [TooShort, Limits, Length, Tag, Shape, Binder, Unbound].into_iter().find(|r| u64::from(r.number()) == number)
    }
}

/// Refusals 17 to 19: what goes with the file is not a prelude of it. Nothing is run and no array is changed.
#[derive(Clone, Copy, Debug, PartialEq, Eq)]
pub enum PreludeRefusal {
    /// 17: there are more definitions than free names, or bytes are left over or missing.
    Bytes,
    /// 18: a definition is not an abstraction.
    NotAnAbstraction,
    /// 19: the f field of a definition is not its place.
    Place,
}

impl PreludeRefusal {
    pub fn number(self) -> u8 { self as u8 + 17 }
    pub fn of(number: u64) -> Option<PreludeRefusal> {
        use PreludeRefusal::*;
        [Bytes, NotAnAbstraction, Place].into_iter().find(|r| u64::from(r.number()) == number)
    }
}

/// Refusals 8 to 12: a store is too small. The number 13 is not used.
#[derive(Clone, Copy, Debug, PartialEq, Eq)]
pub enum Refusal { Cells, Nodes, Names, Renumber, Output }

impl Refusal {
    pub fn number(self) -> u8 { self as u8 + 8 }
    pub fn of(number: u64) -> Option<Refusal> {
        use Refusal::*;
        [Cells, Nodes, Names, Renumber, Output].into_iter().find(|r| u64::from(r.number()) == number)
    }
}

/// Counts of the steps made, store figures and the two allowances.
#[derive(Clone, Copy, Debug, Default, PartialEq, Eq)]
pub struct Report {
    pub beta: u64,
    pub subst: u64,
    pub enter: u64,
    pub leave_fun: u64,
    pub leave_inert: u64,
    pub nodes: u64,
    pub cells: u64,
    pub names: u64,
    pub subst_allowance: u64,
    pub shift_allowance: u64,
}

impl Report {
    pub fn shift(&self) -> u64 { self.enter + self.leave_fun + self.leave_inert }
    pub fn steps(&self) -> u64 { self.beta + self.subst + self.shift() }
}

/// A term in the two arrays of the term file, canonical for its count of free names.
#[derive(Clone, Debug, PartialEq, Eq)]
pub struct Term { pub tags: Vec<u8>, pub args: Vec<u16> }

impl Term {
    /// The term as a term file, with `free` the f of the file that was evaluated.
    pub fn to_file(&self, free: u16) -> Vec<u8> {
        let mut bytes = Vec::with_capacity(4 + 3 * self.tags.len());
        bytes.extend_from_slice(&free.to_le_bytes());
        bytes.extend_from_slice(&(self.tags.len() as u16).to_le_bytes());
        bytes.extend_from_slice(&self.tags);
        for a in &self.args { bytes.extend_from_slice(&a.to_le_bytes()); }
        bytes
    }
}

impl fmt::Display for Term {
    fn fmt(&self, out: &mut fmt::Formatter<'_>) -> fmt::Result {
        for (i, (t, a)) in self.tags.iter().zip(&self.args).enumerate() {
            if i > 0 { out.write_str(" ")?; }
            write!(out, "{}{}", match t { 0 => 'v', 1 => 'l', _ => 'a' }, a)?;
        }
        Ok(())
    }
}

/// How a run ends: with its normal form, with the budget used up and another beta next, or with a refusal.
#[derive(Clone, Debug, PartialEq, Eq)]
pub enum Outcome { Normal { term: Term }, Spent, Refused(Refusal) }

#[derive(Clone, Debug, PartialEq, Eq)]
pub enum Answer { FileRefused(FileRefusal), Ran { outcome: Outcome, report: Report } }

/// The lent arrays, owned here. The vectors are public and may be of any lengths;
/// what they hold before a call changes nothing in the answer.
#[derive(Clone, Debug, Default)]
pub struct Stores {
    pub tags: Vec<u8>,
    pub args: Vec<u16>,
    pub codes: Vec<u16>,
    pub owns: Vec<u16>,
    pub nexts: Vec<u16>,
    pub places: Vec<u16>,
    pub renumber: Vec<u16>,
    pub out_tags: Vec<u8>,
    pub out_args: Vec<u16>,
}

impl Stores {
    /// Zeroed stores of chosen lengths.
    pub fn new(nodes: usize, cells: usize, names: usize, renumber: usize, output: usize) -> Stores {
        Stores {
            tags: vec![0; nodes], args: vec![0; nodes],
            codes: vec![0; cells], owns: vec![0; cells], nexts: vec![0; cells],
            places: vec![0; names], renumber: vec![0; renumber],
            out_tags: vec![0; output], out_args: vec![0; output],
        }
    }

    /// The stores of the program glow.
    pub fn glow() -> Stores { Stores::new(16_384, 16_384, 32_768, 32_768, 16_384) }

    /// The longest stores of which everything is counted.
    pub fn largest() -> Stores { Stores::new(32_768, 32_768, 32_768, 32_768, 16_384) }

    /// The most bytes of stack that a call with these stores takes: see [`stack_needed`].
    pub fn stack_needed(&self) -> usize {
        stack_needed(self.tags.len().min(self.args.len()), self.codes.len().min(self.owns.len()).min(self.nexts.len()))
    }

    /// The same of a call with a prelude: see [`stack_needed_with`].
    pub fn stack_needed_with(&self) -> usize { stack_needed_with(self.tags.len().min(self.args.len())) }

    /// Evaluates a term file with this machine, with at most `budget` beta steps, on any thread. After the last of them the
    /// run goes on until no step fits, a store is full or another beta is next; so [`Outcome::Spent`] says that the term has
    /// a further beta step. Every call ends, whatever the budget.
    ///
    /// With the same machine and bytes, a budget at least as large and arrays each at least as long, a normal answer comes again
    /// and is equal, and so does a refusal of the bytes. [`Outcome::Spent`] changes only where the budget is larger, and
    /// [`Outcome::Refused`] only where the store that it names is longer.
    ///
    /// Where less stack is left than
    /// [`Stores::stack_needed`] tells, or it is not known how much, the call is made on a thread of its own.
    ///
    /// # Panics
    ///
    /// Where such a thread cannot be started, as [`std::thread::spawn`] does. Who must rule that out gives the thread
    /// the stack that is needed, and calls [`Stores::evaluate_on_this_stack`].
    pub fn evaluate(&mut self, machine: Machine, file: &[u8], budget: u32) -> Answer {
        stack::with_stack(self.stack_needed(), || self.evaluate_on_this_stack(machine, file, budget))
    }

    /// As [`Stores::evaluate`], on the thread that it is called on, however little stack that has.
    ///
    /// # Warning
    ///
    /// Where less than [`Stores::stack_needed`] is left, a term that is nested deeply enough **ends the process**: the
    /// stack overflows, which no caller can catch. A thread of Rust's standard library has 2 MiB unless told otherwise.
    pub fn evaluate_on_this_stack(&mut self, machine: Machine, file: &[u8], budget: u32) -> Answer {
        let mut raw = [0u64; REPORT_LEN];
        let status = evaluate_in_on_this_stack(
            machine, file, budget, &mut self.tags, &mut self.args, &mut self.codes, &mut self.owns,
            &mut self.nexts, &mut self.places, &mut self.renumber, &mut self.out_tags,
            &mut self.out_args, &mut raw,
        );
        self.answer(status, raw).expect("no refusal of a prelude without one")
    }

    /// As [`Stores::evaluate`], with a prelude: the 16-bit count d, little endian, and d term files one after the other.
    /// Definition k is an abstraction that stands for the free name k, and its own f is k: it may use the names of those
    /// before it. There may be fewer definitions than free names, and none: with the prelude `[0, 0]` the call is
    /// [`Stores::evaluate`].
    ///
    /// Where no store refuses, the outcome, the beta steps and the term are those of the term with the definitions put in.
    /// Loading takes the definitions' nodes too, and a name for each abstraction in them, but no cell.
    ///
    /// [`Answer::FileRefused`] may speak of a definition as well as of the file.
    pub fn evaluate_with(&mut self, machine: Machine, prelude: &[u8], file: &[u8], budget: u32) -> Result<Answer, PreludeRefusal> {
        stack::with_stack(self.stack_needed_with(), || self.evaluate_with_on_this_stack(machine, prelude, file, budget))
    }

    /// As [`Stores::evaluate_with`], on the thread that it is called on, however little stack that has.
    ///
    /// # Warning
    ///
    /// As of [`Stores::evaluate_on_this_stack`]: with less than [`Stores::stack_needed_with`] it may **end the process**.
    pub fn evaluate_with_on_this_stack(&mut self, machine: Machine, prelude: &[u8], file: &[u8], budget: u32) -> Result<Answer, PreludeRefusal> {
        let mut raw = [0u64; REPORT_LEN];
        let status = evaluate_with_in_on_this_stack(
            machine, prelude, file, budget, &mut self.tags, &mut self.args, &mut self.codes, &mut self.owns,
            &mut self.nexts, &mut self.places, &mut self.renumber, &mut self.out_tags,
            &mut self.out_args, &mut raw,
        );
        self.answer(status, raw)
    }

    /// What a call says, with the term that is now at the front of the output.
    fn answer(&self, status: Status, raw: [u64; REPORT_LEN]) -> Result<Answer, PreludeRefusal> {
        let report = Report {
            beta: raw[2], subst: raw[3], enter: raw[4], leave_fun: raw[5], leave_inert: raw[6],
            nodes: raw[7], cells: raw[8], names: raw[9], subst_allowance: raw[10], shift_allowance: raw[11],
        };
        let outcome = match status {
            Status::Normal => {
                let n = raw[1] as usize;
                Outcome::Normal { term: Term { tags: self.out_tags[..n].to_vec(), args: self.out_args[..n].to_vec() } }
            }
            Status::Spent => Outcome::Spent,
            Status::Refused => Outcome::Refused(Refusal::of(raw[0]).expect("a refusal from 8 to 12")),
            Status::FileRefused => {
                return match PreludeRefusal::of(raw[0]) {
                    Some(why) => Err(why),
                    None => Ok(Answer::FileRefused(FileRefusal::of(raw[0]).expect("a refusal from 1 to 7 or from 17 to 19"))),
                }
            }
            Status::ReportTooShort => unreachable!("the report has its twelve elements"),
        };
        Ok(Answer::Ran { outcome, report })
    }
}

/// The call on slices of any lengths and with the report as raw numbers, on any thread, as [`Stores::evaluate`] is.
#[allow(clippy::too_many_arguments)]
pub fn evaluate_in(
    machine: Machine, file: &[u8], budget: u32, tags: &mut [u8], args: &mut [u16], codes: &mut [u16], owns: &mut [u16],
    nexts: &mut [u16], places: &mut [u16], renumber: &mut [u16], out_tags: &mut [u8],
    out_args: &mut [u16], report: &mut [u64],
) -> Status {
    let needed = stack_needed(tags.len().min(args.len()), codes.len().min(owns.len()).min(nexts.len()));
    stack::with_stack(needed, || evaluate_in_on_this_stack(
        machine, file, budget, tags, args, codes, owns, nexts, places, renumber, out_tags, out_args, report,
    ))
}

/// The call as it is, on slices of any lengths and with the report as raw numbers.
///
/// # Warning
///
/// As of [`Stores::evaluate_on_this_stack`]: with less stack than [`stack_needed`] tells it may **end the process**.
#[allow(clippy::too_many_arguments)]
pub fn evaluate_in_on_this_stack(
    machine: Machine, file: &[u8], budget: u32, tags: &mut [u8], args: &mut [u16], codes: &mut [u16], owns: &mut [u16],
    nexts: &mut [u16], places: &mut [u16], renumber: &mut [u16], out_tags: &mut [u8],
    out_args: &mut [u16], report: &mut [u64],
) -> Status {
    // SAFETY: every pointer comes from a slice live for the whole call and goes with that slice's
    // length; the slices are borrowed exclusively, so none overlaps another.
    let number = unsafe {
        ffi::glow_evaluate(
            machine.number(), file.as_ptr(), file.len(), budget,
            tags.as_mut_ptr(), tags.len(), args.as_mut_ptr(), args.len(),
            codes.as_mut_ptr(), codes.len(), owns.as_mut_ptr(), owns.len(),
            nexts.as_mut_ptr(), nexts.len(), places.as_mut_ptr(), places.len(),
            renumber.as_mut_ptr(), renumber.len(),
            out_tags.as_mut_ptr(), out_tags.len(), out_args.as_mut_ptr(), out_args.len(),
            report.as_mut_ptr(), report.len(),
        )
    };
    Status::of(number)
}

/// As [`evaluate_in`], with a prelude: see [`Stores::evaluate_with`].
#[allow(clippy::too_many_arguments)]
pub fn evaluate_with_in(
    machine: Machine, prelude: &[u8], file: &[u8], budget: u32, tags: &mut [u8], args: &mut [u16], codes: &mut [u16],
    owns: &mut [u16], nexts: &mut [u16], places: &mut [u16], renumber: &mut [u16], out_tags: &mut [u8],
    out_args: &mut [u16], report: &mut [u64],
) -> Status {
    let needed = stack_needed_with(tags.len().min(args.len()));
    stack::with_stack(needed, || evaluate_with_in_on_this_stack(
        machine, prelude, file, budget, tags, args, codes, owns, nexts, places, renumber, out_tags, out_args, report,
    ))
}

/// As [`evaluate_in_on_this_stack`], with a prelude.
///
/// # Warning
///
/// With less stack than [`stack_needed_with`] tells it may **end the process**.
#[allow(clippy::too_many_arguments)]
pub fn evaluate_with_in_on_this_stack(
    machine: Machine, prelude: &[u8], file: &[u8], budget: u32, tags: &mut [u8], args: &mut [u16], codes: &mut [u16],
    owns: &mut [u16], nexts: &mut [u16], places: &mut [u16], renumber: &mut [u16], out_tags: &mut [u8],
    out_args: &mut [u16], report: &mut [u64],
) -> Status {
    // SAFETY: as in `evaluate_in_on_this_stack`.
    let number = unsafe {
        ffi::glow_evaluate_with(
            machine.number(), prelude.as_ptr(), prelude.len(), file.as_ptr(), file.len(), budget,
            tags.as_mut_ptr(), tags.len(), args.as_mut_ptr(), args.len(),
            codes.as_mut_ptr(), codes.len(), owns.as_mut_ptr(), owns.len(),
            nexts.as_mut_ptr(), nexts.len(), places.as_mut_ptr(), places.len(),
            renumber.as_mut_ptr(), renumber.len(),
            out_tags.as_mut_ptr(), out_tags.len(), out_args.as_mut_ptr(), out_args.len(),
            report.as_mut_ptr(), report.len(),
        )
    };
    Status::of(number)
}

//! Terms as bits of binary lambda calculus, to and from term files.
//!
//! 00 and a body is an abstraction, 01 and two terms an application, and k + 1 ones followed by a zero the variable that is
//! bound k abstractions out. With m abstractions around it and k at least m it is the free name k - m. Bits fill bytes from
//! the highest, and the last byte is padded with zeros: λx. x is 0010, the byte 0x20.

use crate::{stack::with_stack, FileRefusal, MOST_NODES_IN_A_FILE};

/// Elements of the report array of an import or an export: the refusal's number or 0, and the bytes written or 0.
pub const EXCHANGE_REPORT_LEN: usize = 2;
/// The most bytes that an import writes: a term file of as many nodes as one may have.
pub const MOST_IMPORTED: usize = 4 + 3 * MOST_NODES_IN_A_FILE;
/// The most bytes that an export writes: of an abstraction over 8,192 variables, each the last of 16,384 free names.
pub const MOST_EXPORTED: usize = 16_781_312;
/// The most bytes of stack that an import or an export takes. Neither calls itself.
pub const STACK_FOR_AN_EXCHANGE: usize = 172_032;

mod ffi {
    extern "C" {
        pub fn glow_import(bits: *const u8, bits_len: usize, f: u32, out: *mut u8, out_len: usize, report: *mut u64, report_len: usize) -> u32;
        pub fn glow_export(file: *const u8, file_len: usize, out: *mut u8, out_len: usize, report: *mut u64, report_len: usize) -> u32;
    }
}

/// What a call of [`import_in`] or [`export_in`] says.
#[derive(Clone, Copy, Debug, PartialEq, Eq)]
pub enum ExchangeStatus { Written, Refused, ReportTooShort }

impl ExchangeStatus {
    fn of(number: u32) -> ExchangeStatus {
        match number {
            0 => ExchangeStatus::Written,
            3 => ExchangeStatus::Refused,
            4 => ExchangeStatus::ReportTooShort,
            other => panic!("an import or an export answered {other}, which is no status of this wrapper"),
        }
    }
}

/// Why nothing is written. An import gives `File(FileRefusal::Limits)`, 2, where `f` is above 16,384, and else the four
/// others; an export gives `File` and `Output`.
#[derive(Clone, Copy, Debug, PartialEq, Eq)]
pub enum ExchangeRefusal {
    /// 1 to 7: the file is not a term file; of an import, 2: `f` is outside its limits.
    File(FileRefusal),
    /// 12: the output is too short.
    Output,
    /// 14: the bits end inside a term, or there are none.
    BitsTooShort,
    /// 15: the padding is not zero, or there is a spare byte.
    Padding,
    /// 16: a node beyond 16,384, or a free name not below `f`.
    BitsLimits,
}

impl ExchangeRefusal {
    pub fn number(self) -> u8 {
        match self {
            ExchangeRefusal::File(why) => why.number(),
            ExchangeRefusal::Output => 12,
            ExchangeRefusal::BitsTooShort => 14,
            ExchangeRefusal::Padding => 15,
            ExchangeRefusal::BitsLimits => 16,
        }
    }
    pub fn of(number: u64) -> Option<ExchangeRefusal> {
        use ExchangeRefusal::*;
        let file = FileRefusal::of(number).map(File);
        file.or_else(|| [Output, BitsTooShort, Padding, BitsLimits].into_iter().find(|r| u64::from(r.number()) == number))
    }
}

/// The answer of [`import`] and [`export`].
#[derive(Clone, Copy, Debug, PartialEq, Eq)]
pub enum Exchanged {
    /// So many bytes at the front of the output; the rest of it is as before.
    Written(usize),
    /// The output is as before.
    Refused(ExchangeRefusal),
}

impl Exchanged {
    fn of(status: ExchangeStatus, report: [u64; EXCHANGE_REPORT_LEN]) -> Exchanged {
        match status {
            ExchangeStatus::Written => Exchanged::Written(report[1] as usize),
            ExchangeStatus::Refused => Exchanged::Refused(ExchangeRefusal::of(report[0]).expect("a refusal from 1 to 7, 12, or from 14 to 16")),
            ExchangeStatus::ReportTooShort => unreachable!("the report has its two elements"),
        }
    }
}

/// Writes the term file, with `f` free names, of the term that the bits stand for. It has 4 bytes and 3 for each node.
pub fn import(bits: &[u8], f: u32, out: &mut [u8]) -> Exchanged {
    let mut report = [0; EXCHANGE_REPORT_LEN];
    Exchanged::of(import_in(bits, f, out, &mut report), report)
}

/// Writes the bits of the term that a term file stands for.
pub fn export(file: &[u8], out: &mut [u8]) -> Exchanged {
    let mut report = [0; EXCHANGE_REPORT_LEN];
    Exchanged::of(export_in(file, out, &mut report), report)
}

/// As [`import`], with an output of its own, which is never too short: a node has at least two bits, so that there are at
/// most four for each byte.
pub fn import_to_vec(bits: &[u8], f: u32) -> Result<Vec<u8>, ExchangeRefusal> {
    let mut out = vec![0; 4 + 3 * MOST_NODES_IN_A_FILE.min(bits.len().saturating_mul(4))];
    match import(bits, f, &mut out) {
        Exchanged::Written(length) => { out.truncate(length); Ok(out) }
        Exchanged::Refused(why) => Err(why),
    }
}

/// As [`export`], with an output of its own: at first as long as the file, and twice as long each time that it is found too
/// short. Most terms need fewer bytes than their files; with many free names or many abstractions some need more, at most
/// [`MOST_EXPORTED`].
pub fn export_to_vec(file: &[u8]) -> Result<Vec<u8>, ExchangeRefusal> {
    let mut out = vec![0; file.len().min(MOST_IMPORTED)];
    loop {
        match export(file, &mut out) {
            Exchanged::Written(length) => { out.truncate(length); return Ok(out); }
            Exchanged::Refused(ExchangeRefusal::Output) if out.len() < MOST_EXPORTED => out.resize(2 * out.len(), 0),
            Exchanged::Refused(why) => return Err(why),
        }
    }
}

/// The call on slices of any lengths and with the report as raw numbers. Where the thread may have too little stack left, it
/// is made on another one, as [`Stores::evaluate`](crate::Stores::evaluate) is.
pub fn import_in(bits: &[u8], f: u32, out: &mut [u8], report: &mut [u64]) -> ExchangeStatus {
    // SAFETY: every pointer comes from a slice live for the whole call and goes with that slice's length; the slices that
    // are written are borrowed exclusively, so none overlaps another.
    ExchangeStatus::of(with_stack(STACK_FOR_AN_EXCHANGE, || unsafe {
        ffi::glow_import(bits.as_ptr(), bits.len(), f, out.as_mut_ptr(), out.len(), report.as_mut_ptr(), report.len())
    }))
}

/// As [`import_in`], the other way.
pub fn export_in(file: &[u8], out: &mut [u8], report: &mut [u64]) -> ExchangeStatus {
    // SAFETY: as of `import_in`.
    ExchangeStatus::of(with_stack(STACK_FOR_AN_EXCHANGE, || unsafe {
        ffi::glow_export(file.as_ptr(), file.len(), out.as_mut_ptr(), out.len(), report.as_mut_ptr(), report.len())
    }))
}

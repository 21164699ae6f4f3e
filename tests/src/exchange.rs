//! One import or export: the second implementation's answer, and the library's compared with it, with sentinels before and after
//! the output and the report.
use crate::binary::{export, fitted, import};

#[derive(Clone, Copy, Debug)]
pub enum Given<'a> { Bits(&'a [u8], u32), File(&'a [u8]) }

impl<'a> Given<'a> {
    pub fn bytes(&self) -> &'a [u8] { match self { Given::Bits(bytes, _) | Given::File(bytes) => bytes } }

    /// The second implementation's answer, whatever the room.
    pub fn answer(&self) -> Result<Vec<u8>, u8> { match *self { Given::Bits(bits, f) => import(bits, f), Given::File(file) => export(file) } }

    /// Compares the library's answers with this one: with just the room that is needed, one less, none, and more. Gives it back.
    pub fn check(&self) -> Result<Vec<u8>, u8> {
        let answer = self.answer();
        let length = answer.as_ref().map_or(30, Vec::len);
        for room in [length, length.saturating_sub(1), 0, length + 9] { Exchange::new(*self, room).check_against(&answer); }
        answer
    }
}

/// A call, with the lengths of its arrays.
#[derive(Clone, Copy, Debug)]
pub struct Exchange<'a> {
    pub given: Given<'a>,
    pub room: usize,
    pub report_len: usize,
    /// what the output holds before: 0 zeros, 1 all ones, 2 small numbers, else random from this seed
    pub garbage: u64,
    /// whether an array of length 0 is lent by a null pointer
    pub nulls: bool,
}

impl<'a> Exchange<'a> {
    pub fn new(given: Given<'a>, room: usize) -> Exchange<'a> { Exchange { given, room, report_len: 2, garbage: 7, nulls: false } }
    pub fn garbage(mut self, g: u64) -> Self { self.garbage = g; self }
    pub fn nulls(mut self) -> Self { self.nulls = true; self }

    /// Compares the library's answer with the one that is given, cut to the room. Panics on a difference.
    pub fn check_against(&self, answer: &Result<Vec<u8>, u8>) {
        let right = fitted(answer, self.room);
        if let Err(why) = compare(self, right) {
            let shown = |bytes: &[u8]| bytes.iter().take(400).map(|b| format!("{b:02x}")).collect::<Vec<_>>().join(" ");
            let (kind, bytes) = match self.given { Given::Bits(bytes, f) => (format!("import, f = {f}"), bytes), Given::File(bytes) => ("export".into(), bytes) };
            panic!("DISAGREEMENT: {why}\n {kind}, room {} report_len {} garbage {} nulls {}\n second implementation: {}\n given ({} bytes): {}", self.room, self.report_len, self.garbage,
                self.nulls, match right { Ok(bytes) => format!("{} bytes, {}", bytes.len(), shown(bytes)), Err(n) => format!("refused {n}") }, bytes.len(), shown(bytes));
        }
    }
}

#[cfg(not(feature = "library"))]
fn compare(_: &Exchange, _: Result<&[u8], u8>) -> Result<(), String> { Ok(()) }

#[cfg(feature = "library")]
pub use library::*;
#[cfg(feature = "library")]
mod library {
    use super::*;
    use crate::case::Lent;
    use crate::prng::Prng;

    /// The C functions as a C program calls them, on the stack that there is. With `nulls` an array of length 0 is lent by a null pointer.
    pub fn call(given: Given, nulls: bool, out: &mut [u8], report: &mut [u64]) -> u32 {
        extern "C" {
            fn glow_import(bits: *const u8, bits_len: usize, f: u32, out: *mut u8, out_len: usize, report: *mut u64, report_len: usize) -> u32;
            fn glow_export(file: *const u8, file_len: usize, out: *mut u8, out_len: usize, report: *mut u64, report_len: usize) -> u32;
        }
        let bytes = given.bytes();
        let start = if nulls && bytes.is_empty() { std::ptr::null() } else { bytes.as_ptr() };
        let to = if nulls && out.is_empty() { std::ptr::null_mut() } else { out.as_mut_ptr() };
        let numbers = if nulls && report.is_empty() { std::ptr::null_mut() } else { report.as_mut_ptr() };
        // SAFETY: each pointer is to a slice as long as is said, and those that are written are borrowed alone; or is null with the length 0, which glow.h allows.
        unsafe {
            match given {
                Given::Bits(_, f) => glow_import(start, bytes.len(), f, to, out.len(), numbers, report.len()),
                Given::File(_) => glow_export(start, bytes.len(), to, out.len(), numbers, report.len()),
            }
        }
    }

    /// The same through the wrapper, whose status is given as C's number.
    fn wrapped(given: Given, out: &mut [u8], report: &mut [u64]) -> u32 {
        use glow::ExchangeStatus::*;
        let status = match given { Given::Bits(bits, f) => glow::import_in(bits, f, out, report), Given::File(file) => glow::export_in(file, out, report) };
        match status { Written => 0, Refused => 3, ReportTooShort => 4 }
    }

    pub(super) fn compare(case: &Exchange, right: Result<&[u8], u8>) -> Result<(), String> {
        let mut r = Prng(case.garbage);
        let mut out: Lent<u8> = Lent::new("out", case.room, case.garbage, &mut r);
        let mut report: Lent<u64> = Lent::new("report", case.report_len, 9, &mut r);
        let before = case.given.bytes().to_vec();
        let status = if case.nulls { call(case.given, true, out.slice(), report.slice()) } else { wrapped(case.given, out.slice(), report.slice()) };
        if before != case.given.bytes() { return Err("the bytes given were changed".into()); }
        out.ends()?;
        report.ends()?;
        if case.report_len < 2 {
            if status != 4 { return Err(format!("status {status} with a short report")); }
            out.unchanged_from(0)?;
            return report.unchanged_from(0);
        }
        let (want, refusal, bytes) = match right { Ok(bytes) => (0, 0, bytes), Err(n) => (3, u64::from(n), &[][..]) };
        let (told, expected) = (&report.held()[..2], [refusal, bytes.len() as u64]);
        if status != want || told != expected { return Err(format!("library {status} {told:?}, second implementation {want} {expected:?}")); }
        report.unchanged_from(2)?;
        if let Some(k) = (0..bytes.len()).find(|&k| out.held()[k] != bytes[k]) {
            return Err(format!("byte {k} of {} is {:02x}, and {:02x} by the second implementation", bytes.len(), out.held()[k], bytes[k]));
        }
        out.unchanged_from(bytes.len())
    }

    /// The wrapper's own functions, those that write into a slice and those that make a vector, against an answer.
    pub fn check_wrapper(given: Given, answer: &Result<Vec<u8>, u8>) {
        use glow::Exchanged::*;
        let made = match given { Given::Bits(bits, f) => glow::import_to_vec(bits, f), Given::File(file) => glow::export_to_vec(file) };
        assert_eq!(&made.map_err(|why| why.number()), answer);
        let length = answer.as_ref().map_or(20, Vec::len);
        for room in [0, length.saturating_sub(1), length, length + 3] {
            let mut out = vec![0xEE; room];
            let told = match given { Given::Bits(bits, f) => glow::import(bits, f, &mut out), Given::File(file) => glow::export(file, &mut out) };
            let told = match told { Written(n) => Ok(&out[..n]), Refused(why) => Err(why.number()) };
            assert_eq!(told, fitted(answer, room));
        }
    }
}

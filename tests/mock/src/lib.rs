use plain::{evaluate_with, exchange, Lent};

/// A slice of a pointer that may be null where the length is 0.
unsafe fn slice<'a, T>(start: *const T, len: usize) -> &'a [T] { if len == 0 { &[] } else { std::slice::from_raw_parts(start, len) } }
unsafe fn slice_mut<'a, T>(start: *mut T, len: usize) -> &'a mut [T] { if len == 0 { &mut [] } else { std::slice::from_raw_parts_mut(start, len) } }

/// # Safety
/// Every pointer is to as many elements as its length says, or anything where that is 0, and no two arrays overlap.
#[no_mangle]
#[allow(clippy::too_many_arguments)]
pub unsafe extern "C" fn glow_evaluate_with(
    machine: u32, prelude: *const u8, prelude_len: usize, file: *const u8, file_len: usize, budget: u32,
    tags: *mut u8, tags_len: usize, args: *mut u16, args_len: usize,
    codes: *mut u16, codes_len: usize, owns: *mut u16, owns_len: usize, nexts: *mut u16, nexts_len: usize,
    places: *mut u16, places_len: usize, renumber: *mut u16, renumber_len: usize,
    out_tags: *mut u8, out_tags_len: usize, out_args: *mut u16, out_args_len: usize,
    report: *mut u64, report_len: usize,
) -> u32 {
    let mut lent = Lent {
        tags: slice_mut(tags, tags_len), args: slice_mut(args, args_len),
        codes: slice_mut(codes, codes_len), owns: slice_mut(owns, owns_len), nexts: slice_mut(nexts, nexts_len),
        places: slice_mut(places, places_len), renumber: slice_mut(renumber, renumber_len),
        out_tags: slice_mut(out_tags, out_tags_len), out_args: slice_mut(out_args, out_args_len),
    };
    // a status that means nothing where a wrong machine panics, so that one test fails and the others go on
    let call = || evaluate_with(machine, slice(prelude, prelude_len), slice(file, file_len), budget, &mut lent, slice_mut(report, report_len));
    std::panic::catch_unwind(std::panic::AssertUnwindSafe(call)).unwrap_or(99)
}

/// # Safety
/// As of `glow_evaluate_with`.
#[no_mangle]
#[allow(clippy::too_many_arguments)]
pub unsafe extern "C" fn glow_evaluate(
    machine: u32, file: *const u8, file_len: usize, budget: u32,
    tags: *mut u8, tags_len: usize, args: *mut u16, args_len: usize,
    codes: *mut u16, codes_len: usize, owns: *mut u16, owns_len: usize, nexts: *mut u16, nexts_len: usize,
    places: *mut u16, places_len: usize, renumber: *mut u16, renumber_len: usize,
    out_tags: *mut u8, out_tags_len: usize, out_args: *mut u16, out_args_len: usize,
    report: *mut u64, report_len: usize,
) -> u32 {
    glow_evaluate_with(
        machine, [0, 0].as_ptr(), 2, file, file_len, budget, tags, tags_len, args, args_len, codes, codes_len, owns, owns_len, nexts, nexts_len,
        places, places_len, renumber, renumber_len, out_tags, out_tags_len, out_args, out_args_len, report, report_len,
    )
}

/// The status of an import or an export, and the first two elements of the report.
fn exchanged(work: impl FnOnce() -> Result<usize, u32>, report: &mut [u64]) -> u32 {
    if report.len() < 2 { return 4; }
    // as above where a wrong exchange panics
    let Ok(answer) = std::panic::catch_unwind(std::panic::AssertUnwindSafe(work)) else { return 99 };
    let (status, refusal, written) = match answer { Ok(written) => (0, 0, written as u64), Err(refusal) => (3, refusal.into(), 0) };
    report[0] = refusal;
    report[1] = written;
    status
}

/// # Safety
/// As of `glow_evaluate_with`.
#[no_mangle]
pub unsafe extern "C" fn glow_import(bits: *const u8, bits_len: usize, f: u32, out: *mut u8, out_len: usize, report: *mut u64, report_len: usize) -> u32 {
    exchanged(|| exchange::import(slice(bits, bits_len), f, slice_mut(out, out_len)), slice_mut(report, report_len))
}

/// # Safety
/// As of `glow_evaluate_with`.
#[no_mangle]
pub unsafe extern "C" fn glow_export(file: *const u8, file_len: usize, out: *mut u8, out_len: usize, report: *mut u64, report_len: usize) -> u32 {
    exchanged(|| exchange::export(slice(file, file_len), slice_mut(out, out_len)), slice_mut(report, report_len))
}

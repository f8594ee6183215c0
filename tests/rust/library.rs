//! The library's C functions as declared in include/farigolenc.h, and safe wrappers around them.
//! Which library that is, is said when linking: see tests/shared.

use crate::answers::{
    Cursor, Described, Difference, Explained, Fetched, Kind, Live, Making, Moved, Overall, Reading,
    Span, Stepped, Written,
};

unsafe extern "C" {
    fn farigolenc_write(
        rate: u32,
        side: u32,
        form: u32,
        positions: *const u64,
        positions_length: usize,
        ratios: *const u64,
        ratios_length: usize,
        out: *mut u8,
        out_length: usize,
    ) -> Written;
    fn farigolenc_check(expected: u32, record: *const u8, record_length: usize) -> u32;
    fn farigolenc_describe(expected: u32, record: *const u8, record_length: usize) -> Described;
    fn farigolenc_fetch(
        expected: u32,
        record: *const u8,
        record_length: usize,
        positions: *mut u64,
        positions_length: usize,
        ratios: *mut u64,
        ratios_length: usize,
    ) -> Fetched;
    fn farigolenc_read_open(
        expected: u32,
        record: *const u8,
        record_length: usize,
        positions: *mut u64,
        positions_length: usize,
        ratios: *mut u64,
        ratios_length: usize,
    ) -> Reading;
    fn farigolenc_to_wide(
        record: *const u8,
        record_length: usize,
        out: *mut u8,
        out_length: usize,
    ) -> Moved;
    fn farigolenc_to_old(
        record: *const u8,
        record_length: usize,
        out: *mut u8,
        out_length: usize,
    ) -> Moved;
    fn farigolenc_span(rate: u32, positions: *const u64, positions_length: usize) -> Span;
    fn farigolenc_live_new() -> Live;
    fn farigolenc_live_add(
        state: *mut Live,
        ratio: u64,
        out: *mut u8,
        out_length: usize,
    ) -> Written;
    fn farigolenc_cursor_new(count: u64) -> Making;
    fn farigolenc_step(body: *const u8, body_length: usize, cursor: Cursor) -> Stepped;
    fn farigolenc_kind(ratio: u64) -> Kind;
    fn farigolenc_explain(ratios: *const u64, ratios_length: usize, index: u64) -> Explained;
    fn farigolenc_compare_overall(first: Described, second: Described) -> Overall;
    fn farigolenc_compare_positions(
        first: *const u64,
        first_length: usize,
        second: *const u64,
        second_length: usize,
        index: u64,
    ) -> Difference;
    fn farigolenc_compare_ratios(
        first: *const u64,
        first_length: usize,
        second: *const u64,
        second_length: usize,
        index: u64,
    ) -> Difference;
}

// Each call below lends slices, which are valid and non-null also when empty, and whose borrows
// keep what is written apart from everything else. That is all that the functions ask for.

pub fn write(
    rate: u32,
    side: u32,
    form: u32,
    positions: &[u64],
    ratios: &[u64],
    out: &mut [u8],
) -> Written {
    // SAFETY: see above.
    unsafe {
        farigolenc_write(
            rate,
            side,
            form,
            positions.as_ptr(),
            positions.len(),
            ratios.as_ptr(),
            ratios.len(),
            out.as_mut_ptr(),
            out.len(),
        )
    }
}

pub fn check(expected: u32, record: &[u8]) -> u32 {
    // SAFETY: see above.
    unsafe { farigolenc_check(expected, record.as_ptr(), record.len()) }
}

pub fn describe(expected: u32, record: &[u8]) -> Described {
    // SAFETY: see above.
    unsafe { farigolenc_describe(expected, record.as_ptr(), record.len()) }
}

pub fn fetch(expected: u32, record: &[u8], positions: &mut [u64], ratios: &mut [u64]) -> Fetched {
    // SAFETY: see above.
    unsafe {
        farigolenc_fetch(
            expected,
            record.as_ptr(),
            record.len(),
            positions.as_mut_ptr(),
            positions.len(),
            ratios.as_mut_ptr(),
            ratios.len(),
        )
    }
}

pub fn read_open(
    expected: u32,
    record: &[u8],
    positions: &mut [u64],
    ratios: &mut [u64],
) -> Reading {
    // SAFETY: see above.
    unsafe {
        farigolenc_read_open(
            expected,
            record.as_ptr(),
            record.len(),
            positions.as_mut_ptr(),
            positions.len(),
            ratios.as_mut_ptr(),
            ratios.len(),
        )
    }
}

pub fn to_wide(record: &[u8], out: &mut [u8]) -> Moved {
    // SAFETY: see above.
    unsafe { farigolenc_to_wide(record.as_ptr(), record.len(), out.as_mut_ptr(), out.len()) }
}

pub fn to_old(record: &[u8], out: &mut [u8]) -> Moved {
    // SAFETY: see above.
    unsafe { farigolenc_to_old(record.as_ptr(), record.len(), out.as_mut_ptr(), out.len()) }
}

pub fn span(rate: u32, positions: &[u64]) -> Span {
    // SAFETY: see above.
    unsafe { farigolenc_span(rate, positions.as_ptr(), positions.len()) }
}

pub fn live_new() -> Live {
    // SAFETY: nothing is lent.
    unsafe { farigolenc_live_new() }
}

pub fn live_add(state: &mut Live, ratio: u64, out: &mut [u8]) -> Written {
    // SAFETY: see above.
    unsafe { farigolenc_live_add(state, ratio, out.as_mut_ptr(), out.len()) }
}

pub fn cursor_new(count: u64) -> Making {
    // SAFETY: nothing is lent.
    unsafe { farigolenc_cursor_new(count) }
}

pub fn step(body: &[u8], cursor: Cursor) -> Stepped {
    // SAFETY: see above.
    unsafe { farigolenc_step(body.as_ptr(), body.len(), cursor) }
}

pub fn kind(ratio: u64) -> Kind {
    // SAFETY: nothing is lent.
    unsafe { farigolenc_kind(ratio) }
}

pub fn explain(ratios: &[u64], index: u64) -> Explained {
    // SAFETY: see above.
    unsafe { farigolenc_explain(ratios.as_ptr(), ratios.len(), index) }
}

pub fn compare_overall(first: Described, second: Described) -> Overall {
    // SAFETY: nothing is lent.
    unsafe { farigolenc_compare_overall(first, second) }
}

pub fn compare_positions(first: &[u64], second: &[u64], index: u64) -> Difference {
    // SAFETY: see above.
    unsafe {
        farigolenc_compare_positions(
            first.as_ptr(),
            first.len(),
            second.as_ptr(),
            second.len(),
            index,
        )
    }
}

pub fn compare_ratios(first: &[u64], second: &[u64], index: u64) -> Difference {
    // SAFETY: see above.
    unsafe {
        farigolenc_compare_ratios(
            first.as_ptr(),
            first.len(),
            second.as_ptr(),
            second.len(),
            index,
        )
    }
}

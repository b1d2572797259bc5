//! The calls of libzagalume.a as include/zagalume.h declares them, with the number that stands in them for what is not there, and nothing else: that header says what each
//! asks of its caller, answers and writes. The crate `zagalume` has them as safe functions.
#![no_std]

/// The answer of every call, `zl_answer` of the header: number 0 is "yes"; a "no" has its number and place, and length 0.
#[repr(C)]
#[derive(Debug, Clone, Copy, PartialEq, Eq)]
pub struct Answer {
    pub number: u32,
    pub at: u32,
    pub field: u32,
    pub length: u32,
}

/// The place of a missing sample in a row that is shown or written, of what a configuration of 1999 has no line for, of a date and time where there is no date, and of a
/// pre-trigger time that is unknown. Compare before you narrow: cut to 32 bits it is 0, which is a sample, a code, a good quality and midnight.
pub const ZL_NONE: i64 = i64::MIN;

#[rustfmt::skip]
extern "C" {
    pub fn zl_config(cfg: *const u8, cfg_length: usize, shown: *mut i64, shown_length: usize) -> Answer;
    pub fn zl_write_config(cfg: *const u8, cfg_length: usize, kind: u32, out: *mut u8, out_length: usize) -> Answer;
    pub fn zl_check(a: u32, d: u32, rows: u32, kind: u32, edition: u32, data: *const u8, data_length: usize) -> Answer;
    pub fn zl_row(a: u32, d: u32, rows: u32, kind: u32, edition: u32, data: *const u8, data_length: usize, n: u32, shown: *mut i64, shown_length: usize) -> Answer;
    pub fn zl_write_row(a: u32, d: u32, rows: u32, kind: u32, edition: u32, n: u32, row: *const i64, row_length: usize, out: *mut u8, out_length: usize) -> Answer;
    pub fn zl_length(a: u32, d: u32, rows: u32, kind: u32, edition: u32, data: *const u8, data_length: usize, new_kind: u32) -> Answer;
    pub fn zl_change(a: u32, d: u32, rows: u32, kind: u32, edition: u32, data: *const u8, data_length: usize, new_kind: u32, out: *mut u8, out_length: usize) -> Answer;
    pub fn zl_reason(number: u32, out: *mut u8, out_length: usize) -> Answer;
}

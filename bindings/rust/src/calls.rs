//! The calls of the static library, each behind a safe function on slices: the one place that is not safe Rust.
//! A slice is a pointer that is valid, aligned and not null for its length; what a `&mut` lends overlaps nothing else; and nothing writes to what is lent until the
//! call returns. That is all that the library asks of its caller, so every function here may be called with anything.

use crate::{Layout, Refusal};
use zagalume_raw::{
    zl_change, zl_check, zl_config, zl_length, zl_reason, zl_row, zl_write_config, zl_write_row, Answer,
};

/// A layout as the calls take it.
fn numbers(l: Layout) -> (u32, u32, u32, u32, u32) {
    (l.analogs, l.statuses, l.rows, l.kind.number(), l.edition.year())
}

/// Yes with the length, or no.
fn told(answer: Answer) -> Result<usize, Refusal> {
    match answer.number {
        0 => Ok(answer.length as usize),
        number => Err(Refusal { number, at: answer.at, field: answer.field }),
    }
}

pub fn config(cfg: &[u8], shown: &mut [i64]) -> Result<usize, Refusal> {
    // SAFETY: the slices are what the library asks for (see the top of this file), as in each call below.
    told(unsafe { zl_config(cfg.as_ptr(), cfg.len(), shown.as_mut_ptr(), shown.len()) })
}

pub fn write_config(cfg: &[u8], kind: u32, out: &mut [u8]) -> Result<usize, Refusal> {
    // SAFETY: as in config.
    told(unsafe { zl_write_config(cfg.as_ptr(), cfg.len(), kind, out.as_mut_ptr(), out.len()) })
}

pub fn check(l: Layout, data: &[u8]) -> Result<usize, Refusal> {
    let (a, d, rows, kind, edition) = numbers(l);
    // SAFETY: as in config.
    told(unsafe { zl_check(a, d, rows, kind, edition, data.as_ptr(), data.len()) })
}

pub fn row(l: Layout, data: &[u8], n: u32, shown: &mut [i64]) -> Result<usize, Refusal> {
    let (a, d, rows, kind, edition) = numbers(l);
    // SAFETY: as in config.
    told(unsafe { zl_row(a, d, rows, kind, edition, data.as_ptr(), data.len(), n, shown.as_mut_ptr(), shown.len()) })
}

pub fn write_row(l: Layout, n: u32, row: &[i64], out: &mut [u8]) -> Result<usize, Refusal> {
    let (a, d, rows, kind, edition) = numbers(l);
    // SAFETY: as in config.
    told(unsafe { zl_write_row(a, d, rows, kind, edition, n, row.as_ptr(), row.len(), out.as_mut_ptr(), out.len()) })
}

pub fn length(l: Layout, data: &[u8], new_kind: u32) -> Result<usize, Refusal> {
    let (a, d, rows, kind, edition) = numbers(l);
    // SAFETY: as in config.
    told(unsafe { zl_length(a, d, rows, kind, edition, data.as_ptr(), data.len(), new_kind) })
}

pub fn change(l: Layout, data: &[u8], new_kind: u32, out: &mut [u8]) -> Result<usize, Refusal> {
    let (a, d, rows, kind, edition) = numbers(l);
    let (data, length, out, room) = (data.as_ptr(), data.len(), out.as_mut_ptr(), out.len());
    // SAFETY: as in config.
    told(unsafe { zl_change(a, d, rows, kind, edition, data, length, new_kind, out, room) })
}

pub fn reason(number: u32, out: &mut [u8]) -> Result<usize, Refusal> {
    // SAFETY: as in config.
    told(unsafe { zl_reason(number, out.as_mut_ptr(), out.len()) })
}

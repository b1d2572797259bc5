//! The library's exported calls, lent slices as it wants them: a pointer, then a length.

use crate::{Answer, LayoutNumbers};
use zagalume_raw::{zl_change, zl_check, zl_config, zl_length, zl_row, zl_write_config, zl_write_row};

// Each call below lends live slices for the time of the call, which is all that the library asks of its caller.

/// Reads a configuration.
pub fn config(cfg: &[u8], shown: &mut [i64]) -> Answer {
    unsafe { zl_config(cfg.as_ptr(), cfg.len(), shown.as_mut_ptr(), shown.len()) }
}

/// Writes a configuration for a kind.
pub fn write_config(cfg: &[u8], kind: u32, out: &mut [u8]) -> Answer {
    unsafe { zl_write_config(cfg.as_ptr(), cfg.len(), kind, out.as_mut_ptr(), out.len()) }
}

/// Checks a data file.
pub fn check(l: LayoutNumbers, data: &[u8]) -> Answer {
    unsafe { zl_check(l.a, l.d, l.rows, l.kind, l.edition, data.as_ptr(), data.len()) }
}

/// Shows row n of a data file.
pub fn row(l: LayoutNumbers, data: &[u8], n: u32, shown: &mut [i64]) -> Answer {
    unsafe {
        zl_row(l.a, l.d, l.rows, l.kind, l.edition, data.as_ptr(), data.len(), n, shown.as_mut_ptr(), shown.len())
    }
}

/// Writes row n.
pub fn write_row(l: LayoutNumbers, n: u32, row: &[i64], out: &mut [u8]) -> Answer {
    unsafe {
        zl_write_row(l.a, l.d, l.rows, l.kind, l.edition, n, row.as_ptr(), row.len(), out.as_mut_ptr(), out.len())
    }
}

/// The bytes needed for a change of kind.
pub fn length(l: LayoutNumbers, data: &[u8], new_kind: u32) -> Answer {
    unsafe { zl_length(l.a, l.d, l.rows, l.kind, l.edition, data.as_ptr(), data.len(), new_kind) }
}

/// Changes a data file to another kind.
pub fn change(l: LayoutNumbers, data: &[u8], new_kind: u32, out: &mut [u8]) -> Answer {
    unsafe {
        zl_change(l.a, l.d, l.rows, l.kind, l.edition, data.as_ptr(), data.len(), new_kind, out.as_mut_ptr(), out.len())
    }
}

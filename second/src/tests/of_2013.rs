//! The calls that take a layout, under the 2013 edition.

use crate::{Answer, LayoutNumbers};

/// A layout of 2013.
fn layout(a: u32, d: u32, rows: u32, kind: u32) -> LayoutNumbers {
    LayoutNumbers { a, d, rows, kind, edition: 2013 }
}

pub fn check(a: u32, d: u32, rows: u32, kind: u32, data: &[u8]) -> Answer {
    crate::check(layout(a, d, rows, kind), data)
}

pub fn row(a: u32, d: u32, rows: u32, kind: u32, data: &[u8], n: u32, shown: &mut [i64]) -> Answer {
    crate::row(layout(a, d, rows, kind), data, n, shown)
}

pub fn write_row(a: u32, d: u32, rows: u32, kind: u32, n: u32, row: &[i64], out: &mut [u8]) -> Answer {
    crate::write_row(layout(a, d, rows, kind), n, row, out)
}

pub fn length(a: u32, d: u32, rows: u32, kind: u32, data: &[u8], new_kind: u32) -> Answer {
    crate::length(layout(a, d, rows, kind), data, new_kind)
}

pub fn change(a: u32, d: u32, rows: u32, kind: u32, data: &[u8], new_kind: u32, out: &mut [u8]) -> Answer {
    crate::change(layout(a, d, rows, kind), data, new_kind, out)
}

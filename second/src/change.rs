//! The change of a data file from one kind to another.

use crate::data::{put_row, walk, Kind, Layout, LayoutNumbers, END_MARK};
use crate::{no, yes, Answer};

/// A change that nothing but room can refuse: the layouts of both files and the length of the new one.
struct Plan {
    old: Layout,
    new: Layout,
    length: usize,
}

/// The layouts of both files, which are of one edition: 10 for either.
fn layouts(old: LayoutNumbers, new_kind: u32) -> Result<[Layout; 2], Answer> {
    Ok([Layout::new(old)?, Layout::new(LayoutNumbers { kind: new_kind, ..old })?])
}

/// The file's refusals, then 16 at the first row and field that fails.
fn plan([old, new]: [Layout; 2], data: &[u8]) -> Result<Plan, Answer> {
    let mut failed = None;
    let mut length = end_mark(new.kind).len();
    let mut bytes = Vec::new();
    walk(&old, data, |n, row| {
        if failed.is_some() {
            return;
        }
        if let Some(field) = row.misfit(&new) {
            failed = Some(no(16, n, field));
            return;
        }
        if new.kind == Kind::Ascii {
            bytes.clear();
            put_row(&new, n, row, &mut bytes);
            length += bytes.len();
        } else {
            length += new.row_size();
        }
    })?;
    match failed {
        Some(answer) => Err(answer),
        None => Ok(Plan { old, new, length }),
    }
}

/// The plain text file ends 1A 0D 0A; the binary kinds have no mark.
fn end_mark(kind: Kind) -> &'static [u8] {
    match kind {
        Kind::Ascii => &END_MARK,
        Kind::Binary | Kind::Binary32 => &[],
    }
}

/// The bytes needed for a change of kind: it answers or refuses as the change does, but never with 17.
pub fn length(layout: LayoutNumbers, data: &[u8], new_kind: u32) -> Answer {
    match layouts(layout, new_kind).and_then(|layouts| plan(layouts, data)) {
        Ok(plan) => yes(plan.length as u32),
        Err(answer) => answer,
    }
}

/// Changes a data file to another kind, every test made before the first byte is written; 17 comes last.
pub fn change(layout: LayoutNumbers, data: &[u8], new_kind: u32, out: &mut [u8]) -> Answer {
    let plan = match layouts(layout, new_kind).and_then(|layouts| plan(layouts, data)) {
        Ok(plan) => plan,
        Err(answer) => return answer,
    };
    if out.len() < plan.length {
        return no(17, 0, 0);
    }
    let mut at = 0;
    let mut bytes = Vec::new();
    let walked = walk(&plan.old, data, |n, row| {
        bytes.clear();
        put_row(&plan.new, n, row, &mut bytes);
        out[at..at + bytes.len()].copy_from_slice(&bytes);
        at += bytes.len();
    });
    debug_assert!(walked.is_ok());
    out[at..plan.length].copy_from_slice(end_mark(plan.new.kind));
    yes(plan.length as u32)
}

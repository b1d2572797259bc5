//! The proved library's calls, each for a case.

use crate::case::Case;
use second::Answer;
use zagalume_raw::{zl_change, zl_check, zl_config, zl_length, zl_reason, zl_row, zl_write_config, zl_write_row};

/// Asks the library.
///
/// # Safety
/// `input` points to the case's input and `output` to as much room as the case lends.
pub unsafe fn ask(case: &Case, input: *const u8, output: *mut u8) -> Answer {
    let answer = match case {
        Case::Config { cfg, places } => zl_config(input, cfg.len(), output.cast(), *places),
        Case::WriteConfig { cfg, kind, room } => zl_write_config(input, cfg.len(), *kind, output, *room),
        Case::Check { layout: l, file } => zl_check(l.a, l.d, l.rows, l.kind, l.edition, input, file.len()),
        Case::Row { layout: l, file, n, places } => {
            zl_row(l.a, l.d, l.rows, l.kind, l.edition, input, file.len(), *n, output.cast(), *places)
        }
        Case::WriteRow { layout: l, n, row, room } => {
            zl_write_row(l.a, l.d, l.rows, l.kind, l.edition, *n, input.cast(), row.len(), output, *room)
        }
        Case::Length { layout: l, file, new_kind } => {
            zl_length(l.a, l.d, l.rows, l.kind, l.edition, input, file.len(), *new_kind)
        }
        Case::Change { layout: l, file, new_kind, room } => {
            zl_change(l.a, l.d, l.rows, l.kind, l.edition, input, file.len(), *new_kind, output, *room)
        }
        Case::Reason { number, room } => zl_reason(*number, output, *room),
    };
    Answer { number: answer.number, at: answer.at, field: answer.field, length: answer.length }
}

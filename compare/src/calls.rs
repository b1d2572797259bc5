//! The calls that read a data file, and the one that writes a configuration, each as a case.

use crate::case::{Case, Layout};
use crate::walk::Walk;

/// Bytes that a change needs; where it is refused, some few.
pub fn needed(layout: Layout, file: &[u8], new_kind: u32) -> usize {
    match second::length(layout.numbers(), file, new_kind) {
        answer if answer.number == 0 => answer.length as usize,
        _ => 16,
    }
}

/// A change into the room that it needs, and so many bytes more.
pub fn change(layout: Layout, file: Vec<u8>, new_kind: u32, more: usize) -> Case {
    let room = needed(layout, &file, new_kind) + more;
    Case::Change { layout, file, new_kind, room }
}

/// Each of the four calls that read a file, rows and kinds by turns.
pub fn four_calls(walk: &mut Walk, layout: Layout, turn: usize, file: &dyn Fn() -> Vec<u8>) {
    let turn = turn as u32;
    walk.case(|| Case::Check { layout, file: file() });
    walk.case(|| Case::Row { layout, file: file(), n: 1 + turn % layout.rows.max(1), places: layout.places() });
    walk.case(|| Case::Length { layout, file: file(), new_kind: turn % 3 });
    walk.case(|| change(layout, file(), turn / 3 % 3, turn as usize % 2));
}

/// The check, the first row and the last, and for each kind that the edition has the length and the change.
pub fn every_call(walk: &mut Walk, layout: Layout, file: &dyn Fn() -> Vec<u8>) {
    walk.case(|| Case::Check { layout, file: file() });
    for n in [1, layout.rows] {
        walk.case(|| Case::Row { layout, file: file(), n, places: layout.places() });
    }
    let kinds = if layout.edition == 1999 { 2 } else { 3 };
    for new_kind in 0..kinds {
        length_and_change(walk, layout, new_kind, file);
    }
}

/// The length of one change, and the change.
pub fn length_and_change(walk: &mut Walk, layout: Layout, new_kind: u32, file: &dyn Fn() -> Vec<u8>) {
    walk.case(|| Case::Length { layout, file: file(), new_kind });
    walk.case(|| change(layout, file(), new_kind, 0));
}

/// Bytes that a configuration has once it is written; where it is refused, some few.
pub fn rewritten_length(cfg: &[u8], kind: u32) -> usize {
    let mut out = vec![0; cfg.len() + 5];
    match second::write_config(cfg, kind, &mut out) {
        answer if answer.number == 0 => answer.length as usize,
        _ => 16,
    }
}

/// A configuration written into just the room that it needs.
pub fn write_config(cfg: Vec<u8>, kind: u32) -> Case {
    let room = rewritten_length(&cfg, kind);
    Case::WriteConfig { cfg, kind, room }
}

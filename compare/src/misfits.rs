//! Systematic cases of changes of kind and of written rows: samples that do not fit the kind, in every place, and those that just do.

use crate::calls::{change, every_call, length_and_change, needed};
use crate::case::{Case, Layout};
use crate::damage::Damage;
use crate::files::{range, Recording, EDITION_KINDS};
use crate::walk::Walk;

/// Numbers of samples, about those that may be tested at a time.
const ANALOGS: [u32; 9] = [1, 2, 7, 8, 9, 15, 16, 17, 96];

/// Samples that do not fit the binary kind, the last two neither a text of 1999.
const MISFITS: [i64; 7] = [32_768, -32_768, -32_769, 99_998, -99_999, 2_147_483_647, -2_147_483_647];

/// Samples that just do.
const FITS: [i64; 2] = [32_767, -32_767];

/// All cases, in an order that stays.
pub fn walk(walk: &mut Walk) {
    for kind in EDITION_KINDS {
        for a in ANALOGS {
            let recording = Recording::plain(Layout::of(a, 5, 3, kind));
            if kind.0 != 1 {
                one_misfit(walk, &recording);
            }
            one_at_the_limit(walk, &recording);
            all_at_the_limits(walk, &recording);
            one_written(walk, &recording);
        }
    }
    for kind in [(0, 2013), (2, 2013), (0, 1999)] {
        two_misfits(walk, &Recording::plain(Layout::of(17, 5, 3, kind)));
        misfit_and_fault(walk, &Recording::plain(Layout::of(2, 5, 3, kind)));
    }
    rooms(walk);
}

/// A misfit in every sample of every row; the first and the last sample asked in every way.
fn one_misfit(walk: &mut Walk, recording: &Recording) {
    let layout = recording.layout;
    let last = layout.a as usize;
    for row in 0..3 {
        for place in 1..=last {
            for sample in MISFITS {
                let file = || recording.with(row, place, sample).bytes();
                if place == 1 || place == last {
                    every_call(walk, layout, &file);
                } else {
                    length_and_change(walk, layout, 1, &file);
                }
            }
        }
    }
}

/// A sample at either limit in every place, changed to each of the binary kinds.
fn one_at_the_limit(walk: &mut Walk, recording: &Recording) {
    for place in 1..=recording.layout.a as usize {
        for sample in FITS {
            for new_kind in [1, 2] {
                walk.case(|| change(recording.layout, recording.with(place % 3, place, sample).bytes(), new_kind, 0));
            }
        }
    }
}

/// A row written with one sample just outside the layout's range, or just within it, in every place.
fn one_written(walk: &mut Walk, recording: &Recording) {
    let layout = recording.layout;
    let (lowest, highest) = range(layout).into_inner();
    for place in 1..=layout.a as usize {
        for sample in [highest + 1, lowest - 2, lowest - 1, highest, lowest] {
            walk.case(|| {
                let row = recording.with(1, place, sample).rows[1].clone();
                Case::WriteRow { layout, n: 2, row, room: 3000 }
            });
        }
    }
}

/// All samples at the limits, by turns.
fn all_at_the_limits(walk: &mut Walk, recording: &Recording) {
    let file = || {
        let mut recording = recording.clone();
        for (row, places) in recording.rows.iter_mut().enumerate() {
            for place in 1..=recording.layout.a as usize {
                places[place] = FITS[(row + place) % 2];
            }
        }
        recording.bytes()
    };
    every_call(walk, recording.layout, &file);
}

/// Two misfits, each in each row and in samples about every eighth: the first is told.
fn two_misfits(walk: &mut Walk, recording: &Recording) {
    let places: Vec<(usize, usize)> = (0..3).flat_map(|row| [1, 8, 9, 16, 17].map(move |place| (row, place))).collect();
    for &(row, place) in &places {
        for &(other_row, other_place) in &places {
            let file = || recording.with(row, place, 32_768).with(other_row, other_place, -32_768).bytes();
            length_and_change(walk, recording.layout, 1, &file);
        }
    }
}

/// A misfit in the first row, and the file damaged at every byte from the second row on: a fault is told before the misfit.
fn misfit_and_fault(walk: &mut Walk, recording: &Recording) {
    let file = recording.with(0, 1, 32_768).bytes();
    let damages = [Damage::Cut, Damage::Insert(b'x'), Damage::Flip(0), Damage::Flip(7)];
    for at in file.len() / 3..=file.len() {
        for damage in damages {
            length_and_change(walk, recording.layout, 1, &|| damage.at(&file, at));
        }
    }
}

/// Each binary kind to each, without samples and without statuses too: a byte less than the room that is needed, the room, and a byte more.
fn rooms(walk: &mut Walk) {
    for a in [0].into_iter().chain(ANALOGS) {
        for d in [0, 1, 15, 16, 17, 256] {
            for rows in [1, 3] {
                if a + d > 0 {
                    rooms_of(walk, Layout::new(a, d, rows, 1));
                }
            }
        }
    }
}

/// The same for one number of channels and rows.
fn rooms_of(walk: &mut Walk, layout: Layout) {
    for kind in [1, 2] {
        let layout = layout.of_kind(kind);
        for new_kind in [1, 2] {
            for more in 0..3 {
                walk.case(|| {
                    let file = Recording::plain(layout).bytes();
                    let room = needed(layout, &file, new_kind) + more - 1;
                    Case::Change { layout, file, new_kind, room }
                });
            }
        }
    }
}

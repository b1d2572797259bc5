//! Systematic cases of missing samples: in every place of a row, in every kind and every change, and what is almost one.

use crate::calls::{every_call, four_calls, length_and_change};
use crate::case::{Case, Layout};
use crate::damage::Damage;
use crate::files::{row_bytes, text, Recording, EDITION_KINDS, MARK};
use crate::walk::Walk;
use crate::words::MISSING;

/// Numbers of samples, about those that may be taken at a time.
const ANALOGS: [u32; 8] = [1, 2, 3, 7, 8, 9, 17, 96];

/// Patterns of binary samples: 8000 hex, those beside it, and those that have its bytes or bits elsewhere.
const NARROW: [i64; 9] = [0x8000, 0x8001, 0x7FFF, 0x8080, 0x0080, 0x00FF, 0xFF00, 0x0001, 0x0000];

/// The same of binary32, about 80000000 hex and what 8000 hex becomes if it is widened as a number.
#[rustfmt::skip]
const WIDE: [i64; 16] = [
    0x8000_0000, 0x8000_0001, 0x7FFF_FFFF, 0xFFFF_8000, 0xFFFF_8001, 0xFFFF_7FFF, 0x0000_8000, 0x0000_7FFF, 0x8000_8000,
    0x8000_FFFF, 0x8001_0000, 0x7FFF_8000, 0x0080_0000, 0x0000_0080, 0x0000_0001, 0x0000_0000,
];

/// Fields of a text: the empty one, spaces, what may stand for a missing sample elsewhere, and the lowest samples.
#[rustfmt::skip]
const FIELDS: [&str; 36] = [
    "", " ", "  ", "             ", "              ", "-2147483648", "-2147483647", "-2147483649", "-002147483648",
    "-002147483647", " -2147483648", "-32768", "-32767", "-32769", "-", "+", " -", "x", "X", "-0", "0", "\"\"", "99999", "NaN",
    "1", "\t", "0 ", "+99999", "-99999", " 99999", "0000000099999", "00000000099999", "99998", "100000", "-100000", "9999",
];

/// Numbers for the places of a row that is written: of a missing sample, beside it, and about the lowest samples.
#[rustfmt::skip]
const NUMBERS: [i64; 24] = [
    MISSING, MISSING + 1, MISSING + 2, i64::MAX, -2_147_483_649, -2_147_483_648, -2_147_483_647, -32_769, -32_768, -32_767,
    32_767, 32_768, 2_147_483_647, 2_147_483_648, -4_294_967_296, 4_294_967_295, 0, 1,
    99_998, 99_999, 100_000, -99_998, -99_999, -100_000,
];

/// All cases, in an order that stays.
pub fn walk(walk: &mut Walk) {
    for kind in EDITION_KINDS {
        for a in ANALOGS {
            for d in [0, 1, 16] {
                let recording = Recording::plain(Layout::of(a, d, 2, kind));
                one_missing(walk, &recording);
                many_missing(walk, &recording);
            }
        }
        every_set(walk, &Recording::plain(Layout::of(5, 2, 2, kind)));
        beside_misfits(walk, &Recording::plain(Layout::of(17, 5, 3, kind)));
        before_a_fault(walk, &Recording::plain(Layout::of(3, 5, 3, kind)));
        beside_its_pattern(walk, Layout::of(2, 32, 2, kind));
        places_to_write(walk, Layout::of(3, 2, 2, kind));
    }
    patterns(walk, (1, 2013), &NARROW);
    patterns(walk, (2, 2013), &WIDE);
    patterns(walk, (1, 1999), &NARROW);
    for edition in [2013, 1999] {
        fields(walk, edition);
        commas(walk, edition);
        fields_in_eights(walk, edition);
    }
}

/// A row written into a byte less than it needs, just that, and more.
fn written(walk: &mut Walk, layout: Layout, n: u32, row: &[i64]) {
    let exact = row_bytes(layout, n, row).len();
    for room in [exact - 1, exact, exact + 9] {
        walk.case(|| Case::WriteRow { layout, n, row: row.to_vec(), room });
    }
}

/// A file asked in every way, and both of its rows written.
fn asked_and_written(walk: &mut Walk, recording: &Recording) {
    every_call(walk, recording.layout, &|| recording.bytes());
    for (n, row) in (1..).zip(&recording.rows) {
        written(walk, recording.layout, n, row);
    }
}

/// One missing sample, in every place of either row.
fn one_missing(walk: &mut Walk, recording: &Recording) {
    for place in 1..=recording.layout.a as usize {
        asked_and_written(walk, &recording.without(place % 2, [place]));
    }
}

/// All samples of a row missing, all but the first, all but the last, every second, the first half and the second; and all of the file.
fn many_missing(walk: &mut Walk, recording: &Recording) {
    let a = recording.layout.a as usize;
    for row in 0..2 {
        asked_and_written(walk, &recording.without(row, 1..=a));
        asked_and_written(walk, &recording.without(row, 2..=a));
        asked_and_written(walk, &recording.without(row, 1..a));
        asked_and_written(walk, &recording.without(row, (1..=a).step_by(2)));
        asked_and_written(walk, &recording.without(row, 1..=a / 2));
        asked_and_written(walk, &recording.without(row, a / 2 + 1..=a));
    }
    asked_and_written(walk, &recording.without(0, 1..=a).without(1, 1..=a));
}

/// Every set of missing samples in the first row, and the others in the second.
fn every_set(walk: &mut Walk, recording: &Recording) {
    let a = recording.layout.a as usize;
    for set in 0..1 << a {
        let (first, second): (Vec<usize>, Vec<usize>) = (1..=a).partition(|place| set >> (place - 1) & 1 == 1);
        asked_and_written(walk, &recording.without(0, first).without(1, second));
    }
}

/// A missing sample and one that does not fit the binary kind, each in each row and in samples about every eighth.
fn beside_misfits(walk: &mut Walk, recording: &Recording) {
    let places: Vec<(usize, usize)> = (0..3).flat_map(|row| [1, 8, 9, 16, 17].map(move |place| (row, place))).collect();
    for &(row, place) in &places {
        for &(other_row, other_place) in &places {
            for misfit in [32_768, -32_768, -2_147_483_647] {
                let file = || recording.without(row, [place]).with(other_row, other_place, misfit).bytes();
                length_and_change(walk, recording.layout, 1, &file);
            }
        }
    }
}

/// A missing sample in the first row, and the file damaged at every byte from the second row on.
fn before_a_fault(walk: &mut Walk, recording: &Recording) {
    let file = recording.without(0, [2]).bytes();
    let damages = [Damage::Cut, Damage::Delete, Damage::Insert(b','), Damage::Insert(b' '), Damage::Flip(7)];
    for at in file.len() / 3..=file.len() {
        for (turn, damage) in damages.iter().enumerate() {
            four_calls(walk, recording.layout, at + turn, &|| damage.at(&file, at));
        }
    }
}

/// A time and a status word with the bytes of a missing sample, beside samples of which each is missing or 0: they are numbers.
fn beside_its_pattern(walk: &mut Walk, layout: Layout) {
    for time in [0x8000_0000, 0x8000, 0xFFFF_8000, 0xFFFF_FFFF] {
        for samples in [[MISSING, 0], [0, MISSING], [MISSING, MISSING], [0, 0]] {
            let mut recording = Recording::plain(layout);
            for row in &mut recording.rows {
                row[0] = time;
                row[1..3].copy_from_slice(&samples);
                row[3..].fill(0);
                row[18] = 1;
                row[34] = 1;
            }
            asked_and_written(walk, &recording);
        }
    }
}

/// Each number in each place of a row that is written, alone and with a missing sample in each place.
fn places_to_write(walk: &mut Walk, layout: Layout) {
    let row = Recording::plain(layout).rows[0].clone();
    for place in 0..row.len() {
        for number in NUMBERS {
            for missing in 0..=row.len() {
                for n in [1, 2] {
                    walk.case(|| {
                        let mut row = row.clone();
                        row.iter_mut().skip(missing).take(1).for_each(|place| *place = MISSING);
                        row[place] = number;
                        Case::WriteRow { layout, n, row, room: 80 }
                    });
                }
            }
        }
    }
}

/// Each pattern of a binary kind in every place of a row, and in all.
fn patterns(walk: &mut Walk, kind: (u32, u32), patterns: &[i64]) {
    for a in [1, 2, 8, 9] {
        let recording = Recording::plain(Layout::of(a, 1, 2, kind));
        for &pattern in patterns {
            for place in 1..=a as usize {
                let file = || recording.with(place % 2, place, pattern).bytes();
                every_call(walk, recording.layout, &file);
            }
            let all = (1..=a as usize).fold(recording.clone(), |all, place| all.with(0, place, pattern));
            every_call(walk, recording.layout, &|| all.bytes());
        }
    }
}

/// Each spelling in each field of a text, whose samples are all there, or all missing.
fn fields(walk: &mut Walk, edition: u32) {
    for (a, d) in [(3, 2), (2, 0), (1, 1), (0, 2)] {
        let layout = Layout::of(a, d, 2, (0, edition));
        let plain = Recording::plain(layout);
        let missing = plain.without(0, 1..=a as usize).without(1, 1..=a as usize);
        for lines in [plain.lines(), missing.lines()] {
            for line in 0..2 {
                for field in 0..lines[line].len() {
                    for spelling in FIELDS {
                        let file = || {
                            let mut lines = lines.clone();
                            lines[line][field] = String::from(spelling);
                            text(&lines, MARK)
                        };
                        every_call(walk, layout, &file);
                    }
                }
            }
        }
    }
}

/// Rows of nothing but commas after the time, too few, enough and too many, with statuses behind them and without.
fn commas(walk: &mut Walk, edition: u32) {
    for (a, d) in [(0, 1), (1, 0), (1, 1), (2, 0), (2, 3), (8, 0), (9, 1), (96, 0)] {
        let layout = Layout::of(a, d, 1, (0, edition));
        for count in 0..=a as usize + 3 {
            for statuses in [0, d as usize] {
                for end in ["\r\n", "", "\r", "\n", " \r\n"] {
                    let file = || ["1,7", &",".repeat(count), &",1".repeat(statuses), end].concat().into_bytes();
                    four_calls(walk, layout, count, &file);
                }
            }
        }
    }
}

/// Missing samples over the seams of blocks of eight bytes: behind a time of 1 to 13 characters all are missing, or all but one of 1 to 9 digits.
fn fields_in_eights(walk: &mut Walk, edition: u32) {
    for width in 1..=13 {
        for a in [1, 2, 6, 7, 8, 9, 15, 16, 17] {
            let layout = Layout::of(a, 2, 2, (0, edition));
            let mut lines = Recording::plain(layout).without(0, 1..=a as usize).without(1, 1..=a as usize).lines();
            lines[0][1] = format!("{:>width$}", 5);
            every_call(walk, layout, &|| text(&lines, MARK));
            for place in 1..=a as usize {
                let digits = 1 + (place + width) % 9;
                let file = || {
                    let mut lines = lines.clone();
                    lines[0][1 + place] = "7".repeat(digits);
                    text(&lines, MARK)
                };
                four_calls(walk, layout, place + width, &file);
            }
        }
    }
}

//! Systematic cases where the library passes bytes eight at a time, tests statuses four at a time, and ends the longest rows.

use crate::calls::every_call;
use crate::case::Layout;
use crate::configs::config;
use crate::damage::{at_places, Damage};
use crate::data::damaged_at;
use crate::draft::{Draft, RECORDING};
use crate::files::{text, widest_line, Recording, MARK};
use crate::walk::Walk;
use std::ops::RangeInclusive;

/// Bytes that no line has, those of a line end alone, and a comma and a letter where none should be.
const BAD: [u8; 9] = [0, 9, 10, 13, 31, 127, 255, b',', b'x'];

/// Bytes that are no status or no comma, or lie beside one that is.
const NEAR: [u8; 8] = [b'2', b'/', b' ', b'x', b',', b'+', b'-', b'0'];

/// What may follow a row of the most bytes, and what may not.
#[rustfmt::skip]
const ENDS: [&[u8]; 11] = [
    b"\r\n", b"", b"\r", b"\n", b"\rX", b"\r\r\n", b"X\r\n", b",\r\n", b"\0\r\n", b"\x7f\r\n", b"\x1a\r\n",
];

/// All cases, in an order that stays.
pub fn walk(walk: &mut Walk) {
    for edition in [2013, 1999] {
        rows_in_eights(walk, edition);
        missing_in_eights(walk, edition);
    }
    lines_in_eights(walk);
    statuses_in_fours(walk);
    many_statuses(walk);
    ends_of_longest_rows(walk);
    last_bytes_of_longest_rows(walk);
}

/// A line scanned: it ends early, a byte is gone, another, or one too many.
fn faults() -> Vec<Damage> {
    let mut list = vec![Damage::Cut, Damage::Delete];
    list.extend(BAD.map(Damage::Replace));
    list.extend([13, b',', b'x'].map(Damage::Insert));
    list
}

/// Statuses tested: one is another character, is gone or doubled, and so is a comma.
fn status_faults() -> Vec<Damage> {
    let mut list = vec![Damage::Cut, Damage::Delete];
    list.extend(NEAR.map(Damage::Replace));
    list.extend([b'1', b','].map(Damage::Insert));
    list
}

/// A line of so many bytes: spaces before its time fill it up.
fn filled(mut line: Vec<String>, length: usize) -> Vec<String> {
    let width = line[1].len() + length - line.join(",").len();
    line[1] = format!("{:>width$}", line[1]);
    line
}

/// Where a line begins in the text.
fn start_of(lines: &[Vec<String>], line: usize) -> usize {
    text(&lines[..line], b"").len()
}

/// A file with each damage of a list at each place of some, asked in every way.
fn damaged_in_full(walk: &mut Walk, layout: Layout, file: &[u8], places: RangeInclusive<usize>, damages: &[Damage]) {
    for at in places {
        for damage in damages {
            every_call(walk, layout, &|| damage.at(file, at));
        }
    }
}

/// Faults at every byte of a row of three times eight bytes and a tail of 0 to 7; of 7 in each of three rows and asked in every way.
fn rows_in_eights(walk: &mut Walk, edition: u32) {
    let layout = Layout::of(3, 2, 3, (0, edition));
    let plain = Recording::plain(layout).lines();
    for (length, row) in (24..31).map(|length| (length, length % 3)).chain([(31, 0), (31, 1), (31, 2)]) {
        let mut lines = plain.clone();
        lines[row] = filled(lines[row].clone(), length);
        let (start, file) = (start_of(&lines, row), text(&lines, MARK));
        let damaged = if length == 31 { damaged_in_full } else { damaged_at };
        damaged(walk, layout, &file, start..=start + length + 2, &faults());
    }
}

/// Faults at every byte of a row with missing samples, alone and two together, which is longer by 0 to 7 bytes.
fn missing_in_eights(walk: &mut Walk, edition: u32) {
    let layout = Layout::of(6, 2, 3, (0, edition));
    let missing = [1, 3, 4, 6];
    let plain = Recording::plain(layout).without(0, missing).without(1, missing).without(2, missing).lines();
    for more in 0..8 {
        let (row, mut lines) = (more % 3, plain.clone());
        let length = lines[row].join(",").len() + more;
        lines[row] = filled(lines[row].clone(), length);
        let (start, file) = (start_of(&lines, row), text(&lines, MARK));
        let damages = [faults(), vec![Damage::Insert(b' '), Damage::Replace(b' ')]].concat();
        damaged_at(walk, layout, &file, start..=start + length + 2, &damages);
    }
}

/// The same lengths and faults in the first line of a configuration and in one between others: a name fills it up.
fn lines_in_eights(walk: &mut Walk) {
    let plain = Draft::of(RECORDING);
    for (line, field, least) in [(0, 0, 24), (2, 1, 40)] {
        let before = Draft { lines: plain.lines[..line].to_vec() }.bytes().len();
        let after = Draft { lines: plain.lines[..=line].to_vec() }.bytes().len();
        for length in least..least + 8 {
            let mut name = plain.lines[line][field].bytes.clone();
            name.resize(name.len() + before + length + 2 - after, b'n');
            let cfg = plain.with(line, field, &name).bytes();
            at_places(walk, &cfg, before..=before + length + 2, &faults(), config);
        }
    }
}

/// Faults at every status and comma of 1 to 9 statuses, in the first row and in the last, which ends the file; of 4 and 8 asked in every way.
fn statuses_in_fours(walk: &mut Walk) {
    for d in 1..=9 {
        let layout = Layout::new(d % 2, d, 3, 0);
        let lines = Recording::plain(layout).lines();
        let file = text(&lines, b"");
        let damaged = if d % 4 == 0 { damaged_in_full } else { damaged_at };
        for row in [0, 2] {
            let end = start_of(&lines, row + 1);
            damaged(walk, layout, &file, end - 2 - 2 * d as usize..=end, &status_faults());
        }
    }
}

/// The same with about 256 statuses, in the first four, four in the middle, the last four and the rest.
fn many_statuses(walk: &mut Walk) {
    for (d, row) in [(253, 0), (254, 1), (255, 0), (256, 0), (256, 1)] {
        let layout = Layout::new(1, d as u32, 2, 0);
        let lines = Recording::plain(layout).lines();
        let file = text(&lines, b"");
        let end = start_of(&lines, row + 1);
        let start = end - 2 - 2 * d;
        for places in [start..=start + 7, start + 248..=start + 255, start + d / 4 * 8 - 8..=end] {
            damaged_at(walk, layout, &file, places, &status_faults());
        }
    }
}

/// Rows of 1,879 to 1,882 bytes, longer or shorter in the number, the time, the first or the last sample, and what may end them. No row of more than 1,880 is good.
fn ends_of_longest_rows(walk: &mut Walk) {
    let layout = Layout::new(96, 256, 2, 0);
    let lines = [widest_line(1), widest_line(2)];
    for row in 0..2 {
        for field in [0, 1, 2, 97] {
            for length in 1879..=1882 {
                for end in ENDS {
                    let file = || {
                        let mut line = lines[row].clone();
                        let width = line[field].len() + length - 1880;
                        line[field] = format!("{:>width$}", &line[field][1..]);
                        let bytes = line.join(",").into_bytes();
                        [text(&lines[..row], b""), bytes, end.to_vec(), text(&lines[row + 1..], b"")].concat()
                    };
                    every_call(walk, layout, &file);
                }
            }
        }
    }
}

/// Faults at each of the last bytes of a row of 1,880.
fn last_bytes_of_longest_rows(walk: &mut Walk) {
    let layout = Layout::new(96, 256, 2, 0);
    let lines = [widest_line(1), widest_line(2)];
    let file = text(&lines, MARK);
    for row in 0..2 {
        let end = start_of(&lines, row + 1);
        damaged_at(walk, layout, &file, end - 18..=end, &faults());
    }
}

//! The jobs of the library, written for speed: one walk over the file for a check, two for a change (all its tests come
//! before its first byte), nothing allocated, fixed-width loads. Every rule is tested, and refusals come in the order
//! of the rules.

mod binary;
mod change;
mod config;
mod numbers;
mod plain;
mod text;
mod write_config;

pub use change::{change, length};
pub use config::config;
pub use write_config::write_config;

use crate::{Answer, LayoutNumbers};

/// A "no" with its place. A refusal ends the job, so the compiler may keep it out of the way.
#[cold]
fn no(number: u32, at: u32, field: u32) -> Answer {
    Answer { number, at, field, length: 0 }
}

fn yes(length: usize) -> Answer {
    Answer { number: 0, at: 0, field: 0, length: length as u32 }
}

fn answer(result: Result<usize, Answer>) -> Answer {
    match result {
        Ok(length) => yes(length),
        Err(refusal) => refusal,
    }
}

/// The kind of data file.
#[derive(Debug, Clone, Copy, PartialEq, Eq)]
enum Kind {
    Text,
    Binary,
    Binary32,
}

/// A layout within the sizes, of a kind that its edition has. The editions differ in their text alone: that of 1999 is
/// marked, which means that the number 99999 is a missing sample in it.
#[derive(Debug, Clone, Copy)]
struct Layout {
    a: usize,
    d: usize,
    rows: u32,
    kind: Kind,
    marked: bool,
}

impl Layout {
    /// A layout out of the sizes, no such kind or edition, or a kind that the edition lacks, is 10.
    fn new(numbers: LayoutNumbers) -> Result<Layout, Answer> {
        let LayoutNumbers { a, d, rows, kind, edition } = numbers;
        let sized = a <= 96 && d <= 256 && a + d >= 1 && (1..=1_000_000).contains(&rows);
        let kind = match (kind, edition) {
            (0, 2013 | 1999) if sized => Kind::Text,
            (1, 2013 | 1999) if sized => Kind::Binary,
            (2, 2013) if sized => Kind::Binary32,
            _ => return Err(no(10, 0, 0)),
        };
        let marked = kind == Kind::Text && edition == 1999;
        Ok(Layout { a: a as usize, d: d as usize, rows, kind, marked })
    }

    /// What a text has for a missing sample.
    fn missing_text(&self) -> &'static [u8] {
        if self.marked {
            return b"99999";
        }
        b""
    }

    /// Places of a row in memory: time, samples, statuses.
    fn places(&self) -> usize {
        1 + self.a + self.d
    }

    /// A row that the layout does not have is 15.
    fn has_row(&self, n: u32) -> Result<(), Answer> {
        if n == 0 || n > self.rows {
            return Err(no(15, 0, 0));
        }
        Ok(())
    }
}

/// Checks a data file: 10, then the file.
pub fn check(layout: LayoutNumbers, data: &[u8]) -> Answer {
    answer(Layout::new(layout).and_then(|layout| check_file(&layout, data)))
}

fn check_file(layout: &Layout, data: &[u8]) -> Result<usize, Answer> {
    match layout.kind {
        Kind::Text => text::walk(layout, data, &mut text::Ignored).map(|_| 0),
        Kind::Binary => binary::check::<2>(layout, data).map(|_| 0),
        Kind::Binary32 => binary::check::<4>(layout, data).map(|_| 0),
    }
}

/// Shows row n: 10, 15, the whole file, 17.
pub fn row(layout: LayoutNumbers, data: &[u8], n: u32, shown: &mut [i64]) -> Answer {
    answer(Layout::new(layout).and_then(|layout| show_row(&layout, data, n, shown)))
}

fn show_row(layout: &Layout, data: &[u8], n: u32, shown: &mut [i64]) -> Result<usize, Answer> {
    layout.has_row(n)?;
    let start = match layout.kind {
        Kind::Text => text::find(layout, data, n)?,
        Kind::Binary => binary::find::<2>(layout, data, n)?,
        Kind::Binary32 => binary::find::<4>(layout, data, n)?,
    };
    let Some(shown) = shown.get_mut(..layout.places()) else { return Err(no(17, 0, 0)) };
    match layout.kind {
        Kind::Text => text::show(layout, data, start, n, shown),
        Kind::Binary => binary::show::<2>(layout, &data[start..], shown),
        Kind::Binary32 => binary::show::<4>(layout, &data[start..], shown),
    }
    Ok(0)
}

/// Writes row n: 10, 15, 16, 17; no end mark is added.
pub fn write_row(layout: LayoutNumbers, n: u32, row: &[i64], out: &mut [u8]) -> Answer {
    answer(Layout::new(layout).and_then(|layout| put_row(&layout, n, row, out)))
}

fn put_row(layout: &Layout, n: u32, row: &[i64], out: &mut [u8]) -> Result<usize, Answer> {
    let Some(row) = row.get(..layout.places()) else { return Err(no(10, 0, 0)) };
    layout.has_row(n)?;
    match layout.kind {
        Kind::Text => plain::put_row(layout, n, row, out),
        Kind::Binary => binary::put_row::<2>(layout, n, row, out),
        Kind::Binary32 => binary::put_row::<4>(layout, n, row, out),
    }
}

/// A missing sample while it is read or written: the lowest number of 32 bits, which no sample is.
const MISSING: i32 = i32::MIN;

/// A missing sample in a row that is shown or given, and in a configuration a line that its edition lacks, no date, and
/// an unknown pre-trigger time.
const NONE: i64 = i64::MIN;

/// How far from zero a sample of a marked text may lie; above zero that number is the mark.
const MARK: i64 = 99_999;

/// The place that shows a sample.
#[inline(always)]
fn place_of(sample: i32) -> i64 {
    if sample == MISSING {
        NONE
    } else {
        i64::from(sample)
    }
}

/// The sample that a place gives which fits: its low bits, and its sign, which is all that there is of a missing one.
#[inline(always)]
fn given(place: i64) -> i32 {
    place as i32 | (place >> 32) as i32 & MISSING
}

/// The first place of a row that does not fit a kind of samples of `bits` bits, as 16 at row n; else whether a sample is
/// missing. The tests are gathered by "or" without a branch; only a row that fails is looked through. The distance of a
/// sample from zero has fewer bits than the kind; that of a missing one is the highest of 64 alone, which is left out.
fn fits(layout: &Layout, n: u32, row: &[i64], bits: u32) -> Result<bool, Answer> {
    let (samples, statuses) = row[1..].split_at(layout.a);
    let outside = |distance: u64| distance << 1 >> bits;
    let distances = samples.iter().fold(0, |all, sample| all | sample.unsigned_abs());
    if wide_time(row) | outside(distances) | not_statuses(statuses) == 0 {
        return Ok(distances >> 63 != 0);
    }
    Err(misfit(layout, n, row, |sample| outside(sample.unsigned_abs()) != 0))
}

/// The same of a marked text, whose samples lie from -99,999 to 99,998 or are missing.
fn fits_marked(layout: &Layout, n: u32, row: &[i64]) -> Result<(), Answer> {
    let (samples, statuses) = row[1..].split_at(layout.a);
    let outside = |sample: i64| sample != NONE && !(-MARK..MARK).contains(&sample);
    let misfits = samples.iter().fold(false, |any, &sample| any | outside(sample));
    if wide_time(row) | u64::from(misfits) | not_statuses(statuses) == 0 {
        return Ok(());
    }
    Err(misfit(layout, n, row, outside))
}

/// Not zero where the time of a row has more than 32 bits.
#[inline(always)]
fn wide_time(row: &[i64]) -> u64 {
    row[0] as u64 >> 32
}

/// Not zero where one of them is neither 0 nor 1.
#[inline(always)]
fn not_statuses(statuses: &[i64]) -> u64 {
    statuses.iter().fold(0, |bad, &status| bad | status as u64 >> 1)
}

/// The refusal of a row of which a place does not fit.
#[cold]
fn misfit(layout: &Layout, n: u32, row: &[i64], outside: impl Fn(i64) -> bool) -> Answer {
    let (samples, statuses) = row[1..].split_at(layout.a);
    let place = if wide_time(row) != 0 {
        0
    } else if let Some(place) = samples.iter().position(|&sample| outside(sample)) {
        1 + place
    } else {
        1 + layout.a + statuses.iter().position(|&status| status as u64 > 1).unwrap_or(0)
    };
    no(16, n, place as u32 + 2)
}

/// Up to sixteen statuses as a word, bit 0 first. Sixteen are shifted each by itself, which the compiler does at once.
#[inline(always)]
fn word_of(statuses: &[i64]) -> u16 {
    let put = |word: u16, (bit, &status): (usize, &i64)| word | (status as u16) << bit;
    match <&[i64; 16]>::try_from(statuses) {
        Ok(sixteen) => sixteen.iter().enumerate().fold(0, put),
        Err(_) => statuses.iter().enumerate().fold(0, put),
    }
}

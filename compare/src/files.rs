//! Data files made from rows.

use crate::case::Layout;
use crate::draft::count;
use crate::words::MISSING;
use dice::Dice;
use std::ops::RangeInclusive;

/// The mark that ends a plain text file.
pub const MARK: &[u8] = b"\x1a\r\n";

/// The kinds that there are, each with its edition.
pub const EDITION_KINDS: [(u32, u32); 5] = [(0, 2013), (1, 2013), (2, 2013), (0, 1999), (1, 1999)];

/// The number that means a missing sample in a text of 1999.
const NINES: i64 = 99_999;

/// Samples at the edges of the kinds, and where a plain decimal gets a digit more; a missing one.
#[rustfmt::skip]
pub const SAMPLES: [i64; 49] = [
    0, 1, -1, 9, 10, -9, -10, 99, 100, 127, 128, -128, -129, 255, 256, 999, 1000, 9_999, 10_000, 32_766, 32_767, 32_768,
    -32_767, -32_768, -32_769, 65_535, 65_536, 99_998, 99_999, 100_000, -99_998, -99_999, -100_000, 999_999, 1_000_000, 9_999_999, 10_000_000, 99_999_999,
    100_000_000, 999_999_999, 1_000_000_000, -999_999_999, -1_000_000_000, 2_147_483_646, 2_147_483_647,
    -2_147_483_647, -2_147_483_648, -100, MISSING,
];

/// Numbers that fit no field, beside those at the edges.
#[rustfmt::skip]
pub const BEYOND: [i64; 13] = [
    2_147_483_648, -2_147_483_649, 4_294_967_294, 4_294_967_295, 4_294_967_296, -4_294_967_296, 4_294_967_297, 2,
    -2, i64::MAX, MISSING + 1, 1 << 32 | 5, 65_537,
];

/// A file's rows: of each its time, samples and statuses.
#[derive(Clone)]
pub struct Recording {
    pub layout: Layout,
    pub rows: Vec<Vec<i64>>,
}

/// Bytes of a sample in a binary kind.
fn width(kind: u32) -> usize {
    match kind {
        1 => 2,
        _ => 4,
    }
}

/// The pattern that a binary kind keeps for a missing sample.
fn missing_pattern(kind: u32) -> &'static [u8] {
    &[0x00, 0x00, 0x00, 0x80][4 - width(kind)..]
}

/// A row's bytes in a binary kind.
fn binary_row(layout: Layout, n: u32, row: &[i64]) -> Vec<u8> {
    let (samples, statuses) = row[1..].split_at(layout.a as usize);
    let mut bytes = n.to_le_bytes().to_vec();
    bytes.extend_from_slice(&row[0].to_le_bytes()[..4]);
    for &sample in samples {
        match sample {
            MISSING => bytes.extend_from_slice(missing_pattern(layout.kind)),
            number => bytes.extend_from_slice(&number.to_le_bytes()[..width(layout.kind)]),
        }
    }
    for sixteen in statuses.chunks(16) {
        let word = sixteen.iter().rev().fold(0u16, |word, &status| word << 1 | status as u16);
        bytes.extend_from_slice(&word.to_le_bytes());
    }
    bytes
}

/// The lowest sample and the highest.
pub fn range(layout: Layout) -> RangeInclusive<i64> {
    match (layout.kind, layout.edition) {
        (0, 1999) => -NINES..=NINES - 1,
        (1, _) => -32_767..=32_767,
        _ => -2_147_483_647..=2_147_483_647,
    }
}

/// A row's fields as plain text.
fn text_fields(layout: Layout, n: u32, row: &[i64]) -> Vec<String> {
    let field = |&number: &i64| match (number, layout.edition) {
        (MISSING, 1999) => NINES.to_string(),
        (MISSING, _) => String::new(),
        _ => number.to_string(),
    };
    [i64::from(n)].iter().chain(row).map(field).collect()
}

/// Whether a text of 1999 that passes its check has a missing sample: a field worth 99999 among its samples.
fn has_nines(layout: Layout, file: &[u8]) -> bool {
    let text = String::from_utf8_lossy(file);
    let nines = |field: &str| field.trim_start().parse() == Ok(NINES);
    let mut rows = text.split("\r\n").take(layout.rows as usize);
    rows.any(|row| row.split(',').skip(2).take(layout.a as usize).any(nines))
}

/// Whether a file that passes its check has a missing sample.
pub fn has_missing(layout: Layout, file: &[u8]) -> bool {
    match (layout.kind, layout.edition) {
        (0, 1999) => return has_nines(layout, file),
        (0, _) => return file.windows(2).any(|pair| matches!(pair, b",," | b",\r")),
        _ => (),
    }
    let (width, a) = (width(layout.kind), layout.a as usize);
    let missing = |bytes: &[u8]| bytes == missing_pattern(layout.kind);
    let mut rows = file.chunks_exact(file.len() / layout.rows as usize);
    rows.any(|row| row[8..8 + a * width].chunks_exact(width).any(missing))
}

/// The fields of the longest row that there is, 1,880 bytes: A = 96, D = 256, each field as long as it may be.
pub fn widest_line(n: u32) -> Vec<String> {
    let mut line = vec![format!("{n:010}"), format!("{:>13}", 1234)];
    line.extend((0..96).map(|k| format!("{:>13}", -k)));
    line.extend((0..256).map(|k| (k % 2).to_string()));
    line
}

/// A row's bytes in the layout's kind, with its line end if it is text.
pub fn row_bytes(layout: Layout, n: u32, row: &[i64]) -> Vec<u8> {
    match layout.kind {
        0 => (text_fields(layout, n, row).join(",") + "\r\n").into_bytes(),
        _ => binary_row(layout, n, row),
    }
}

/// A row of samples that fit every kind; rows and places differ.
fn plain_row(layout: Layout, n: u32) -> Vec<i64> {
    let n = i64::from(n);
    let place = |k: i64| match k {
        0 => 1000 * (n - 1),
        _ if k <= i64::from(layout.a) => (n % 100 * 313 + k * 7) * if k % 2 == 1 { -1 } else { 1 },
        _ => (n + k * k / 3) % 2,
    };
    (0..layout.places() as i64).map(place).collect()
}

/// A file of plain rows made row by row, for one that is large.
pub fn plain_file(layout: Layout) -> Vec<u8> {
    let mut bytes = Vec::new();
    for n in 1..=layout.rows {
        bytes.extend(row_bytes(layout, n, &plain_row(layout, n)));
    }
    if layout.kind == 0 {
        bytes.extend_from_slice(MARK);
    }
    bytes
}

impl Recording {
    /// Plain rows, as many as the layout has.
    pub fn plain(layout: Layout) -> Recording {
        Recording { layout, rows: (1..=layout.rows).map(|n| plain_row(layout, n)).collect() }
    }

    /// The same with missing samples in some places of a row, which is counted from 0.
    pub fn without(&self, row: usize, places: impl IntoIterator<Item = usize>) -> Recording {
        places.into_iter().fold(self.clone(), |recording, place| recording.with(row, place, MISSING))
    }

    /// The same with another number in a place of a row, which is counted from 0.
    pub fn with(&self, row: usize, place: usize, number: i64) -> Recording {
        let mut recording = self.clone();
        recording.rows[row][place] = number;
        recording
    }

    /// The file's bytes; a text ends with its mark.
    pub fn bytes(&self) -> Vec<u8> {
        let mut bytes = Vec::new();
        for (n, row) in (1..).zip(&self.rows) {
            bytes.extend(row_bytes(self.layout, n, row));
        }
        if self.layout.kind == 0 {
            bytes.extend_from_slice(MARK);
        }
        bytes
    }

    /// The rows of a text as lines of fields.
    pub fn lines(&self) -> Vec<Vec<String>> {
        (1..).zip(&self.rows).map(|(n, row)| text_fields(self.layout, n, row)).collect()
    }

    /// Rows of random samples that fit the layout; most often they fit the binary kind too. In half of the files about one sample in 1, 2, 4 or 16 is missing.
    pub fn random(dice: &mut Dice, layout: Layout) -> Recording {
        let narrow = dice.below(3) > 0;
        let missing = dice.pick(&[0, 0, 0, 0, 1, 2, 4, 16]);
        let range = range(if narrow { layout.of_kind(1) } else { layout });
        let sample = |dice: &mut Dice| loop {
            if missing > 0 && dice.once_in(missing) {
                return MISSING;
            }
            let sample = match dice.below(3) {
                0 => dice.pick(&SAMPLES),
                1 => dice.within(-40, 40),
                _ => dice.word() as i64 >> dice.pick(&[32, 46, 48, 48]),
            };
            if range.contains(&sample) {
                return sample;
            }
        };
        let mut rows = Vec::new();
        for _ in 0..layout.rows {
            let mut row = vec![if dice.once_in(3) { dice.word() >> 32 } else { dice.below(2000) } as i64];
            row.extend((0..layout.a).map(|_| sample(dice)));
            row.extend((0..layout.d).map(|_| dice.below(2) as i64));
            rows.push(row);
        }
        Recording { layout, rows }
    }

    /// The lines of a text spelled otherwise here and there: spaces, zeros, signs.
    pub fn spelled(&self, dice: &mut Dice) -> Vec<Vec<String>> {
        let mut lines = self.lines();
        let samples = 2..2 + self.layout.a as usize;
        for line in &mut lines {
            for (k, field) in line.iter_mut().enumerate().take(samples.end) {
                if dice.below(6) > 0 || field.is_empty() {
                    continue;
                }
                let number: i64 = field.parse().unwrap_or(0);
                *field = match dice.below(3) {
                    0 if samples.contains(&k) && number == 0 => String::from("-0"),
                    0 if samples.contains(&k) => format!("{number:+}"),
                    _ => count(dice, number, if k == 0 { 10 } else { 13 }),
                };
            }
        }
        lines
    }
}

/// A text of lines of fields, with an ending.
pub fn text(lines: &[Vec<String>], ending: &[u8]) -> Vec<u8> {
    let mut bytes = Vec::new();
    for line in lines {
        bytes.extend_from_slice(line.join(",").as_bytes());
        bytes.extend_from_slice(b"\r\n");
    }
    bytes.extend_from_slice(ending);
    bytes
}

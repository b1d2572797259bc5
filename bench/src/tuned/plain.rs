//! Text written in its plain form.

use super::numbers::{digits, number_length, put_digits, sample_length};
use super::{fits, fits_marked, given, no, word_of, Answer, Layout, MISSING};

/// The longest plain row with its line end: number, time, 96 samples, 256 statuses.
const LONGEST: usize = 7 + 11 + 96 * 12 + 256 * 2 + 2;

pub const END_MARK: [u8; 3] = [0x1A, 0x0D, 0x0A];

/// Four statuses with their commas, by the four bits.
const FOUR_STATUSES: [[u8; 8]; 16] = four_statuses();

const fn four_statuses() -> [[u8; 8]; 16] {
    let mut table = [*b",0,0,0,0"; 16];
    let mut bits = 0;
    while bits < 16 {
        let mut bit = 0;
        while bit < 4 {
            table[bits][2 * bit + 1] += (bits >> bit & 1) as u8;
            bit += 1;
        }
        bits += 1;
    }
    table
}

/// Writes into room that is known to be enough.
pub struct Pen<'a> {
    out: &'a mut [u8],
    at: usize,
    /// What is written for a missing sample.
    missing: &'static [u8],
}

impl<'a> Pen<'a> {
    pub fn new(layout: &Layout, out: &'a mut [u8]) -> Pen<'a> {
        Pen { out, at: 0, missing: layout.missing_text() }
    }

    #[inline(always)]
    fn take(&mut self, length: usize) -> &mut [u8] {
        let place = &mut self.out[self.at..self.at + length];
        self.at += length;
        place
    }

    #[inline(always)]
    pub fn number(&mut self, n: u32) {
        put_digits(n, self.take(digits(n)));
    }

    #[inline(always)]
    pub fn time(&mut self, time: u32) {
        self.take(1)[0] = b',';
        self.number(time);
    }

    #[inline(always)]
    pub fn sample(&mut self, sample: i32) {
        if sample == MISSING {
            self.bytes(b",");
            return self.bytes(self.missing);
        }
        let place = self.take(1 + number_length(sample));
        place[0] = b',';
        // A minus here is written over by the digits of a sample that has none.
        place[1] = b'-';
        put_digits(sample.unsigned_abs(), &mut place[1 + usize::from(sample < 0)..]);
    }

    /// Up to sixteen statuses, bit 0 first.
    #[inline(always)]
    pub fn statuses(&mut self, count: usize, mut word: u16) {
        let place = self.take(2 * count);
        let mut fours = place.chunks_exact_mut(8);
        for four in &mut fours {
            four.copy_from_slice(&FOUR_STATUSES[usize::from(word & 15)]);
            word >>= 4;
        }
        let rest = fours.into_remainder();
        let length = rest.len();
        rest.copy_from_slice(&FOUR_STATUSES[usize::from(word & 15)][..length]);
    }

    #[inline(always)]
    pub fn bytes(&mut self, bytes: &[u8]) {
        self.take(bytes.len()).copy_from_slice(bytes);
    }
}

/// How long a row is apart from its samples, with its line end.
#[inline(always)]
pub fn bare_length(layout: &Layout, n: u32, time: u32) -> usize {
    digits(n) + 1 + digits(time) + layout.a + 2 * layout.d + 2
}

/// Writes a row: 16, 17. Room for the longest row needs no counting.
pub fn put_row(layout: &Layout, n: u32, row: &[i64], out: &mut [u8]) -> Result<usize, Answer> {
    if layout.marked {
        fits_marked(layout, n, row)?;
    } else {
        fits(layout, n, row, 32)?;
    }
    let (samples, statuses) = row[1..].split_at(layout.a);
    if out.len() < LONGEST {
        let missing = layout.missing_text().len();
        let lengths: usize = samples.iter().map(|&sample| sample_length(given(sample), missing)).sum();
        if out.len() < bare_length(layout, n, row[0] as u32) + lengths {
            return Err(no(17, 0, 0));
        }
    }
    let mut pen = Pen::new(layout, out);
    pen.number(n);
    pen.time(row[0] as u32);
    for &sample in samples {
        pen.sample(given(sample));
    }
    for statuses in statuses.chunks(16) {
        pen.statuses(statuses.len(), word_of(statuses));
    }
    pen.bytes(b"\r\n");
    Ok(pen.at)
}

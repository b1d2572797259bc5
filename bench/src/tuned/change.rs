//! The change of kind: all tests first, counting the length on the way, then the new file in a second walk.

use super::binary::{self, four, row_size};
use super::numbers::{sample_length, POWERS};
use super::plain::{bare_length, Pen, END_MARK};
use super::text::{self, Fields, Ignored};
use super::{answer, no, Answer, Kind, Layout, LayoutNumbers, MISSING};

/// A change that only room can refuse. A text file whose rows are as long as their plain form is plain already.
struct Plan {
    length: usize,
    already_plain: bool,
}

/// The bytes needed: refuses as the change does, but never with 17.
pub fn length(layout: LayoutNumbers, data: &[u8], new_kind: u32) -> Answer {
    let length = both(layout, new_kind).and_then(|(old, new)| plan(&old, &new, data));
    answer(length.map(|plan| plan.length))
}

/// Changes a data file to another kind: 10, the file, 16, 17.
pub fn change(layout: LayoutNumbers, data: &[u8], new_kind: u32, out: &mut [u8]) -> Answer {
    answer(both(layout, new_kind).and_then(|(old, new)| {
        let plan = plan(&old, &new, data)?;
        let Some(out) = out.get_mut(..plan.length) else { return Err(no(17, 0, 0)) };
        write(&old, &new, &plan, data, out);
        Ok(plan.length)
    }))
}

/// The layouts of both files, which are of one edition.
fn both(old: LayoutNumbers, new_kind: u32) -> Result<(Layout, Layout), Answer> {
    Ok((Layout::new(old)?, Layout::new(LayoutNumbers { kind: new_kind, ..old })?))
}

/// The file's refusals, then 16; the length of the new file.
fn plan(old: &Layout, new: &Layout, data: &[u8]) -> Result<Plan, Answer> {
    let binary_length = match new.kind {
        Kind::Text => 0,
        Kind::Binary => new.rows as usize * row_size::<2>(new),
        Kind::Binary32 => new.rows as usize * row_size::<4>(new),
    };
    match (old.kind, new.kind) {
        (Kind::Text, Kind::Text) => return plan_text(old, data),
        (Kind::Text, Kind::Binary) => check_narrow_text(old, data)?,
        (Kind::Text, Kind::Binary32) => text::walk(old, data, &mut Ignored).map(|_| ())?,
        (Kind::Binary, Kind::Text) => return plan_plain::<2>(new, data),
        (Kind::Binary32, Kind::Text) => return plan_plain::<4>(new, data),
        (Kind::Binary32, Kind::Binary) => check_narrow(old, data)?,
        (Kind::Binary32, Kind::Binary32) => binary::check::<4>(old, data)?,
        (Kind::Binary, _) => binary::check::<2>(old, data)?,
    }
    Ok(Plan { length: binary_length, already_plain: false })
}

/// Counts the plain form of the samples; the rest of a row is counted whole.
struct PlainLength<'a> {
    layout: &'a Layout,
    n: u32,
    length: usize,
}

impl Fields for PlainLength<'_> {
    #[inline(always)]
    fn row(&mut self, n: u32, _start: usize) {
        self.n = n;
    }
    #[inline(always)]
    fn time(&mut self, time: u32) {
        self.length += bare_length(self.layout, self.n, time);
    }
    #[inline(always)]
    fn sample(&mut self, sample: i32) {
        self.length += sample_length(sample, self.layout.missing_text().len());
    }
}

fn plan_text(layout: &Layout, data: &[u8]) -> Result<Plan, Answer> {
    let mut plain = PlainLength { layout, n: 0, length: 0 };
    let rows_length = text::walk(layout, data, &mut plain)?;
    Ok(Plan { length: plain.length + END_MARK.len(), already_plain: plain.length == rows_length })
}

/// The length of a sample's plain form by comparisons alone, which the compiler makes for many samples at once.
#[inline(always)]
fn compared_length<const W: usize>(sample: i32, missing: u32) -> u32 {
    let distance = sample.unsigned_abs();
    let powers: &[u32] = if W == 2 { &POWERS[1..5] } else { &POWERS[1..] };
    let more: u32 = powers.iter().map(|&power| u32::from(distance >= power)).sum();
    let length = 1 + u32::from(sample < 0) + more;
    if sample == MISSING {
        missing
    } else {
        length
    }
}

/// Binary rows that become a text of this layout.
fn plan_plain<const W: usize>(layout: &Layout, data: &[u8]) -> Result<Plan, Answer> {
    let mut length = END_MARK.len();
    let missing = layout.missing_text().len() as u32;
    binary::walk::<W>(layout, data, |n, row| {
        let samples = row[8..8 + layout.a * W].chunks_exact(W);
        let lengths: u32 = samples.map(|bytes| compared_length::<W>(binary::sample::<W>(bytes), missing)).sum();
        length += bare_length(layout, n, four(&row[4..])) + lengths as usize;
    })?;
    Ok(Plan { length, already_plain: false })
}

/// Not zero for the distance from zero of a number that does not fit 16 bits, which has more than 15. That of a missing
/// sample is the highest bit alone, which is left out.
#[inline(always)]
fn too_wide(distance: u32) -> u32 {
    distance << 1 >> 16
}

/// Notes the first number that does not fit 16 bits.
struct Narrow {
    n: u32,
    field: u32,
    misfit: Option<Answer>,
}

impl Fields for Narrow {
    #[inline(always)]
    fn row(&mut self, n: u32, _start: usize) {
        self.n = n;
        self.field = 2;
    }
    #[inline(always)]
    fn sample(&mut self, sample: i32) {
        self.field += 1;
        if too_wide(sample.unsigned_abs()) != 0 && self.misfit.is_none() {
            self.misfit = Some(no(16, self.n, self.field));
        }
    }
}

fn check_narrow_text(layout: &Layout, data: &[u8]) -> Result<(), Answer> {
    let mut narrow = Narrow { n: 0, field: 0, misfit: None };
    text::walk(layout, data, &mut narrow)?;
    narrow.misfit.map_or(Ok(()), Err)
}

fn check_narrow(layout: &Layout, data: &[u8]) -> Result<(), Answer> {
    let mut misfit = None;
    let distance = |bytes: &[u8]| binary::sample::<4>(bytes).unsigned_abs();
    binary::walk::<4>(layout, data, |n, row| {
        let samples = row[8..8 + layout.a * 4].chunks_exact(4);
        if too_wide(samples.clone().fold(0, |all, bytes| all | distance(bytes))) != 0 && misfit.is_none() {
            let place = samples.clone().position(|bytes| too_wide(distance(bytes)) != 0).unwrap_or(0);
            misfit = Some(no(16, n, place as u32 + 3));
        }
    })?;
    misfit.map_or(Ok(()), Err)
}

/// Writes the new file into exactly its length.
fn write(old: &Layout, new: &Layout, plan: &Plan, data: &[u8], out: &mut [u8]) {
    match (old.kind, new.kind) {
        (Kind::Text, Kind::Text) if plan.already_plain => {
            let rows_length = out.len() - END_MARK.len();
            out[..rows_length].copy_from_slice(&data[..rows_length]);
            out[rows_length..].copy_from_slice(&END_MARK);
        }
        (Kind::Text, Kind::Text) => write_plain_text(old, data, out),
        (Kind::Text, Kind::Binary) => write_words::<2>(old, data, out),
        (Kind::Text, Kind::Binary32) => write_words::<4>(old, data, out),
        (Kind::Binary, Kind::Text) => write_plain::<2>(new, data, out),
        (Kind::Binary32, Kind::Text) => write_plain::<4>(new, data, out),
        (Kind::Binary, Kind::Binary32) => write_width::<2, 4>(old, data, out),
        (Kind::Binary32, Kind::Binary) => write_width::<4, 2>(old, data, out),
        (Kind::Binary, Kind::Binary) | (Kind::Binary32, Kind::Binary32) => out.copy_from_slice(data),
    }
}

/// Binary rows of another width: all but the samples is copied.
fn write_width<const W: usize, const V: usize>(layout: &Layout, data: &[u8], out: &mut [u8]) {
    let old_rows = data.chunks_exact(row_size::<W>(layout));
    let new_rows = out.chunks_exact_mut(row_size::<V>(layout));
    for (old, new) in old_rows.zip(new_rows) {
        new[..8].copy_from_slice(&old[..8]);
        let (old_samples, old_words) = old[8..].split_at(layout.a * W);
        let (new_samples, new_words) = new[8..].split_at_mut(layout.a * V);
        for (new, old) in new_samples.chunks_exact_mut(V).zip(old_samples.chunks_exact(W)) {
            binary::put_sample::<V>(binary::sample::<W>(old), new);
        }
        new_words.copy_from_slice(old_words);
    }
}

/// Binary rows as plain text of this layout.
fn write_plain<const W: usize>(layout: &Layout, data: &[u8], out: &mut [u8]) {
    let mut pen = Pen::new(layout, out);
    for (n, row) in (1..).zip(data.chunks_exact(row_size::<W>(layout))) {
        pen.number(n);
        pen.time(four(&row[4..]));
        let (samples, words) = row[8..].split_at(layout.a * W);
        for bytes in samples.chunks_exact(W) {
            pen.sample(binary::sample::<W>(bytes));
        }
        let mut left = layout.d;
        for word in words.chunks_exact(2) {
            pen.statuses(left.min(16), u16::from_le_bytes([word[0], word[1]]));
            left -= left.min(16);
        }
        pen.bytes(b"\r\n");
    }
    pen.bytes(&END_MARK);
}

/// Fields written as plain text; a row's line end comes before the next row.
struct PlainPen<'a> {
    pen: Pen<'a>,
}

impl Fields for PlainPen<'_> {
    fn row(&mut self, n: u32, _start: usize) {
        if n > 1 {
            self.pen.bytes(b"\r\n");
        }
        self.pen.number(n);
    }
    fn time(&mut self, time: u32) {
        self.pen.time(time);
    }
    fn sample(&mut self, sample: i32) {
        self.pen.sample(sample);
    }
    fn statuses(&mut self, count: usize, bits: u16) {
        self.pen.statuses(count, bits);
    }
}

/// A text file that passes, in its plain form.
fn write_plain_text(layout: &Layout, data: &[u8], out: &mut [u8]) {
    let mut plain = PlainPen { pen: Pen::new(layout, out) };
    let walked = text::walk(layout, data, &mut plain);
    debug_assert!(walked.is_ok());
    plain.pen.bytes(b"\r\n");
    plain.pen.bytes(&END_MARK);
}

/// Fields written as binary rows; statuses are gathered until a word, or the row, is full.
struct Words<'a, const W: usize> {
    out: &'a mut [u8],
    at: usize,
    word: u16,
    seen: usize,
    d: usize,
}

impl<const W: usize> Words<'_, W> {
    #[inline(always)]
    fn put<const N: usize>(&mut self, bytes: [u8; N], length: usize) {
        self.out[self.at..self.at + length].copy_from_slice(&bytes[..length]);
        self.at += length;
    }
}

impl<const W: usize> Fields for Words<'_, W> {
    #[inline(always)]
    fn row(&mut self, n: u32, _start: usize) {
        self.put(n.to_le_bytes(), 4);
        self.seen = 0;
    }
    #[inline(always)]
    fn time(&mut self, time: u32) {
        self.put(time.to_le_bytes(), 4);
    }
    #[inline(always)]
    fn sample(&mut self, sample: i32) {
        let mut bytes = [0; W];
        binary::put_sample::<W>(sample, &mut bytes);
        self.put(bytes, W);
    }
    #[inline(always)]
    fn statuses(&mut self, count: usize, bits: u16) {
        self.word |= bits << (self.seen % 16);
        self.seen += count;
        if self.seen % 16 == 0 || self.seen == self.d {
            self.put(self.word.to_le_bytes(), 2);
            self.word = 0;
        }
    }
}

/// A text file that passes and fits, as binary rows.
fn write_words<const W: usize>(layout: &Layout, data: &[u8], out: &mut [u8]) {
    let mut words = Words::<W> { out, at: 0, word: 0, seen: 0, d: layout.d };
    let walked = text::walk(layout, data, &mut words);
    debug_assert!(walked.is_ok());
}

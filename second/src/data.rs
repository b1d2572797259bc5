//! Data rows of the three kinds: checked, shown and written.

use crate::edition::Edition;
use crate::numbers;
use crate::{no, put, yes, Answer};
use std::fmt::{self, Display, Formatter};

/// The most analog channels.
pub const MOST_A: i64 = 96;

/// The most status channels.
pub const MOST_D: i64 = 256;

/// The most rows.
pub const MOST_ROWS: i64 = 1_000_000;

/// The most bytes of a text row before its line end.
const MOST_TEXT: usize = 1_880;

/// The place of what there is none of, among numbers of 64 bits: of a missing sample in a row; in a configuration of a line that the edition lacks, of no date, of an unknown pre-trigger time.
pub const NONE: i64 = i64::MIN;

/// The number that means a missing sample in a text of 1999.
const MARK: i64 = 99_999;

/// The mark at the end of a text file.
pub const END_MARK: [u8; 3] = [0x1A, 0x0D, 0x0A];

/// The kind of data file is one of ASCII, binary and binary32.
#[derive(Debug, Clone, Copy, PartialEq, Eq)]
pub enum Kind {
    Ascii,
    Binary,
    Binary32,
}

impl Kind {
    /// The kind of a number; another number is no such kind.
    pub fn of(number: u32) -> Option<Kind> {
        match number {
            0 => Some(Kind::Ascii),
            1 => Some(Kind::Binary),
            2 => Some(Kind::Binary32),
            _ => None,
        }
    }

    /// The number of the kind.
    pub fn number(self) -> u32 {
        match self {
            Kind::Ascii => 0,
            Kind::Binary => 1,
            Kind::Binary32 => 2,
        }
    }

    /// The kind's word, spelled as in a listing and in a configuration that is written.
    pub fn word(self) -> &'static str {
        match self {
            Kind::Ascii => "ASCII",
            Kind::Binary => "binary",
            Kind::Binary32 => "binary32",
        }
    }

    /// Bytes of a sample: binary 2, binary32 4; text has no such width, and no file of it is measured by one.
    fn width(self) -> usize {
        match self {
            Kind::Binary => 2,
            Kind::Ascii | Kind::Binary32 => 4,
        }
    }
}

/// What a row has for an analog channel: a number, or nothing.
#[derive(Debug, Clone, Copy, PartialEq, Eq)]
pub enum Sample {
    Is(i32),
    Missing,
}

impl Sample {
    /// A number that is a sample of the layout.
    fn of_number(number: i64, layout: &Layout) -> Option<Sample> {
        layout.holds(number).then_some(Sample::Is(number as i32))
    }

    /// What a place says that is given for a sample of the layout.
    fn of_place(place: i64, layout: &Layout) -> Option<Sample> {
        if place == NONE {
            return Some(Sample::Missing);
        }
        Sample::of_number(place, layout)
    }

    /// The place that shows it.
    fn place(self) -> i64 {
        match self {
            Sample::Is(number) => i64::from(number),
            Sample::Missing => NONE,
        }
    }

    /// Whether it can be written by the layout: a missing sample in every kind.
    fn fits(self, layout: &Layout) -> bool {
        match self {
            Sample::Is(number) => layout.holds(i64::from(number)),
            Sample::Missing => true,
        }
    }
}

/// A number as it stands, a missing sample as x.
impl Display for Sample {
    fn fmt(&self, f: &mut Formatter) -> fmt::Result {
        match self {
            Sample::Is(number) => number.fmt(f),
            Sample::Missing => f.write_str("x"),
        }
    }
}

/// In memory a row is its time, A samples and D statuses.
pub struct Row {
    pub time: u32,
    pub samples: Vec<Sample>,
    pub statuses: Vec<bool>,
}

impl Row {
    /// A row with a place for each channel.
    fn new(layout: &Layout) -> Row {
        Row { time: 0, samples: vec![Sample::Is(0); layout.a], statuses: vec![false; layout.d] }
    }

    /// The row that is given as places, or the field of the first that does not fit.
    fn of_places(layout: &Layout, places: &[i64]) -> Result<Row, u32> {
        let mut row = Row::new(layout);
        row.time = u32::try_from(places[0]).or(Err(2u32))?;
        let (samples, statuses) = places[1..layout.places()].split_at(layout.a);
        for (field, (sample, &place)) in (3u32..).zip(row.samples.iter_mut().zip(samples)) {
            *sample = Sample::of_place(place, layout).ok_or(field)?;
        }
        for (field, (status, &place)) in (3 + layout.a as u32..).zip(row.statuses.iter_mut().zip(statuses)) {
            *status = match place {
                0 => false,
                1 => true,
                _ => return Err(field),
            };
        }
        Ok(row)
    }

    /// The places that show it: time, samples, statuses.
    fn places(&self) -> Vec<i64> {
        let mut places = vec![i64::from(self.time)];
        places.extend(self.samples.iter().map(|sample| sample.place()));
        places.extend(self.statuses.iter().map(|&status| i64::from(status)));
        places
    }

    /// The field of the first sample that does not fit a layout.
    pub fn misfit(&self, layout: &Layout) -> Option<u32> {
        let place = self.samples.iter().position(|sample| !sample.fits(layout))?;
        Some(3 + place as u32)
    }
}

/// The numbers of a layout as they are given to a call, out of the sizes too.
#[derive(Debug, Clone, Copy, PartialEq, Eq)]
pub struct LayoutNumbers {
    pub a: u32,
    pub d: u32,
    pub rows: u32,
    pub kind: u32,
    pub edition: u32,
}

/// A layout is A, D, the number of rows, the kind and the edition.
#[derive(Debug, Clone, Copy)]
pub struct Layout {
    pub a: usize,
    pub d: usize,
    pub rows: u32,
    pub kind: Kind,
    pub edition: Edition,
}

impl Layout {
    /// A layout out of the sizes, no such kind, no such edition, or a kind that the edition lacks, is 10.
    pub fn new(numbers: LayoutNumbers) -> Result<Layout, Answer> {
        let LayoutNumbers { a, d, rows, kind, edition } = numbers;
        let edition = Edition::of(edition).ok_or(no(10, 0, 0))?;
        let kind = Kind::of(kind).filter(|&kind| edition.has(kind)).ok_or(no(10, 0, 0))?;
        let (wide_a, wide_d) = (i64::from(a), i64::from(d));
        let sizes =
            wide_a <= MOST_A && wide_d <= MOST_D && wide_a + wide_d >= 1 && (1..=MOST_ROWS).contains(&i64::from(rows));
        if !sizes {
            return Err(no(10, 0, 0));
        }
        Ok(Layout { a: a as usize, d: d as usize, rows, kind, edition })
    }

    /// Whether a number lies from the lowest sample to the highest; a text of 2013 has the range of binary32.
    fn holds(&self, number: i64) -> bool {
        let range = match (self.kind, self.edition) {
            (Kind::Ascii, Edition::Year1999) => -99_999..=99_998,
            (Kind::Binary, _) => -32_767..=32_767,
            (Kind::Ascii, Edition::Year2013) | (Kind::Binary32, _) => -2_147_483_647..=2_147_483_647,
        };
        range.contains(&number)
    }

    /// Places of a row in memory: time, A samples, D statuses.
    pub fn places(&self) -> usize {
        1 + self.a + self.d
    }

    /// D / 16 rounded up status words.
    fn words(&self) -> usize {
        self.d.div_ceil(16)
    }

    /// Bytes of a row of the binary kinds.
    pub fn row_size(&self) -> usize {
        8 + self.a * self.kind.width() + 2 * self.words()
    }

    /// A row that is none of 1 to the number of rows is 15.
    fn has_row(&self, n: u32) -> Result<(), Answer> {
        if n < 1 || n > self.rows {
            return Err(no(15, 0, 0));
        }
        Ok(())
    }
}

/// The whole file in order, `each` called with every row after its own checks; the first refusal met is given.
pub fn walk(layout: &Layout, data: &[u8], mut each: impl FnMut(u32, &Row)) -> Result<(), Answer> {
    let mut row = Row::new(layout);
    if layout.kind == Kind::Ascii {
        let mut start = 0;
        for n in 1..=layout.rows {
            start = text_row(layout, data, start, n, &mut row)?;
            each(n, &row);
        }
        return ending(layout, &data[start..]);
    }
    if data.len() as u64 != u64::from(layout.rows) * layout.row_size() as u64 {
        return Err(no(11, 0, 0));
    }
    for (n, bytes) in (1..=layout.rows).zip(data.chunks_exact(layout.row_size())) {
        binary_row(layout, bytes, n, &mut row)?;
        each(n, &row);
    }
    Ok(())
}

/// After the last row comes nothing, or 1A hex, or 1A 0D 0A; else 11 at row rows + 1.
fn ending(layout: &Layout, rest: &[u8]) -> Result<(), Answer> {
    if rest.is_empty() || rest == [0x1A] || rest == END_MARK {
        return Ok(());
    }
    Err(no(11, layout.rows + 1, 0))
}

/// Four bytes, unsigned, low byte first.
fn four(bytes: &[u8]) -> u32 {
    u32::from_le_bytes([bytes[0], bytes[1], bytes[2], bytes[3]])
}

/// A sample of a binary kind, in two's complement: the lowest pattern, 8000 or 80000000 hex, is kept for a missing one.
fn binary_sample(bytes: &[u8]) -> Sample {
    match *bytes {
        [0x00, 0x80] | [0x00, 0x00, 0x00, 0x80] => Sample::Missing,
        [low, high] => Sample::Is(i32::from(i16::from_le_bytes([low, high]))),
        _ => Sample::Is(four(bytes) as i32),
    }
}

/// Row number and timestamp, A samples, then the status words: 12, then 13.
fn binary_row(layout: &Layout, bytes: &[u8], n: u32, row: &mut Row) -> Result<(), Answer> {
    if four(bytes) != n {
        return Err(no(12, n, 1));
    }
    row.time = four(&bytes[4..]);
    let width = layout.kind.width();
    let (samples, words) = bytes[8..].split_at(layout.a * width);
    for (sample, bytes) in row.samples.iter_mut().zip(samples.chunks_exact(width)) {
        *sample = binary_sample(bytes);
    }
    for (statuses, bytes) in row.statuses.chunks_mut(16).zip(words.chunks_exact(2)) {
        let mut word = u16::from_le_bytes([bytes[0], bytes[1]]);
        for status in statuses.iter_mut() {
            *status = word & 1 == 1;
            word >>= 1;
        }
        if word != 0 {
            return Err(no(13, n, 0));
        }
    }
    Ok(())
}

/// Scans a text row: 11 for an early end, 14 for a bad byte or at the 1,881st byte if that is not CR.
fn text_end(data: &[u8], start: usize, n: u32) -> Result<usize, Answer> {
    let mut at = start;
    loop {
        match data.get(at) {
            None => return Err(no(11, n, 0)),
            Some(0x0D) if data.get(at + 1) == Some(&0x0A) => return Ok(at),
            Some(32..=126) if at - start < MOST_TEXT => at += 1,
            Some(_) => return Err(no(14, n, 0)),
        }
    }
}

/// A text row from byte `start`: scanned, its fields counted, then fields from the left; the byte after it.
fn text_row(layout: &Layout, data: &[u8], start: usize, n: u32, row: &mut Row) -> Result<usize, Answer> {
    let end = text_end(data, start, n)?;
    let line = &data[start..end];
    let commas = line.iter().filter(|&&byte| byte == b',').count();
    if commas + 1 != 1 + layout.places() {
        return Err(no(14, n, 0));
    }
    let mut fields = line.split(|&byte| byte == b',');
    let number = numbers::count(fields.next().unwrap_or(&[]), 10).ok_or(no(14, n, 1))?;
    if number != i64::from(n) {
        return Err(no(12, n, 1));
    }
    for (place, bytes) in fields.enumerate() {
        text_place(layout, place, bytes, row).ok_or(no(14, n, place as u32 + 2))?;
    }
    Ok(end + 2)
}

/// One field after the number, put into the row: timestamp, sample, or status of one character, 0 or 1.
fn text_place(layout: &Layout, place: usize, bytes: &[u8], row: &mut Row) -> Option<()> {
    if place == 0 {
        row.time = u32::try_from(numbers::count(bytes, 13)?).ok()?;
    } else if place <= layout.a {
        row.samples[place - 1] = text_sample(layout, bytes)?;
    } else {
        row.statuses[place - 1 - layout.a] = match bytes {
            b"0" => false,
            b"1" => true,
            _ => return None,
        };
    }
    Some(())
}

/// A sample of a text. In 2013 an empty field is a missing one, in 1999 a number worth 99999, however it is written; a field of spaces alone is none in either.
fn text_sample(layout: &Layout, bytes: &[u8]) -> Option<Sample> {
    match layout.edition {
        Edition::Year2013 if bytes.is_empty() => Some(Sample::Missing),
        Edition::Year2013 => Sample::of_number(numbers::sample(bytes, 13)?, layout),
        Edition::Year1999 => match numbers::sample(bytes, 13)? {
            MARK => Some(Sample::Missing),
            number => Sample::of_number(number, layout),
        },
    }
}

/// Adds a row that fits the layout to `bytes`.
pub fn put_row(layout: &Layout, n: u32, row: &Row, bytes: &mut Vec<u8>) {
    match layout.kind {
        Kind::Ascii => put_text(layout.edition, n, row, bytes),
        Kind::Binary | Kind::Binary32 => put_binary(layout.kind.width(), n, row, bytes),
    }
}

/// Number, time, samples of so many bytes, status words. A missing sample is the lowest pattern: its high byte is 80 hex, the others are 0.
fn put_binary(width: usize, n: u32, row: &Row, bytes: &mut Vec<u8>) {
    bytes.extend_from_slice(&n.to_le_bytes());
    bytes.extend_from_slice(&row.time.to_le_bytes());
    for sample in &row.samples {
        match sample {
            Sample::Is(number) => bytes.extend_from_slice(&number.to_le_bytes()[..width]),
            Sample::Missing => bytes.extend_from_slice(&[0x00, 0x00, 0x00, 0x80][4 - width..]),
        }
    }
    for statuses in row.statuses.chunks(16) {
        let mut word = 0u16;
        for (bit, &status) in statuses.iter().enumerate() {
            word |= u16::from(status) << bit;
        }
        bytes.extend_from_slice(&word.to_le_bytes());
    }
}

/// The plain written form: no spaces, no plus, no needless zeros, zero as 0; for a missing sample nothing in 2013, 99999 in 1999. The row ends with CR LF.
fn put_text(edition: Edition, n: u32, row: &Row, bytes: &mut Vec<u8>) {
    put_number(i64::from(n), bytes);
    bytes.push(b',');
    put_number(i64::from(row.time), bytes);
    for sample in &row.samples {
        bytes.push(b',');
        match (sample, edition) {
            (Sample::Is(number), _) => put_number(i64::from(*number), bytes),
            (Sample::Missing, Edition::Year2013) => (),
            (Sample::Missing, Edition::Year1999) => put_number(MARK, bytes),
        }
    }
    for &status in &row.statuses {
        bytes.extend_from_slice(if status { b",1" } else { b",0" });
    }
    bytes.extend_from_slice(&[0x0D, 0x0A]);
}

/// A number in its plain form.
fn put_number(number: i64, bytes: &mut Vec<u8>) {
    if number < 0 {
        bytes.push(b'-');
    }
    let mut rest = number.unsigned_abs();
    let start = bytes.len();
    loop {
        bytes.push(b'0' + (rest % 10) as u8);
        rest /= 10;
        if rest == 0 {
            break;
        }
    }
    bytes[start..].reverse();
}

/// Checks a data file against its layout: 10, then the file.
pub fn check(layout: LayoutNumbers, data: &[u8]) -> Answer {
    let checked = Layout::new(layout).and_then(|layout| walk(&layout, data, |_, _| ()));
    match checked {
        Ok(()) => yes(0),
        Err(answer) => answer,
    }
}

/// Shows row n: 10, 15, then the file, and 17 last of all.
pub fn row(layout: LayoutNumbers, data: &[u8], n: u32, shown: &mut [i64]) -> Answer {
    match Layout::new(layout).and_then(|layout| find_row(&layout, data, n)) {
        Err(answer) => answer,
        Ok(found) if shown.len() < found.len() => no(17, 0, 0),
        Ok(found) => {
            shown[..found.len()].copy_from_slice(&found);
            yes(0)
        }
    }
}

/// Row n of a file that passes its check.
fn find_row(layout: &Layout, data: &[u8], n: u32) -> Result<Vec<i64>, Answer> {
    layout.has_row(n)?;
    let mut found = Vec::new();
    walk(layout, data, |number, row| {
        if number == n {
            found = row.places();
        }
    })?;
    Ok(found)
}

/// Writing one row: 10, 15, 16, 17; no end mark is added.
pub fn write_row(layout: LayoutNumbers, n: u32, row: &[i64], out: &mut [u8]) -> Answer {
    put(Layout::new(layout).and_then(|layout| row_bytes(&layout, n, row)), out)
}

/// The bytes of row n: 10 for too few places, then 15, then 16 at the first field that does not fit.
fn row_bytes(layout: &Layout, n: u32, row: &[i64]) -> Result<Vec<u8>, Answer> {
    if row.len() < layout.places() {
        return Err(no(10, 0, 0));
    }
    layout.has_row(n)?;
    let row = Row::of_places(layout, row).map_err(|field| no(16, n, field))?;
    let mut bytes = Vec::new();
    put_row(layout, n, &row, &mut bytes);
    Ok(bytes)
}

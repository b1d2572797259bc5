//! Text rows. A row is read field by field in one go; only a row that fails is looked through again for its refusal.

use super::plain::END_MARK;
use super::{no, place_of, Answer, Layout, MARK, MISSING};

/// What is done with the fields of a row, from the left. Statuses come up to four at a time, bit 0 first.
pub trait Fields {
    fn row(&mut self, _n: u32, _start: usize) {}
    fn time(&mut self, _time: u32) {}
    fn sample(&mut self, _sample: i32) {}
    fn statuses(&mut self, _count: usize, _bits: u16) {}
}

/// Nothing is done: the check alone.
pub struct Ignored;

impl Fields for Ignored {}

/// A run of digits, or none, and where it ends. More than 13 digits are refused by their length, so the value may wrap.
#[inline(always)]
fn run(data: &[u8], start: usize) -> Option<(u64, usize)> {
    let mut value = 0u64;
    let mut at = start;
    loop {
        let digit = data.get(at)?.wrapping_sub(b'0');
        if digit > 9 {
            break;
        }
        value = value.wrapping_mul(10).wrapping_add(u64::from(digit));
        at += 1;
    }
    Some((value, at))
}

/// The first byte from `at` that is no space.
#[inline(always)]
fn after_spaces(data: &[u8], mut at: usize) -> Option<usize> {
    while *data.get(at)? == b' ' {
        at += 1;
    }
    Some(at)
}

/// A count of at most `most` characters.
#[inline(always)]
fn count(data: &[u8], start: usize, most: usize) -> Option<(u64, usize)> {
    let first = after_spaces(data, start)?;
    let (value, end) = run(data, first)?;
    if end == first || end - start > most {
        return None;
    }
    Some((value, end))
}

/// A sample of at most 13 characters: within 32 bits, or in a marked text at most 99,999 from zero. In a marked text that
/// number is a missing one; in another it is missing where neither a space nor a sign nor a digit stands: what does stand
/// there has to end the field, which is tested next.
#[inline(always)]
fn sample<const MARKED: bool>(data: &[u8], start: usize) -> Option<(i32, usize)> {
    let farthest = if MARKED { MARK as u64 } else { i32::MAX as u64 };
    let at = after_spaces(data, start)?;
    let sign = data[at];
    let minus = sign == b'-';
    let first = at + usize::from(minus || sign == b'+');
    let (distance, end) = run(data, first)?;
    if end == first || end - start > 13 || distance > farthest {
        return (!MARKED && end == start).then_some((MISSING, start));
    }
    let value = distance as u32 as i32;
    match if minus { value.wrapping_neg() } else { value } {
        mark if MARKED && mark == MARK as i32 => Some((MISSING, end)),
        sample => Some((sample, end)),
    }
}

#[inline(always)]
fn comma(data: &[u8], at: usize) -> Option<usize> {
    (*data.get(at)? == b',').then_some(at + 1)
}

/// Four statuses with their commas in one load: the text but for the bits, and the bits drawn together.
#[inline(always)]
fn four_statuses(data: &[u8], at: usize) -> Option<u16> {
    let word = u64::from_le_bytes(*data.get(at..)?.first_chunk()?);
    if word & 0xFEFF_FEFF_FEFF_FEFF != u64::from_le_bytes(*b",0,0,0,0") {
        return None;
    }
    let bits = word >> 8 & 0x0001_0001_0001_0001;
    Some((bits.wrapping_mul(1 << 48 | 1 << 33 | 1 << 18 | 1 << 3) >> 48) as u16 & 15)
}

#[inline(always)]
fn statuses<F: Fields>(layout: &Layout, data: &[u8], mut at: usize, fields: &mut F) -> Option<usize> {
    for _ in 0..layout.d / 4 {
        fields.statuses(4, four_statuses(data, at)?);
        at += 8;
    }
    for _ in 0..layout.d % 4 {
        let status = data.get(comma(data, at)?)? ^ b'0';
        if status > 1 {
            return None;
        }
        fields.statuses(1, u16::from(status));
        at += 2;
    }
    Some(at)
}

/// Reads row n from `start`, and gives where it ends; nothing where it is to be refused. Fields of the right length
/// can't make a row over 1,880 bytes, nor hold a bad byte.
#[inline(always)]
fn read_row<const MARKED: bool, F: Fields>(
    layout: &Layout,
    data: &[u8],
    start: usize,
    n: u32,
    fields: &mut F,
) -> Option<usize> {
    let (number, at) = count(data, start, 10)?;
    if number != u64::from(n) {
        return None;
    }
    fields.row(n, start);
    let (time, mut at) = count(data, comma(data, at)?, 13)?;
    fields.time(u32::try_from(time).ok()?);
    for _ in 0..layout.a {
        let (value, end) = sample::<MARKED>(data, comma(data, at)?)?;
        fields.sample(value);
        at = end;
    }
    at = statuses(layout, data, at, fields)?;
    (data.get(at..)?.first_chunk() == Some(b"\r\n")).then_some(at + 2)
}

/// The whole file, every field of it handed on; gives the bytes of its rows. A refusal may come after fields handed on.
#[inline(always)]
pub fn walk<F: Fields>(layout: &Layout, data: &[u8], fields: &mut F) -> Result<usize, Answer> {
    if layout.marked {
        return walk_rows::<true, F>(layout, data, fields);
    }
    walk_rows::<false, F>(layout, data, fields)
}

#[inline(always)]
fn walk_rows<const MARKED: bool, F: Fields>(layout: &Layout, data: &[u8], fields: &mut F) -> Result<usize, Answer> {
    let mut at = 0;
    for n in 1..=layout.rows {
        match read_row::<MARKED, F>(layout, data, at, n, fields) {
            Some(end) => at = end,
            None => return Err(refusal(layout, data, at, n)),
        }
    }
    check_ending(layout, &data[at..])?;
    Ok(at)
}

/// After the last row comes nothing, or 1A hex, or 1A 0D 0A; else 11 at row rows + 1.
fn check_ending(layout: &Layout, rest: &[u8]) -> Result<(), Answer> {
    if rest.is_empty() || rest == &END_MARK[..1] || rest == END_MARK {
        return Ok(());
    }
    Err(no(11, layout.rows + 1, 0))
}

/// Notes where one row starts.
struct Found {
    n: u32,
    start: usize,
}

impl Fields for Found {
    fn row(&mut self, n: u32, start: usize) {
        if n == self.n {
            self.start = start;
        }
    }
}

/// Where row n starts in a file that passes.
pub fn find(layout: &Layout, data: &[u8], n: u32) -> Result<usize, Answer> {
    let mut found = Found { n, start: 0 };
    walk(layout, data, &mut found)?;
    Ok(found.start)
}

/// The places of a row in memory, filled in order.
struct Shown<'a> {
    places: std::slice::IterMut<'a, i64>,
}

impl Shown<'_> {
    fn put(&mut self, value: i64) {
        if let Some(place) = self.places.next() {
            *place = value;
        }
    }
}

impl Fields for Shown<'_> {
    fn time(&mut self, time: u32) {
        self.put(i64::from(time));
    }
    fn sample(&mut self, sample: i32) {
        self.put(place_of(sample));
    }
    fn statuses(&mut self, count: usize, bits: u16) {
        for bit in 0..count {
            self.put(i64::from(bits >> bit & 1));
        }
    }
}

/// Shows row n, which starts at `start` and passes.
pub fn show(layout: &Layout, data: &[u8], start: usize, n: u32, shown: &mut [i64]) {
    let mut fields = Shown { places: shown.iter_mut() };
    if layout.marked {
        read_row::<true, _>(layout, data, start, n, &mut fields);
    } else {
        read_row::<false, _>(layout, data, start, n, &mut fields);
    }
}

/// The refusal of a row that could not be read: the line, the count of fields, the fields from the left.
#[cold]
fn refusal(layout: &Layout, data: &[u8], start: usize, n: u32) -> Answer {
    let end = match line_end(data, start, n) {
        Ok(end) => end,
        Err(refusal) => return refusal,
    };
    let line = &data[start..end];
    if line.iter().filter(|&&byte| byte == b',').count() != layout.places() {
        return no(14, n, 0);
    }
    for (place, field) in line.split(|&byte| byte == b',').enumerate() {
        if !field_passes(layout, place, field) {
            return no(14, n, place as u32 + 1);
        }
        if place == 0 && whole(count(&with_end(field), 0, 10), field) != Some(u64::from(n)) {
            return no(12, n, 1);
        }
    }
    unreachable!("a row whose fields all pass is read")
}

/// The line up to CR LF: 11 for an early end, 14 for a bad byte or at the 1,881st byte if that is not CR.
fn line_end(data: &[u8], start: usize, n: u32) -> Result<usize, Answer> {
    for at in start.. {
        match data.get(at) {
            None => return Err(no(11, n, 0)),
            Some(b'\r') if data.get(at + 1) == Some(&b'\n') => return Ok(at),
            Some(32..=126) if at - start < 1_880 => (),
            Some(_) => return Err(no(14, n, 0)),
        }
    }
    unreachable!("a file ends")
}

/// A field by itself with an end after it, as the readers of fields want it; a field over 13 bytes never passes.
fn with_end(field: &[u8]) -> [u8; 16] {
    let mut ended = [b','; 16];
    let length = field.len().min(15);
    ended[..length].copy_from_slice(&field[..length]);
    ended
}

/// A value read, where it takes up the whole field.
fn whole<T>(read: Option<(T, usize)>, field: &[u8]) -> Option<T> {
    read.filter(|&(_, end)| end == field.len()).map(|(value, _)| value)
}

fn field_passes(layout: &Layout, place: usize, field: &[u8]) -> bool {
    let ended = with_end(field);
    if place == 0 {
        whole(count(&ended, 0, 10), field).is_some()
    } else if place == 1 {
        whole(count(&ended, 0, 13), field).is_some_and(|time| time <= u64::from(u32::MAX))
    } else if place < 2 + layout.a {
        let read = if layout.marked { sample::<true>(&ended, 0) } else { sample::<false>(&ended, 0) };
        whole(read, field).is_some()
    } else {
        field == b"0" || field == b"1"
    }
}

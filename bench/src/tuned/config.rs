//! The configuration, line by line: each line is scanned once, its commas noted, then its fields are read from the
//! left.

use super::{answer, no, Answer, NONE};
use std::cmp::Ordering;

/// Places in which a configuration is shown.
pub const PLACES: usize = 35;

/// The most bytes of a configuration.
pub const MOST_BYTES: usize = 65_536;

/// The most fields of a line.
const MOST_FIELDS: usize = 13;

/// What is noted of a configuration while it is read: where it is written otherwise than it stands.
pub trait Notes {
    /// Whether anything is noted at all.
    const WANTED: bool = true;

    /// Spaces before a number or a code.
    fn spaces(&mut self, _start: usize, _count: usize) {}

    /// The kind's word.
    fn word(&mut self, _start: usize, _end: usize) {}
}

/// Nothing is noted: the configuration is only read.
struct Ignored;

impl Notes for Ignored {
    const WANTED: bool = false;
}

/// Where the lines are taken from, and where the fields of the line at hand start.
struct Reader<'a, N> {
    cfg: &'a [u8],
    at: usize,
    line: u32,
    starts: [usize; MOST_FIELDS + 1],
    notes: &'a mut N,
}

impl<'a, N: Notes> Reader<'a, N> {
    /// The next line of `wanted` fields, not the last one.
    fn next(&mut self, wanted: usize) -> Result<(), Answer> {
        self.take(wanted, false)
    }

    /// The last line, which may end with the file.
    fn last(&mut self, wanted: usize) -> Result<(), Answer> {
        self.take(wanted, true)
    }

    /// Scans a line byte by byte up to its end, noting its commas: 2 and 3 as met, then 4.
    fn take(&mut self, wanted: usize, last: bool) -> Result<(), Answer> {
        self.line += 1;
        let start = self.at;
        let (mut at, mut count) = (start, 1);
        self.starts[0] = start;
        self.at = loop {
            match self.cfg.get(at) {
                Some(b',') => {
                    if count < MOST_FIELDS {
                        self.starts[count] = at + 1;
                    }
                    count += 1;
                }
                Some(32..=126) => (),
                Some(b'\r') if self.cfg.get(at + 1) == Some(&b'\n') => break at + 2,
                None if last && at > start => break at,
                None => return Err(no(2, self.line, 0)),
                Some(_) => return Err(no(3, self.line, 0)),
            }
            at += 1;
        };
        if count != wanted {
            return Err(no(4, self.line, 0));
        }
        self.starts[count] = at + 1;
        Ok(())
    }

    /// Field `number` of the line, from 1.
    fn field(&self, number: usize) -> &'a [u8] {
        &self.cfg[self.starts[number - 1]..self.starts[number] - 1]
    }

    fn no(&self, number: u32, field: usize) -> Answer {
        no(number, self.line, field as u32)
    }

    /// Notes the spaces before numbers and codes, in fields of the line that are fine.
    #[inline(always)]
    fn note_spaces<const COUNT: usize>(&mut self, fields: [usize; COUNT]) {
        if !N::WANTED {
            return;
        }
        for number in fields {
            let field = self.field(number);
            if field.first() == Some(&b' ') {
                self.notes.spaces(self.starts[number - 1], field.len() - after_spaces(field).len());
            }
        }
    }

    /// A test of form, 5.
    fn form(&self, field: usize, right: bool) -> Result<(), Answer> {
        if right {
            return Ok(());
        }
        Err(self.no(5, field))
    }

    /// A test of range, 6.
    fn range(&self, field: usize, within: bool) -> Result<(), Answer> {
        if within {
            return Ok(());
        }
        Err(self.no(6, field))
    }

    fn text(&self, field: usize, least: usize, most: usize) -> Result<(), Answer> {
        self.form(field, (least..=most).contains(&self.field(field).len()))
    }

    fn count(&self, field: usize, most: usize) -> Result<u64, Answer> {
        count(self.field(field), most).ok_or_else(|| self.no(5, field))
    }

    fn real(&self, field: usize, most: usize) -> Result<Real, Answer> {
        real(self.field(field), most).ok_or_else(|| self.no(5, field))
    }

    fn index(&self, index: u64) -> Result<(), Answer> {
        if self.count(1, 6)? == index {
            return Ok(());
        }
        Err(self.no(7, 1))
    }

    /// A count of channels and its letter.
    fn channels(&self, field: usize, letter: u8, most: u64) -> Result<u64, Answer> {
        let channels = match self.field(field) {
            [digits @ .., last] if *last == letter => count(digits, 6),
            _ => None,
        };
        let channels = channels.ok_or_else(|| self.no(5, field))?;
        self.range(field, channels <= most)?;
        Ok(channels)
    }

    /// One character out of a few.
    fn one_of(&self, field: usize, allowed: &[u8]) -> Result<u8, Answer> {
        let &[byte] = self.field(field) else { return Err(self.no(5, field)) };
        self.range(field, allowed.contains(&byte))?;
        Ok(byte)
    }
}

/// Leading spaces taken off.
fn after_spaces(mut field: &[u8]) -> &[u8] {
    while let [b' ', rest @ ..] = field {
        field = rest;
    }
    field
}

/// A sign taken off, and whether it was a minus.
fn after_sign(field: &[u8]) -> (bool, &[u8]) {
    match field {
        [b'-', rest @ ..] => (true, rest),
        [b'+', rest @ ..] => (false, rest),
        _ => (false, field),
    }
}

/// Digits and nothing else, one at least; at most 18 are ever asked for.
fn number(digits: &[u8]) -> Option<u64> {
    let mut value = 0u64;
    for byte in digits {
        let digit = byte.wrapping_sub(b'0');
        if digit > 9 {
            return None;
        }
        value = value.wrapping_mul(10).wrapping_add(u64::from(digit));
    }
    (!digits.is_empty()).then_some(value)
}

fn count(field: &[u8], most: usize) -> Option<u64> {
    if field.len() > most {
        return None;
    }
    number(after_spaces(field))
}

/// A real: digits without their point, times a power of ten. The digits of a real over 19 characters may wrap; only
/// whether they are all zero is asked of such a one.
#[derive(Clone, Copy)]
struct Real {
    minus: bool,
    zero: bool,
    digits: u64,
    power: i32,
}

/// min and max lie within 3.4028235E38 of zero.
const FARTHEST: Real = Real { minus: false, zero: false, digits: 34_028_235, power: 31 };

/// Takes a run of digits into a real.
fn take_digits<'a>(mut field: &'a [u8], real: &mut Real) -> &'a [u8] {
    while let [byte @ b'0'..=b'9', rest @ ..] = field {
        let digit = byte - b'0';
        real.zero &= digit == 0;
        real.digits = real.digits.wrapping_mul(10).wrapping_add(u64::from(digit));
        field = rest;
    }
    field
}

fn real(field: &[u8], most: usize) -> Option<Real> {
    if field.len() > most {
        return None;
    }
    let (minus, whole) = after_sign(after_spaces(field));
    let mut real = Real { minus, zero: true, digits: 0, power: 0 };
    let mut rest = take_digits(whole, &mut real);
    if rest.len() == whole.len() {
        return None;
    }
    if let [b'.', part @ ..] = rest {
        rest = take_digits(part, &mut real);
        if rest.len() == part.len() {
            return None;
        }
        real.power = rest.len() as i32 - part.len() as i32;
    }
    if let [b'e' | b'E', power @ ..] = rest {
        let (below, digits) = after_sign(power);
        if digits.len() > 3 {
            return None;
        }
        let power = number(digits)? as i32;
        real.power += if below { -power } else { power };
        rest = &[];
    }
    rest.is_empty().then_some(real)
}

impl Real {
    fn above_zero(&self) -> bool {
        !self.minus && !self.zero
    }

    /// How far from zero, for reals of at most 13 characters: first by the place of the leading digit; where that is
    /// the same, the powers are less than 13 apart, and the longer digits are those of the lower power.
    fn distance_order(&self, other: &Real) -> Ordering {
        if self.zero || other.zero {
            return other.zero.cmp(&self.zero);
        }
        let lead = |real: &Real| real.power + real.digits.ilog10() as i32;
        lead(self).cmp(&lead(other)).then_with(|| {
            let apart = self.power - other.power;
            let mine = self.digits * 10u64.pow(apart.max(0) as u32);
            mine.cmp(&(other.digits * 10u64.pow((-apart).max(0) as u32)))
        })
    }

    fn is_below(&self, other: &Real) -> bool {
        let (mine, theirs) = (self.minus && !self.zero, other.minus && !other.zero);
        match (mine, theirs) {
            (false, false) => self.distance_order(other) == Ordering::Less,
            (true, true) => self.distance_order(other) == Ordering::Greater,
            (minus, _) => minus,
        }
    }
}

/// Reads a configuration and shows it; fewer than 35 places are 17, last of all.
pub fn config(cfg: &[u8], shown: &mut [i64]) -> Answer {
    let mut places = [0; PLACES];
    answer(read(cfg, &mut places, &mut Ignored).and_then(|_| {
        let Some(shown) = shown.get_mut(..PLACES) else { return Err(no(17, 0, 0)) };
        shown.copy_from_slice(&places);
        Ok(0)
    }))
}

/// 1, then line by line, each into its places.
pub fn read<N: Notes>(cfg: &[u8], places: &mut [i64; PLACES], notes: &mut N) -> Result<(), Answer> {
    if cfg.len() > MOST_BYTES {
        return Err(no(1, 0, 0));
    }
    let mut lines = Reader { cfg, at: 0, line: 0, starts: [0; MOST_FIELDS + 1], notes };
    let is_1999 = station(&mut lines)?;
    let (a, d) = channels(&mut lines)?;
    for index in 1..=a {
        analog(&mut lines, index)?;
    }
    for index in 1..=d {
        status(&mut lines, index)?;
    }
    (places[0], places[1]) = (a as i64, d as i64);
    frequency(&mut lines)?;
    sampling(&mut lines, &mut places[2..12])?;
    let first = moment(&mut lines, &mut places[12..19])?;
    let trigger = moment(&mut lines, &mut places[19..26])?;
    pre_trigger(first, trigger, &mut places[26..28]);
    places[28] = kind(&mut lines, kinds(is_1999))?;
    multiplier(&mut lines, is_1999)?;
    if is_1999 {
        places[29..34].fill(NONE);
    } else {
        codes(&mut lines, &mut places[29..32])?;
        quality(&mut lines, &mut places[32..34])?;
    }
    places[34] = if is_1999 { 1999 } else { 2013 };
    if lines.at < cfg.len() {
        return Err(no(9, lines.line + 1, 0));
    }
    Ok(())
}

/// How many kinds an edition has, counted from ASCII on.
pub fn kinds(is_1999: bool) -> usize {
    if is_1999 {
        2
    } else {
        3
    }
}

/// Whether the edition is that of 1999; it is that of 2013 else.
fn station<N: Notes>(lines: &mut Reader<N>) -> Result<bool, Answer> {
    lines.next(3)?;
    lines.text(1, 0, 64)?;
    lines.text(2, 0, 64)?;
    let year = lines.field(3);
    lines.form(3, year.len() == 4 && number(year).is_some())?;
    match year {
        b"2013" => Ok(false),
        b"1999" => Ok(true),
        _ => Err(lines.no(8, 3)),
    }
}

fn channels<N: Notes>(lines: &mut Reader<N>) -> Result<(u64, u64), Answer> {
    lines.next(3)?;
    let total = lines.count(1, 6)?;
    lines.range(1, (1..=352).contains(&total))?;
    let a = lines.channels(2, b'A', 96)?;
    let d = lines.channels(3, b'D', 256)?;
    if total != a + d {
        return Err(lines.no(7, 3));
    }
    lines.note_spaces([1, 2, 3]);
    Ok((a, d))
}

fn analog<N: Notes>(lines: &mut Reader<N>, index: u64) -> Result<(), Answer> {
    lines.next(13)?;
    lines.index(index)?;
    lines.text(2, 1, 128)?;
    lines.text(3, 0, 2)?;
    lines.text(4, 0, 64)?;
    lines.text(5, 1, 32)?;
    for field in 6..=8 {
        lines.real(field, 32)?;
    }
    let min = lines.real(9, 13)?;
    lines.range(9, min.distance_order(&FARTHEST) != Ordering::Greater)?;
    let max = lines.real(10, 13)?;
    lines.range(10, max.distance_order(&FARTHEST) != Ordering::Greater)?;
    if max.is_below(&min) {
        return Err(lines.no(7, 10));
    }
    lines.real(11, 32)?;
    lines.real(12, 32)?;
    lines.one_of(13, b"pPsS")?;
    lines.note_spaces([1, 6, 7, 8, 9, 10, 11, 12]);
    Ok(())
}

fn status<N: Notes>(lines: &mut Reader<N>, index: u64) -> Result<(), Answer> {
    lines.next(5)?;
    lines.index(index)?;
    lines.text(2, 1, 128)?;
    lines.text(3, 0, 2)?;
    lines.text(4, 0, 64)?;
    lines.one_of(5, b"01")?;
    lines.note_spaces([1]);
    Ok(())
}

fn frequency<N: Notes>(lines: &mut Reader<N>) -> Result<(), Answer> {
    lines.next(1)?;
    if !lines.field(1).is_empty() {
        lines.real(1, 32)?;
    }
    lines.note_spaces([1]);
    Ok(())
}

/// The number of rates, the rows, and up to eight last rows.
fn sampling<N: Notes>(lines: &mut Reader<N>, places: &mut [i64]) -> Result<(), Answer> {
    lines.next(1)?;
    let rates = lines.count(1, 3)?;
    lines.range(1, rates <= 8)?;
    lines.note_spaces([1]);
    let (counts, last_rows) = places.split_at_mut(2);
    let mut rows = 0;
    for place in &mut last_rows[..rates.max(1) as usize] {
        lines.next(2)?;
        let rate = lines.real(1, 32)?;
        lines.range(1, if rates == 0 { rate.zero } else { rate.above_zero() })?;
        let last_row = lines.count(2, 10)?;
        lines.range(2, (1..=1_000_000).contains(&last_row))?;
        if last_row <= rows {
            return Err(lines.no(7, 2));
        }
        lines.note_spaces([1, 2]);
        rows = last_row;
        *place = rows as i64;
    }
    counts.copy_from_slice(&[rates as i64, rows as i64]);
    Ok(())
}

/// Digits at each `d` of the form, the form's own character elsewhere.
fn has_form(field: &[u8], form: &[u8]) -> bool {
    let fits = |(byte, want): (&u8, &u8)| if *want == b'd' { byte.is_ascii_digit() } else { byte == want };
    field.len() == form.len() && field.iter().zip(form).all(fits)
}

/// The number that digits already tested make.
fn value(digits: &[u8]) -> i64 {
    digits.iter().fold(0, |value, byte| value * 10 + i64::from(byte & 15))
}

/// Days of a month.
fn month_days(year: i64, month: i64) -> i64 {
    match month {
        2 => 28 + i64::from(year % 4 == 0 && (year % 100 != 0 || year % 400 == 0)),
        4 | 6 | 9 | 11 => 30,
        _ => 31,
    }
}

/// Days up to a date, years beginning in March so that the leap day comes last.
fn day_number(year: i64, month: i64, day: i64) -> i64 {
    let year = year - i64::from(month <= 2);
    let from_march = (153 * ((month + 9) % 12) + 2) / 5;
    365 * year + year / 4 - year / 100 + year / 400 + from_march + day
}

/// Whether a date and a time are zeros only, which is no date.
fn is_none(date: &[u8], time: &[u8]) -> bool {
    let zeros = b"00:00:00.000000000";
    date == b"00/00/0000" && (15..=18).contains(&time.len()) && *time == zeros[..time.len()]
}

/// A date line into its seven places; the moment in nanoseconds, where there is one.
fn moment<N: Notes>(lines: &mut Reader<N>, places: &mut [i64]) -> Result<Option<i128>, Answer> {
    lines.next(2)?;
    let (date, time) = (lines.field(1), lines.field(2));
    if is_none(date, time) {
        places.fill(NONE);
        return Ok(None);
    }
    lines.form(1, has_form(date, b"dd/dd/dddd"))?;
    let (day, month, year) = (value(&date[..2]), value(&date[3..5]), value(&date[6..]));
    let right_month = (1900..=9999).contains(&year) && (1..=12).contains(&month);
    lines.range(1, right_month && (1..=month_days(year, month)).contains(&day))?;
    let form = b"dd:dd:dd.ddddddddd";
    lines.form(2, (15..=18).contains(&time.len()) && has_form(time, &form[..time.len()]))?;
    let (hour, minute, second) = (value(&time[..2]), value(&time[3..5]), value(&time[6..8]));
    lines.range(2, hour <= 23 && minute <= 59 && second <= 59)?;
    let nanosecond = value(&time[9..]) * 10i64.pow(18 - time.len() as u32);
    places.copy_from_slice(&[year, month, day, hour, minute, second, nanosecond]);
    let seconds = ((day_number(year, month, day) * 24 + hour) * 60 + minute) * 60 + second;
    Ok(Some(i128::from(seconds) * 1_000_000_000 + i128::from(nanosecond)))
}

/// Seconds and nanoseconds from the first sample to the trigger; unknown where either has no date.
fn pre_trigger(first: Option<i128>, trigger: Option<i128>, places: &mut [i64]) {
    let (Some(first), Some(trigger)) = (first, trigger) else {
        places.fill(NONE);
        return;
    };
    places[0] = (trigger - first).div_euclid(1_000_000_000) as i64;
    places[1] = (trigger - first).rem_euclid(1_000_000_000) as i64;
}

/// One of so many kinds.
fn kind<N: Notes>(lines: &mut Reader<N>, kinds: usize) -> Result<i64, Answer> {
    lines.next(1)?;
    lines.text(1, 5, 8)?;
    let words: [&[u8]; 3] = [b"ascii", b"binary", b"binary32"];
    let kind = words[..kinds].iter().position(|word| lines.field(1).eq_ignore_ascii_case(word));
    let kind = kind.ok_or_else(|| lines.no(6, 1))?;
    lines.notes.word(lines.starts[0], lines.starts[1] - 1);
    Ok(kind as i64)
}

fn multiplier<N: Notes>(lines: &mut Reader<N>, is_last: bool) -> Result<(), Answer> {
    lines.take(1, is_last)?;
    let real = lines.real(1, 32)?;
    lines.range(1, real.above_zero())?;
    lines.note_spaces([1]);
    Ok(())
}

/// A time code in minutes.
fn code<N: Notes>(lines: &Reader<N>, field: usize) -> Result<i64, Answer> {
    let bytes = lines.field(field);
    let (minus, code) = after_sign(after_spaces(bytes));
    let hour_digits = code.iter().take_while(|byte| byte.is_ascii_digit()).count();
    let (hours, rest) = code.split_at(hour_digits);
    let right = bytes.len() <= 6 && (1..=2).contains(&hours.len()) && (rest.is_empty() || has_form(rest, b"hdd"));
    lines.form(field, right)?;
    let minutes = value(rest.get(1..).unwrap_or(&[]));
    lines.range(field, value(hours) <= 14 && minutes <= 59)?;
    let minutes = value(hours) * 60 + minutes;
    Ok(if minus { -minutes } else { minutes })
}

/// Time code, whether the local code is x, local code.
fn codes<N: Notes>(lines: &mut Reader<N>, places: &mut [i64]) -> Result<(), Answer> {
    lines.next(2)?;
    places[0] = code(lines, 1)?;
    let local = lines.field(2);
    if local.len() <= 6 && after_spaces(local) == b"x" {
        places[1] = 1;
    } else {
        places[2] = code(lines, 2)?;
    }
    lines.note_spaces([1, 2]);
    Ok(())
}

fn quality<N: Notes>(lines: &mut Reader<N>, places: &mut [i64]) -> Result<(), Answer> {
    lines.last(2)?;
    let quality = lines.one_of(1, b"0123456789ABFabf")?;
    places[0] = i64::from(if quality <= b'9' { quality - b'0' } else { (quality & 0x5F) - b'A' + 10 });
    places[1] = i64::from(lines.one_of(2, b"0123")? - b'0');
    Ok(())
}

//! A configuration, line by line.

use crate::data::{Kind, Layout, MOST_A, MOST_D, MOST_ROWS, NONE};
use crate::edition::Edition;
use crate::numbers::{self, Real};
use crate::{no, yes, Answer, MOST_BYTES};
use std::cmp::Ordering;

/// The most sampling rates.
const MOST_RATES: usize = 8;

/// The places in which an accepted configuration is shown.
const PLACES: usize = 35;

/// A date and time, Gregorian, to the nanosecond.
pub struct Moment {
    year: i64,
    month: i64,
    day: i64,
    hour: i64,
    minute: i64,
    second: i64,
    nanosecond: i64,
}

/// The two lines that follow the time multiplier in 2013: both codes, quality and leap second code.
pub struct LastLines {
    code: i64,
    local: Option<i64>,
    quality: i64,
    leap: i64,
}

/// What an accepted configuration shows; a recorder without a clock has no date, and the last lines are absent in 1999.
pub struct Config {
    pub layout: Layout,
    rates: i64,
    pub last_rows: Vec<i64>,
    first: Option<Moment>,
    trigger: Option<Moment>,
    pub last_lines: Option<LastLines>,
}

/// One field of a line, with its place; lines and fields count from 1.
struct Field<'a> {
    bytes: &'a [u8],
    line: u32,
    number: u32,
}

impl<'a> Field<'a> {
    /// A "no" at this line and field.
    fn no(&self, number: u32) -> Answer {
        no(number, self.line, self.number)
    }

    /// 6 is a right pattern with a number out of its range.
    fn within(&self, allowed: bool) -> Result<(), Answer> {
        if allowed {
            Ok(())
        } else {
            Err(self.no(6))
        }
    }

    /// Text of `least` to `most` characters; another length is 5.
    fn text(&self, least: usize, most: usize) -> Result<(), Answer> {
        if self.bytes.len() < least || self.bytes.len() > most {
            return Err(self.no(5));
        }
        Ok(())
    }

    /// A count of 1 to `most` digits; another form, a sign included, is 5.
    fn count(&self, most: usize) -> Result<i64, Answer> {
        numbers::count(self.bytes, most).ok_or(self.no(5))
    }

    /// A count followed by a capital letter, 2 to 7 characters in all, from 0 to `highest`.
    fn lettered(&self, letter: u8, highest: i64) -> Result<i64, Answer> {
        let count = match self.bytes.split_last() {
            Some((&last, rest)) if last == letter => numbers::count(rest, 6),
            _ => None,
        };
        let count = count.ok_or(self.no(5))?;
        self.within(count <= highest)?;
        Ok(count)
    }

    /// The index counts 1, 2, 3 and has 1 to 6 digits: form 5, a wrong one 7.
    fn index(&self, wanted: i64) -> Result<(), Answer> {
        if self.count(6)? != wanted {
            return Err(self.no(7));
        }
        Ok(())
    }

    /// A real of 1 to `most` characters; another form is 5.
    fn real(&self, most: usize) -> Result<Real<'a>, Answer> {
        numbers::real(self.bytes, most).ok_or(self.no(5))
    }

    /// A real of 1 to 13 characters within 3.4028235E38 of zero.
    fn limit(&self) -> Result<Real<'a>, Answer> {
        let real = self.real(13)?;
        self.within(real.is_near())?;
        Ok(real)
    }

    /// One character out of a list: not one character is 5, another character 6.
    fn one_of(&self, allowed: &[u8]) -> Result<u8, Answer> {
        match *self.bytes {
            [byte] => {
                self.within(allowed.contains(&byte))?;
                Ok(byte)
            }
            _ => Err(self.no(5)),
        }
    }

    /// A time code in signed minutes: hours 0 to 14, minutes 00 to 59.
    fn code(&self) -> Result<i64, Answer> {
        let code = numbers::code(self.bytes).ok_or(self.no(5))?;
        self.within(code.hours <= 14 && code.minutes <= 59)?;
        let minutes = code.hours * 60 + code.minutes;
        Ok(if code.minus { -minutes } else { minutes })
    }
}

/// One line, split at its commas.
struct Line<'a> {
    fields: Vec<&'a [u8]>,
    number: u32,
}

impl<'a> Line<'a> {
    /// Field `number` of this line, from 1.
    fn field(&self, number: usize) -> Field<'a> {
        Field { bytes: self.fields[number - 1], line: self.number, number: number as u32 }
    }
}

/// The lines of a configuration, taken one after the other.
struct Lines<'a> {
    cfg: &'a [u8],
    start: usize,
    taken: u32,
}

impl<'a> Lines<'a> {
    /// The next line of `wanted` fields, not the last one: 2 and 3, then 4.
    fn next(&mut self, wanted: usize) -> Result<Line<'a>, Answer> {
        self.take(wanted, false)
    }

    /// The last line, which may end with the file instead.
    fn last(&mut self, wanted: usize) -> Result<Line<'a>, Answer> {
        self.take(wanted, true)
    }

    /// A line is scanned up to CR LF and the first of 2 and 3 met is given; then 4.
    fn take(&mut self, wanted: usize, last: bool) -> Result<Line<'a>, Answer> {
        self.taken += 1;
        let number = self.taken;
        let bytes = self.scan(last)?;
        let fields: Vec<&[u8]> = bytes.split(|&byte| byte == b',').collect();
        if fields.len() != wanted {
            return Err(no(4, number, 0));
        }
        Ok(Line { fields, number })
    }

    /// Byte by byte: a CR without LF after it, at the file's end too, or a lone LF is 3; a file that ends where a line would start is 2.
    fn scan(&mut self, last: bool) -> Result<&'a [u8], Answer> {
        let start = self.start;
        let mut at = start;
        loop {
            match self.cfg.get(at) {
                None if last && at > start => {
                    self.start = at;
                    return Ok(&self.cfg[start..at]);
                }
                None => return Err(no(2, self.taken, 0)),
                Some(0x0D) if self.cfg.get(at + 1) == Some(&0x0A) => {
                    self.start = at + 2;
                    return Ok(&self.cfg[start..at]);
                }
                Some(32..=126) => at += 1,
                Some(_) => return Err(no(3, self.taken, 0)),
            }
        }
    }

    /// Bytes after the last line are 9 at the line after it.
    fn end(&self) -> Result<(), Answer> {
        if self.start < self.cfg.len() {
            return Err(no(9, self.taken + 1, 0));
        }
        Ok(())
    }
}

/// A configuration, read whole: 1, then line by line.
pub fn read(cfg: &[u8]) -> Result<Config, Answer> {
    if cfg.len() > MOST_BYTES {
        return Err(no(1, 0, 0));
    }
    let mut lines = Lines { cfg, start: 0, taken: 0 };
    let edition = station(&lines.next(3)?)?;
    let (a, d) = channels(&lines.next(3)?)?;
    for index in 1..=a {
        analog(&lines.next(13)?, index)?;
    }
    for index in 1..=d {
        status(&lines.next(5)?, index)?;
    }
    frequency(&lines.next(1)?)?;
    let (rates, last_rows) = sampling(&mut lines)?;
    let first = moment(&lines.next(2)?)?;
    let trigger = moment(&lines.next(2)?)?;
    let kind = kind(&lines.next(1)?, edition)?;
    let last_lines = last_lines(&mut lines, edition)?;
    lines.end()?;
    let rows = last_rows[last_rows.len() - 1] as u32;
    let layout = Layout { a: a as usize, d: d as usize, rows, kind, edition };
    Ok(Config { layout, rates, last_rows, first, trigger, last_lines })
}

/// Station (0 to 64 characters), device (0 to 64), year (four digits, 2013 or 1999).
fn station(line: &Line) -> Result<Edition, Answer> {
    line.field(1).text(0, 64)?;
    line.field(2).text(0, 64)?;
    let field = line.field(3);
    let year = numbers::year(field.bytes).ok_or(field.no(5))?;
    Edition::of(year).ok_or(field.no(8))
}

/// TT (1 to 6 digits), A followed by "A", D followed by "D"; TT is A + D.
fn channels(line: &Line) -> Result<(i64, i64), Answer> {
    let total = line.field(1).count(6)?;
    line.field(1).within((1..=MOST_A + MOST_D).contains(&total))?;
    let a = line.field(2).lettered(b'A', MOST_A)?;
    let d = line.field(3).lettered(b'D', MOST_D)?;
    if total != a + d {
        return Err(line.field(3).no(7));
    }
    Ok((a, d))
}

/// Index, name, phase, circuit, unit, a, b, skew, min, max, primary, secondary, one of p P s S.
fn analog(line: &Line, index: i64) -> Result<(), Answer> {
    line.field(1).index(index)?;
    line.field(2).text(1, 128)?;
    line.field(3).text(0, 2)?;
    line.field(4).text(0, 64)?;
    line.field(5).text(1, 32)?;
    line.field(6).real(32)?;
    line.field(7).real(32)?;
    line.field(8).real(32)?;
    let min = line.field(9).limit()?;
    let max = line.field(10).limit()?;
    if max.compare(&min) == Ordering::Less {
        return Err(line.field(10).no(7));
    }
    line.field(11).real(32)?;
    line.field(12).real(32)?;
    line.field(13).one_of(b"pPsS")?;
    Ok(())
}

/// Index, name, phase, circuit, normal state 0 or 1.
fn status(line: &Line, index: i64) -> Result<(), Answer> {
    line.field(1).index(index)?;
    line.field(2).text(1, 128)?;
    line.field(3).text(0, 2)?;
    line.field(4).text(0, 64)?;
    line.field(5).one_of(b"01")?;
    Ok(())
}

/// Line frequency: empty or a real of 1 to 32 characters.
fn frequency(line: &Line) -> Result<(), Answer> {
    if !line.field(1).bytes.is_empty() {
        line.field(1).real(32)?;
    }
    Ok(())
}

/// Number of rates, then one line "rate,last row" for each; with 0 rates, one such line whose rate is zero.
fn sampling(lines: &mut Lines) -> Result<(i64, Vec<i64>), Answer> {
    let line = lines.next(1)?;
    let rates = line.field(1).count(3)?;
    line.field(1).within(rates <= MOST_RATES as i64)?;
    let mut last_rows = Vec::new();
    for _ in 0..rates.max(1) {
        let line = lines.next(2)?;
        let rate = line.field(1).real(32)?;
        line.field(1).within(if rates == 0 { rate.is_zero() } else { rate.above_zero() })?;
        let last_row = line.field(2).count(10)?;
        line.field(2).within((1..=MOST_ROWS).contains(&last_row))?;
        if last_rows.last().is_some_and(|&before| last_row <= before) {
            return Err(line.field(2).no(7));
        }
        last_rows.push(last_row);
    }
    Ok((rates, last_rows))
}

/// dd/mm/yyyy,hh:mm:ss.f: years 1900 to 9999, Gregorian days, hours 00 to 23, minutes and seconds 00 to 59.
/// A date of zeros with a time of zeros is no date; with any other time field it is 6 at the date, whatever is wrong with the time.
fn moment(line: &Line) -> Result<Option<Moment>, Answer> {
    let field = line.field(1);
    let [day, month, year] = numbers::date(field.bytes).ok_or(field.no(5))?;
    if [day, month, year] == [0; 3] && numbers::time(line.field(2).bytes) == Some([0; 4]) {
        return Ok(None);
    }
    field.within((1900..=9999).contains(&year) && (1..=12).contains(&month))?;
    field.within((1..=numbers::days_of_month(year, month)).contains(&day))?;
    let field = line.field(2);
    let [hour, minute, second, nanosecond] = numbers::time(field.bytes).ok_or(field.no(5))?;
    field.within(hour <= 23 && minute <= 59 && second <= 59)?;
    Ok(Some(Moment { year, month, day, hour, minute, second, nanosecond }))
}

/// Kind word, 5 to 8 characters, any case; any other 5 to 8 characters, and a kind that the edition lacks, are 6.
fn kind(line: &Line, edition: Edition) -> Result<Kind, Answer> {
    let field = line.field(1);
    field.text(5, 8)?;
    for kind in [Kind::Ascii, Kind::Binary, Kind::Binary32] {
        if edition.has(kind) && field.bytes.eq_ignore_ascii_case(kind.word().as_bytes()) {
            return Ok(kind);
        }
    }
    Err(field.no(6))
}

/// The time multiplier, with which a configuration of 1999 ends; in 2013 two lines follow it.
fn last_lines(lines: &mut Lines, edition: Edition) -> Result<Option<LastLines>, Answer> {
    if edition == Edition::Year1999 {
        multiplier(&lines.last(1)?)?;
        return Ok(None);
    }
    multiplier(&lines.next(1)?)?;
    let (code, local) = codes(&lines.next(2)?)?;
    let (quality, leap) = quality(&lines.last(2)?)?;
    Ok(Some(LastLines { code, local, quality, leap }))
}

/// Time multiplier, a real above zero, 1 to 32 characters.
fn multiplier(line: &Line) -> Result<(), Answer> {
    let real = line.field(1).real(32)?;
    line.field(1).within(real.above_zero())
}

/// Time code, local code in signed minutes; the local code may be a small x.
fn codes(line: &Line) -> Result<(i64, Option<i64>), Answer> {
    let code = line.field(1).code()?;
    if numbers::is_x(line.field(2).bytes) {
        return Ok((code, None));
    }
    Ok((code, Some(line.field(2).code()?)))
}

/// Time quality, one hex digit of 0 to 9, A, B, F in either case; leap second code 0 to 3.
fn quality(line: &Line) -> Result<(i64, i64), Answer> {
    let quality = match line.field(1).one_of(b"0123456789ABFabf")? {
        digit @ b'0'..=b'9' => digit - b'0',
        letter => letter.to_ascii_uppercase() - b'A' + 10,
    };
    let leap = line.field(2).one_of(b"0123")? - b'0';
    Ok((i64::from(quality), i64::from(leap)))
}

impl Moment {
    /// Whole seconds up to this moment, by day counts.
    fn seconds(&self) -> i64 {
        let days = numbers::days_before(self.year, self.month, self.day);
        ((days * 24 + self.hour) * 60 + self.minute) * 60 + self.second
    }

    /// Year, month, day, hour, minute, second, nanosecond.
    fn show(&self) -> [i64; 7] {
        [self.year, self.month, self.day, self.hour, self.minute, self.second, self.nanosecond]
    }
}

/// Trigger minus first sample: whole seconds rounded down, and 0 to 999,999,999 nanoseconds. It is unknown where either has no date.
fn pre_trigger(first: Option<&Moment>, trigger: Option<&Moment>) -> Option<[i64; 2]> {
    let (first, trigger) = (first?, trigger?);
    let seconds = trigger.seconds() - first.seconds();
    let nanoseconds = trigger.nanosecond - first.nanosecond;
    Some(if nanoseconds < 0 { [seconds - 1, nanoseconds + 1_000_000_000] } else { [seconds, nanoseconds] })
}

impl LastLines {
    /// Time code, whether the local code is x, local code, quality, leap code.
    fn show(&self) -> [i64; 5] {
        [self.code, i64::from(self.local.is_none()), self.local.unwrap_or(0), self.quality, self.leap]
    }
}

impl Config {
    /// A, D, the rates and last rows, both dates and times, the pre-trigger time, the kind, what the last lines show, the year of the edition.
    fn show(&self) -> [i64; PLACES] {
        let mut places = [0; PLACES];
        places[0] = self.layout.a as i64;
        places[1] = self.layout.d as i64;
        places[2] = self.rates;
        places[3] = i64::from(self.layout.rows);
        for (place, &last_row) in places[4..12].iter_mut().zip(&self.last_rows) {
            *place = last_row;
        }
        let (first, trigger) = (self.first.as_ref(), self.trigger.as_ref());
        places[12..19].copy_from_slice(&first.map_or([NONE; 7], Moment::show));
        places[19..26].copy_from_slice(&trigger.map_or([NONE; 7], Moment::show));
        places[26..28].copy_from_slice(&pre_trigger(first, trigger).unwrap_or([NONE; 2]));
        places[28] = i64::from(self.layout.kind.number());
        places[29..34].copy_from_slice(&self.last_lines.as_ref().map_or([NONE; 5], LastLines::show));
        places[34] = i64::from(self.layout.edition.year());
        places
    }
}

/// Checks a configuration and shows it in 35 places; fewer places are 17, last of all.
pub fn config(cfg: &[u8], shown: &mut [i64]) -> Answer {
    match read(cfg) {
        Err(answer) => answer,
        Ok(_) if shown.len() < PLACES => no(17, 0, 0),
        Ok(found) => {
            shown[..PLACES].copy_from_slice(&found.show());
            yes(0)
        }
    }
}

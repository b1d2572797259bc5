//! Numbers as the files spell them: counts, samples, reals, dates, times and codes, by form alone.

use std::cmp::Ordering;

/// Numbers and codes may have leading spaces.
pub fn after_spaces(field: &[u8]) -> &[u8] {
    let spaces = field.iter().take_while(|&&byte| byte == b' ').count();
    &field[spaces..]
}

/// An optional sign: whether it is a minus, and what follows it.
fn after_sign(field: &[u8]) -> (bool, &[u8]) {
    match field.split_first() {
        Some((b'-', rest)) => (true, rest),
        Some((b'+', rest)) => (false, rest),
        _ => (false, field),
    }
}

/// The digits a field starts with, and what follows them.
fn split_digits(field: &[u8]) -> (&[u8], &[u8]) {
    let digits = field.iter().take_while(|byte| byte.is_ascii_digit()).count();
    field.split_at(digits)
}

/// One digit or more and nothing else, at most 18 of them; leading zeros are allowed.
fn digits(field: &[u8]) -> Option<i64> {
    if field.is_empty() || field.len() > 18 {
        return None;
    }
    let mut value = 0;
    for &byte in field {
        if !byte.is_ascii_digit() {
            return None;
        }
        value = value * 10 + i64::from(byte - b'0');
    }
    Some(value)
}

/// A count of 1 to `most` characters: leading spaces, which count for length, and digits; no sign, nothing may trail.
pub fn count(field: &[u8], most: usize) -> Option<i64> {
    if field.len() > most {
        return None;
    }
    digits(after_spaces(field))
}

/// A year of four digits.
pub fn year(field: &[u8]) -> Option<u32> {
    if field.len() != 4 {
        return None;
    }
    digits(field).map(|year| year as u32)
}

/// A sample of 1 to `most` characters: leading spaces, which count for length, optional sign and digits.
pub fn sample(field: &[u8], most: usize) -> Option<i64> {
    if field.len() > most {
        return None;
    }
    let (minus, rest) = after_sign(after_spaces(field));
    let value = digits(rest)?;
    Some(if minus { -value } else { value })
}

/// A real, kept as its characters: it stands for an exact decimal.
#[derive(Debug, Clone, Copy)]
pub struct Real<'a> {
    minus: bool,
    left: &'a [u8],
    right: &'a [u8],
    exponent: i32,
}

/// The farthest that min and max may lie from zero: 3.4028235E38.
pub const FARTHEST: Real<'static> = Real { minus: false, left: b"3", right: b"4028235", exponent: 38 };

/// A real of 1 to `most` characters: optional sign, digits, optionally a point with digits on both sides, optionally e or E with an optional sign and 1 to 3 digits.
pub fn real(field: &[u8], most: usize) -> Option<Real<'_>> {
    if field.len() > most {
        return None;
    }
    let (minus, rest) = after_sign(after_spaces(field));
    let (left, mut rest) = split_digits(rest);
    if left.is_empty() {
        return None;
    }
    let mut right: &[u8] = &[];
    if let Some((b'.', tail)) = rest.split_first() {
        (right, rest) = split_digits(tail);
        if right.is_empty() {
            return None;
        }
    }
    let mut exponent = 0;
    if let Some((b'e' | b'E', tail)) = rest.split_first() {
        let (below, tail) = after_sign(tail);
        if tail.len() > 3 {
            return None;
        }
        exponent = digits(tail)? as i32;
        if below {
            exponent = -exponent;
        }
        rest = &[];
    }
    if !rest.is_empty() {
        return None;
    }
    Some(Real { minus, left, right, exponent })
}

impl Real<'_> {
    /// Zero: no digit before the exponent is other than 0.
    pub fn is_zero(&self) -> bool {
        self.left.iter().chain(self.right).all(|&byte| byte == b'0')
    }

    /// Above zero: no minus, and some digit before the exponent is not 0.
    pub fn above_zero(&self) -> bool {
        !self.minus && !self.is_zero()
    }

    /// The distance from zero: the power of ten of the first digit that is not 0, and the digits from there to the last that is not 0.
    fn distance(&self) -> Option<(i32, Vec<u8>)> {
        let all: Vec<u8> = self.left.iter().chain(self.right).copied().collect();
        let first = all.iter().position(|&byte| byte != b'0')?;
        let last = all.iter().rposition(|&byte| byte != b'0')?;
        let power = self.left.len() as i32 - 1 - first as i32 + self.exponent;
        Some((power, all[first..=last].to_vec()))
    }

    /// Both as exact decimals: below, equal or above.
    pub fn compare(&self, other: &Real) -> Ordering {
        match (self.distance(), other.distance()) {
            (None, None) => Ordering::Equal,
            (None, Some(_)) if other.minus => Ordering::Greater,
            (None, Some(_)) => Ordering::Less,
            (Some(_), None) if self.minus => Ordering::Less,
            (Some(_), None) => Ordering::Greater,
            (Some(mine), Some(theirs)) => match (self.minus, other.minus) {
                (false, false) => mine.cmp(&theirs),
                (true, true) => theirs.cmp(&mine),
                (true, false) => Ordering::Less,
                (false, true) => Ordering::Greater,
            },
        }
    }

    /// Whether it lies within 3.4028235E38 of zero, that number included.
    pub fn is_near(&self) -> bool {
        let without_sign = Real { minus: false, ..*self };
        without_sign.compare(&FARTHEST) != Ordering::Greater
    }
}

/// The form dd/mm/yyyy, all places filled: day, month, year.
pub fn date(field: &[u8]) -> Option<[i64; 3]> {
    if field.len() != 10 || field[2] != b'/' || field[5] != b'/' {
        return None;
    }
    Some([digits(&field[0..2])?, digits(&field[3..5])?, digits(&field[6..10])?])
}

/// The form hh:mm:ss.f with f of 6 to 9 digits: hour, minute, second, nanosecond.
pub fn time(field: &[u8]) -> Option<[i64; 4]> {
    if field.len() < 15 || field.len() > 18 || field[2] != b':' || field[5] != b':' || field[8] != b'.' {
        return None;
    }
    let mut nanosecond = digits(&field[9..])?;
    for _ in field.len()..18 {
        nanosecond *= 10;
    }
    Some([digits(&field[0..2])?, digits(&field[3..5])?, digits(&field[6..8])?, nanosecond])
}

/// A leap year has 366 Gregorian days.
fn is_leap(year: i64) -> bool {
    year % 4 == 0 && (year % 100 != 0 || year % 400 == 0)
}

/// Gregorian days of a month, 1 to 12.
pub fn days_of_month(year: i64, month: i64) -> i64 {
    match month {
        2 if is_leap(year) => 29,
        2 => 28,
        4 | 6 | 9 | 11 => 30,
        _ => 31,
    }
}

/// Gregorian days before a date, counted from the first day of year 1.
pub fn days_before(year: i64, month: i64, day: i64) -> i64 {
    let past = year - 1;
    let years = past * 365 + past / 4 - past / 100 + past / 400;
    let months: i64 = (1..month).map(|earlier| days_of_month(year, earlier)).sum();
    years + months + day - 1
}

/// A time code as written: its sign, hours and minutes.
#[derive(Debug, Clone, Copy, PartialEq, Eq)]
pub struct Code {
    pub minus: bool,
    pub hours: i64,
    pub minutes: i64,
}

/// A time code of 1 to 6 characters: leading spaces, optional sign, hours in one or two digits, then nothing or "h" and two digits.
pub fn code(field: &[u8]) -> Option<Code> {
    if field.len() > 6 {
        return None;
    }
    let (minus, rest) = after_sign(after_spaces(field));
    let (left, rest) = split_digits(rest);
    if left.len() > 2 {
        return None;
    }
    let hours = digits(left)?;
    let minutes = match rest {
        [] => 0,
        [b'h', tail @ ..] if tail.len() == 2 => digits(tail)?,
        _ => return None,
    };
    Some(Code { minus, hours, minutes })
}

/// The small x of the local code, of 1 to 6 characters with its leading spaces.
pub fn is_x(field: &[u8]) -> bool {
    field.len() <= 6 && after_spaces(field) == b"x"
}

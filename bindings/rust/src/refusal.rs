//! Refusals: their numbers, places and meanings.

use crate::{calls, limits};
use std::error::Error;
use std::fmt;

/// A refusal: which rule is broken, and where. Only the first one is given.
///
/// ```
/// let refusal = zagalume::read_config(b"").unwrap_err();
/// assert_eq!(refusal, zagalume::Refusal { number: zagalume::refused::EARLY_END, at: 1, field: 0 });
/// assert!(refusal.to_string().starts_with("refusal 2 at line 1: "));
/// ```
#[derive(Debug, Clone, Copy, PartialEq, Eq, Hash)]
pub struct Refusal {
    /// What is wrong, one of [`refused`].
    pub number: u32,
    /// The line of the configuration (numbers 2 to 9) or the row of the data file (11 to 16), from 1; 0 for the whole file.
    pub at: u32,
    /// The field, from 1; 0 for the whole line or row. In a row the number is field 1, the timestamp field 2, and then come the samples and the statuses.
    pub field: u32,
}

impl Error for Refusal {}

impl fmt::Display for Refusal {
    /// Number, place and meaning, as `refusal 12 at row 2, field 1: ` and the text of [`reason`].
    fn fmt(&self, f: &mut fmt::Formatter<'_>) -> fmt::Result {
        write!(f, "refusal {}", self.number)?;
        if self.at != 0 {
            let word = if self.number <= refused::BYTES_AFTER { "line" } else { "row" };
            write!(f, " at {word} {}", self.at)?;
        }
        if self.field != 0 {
            write!(f, ", field {}", self.field)?;
        }
        let mut text = [0; limits::MOST_REASON_BYTES];
        match reason_into(self.number, &mut text) {
            Ok(length) => write!(f, ": {}", String::from_utf8_lossy(&text[..length])),
            Err(_) => Ok(()),
        }
    }
}

/// The meaning of a refusal's number, as text to show.
///
/// Refused with 10 where the number has no meaning.
///
/// ```
/// assert!(!zagalume::reason(12)?.is_empty());
/// assert_eq!(zagalume::reason(18).unwrap_err().number, zagalume::refused::LAYOUT);
/// # Ok::<(), zagalume::Refusal>(())
/// ```
pub fn reason(number: u32) -> Result<String, Refusal> {
    let mut text = [0; limits::MOST_REASON_BYTES];
    let length = reason_into(number, &mut text)?;
    Ok(String::from_utf8_lossy(&text[..length]).into_owned())
}

/// As [`reason`], into lent bytes, with nothing allocated: how many were written.
///
/// Refused with 10 where the number has no meaning; with 17 where the room is too short.
pub fn reason_into(number: u32, out: &mut [u8]) -> Result<usize, Refusal> {
    calls::reason(number, out)
}

/// The numbers of refusals. docs/REFUSALS.md of the repository has the usual cause of each and how to mend the file.
pub mod refused {
    /// The configuration has, or would have, more than 65,536 bytes.
    pub const CONFIG_SIZE: u32 = 1;
    /// The configuration ends before or inside a line; at that line.
    pub const EARLY_END: u32 = 2;
    /// A byte outside 32 to 126 before the line's end; at that line.
    pub const BYTE: u32 = 3;
    /// Wrong number of fields; at that line.
    pub const FIELD_COUNT: u32 = 4;
    /// A field's length or form; at that line and field.
    pub const FORM: u32 = 5;
    /// A field's number, date, kind or code is not allowed, or the edition lacks the kind; at that line and field. A date of zeros whose time is not 00:00:00. and 6 to 9 zeros; at the date.
    pub const VALUE: u32 = 6;
    /// TT is not A + D (at D), a wrong index, a last row that does not rise, or max below min (at max); at that line and field.
    pub const AGREEMENT: u32 = 7;
    /// A year of four digits that is not 2013 or 1999; at that line and field.
    pub const YEAR: u32 = 8;
    /// Bytes after the last line, which in 1999 is the time multiplier's; at the line after it.
    pub const BYTES_AFTER: u32 = 9;
    /// The layout is outside the limits, the edition lacks its kind or the new kind, a row to write has the wrong number of samples or statuses, or a refusal asked for has
    /// no meaning.
    pub const LAYOUT: u32 = 10;
    /// Wrong length of the data file; for ASCII at the row before or inside which it ends, or at the row after the last.
    pub const FILE_LENGTH: u32 = 11;
    /// A row's number is not the row's; at that row, field 1.
    pub const ROW_NUMBER: u32 = 12;
    /// A padding bit is set; at that row.
    pub const PADDING: u32 = 13;
    /// A row or a field of a text is bad; at that row and field, or that row and field 0 for the whole row. A sample's field may be empty in 2013, where the
    /// sample is missing; in 1999 it is bad.
    pub const TEXT_ROW: u32 = 14;
    /// There is no such row.
    pub const NO_SUCH_ROW: u32 = 15;
    /// A sample does not fit the kind that is written; at that row and field. A missing sample fits every kind.
    pub const MISFIT: u32 = 16;
    /// What is lent to be written is too short.
    pub const NO_ROOM: u32 = 17;
}

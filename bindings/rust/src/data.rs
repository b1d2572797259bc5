//! Data files: kinds, layouts, rows, and the calls on them.

use crate::{calls, limits, refused, Refusal};
use std::fmt;
use zagalume_raw::ZL_NONE;

/// The kind of data file.
#[derive(Debug, Clone, Copy, PartialEq, Eq, Hash)]
pub enum Kind {
    /// Rows of text; samples are -2,147,483,647 to 2,147,483,647, or in the edition of 1999 -99,999 to 99,998.
    Ascii,
    /// Samples of 2 bytes, -32,767 to 32,767.
    Binary,
    /// Samples of 4 bytes, -2,147,483,647 to 2,147,483,647. The edition of 1999 lacks this kind.
    Binary32,
}

impl Kind {
    /// The kind's number in the library's calls: 0, 1 or 2.
    pub fn number(self) -> u32 {
        match self {
            Kind::Ascii => 0,
            Kind::Binary => 1,
            Kind::Binary32 => 2,
        }
    }

    /// The kind of a number.
    pub fn of_number(number: u32) -> Option<Kind> {
        [Kind::Ascii, Kind::Binary, Kind::Binary32].into_iter().find(|kind| kind.number() == number)
    }

    /// The kind's word, as a listing spells it.
    pub fn word(self) -> &'static str {
        match self {
            Kind::Ascii => "ASCII",
            Kind::Binary => "binary",
            Kind::Binary32 => "binary32",
        }
    }

    /// The kind of a word, in any case, as a configuration has it.
    ///
    /// ```
    /// assert_eq!(zagalume::Kind::of_word("BINARY32"), Some(zagalume::Kind::Binary32));
    /// assert_eq!(zagalume::Kind::of_word("float32"), None);
    /// ```
    pub fn of_word(word: &str) -> Option<Kind> {
        [Kind::Ascii, Kind::Binary, Kind::Binary32].into_iter().find(|kind| kind.word().eq_ignore_ascii_case(word))
    }
}

impl fmt::Display for Kind {
    fn fmt(&self, f: &mut fmt::Formatter<'_>) -> fmt::Result {
        f.write_str(self.word())
    }
}

/// The edition of the standard that a recording is written by.
#[derive(Debug, Clone, Copy, PartialEq, Eq, Hash)]
pub enum Edition {
    /// 2013, with all three kinds. In a text an empty field is a missing sample.
    Year2013,
    /// 1999, with the kinds ASCII and binary. In a text 99999 is a missing sample, and an empty field is refused. A configuration has no time codes, no quality and no leap
    /// code.
    Year1999,
}

impl Edition {
    /// The edition's year, which is its number in the library's calls: 2013 or 1999.
    pub fn year(self) -> u32 {
        match self {
            Edition::Year2013 => 2013,
            Edition::Year1999 => 1999,
        }
    }

    /// The edition of a year.
    ///
    /// ```
    /// assert_eq!(zagalume::Edition::of_year(1999), Some(zagalume::Edition::Year1999));
    /// assert_eq!(zagalume::Edition::of_year(1991), None);
    /// ```
    pub fn of_year(year: u32) -> Option<Edition> {
        [Edition::Year2013, Edition::Year1999].into_iter().find(|edition| edition.year() == year)
    }

    /// Whether the edition has a kind: 2013 has each of them, 1999 all but binary32.
    pub fn has(self, kind: Kind) -> bool {
        self == Edition::Year2013 || kind != Kind::Binary32
    }
}

impl fmt::Display for Edition {
    /// The year.
    fn fmt(&self, f: &mut fmt::Formatter<'_>) -> fmt::Result {
        self.year().fmt(f)
    }
}

/// The layout of a data file. [`Config::layout`](crate::Config::layout) takes it from a configuration; one outside the limits, or with a kind that its edition lacks, is
/// refused with 10 by every call.
#[derive(Debug, Clone, Copy, PartialEq, Eq, Hash)]
pub struct Layout {
    /// A, the number of analog channels, 0 to 96.
    pub analogs: u32,
    /// D, the number of status channels, 0 to 256; A + D is at least 1.
    pub statuses: u32,
    /// The number of rows, 1 to 1,000,000.
    pub rows: u32,
    /// The kind of the data file.
    pub kind: Kind,
    /// The edition.
    pub edition: Edition,
}

impl Layout {
    /// The places of a row in [`row_into`] and [`write_row_into`]: 1 + A + D.
    pub fn row_places(&self) -> usize {
        1 + self.analogs as usize + self.statuses as usize
    }
}

/// What a row has for an analog channel: a sample, or that it is missing. A missing sample is no number, so ask for it first:
///
/// ```
/// use zagalume::Sample;
/// let cfg = include_bytes!("../../../examples/missing.cfg");
/// let dat = include_bytes!("../../../examples/missing.dat");
/// let row = zagalume::row(zagalume::read_config(cfg)?.layout(), dat, 1)?;
/// for sample in row.samples {
///     match sample {
///         Sample::Missing => println!("nothing to play"),
///         Sample::Is(number) => println!("play {number}"),
///     }
/// }
/// # Ok::<(), zagalume::Refusal>(())
/// ```
///
/// In a file it is 8000 hex in binary, 80000000 hex in binary32, an empty field in a text of 2013 and 99999 in a text of 1999, and a change of kind leaves it missing.
#[derive(Debug, Clone, Copy, PartialEq, Eq, Hash)]
pub enum Sample {
    /// A sample. No kind has the number -2,147,483,648: to write it is refused with 16.
    Is(i32),
    /// There is no sample.
    Missing,
}

impl Sample {
    /// The sample of a place in [`row_into`] and [`write_row_into`]; `None` for a number that is no sample of any kind, and does not stand for a missing one.
    ///
    /// ```
    /// use zagalume::{limits, Sample};
    /// let cfg = include_bytes!("../../../examples/missing.cfg");
    /// let dat = include_bytes!("../../../examples/missing.dat");
    /// let mut places = [0; limits::MOST_ROW_PLACES];
    /// zagalume::row_into(zagalume::read_config(cfg)?.layout(), dat, 1, &mut places)?;
    /// assert_eq!(Sample::of_place(places[1]), Some(Sample::Missing));
    /// assert_eq!(Sample::of_place(places[2]), Some(Sample::Is(-3)));
    /// # Ok::<(), zagalume::Refusal>(())
    /// ```
    pub fn of_place(place: i64) -> Option<Sample> {
        match place {
            ZL_NONE => Some(Sample::Missing),
            number => i32::try_from(number).ok().filter(|&number| number != i32::MIN).map(Sample::Is),
        }
    }

    /// Its place: the number, or `i64::MIN` where it is missing.
    pub fn place(self) -> i64 {
        match self {
            Sample::Missing => ZL_NONE,
            Sample::Is(number) => i64::from(number),
        }
    }
}

impl fmt::Display for Sample {
    /// The number, or x where it is missing, as a listing has it.
    fn fmt(&self, f: &mut fmt::Formatter<'_>) -> fmt::Result {
        match self {
            Sample::Missing => f.pad("x"),
            Sample::Is(number) => number.fmt(f),
        }
    }
}

/// A row of a data file.
#[derive(Debug, Clone, PartialEq, Eq, Hash)]
pub struct Row {
    /// The timestamp.
    pub time: u32,
    /// For each analog channel its sample, or that it is missing.
    pub samples: Vec<Sample>,
    /// Whether each status channel is on.
    pub statuses: Vec<bool>,
}

impl Row {
    /// The row that the places of [`row_into`] show.
    fn shown(analogs: usize, places: &[i64]) -> Row {
        let (samples, statuses) = places[1..].split_at(analogs);
        Row {
            time: places[0] as u32,
            samples: samples.iter().map(|&place| Sample::of_place(place).expect("a row shows samples")).collect(),
            statuses: statuses.iter().map(|&status| status == 1).collect(),
        }
    }

    /// Puts the row in its places, where it has as many samples and statuses as the layout: how many places. Else it is refused with 10, as a row with too few places is.
    fn put(&self, layout: Layout, places: &mut [i64; limits::MOST_ROW_PLACES]) -> Result<usize, Refusal> {
        let sized = self.samples.len() == layout.analogs as usize && self.statuses.len() == layout.statuses as usize;
        if !sized || layout.row_places() > places.len() {
            return Err(Refusal { number: refused::LAYOUT, at: 0, field: 0 });
        }
        let samples = self.samples.iter().map(|sample| sample.place());
        let statuses = self.statuses.iter().map(|&status| i64::from(status));
        let row = std::iter::once(i64::from(self.time)).chain(samples).chain(statuses);
        for (place, value) in places.iter_mut().zip(row) {
            *place = value;
        }
        Ok(layout.row_places())
    }
}

/// Checks a data file against its layout. Nothing is allocated.
///
/// Refused with 10; then for the file. Binary kinds: 11, then row by row 12, 13. ASCII: row by row the first of 11 and 14 that the scan of the row meets, then 14 for the
/// number of fields, then the fields from the left, in field 1 14 and then 12, in the others 14; then 11 for what follows the last row.
///
/// ```
/// let cfg = include_bytes!("../../../examples/one.cfg");
/// let dat = include_bytes!("../../../examples/one.dat");
/// let layout = zagalume::read_config(cfg)?.layout();
/// zagalume::check(layout, dat)?;
/// let cut = zagalume::check(layout, &dat[..8]).unwrap_err();
/// assert_eq!(cut, zagalume::Refusal { number: zagalume::refused::FILE_LENGTH, at: 1, field: 0 });
/// # Ok::<(), zagalume::Refusal>(())
/// ```
pub fn check(layout: Layout, data: &[u8]) -> Result<(), Refusal> {
    calls::check(layout, data).map(|_| ())
}

/// Row n, counted from 1, of a data file that is fine as a whole.
///
/// Each call checks the whole file, so that all rows one by one take time that grows with the square of their number: 28 s for 10,000 rows of ASCII, 32 samples and 32
/// statuses each. For all rows, [`change`] the file to [`Kind::Binary32`] once, which every sample fits, and read each row from its place, a sample of 80000000 hex as
/// missing, as the example `all_rows` does: 0.05 s for the same file, printing included (processor time on x86-64). The edition of 1999 lacks that kind: there it is
/// [`Kind::Ascii`] that every sample fits, and a sample of 99999 is missing.
///
/// Refused with 10; 15; then for the file, as [`check`].
///
/// ```
/// use zagalume::Sample;
/// let cfg = include_bytes!("../../../examples/missing.cfg");
/// let dat = include_bytes!("../../../examples/missing.dat");
/// let layout = zagalume::read_config(cfg)?.layout();
/// let row = zagalume::row(layout, dat, 2)?;
/// assert_eq!((row.time, row.samples, row.statuses), (1000, vec![Sample::Is(300), Sample::Missing], vec![true]));
/// # Ok::<(), zagalume::Refusal>(())
/// ```
pub fn row(layout: Layout, data: &[u8], n: u32) -> Result<Row, Refusal> {
    let mut places = [0; limits::MOST_ROW_PLACES];
    let count = row_into(layout, data, n, &mut places)?;
    Ok(Row::shown(layout.analogs as usize, &places[..count]))
}

/// As [`row`], into lent places, with nothing allocated: the time, A samples and D statuses, 0 or 1. How many places were written, which is [`Layout::row_places`].
/// The place of a missing sample is `i64::MIN`, which cut to 32 bits would be 0: let [`Sample::of_place`] read the places of samples.
///
/// Refused as [`row`]; last of all with 17, where there are fewer places.
pub fn row_into(layout: Layout, data: &[u8], n: u32, shown: &mut [i64]) -> Result<usize, Refusal> {
    calls::row(layout, data, n, shown)?;
    Ok(layout.row_places())
}

/// The bytes of a row, as row n of a data file of that layout. No end mark is added.
///
/// Refused with 10, also where the row has not A samples and D statuses; 15; 16 at row n and the first field whose sample is a number that does not fit the kind and edition.
///
/// ```
/// use zagalume::{Edition, Kind, Layout, Row, Sample};
/// let layout = Layout { analogs: 2, statuses: 1, rows: 2, kind: Kind::Ascii, edition: Edition::Year2013 };
/// let row = Row { time: 1000, samples: vec![Sample::Missing, Sample::Is(300)], statuses: vec![true] };
/// assert_eq!(zagalume::write_row(layout, 2, &row)?, b"2,1000,,300,1\r\n");
/// let older = Layout { edition: Edition::Year1999, ..layout };
/// assert_eq!(zagalume::write_row(older, 2, &row)?, b"2,1000,99999,300,1\r\n");
/// # Ok::<(), zagalume::Refusal>(())
/// ```
pub fn write_row(layout: Layout, n: u32, row: &Row) -> Result<Vec<u8>, Refusal> {
    let mut places = [0; limits::MOST_ROW_PLACES];
    let count = row.put(layout, &mut places)?;
    let mut out = [0; limits::MOST_ROW_BYTES];
    let length = write_row_into(layout, n, &places[..count], &mut out)?;
    Ok(out[..length].to_vec())
}

/// As [`write_row`], from the places that [`row_into`] shows, into lent bytes, with nothing allocated: how many bytes were written. Places past 1 + A + D are not read.
/// [`Sample::place`] gives the place of a sample.
///
/// Refused with 10, also where the row has fewer places; 15; 16 at row n and the first field from the left that does not fit, a time or a status among them; 17, where the
/// room is too short.
pub fn write_row_into(layout: Layout, n: u32, row: &[i64], out: &mut [u8]) -> Result<usize, Refusal> {
    calls::write_row(layout, n, row, out)
}

/// How many bytes the data file has once it is changed to another kind. Nothing is allocated.
///
/// Refused as [`change`].
///
/// ```
/// let cfg = include_bytes!("../../../examples/one.cfg");
/// let dat = include_bytes!("../../../examples/one.dat");
/// let layout = zagalume::read_config(cfg)?.layout();
/// assert_eq!(zagalume::bytes_needed(layout, dat, zagalume::Kind::Binary)?, 24);
/// # Ok::<(), zagalume::Refusal>(())
/// ```
pub fn bytes_needed(layout: Layout, data: &[u8], new_kind: Kind) -> Result<usize, Refusal> {
    calls::length(layout, data, new_kind.number())
}

/// The data file in another kind of its edition, or in the same: a text is then in its plain form. A missing sample fits every kind and stays missing.
///
/// Refused with 10, also where the edition lacks the new kind; then for the file, as [`check`]; then with 16 at the first row and field whose sample is a number that does not fit the new kind.
///
/// ```
/// let cfg = include_bytes!("../../../examples/one.cfg");
/// let dat = include_bytes!("../../../examples/one.dat");
/// let layout = zagalume::read_config(cfg)?.layout();
/// let binary = zagalume::change(layout, dat, zagalume::Kind::Binary)?;
/// assert_eq!(binary[..12], [1, 0, 0, 0, 0, 0, 0, 0, 0xFD, 0xFF, 0, 0]);
/// # Ok::<(), zagalume::Refusal>(())
/// ```
pub fn change(layout: Layout, data: &[u8], new_kind: Kind) -> Result<Vec<u8>, Refusal> {
    let mut out = vec![0; bytes_needed(layout, data, new_kind)?];
    let length = change_into(layout, data, new_kind, &mut out)?;
    out.truncate(length);
    Ok(out)
}

/// As [`change`], into lent bytes, with nothing allocated: how many bytes were written.
///
/// Refused as [`change`]; last of all with 17, where the room is too short.
pub fn change_into(layout: Layout, data: &[u8], new_kind: Kind, out: &mut [u8]) -> Result<usize, Refusal> {
    calls::change(layout, data, new_kind.number(), out)
}

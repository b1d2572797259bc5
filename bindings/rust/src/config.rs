//! Configurations: what an accepted one shows, and one written for another kind.

use crate::{calls, limits, Edition, Kind, Layout, Refusal};
use zagalume_raw::ZL_NONE;

/// What an accepted configuration shows.
#[derive(Debug, Clone, Copy, PartialEq, Eq, Hash)]
pub struct Config {
    /// A, the number of analog channels.
    pub analogs: u32,
    /// D, the number of status channels.
    pub statuses: u32,
    /// The number of sampling rates, 0 to 8.
    pub rates: u32,
    /// The number of rows.
    pub rows: u32,
    /// The last row of each rate, 0 where there is none. With 0 rates there is one, the number of rows.
    pub last_rows: [u32; limits::MOST_RATES],
    /// Date and time of the first sample; `None` where its line says that there is no date: 00/00/0000 and a time of zeros.
    pub first_sample: Option<Moment>,
    /// Date and time of the trigger; `None` likewise.
    pub trigger: Option<Moment>,
    /// Trigger minus first sample; `None` where either has no date, so that it is unknown, and never else.
    pub pre_trigger: Option<PreTrigger>,
    /// The kind of the data file.
    pub kind: Kind,
    /// What the last two lines say; `None` where the edition is 1999, which has no such lines, and never else.
    pub last: Option<LastLines>,
    /// The edition, by the year in line 1.
    pub edition: Edition,
}

/// What the last two lines of a configuration of 2013 say: the time codes and the time quality.
#[derive(Debug, Clone, Copy, PartialEq, Eq, Hash)]
pub struct LastLines {
    /// The time code, in minutes.
    pub time_code: i32,
    /// The local code, in minutes; `None` where it is x.
    pub local_code: Option<i32>,
    /// The time quality: the value of its hex digit, 0 to 11, or 15.
    pub quality: u8,
    /// The leap second code, 0 to 3.
    pub leap_code: u8,
}

/// A date and a time of day.
#[derive(Debug, Clone, Copy, PartialEq, Eq, PartialOrd, Ord, Hash)]
pub struct Moment {
    /// 1900 to 9999.
    pub year: u16,
    /// 1 to 12.
    pub month: u8,
    /// 1 to 31.
    pub day: u8,
    /// 0 to 23.
    pub hour: u8,
    /// 0 to 59.
    pub minute: u8,
    /// 0 to 59.
    pub second: u8,
    /// 0 to 999,999,999.
    pub nanosecond: u32,
}

/// A signed time: `seconds` are rounded down, so that `nanoseconds` are always added. A trigger 1 ns before the first sample is -1 and 999,999,999.
#[derive(Debug, Clone, Copy, PartialEq, Eq, PartialOrd, Ord, Hash)]
pub struct PreTrigger {
    /// Whole seconds, below 0 where the trigger comes before the first sample.
    pub seconds: i64,
    /// 0 to 999,999,999.
    pub nanoseconds: u32,
}

impl Config {
    /// The layout of the data file: what the other calls ask for.
    pub fn layout(&self) -> Layout {
        let Config { analogs, statuses, rows, kind, edition, .. } = *self;
        Layout { analogs, statuses, rows, kind, edition }
    }

    /// The configuration that the places of the library's call show.
    fn shown(p: &[i64; limits::CONFIG_PLACES]) -> Config {
        let mut last_rows = [0; limits::MOST_RATES];
        for (last_row, &place) in last_rows.iter_mut().zip(&p[4..12]) {
            *last_row = place as u32;
        }
        Config {
            analogs: p[0] as u32,
            statuses: p[1] as u32,
            rates: p[2] as u32,
            rows: p[3] as u32,
            last_rows,
            first_sample: Moment::shown(&p[12..19]),
            trigger: Moment::shown(&p[19..26]),
            pre_trigger: PreTrigger::shown(&p[26..28]),
            kind: Kind::of_number(p[28] as u32).expect("an accepted configuration shows a kind"),
            last: LastLines::shown(&p[29..34]),
            edition: Edition::of_year(p[34] as u32).expect("an accepted configuration shows an edition"),
        }
    }
}

impl LastLines {
    /// The lines that five places show, where the configuration has them. That there are none comes first, and the second place is compared with 1: there `ZL_NONE` is no x.
    fn shown(p: &[i64]) -> Option<LastLines> {
        if p[0] == ZL_NONE {
            return None;
        }
        Some(LastLines {
            time_code: p[0] as i32,
            local_code: if p[1] == 1 { None } else { Some(p[2] as i32) },
            quality: p[3] as u8,
            leap_code: p[4] as u8,
        })
    }
}

impl Moment {
    /// The moment that seven places show, where there is a date. That there is none comes first: cut short, `ZL_NONE` is midnight.
    fn shown(p: &[i64]) -> Option<Moment> {
        if p[0] == ZL_NONE {
            return None;
        }
        Some(Moment {
            year: p[0] as u16,
            month: p[1] as u8,
            day: p[2] as u8,
            hour: p[3] as u8,
            minute: p[4] as u8,
            second: p[5] as u8,
            nanosecond: p[6] as u32,
        })
    }
}

impl PreTrigger {
    /// The time that two places show, where it is known.
    fn shown(p: &[i64]) -> Option<PreTrigger> {
        if p[0] == ZL_NONE {
            return None;
        }
        Some(PreTrigger { seconds: p[0], nanoseconds: p[1] as u32 })
    }
}

/// Reads a configuration: the bytes of the whole file. Nothing is allocated.
///
/// Refused with 1; then line by line, in a line the first of 2 and 3 that is met, then 4, then the fields from the left, in each 5, 6, 8, 7; then 9. A date of zeros is 6 at
/// the date wherever its time is not 00:00:00. and 6 to 9 zeros.
///
/// ```
/// let cfg = include_bytes!("../../../examples/one.cfg");
/// let config = zagalume::read_config(cfg)?;
/// assert_eq!((config.analogs, config.statuses, config.rows), (1, 1, 2));
/// assert_eq!(config.kind, zagalume::Kind::Ascii);
/// assert_eq!(config.pre_trigger, Some(zagalume::PreTrigger { seconds: 0, nanoseconds: 1_000_000 }));
/// # Ok::<(), zagalume::Refusal>(())
/// ```
///
/// A recorder without a clock has no date:
///
/// ```
/// let config = zagalume::read_config(include_bytes!("../../../examples/no-clock.cfg"))?;
/// match config.trigger {
///     Some(moment) => println!("{}/{}/{}", moment.day, moment.month, moment.year),
///     None => println!("no date"),
/// }
/// assert_eq!((config.first_sample, config.trigger, config.pre_trigger), (None, None, None));
/// # Ok::<(), zagalume::Refusal>(())
/// ```
///
/// One of 1999 has no time codes, no quality and no leap code:
///
/// ```
/// let config = zagalume::read_config(include_bytes!("../../../examples/one-1999.cfg"))?;
/// match config.last {
///     Some(lines) => println!("quality {}", lines.quality),
///     None => println!("quality absent"),
/// }
/// assert_eq!((config.edition, config.last), (zagalume::Edition::Year1999, None));
/// # Ok::<(), zagalume::Refusal>(())
/// ```
pub fn read_config(cfg: &[u8]) -> Result<Config, Refusal> {
    let mut shown = [0; limits::CONFIG_PLACES];
    calls::config(cfg, &mut shown)?;
    Ok(Config::shown(&shown))
}

/// The configuration for a data file of that kind: the kind's word as [`Kind::word`] has it, numbers and codes without the spaces before them, every other field as it
/// stands, the year and a date of zeros too, and CR LF on each line. It is accepted and shows the same in all but the kind, and written again to that kind it stays as it is.
///
/// Refused as [`read_config`]; then with 10, where its edition lacks the kind; then with 1, where it would have more than 65,536 bytes.
///
/// ```
/// let cfg = include_bytes!("../../../examples/one.cfg");
/// let binary = zagalume::write_config(cfg, zagalume::Kind::Binary)?;
/// assert_eq!(binary, include_bytes!("../../../examples/one-binary.cfg"));
/// assert_eq!(zagalume::read_config(&binary)?.kind, zagalume::Kind::Binary);
/// # Ok::<(), zagalume::Refusal>(())
/// ```
pub fn write_config(cfg: &[u8], kind: Kind) -> Result<Vec<u8>, Refusal> {
    let mut out = vec![0; limits::MOST_CONFIG_BYTES];
    let length = write_config_into(cfg, kind, &mut out)?;
    out.truncate(length);
    out.shrink_to_fit();
    Ok(out)
}

/// As [`write_config`], into lent bytes, with nothing allocated: how many bytes were written. Room of [`MOST_CONFIG_BYTES`](limits::MOST_CONFIG_BYTES) is always enough.
///
/// Refused as [`write_config`]; last of all with 17, where the room is too short.
pub fn write_config_into(cfg: &[u8], kind: Kind, out: &mut [u8]) -> Result<usize, Refusal> {
    calls::write_config(cfg, kind.number(), out)
}

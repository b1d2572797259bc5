//! Zagalume, a proved loader of COMTRADE recordings (IEC 60255-24:2013, and the edition of 1999; data files of the kinds ASCII, binary and binary32), as safe Rust over its
//! static library.
//!
//! A recording is a configuration and a data file. [`read_config`] gives the [`Layout`] that the other calls ask for; [`check`] tells whether a data file is fine,
//! [`row`] shows a row, [`write_row`] writes one, [`bytes_needed`] and [`change`] turn a data file into another kind, and [`write_config`] gives the configuration that goes
//! with it. A file that breaks a rule gives a [`Refusal`], with its number and its place; [`reason`] says a number in words. On a refusal nothing that was lent has
//! changed.
//!
//! A sample may be missing, and is then no number: a [`Sample`] says which. A configuration of 1999 has no time codes and no quality: [`Config::last`] is then `None`. One of
//! a recorder without a clock has no date: [`Config::first_sample`] or [`Config::trigger`] is then `None`, or both are, and with either [`Config::pre_trigger`].
//!
//! ```no_run
//! use zagalume::Sample;
//! let config = zagalume::read_config(&std::fs::read("fault.cfg")?)?;
//! let data = std::fs::read("fault.dat")?;
//! let first = zagalume::row(config.layout(), &data, 1)?;
//! for (channel, sample) in (1..).zip(first.samples) {
//!     match sample {
//!         Sample::Missing => println!("at {}: channel {channel} has no sample", first.time),
//!         Sample::Is(number) => println!("at {}: channel {channel} has {number}", first.time),
//!     }
//! }
//! # Ok::<(), Box<dyn std::error::Error>>(())
//! ```
//!
//! # All rows
//!
//! [`row`] checks the whole data file at each call. For all rows, change the file to binary32 once, which every sample fits, and read each row from its place: 4 bytes of
//! number, 4 of time, 4 for each sample and 2 for each 16 statuses, the low byte and the low bit first. That is 0.05 s in place of 28 s for 10,000 rows of ASCII with 32
//! samples and 32 statuses each (processor time on x86-64).
//!
//! There 80000000 hex is a missing sample: taken for a number, it would be a full negative swing that was never there. The edition of 1999 lacks that kind: there every sample
//! fits ASCII, a file changed to which is in its plain form, and a sample of 99999 is missing. The example `all_rows` reads whole rows of both; these are the first samples of
//! one of 2013:
//!
//! ```
//! use zagalume::Sample;
//! let layout = zagalume::read_config(include_bytes!("../../../examples/missing.cfg"))?.layout();
//! let file = zagalume::change(layout, include_bytes!("../../../examples/missing.dat"), zagalume::Kind::Binary32)?;
//! let row_size = 8 + 4 * layout.analogs as usize + 2 * layout.statuses.div_ceil(16) as usize;
//! let first_samples: Vec<Sample> = file
//!     .chunks_exact(row_size)
//!     .map(|row| match u32::from_le_bytes(row[8..12].try_into().unwrap()) {
//!         0x8000_0000 => Sample::Missing,
//!         word => Sample::Is(word as i32),
//!     })
//!     .collect();
//! assert_eq!(first_samples, [Sample::Missing, Sample::Is(300), Sample::Is(-32_767), Sample::Missing]);
//! # Ok::<(), zagalume::Refusal>(())
//! ```
//!
//! # Memory and threads
//!
//! The functions that end in `_into` write to what is lent and allocate nothing, as the library itself. No call keeps anything between calls, so threads may call at the same
//! time.
#![deny(missing_docs)]
#![deny(unsafe_code)]

#[allow(unsafe_code)]
mod calls;
mod config;
mod data;
mod refusal;

pub use config::{read_config, write_config, write_config_into, Config, LastLines, Moment, PreTrigger};
pub use data::{
    bytes_needed, change, change_into, check, row, row_into, write_row, write_row_into, Edition, Kind, Layout, Row,
    Sample,
};
pub use refusal::{reason, reason_into, refused, Refusal};

/// The limits, and the room that anything within them needs.
pub mod limits {
    /// The most bytes of a configuration.
    pub const MOST_CONFIG_BYTES: usize = 65_536;
    /// The most analog channels.
    pub const MOST_ANALOGS: usize = 96;
    /// The most status channels.
    pub const MOST_STATUSES: usize = 256;
    /// The most sampling rates.
    pub const MOST_RATES: usize = 8;
    /// The most rows.
    pub const MOST_ROWS: usize = 1_000_000;
    /// The places that the library shows of a configuration.
    pub(crate) const CONFIG_PLACES: usize = 35;
    /// The most places of a row: 1 + 96 + 256.
    pub const MOST_ROW_PLACES: usize = 353;
    /// Room for any row, CR LF included.
    pub const MOST_ROW_BYTES: usize = 1_882;
    /// Room for the meaning of any refusal.
    pub const MOST_REASON_BYTES: usize = 256;
}

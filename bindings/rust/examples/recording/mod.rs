//! What the examples share: a recording, loaded from its two files and printed as the listing does, and how an example ends. Not every example uses all of it.
#![allow(dead_code)]

use std::ffi::{OsStr, OsString};
use std::io::{self, Write};
use std::process::ExitCode;
use std::{env, fs};
use zagalume::{Config, Layout, Refusal, Row};

/// A recording whose data file is not checked yet.
pub struct Recording {
    pub layout: Layout,
    pub cfg: Vec<u8>,
    pub data: Vec<u8>,
}

/// Why an example can't do what it is asked for.
pub enum Failure {
    /// The configuration is refused.
    Configuration(Refusal),
    /// The data file is refused.
    DataFile(Refusal),
    /// A file can't be read or written, or the arguments are wrong: a line that says so.
    Trouble(String),
}

impl Failure {
    /// The line that says it. A refusal is said as the listing prints it, which file, number, line or row, field, and with its meaning.
    fn line(&self) -> String {
        let refused = |file, Refusal { number, at, field }| {
            format!("no {file} {number} {at} {field}: {}", zagalume::reason(number).unwrap_or_default())
        };
        match self {
            Failure::Configuration(refusal) => refused("cfg", *refusal),
            Failure::DataFile(refusal) => refused("dat", *refusal),
            Failure::Trouble(line) => line.clone(),
        }
    }

    /// The exit status, as diff and grep have it; 0 is left for an example that is done.
    fn status(&self) -> ExitCode {
        match self {
            Failure::Configuration(_) | Failure::DataFile(_) => ExitCode::from(1),
            Failure::Trouble(_) => ExitCode::from(2),
        }
    }
}

/// Only what is printed comes this way.
impl From<io::Error> for Failure {
    fn from(error: io::Error) -> Failure {
        Failure::Trouble(format!("standard output can't be written: {error}"))
    }
}

/// Runs an example on its arguments: exit status 0, or a line on standard error and 1 or 2.
pub fn run(example: fn(&[OsString]) -> Result<(), Failure>) -> ExitCode {
    let words: Vec<OsString> = env::args_os().skip(1).collect();
    match example(&words) {
        Ok(()) => ExitCode::SUCCESS,
        Err(failure) => {
            eprintln!("{}", failure.line());
            failure.status()
        }
    }
}

/// The bytes of a file.
fn read(name: &OsStr) -> Result<Vec<u8>, Failure> {
    fs::read(name).map_err(|error| Failure::Trouble(format!("{} can't be read: {error}", name.to_string_lossy())))
}

/// What a configuration shows.
fn shown(cfg: &[u8]) -> Result<Config, Failure> {
    zagalume::read_config(cfg).map_err(Failure::Configuration)
}

/// Loads a configuration alone.
pub fn load_config(cfg: &OsStr) -> Result<Config, Failure> {
    shown(&read(cfg)?)
}

/// Loads a recording.
pub fn load(cfg: &OsStr, dat: &OsStr) -> Result<Recording, Failure> {
    let cfg = read(cfg)?;
    let layout = shown(&cfg)?.layout();
    Ok(Recording { layout, cfg, data: read(dat)? })
}

/// Prints the first line of a listing.
pub fn print_layout(out: &mut impl Write, layout: Layout) -> io::Result<()> {
    let Layout { analogs, statuses, rows, kind, .. } = layout;
    writeln!(out, "A {analogs} D {statuses} rows {rows} {kind}")
}

/// Prints a row as a line of the listing: its number, the time, the samples and the statuses. A missing sample is no number, and prints itself as x.
pub fn print_row(out: &mut impl Write, n: u32, row: &Row) -> io::Result<()> {
    write!(out, "{n} {}", row.time)?;
    for sample in &row.samples {
        write!(out, " {sample}")?;
    }
    for &status in &row.statuses {
        write!(out, " {}", u8::from(status))?;
    }
    writeln!(out)
}

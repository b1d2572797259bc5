//! all_rows CONFIGURATION DATA: prints every row of a recording of any kind, as the listing does, in time that grows with its bytes.
//! `zagalume::row` checks the whole data file at each call; here the file is checked once and changed to a kind that every sample fits, and then the rows are read one after
//! the other. That kind is binary32; the edition of 1999 lacks it, and there it is ASCII. A missing sample is printed as x.

mod recording;

use recording::{load, print_layout, print_row, run, Failure};
use std::ffi::OsString;
use std::io::{self, BufWriter, Write};
use std::process::ExitCode;
use zagalume::{Edition, Kind, Layout, Row, Sample};

// A row of binary32: 4 bytes of number, 4 of time, 4 for each sample and 2 for each 16 statuses, or a part of 16.
const TIME: usize = 4;
const SAMPLES: usize = 8;
const SAMPLE_SIZE: usize = 4;
const STATUS_WORD_SIZE: usize = 2;

// What is kept for a missing sample: a word in binary32, a number in a text of 1999.
const MISSING_WORD: u32 = 0x8000_0000;
const MISSING_NUMBER: i64 = 99_999;

fn row_size(layout: Layout) -> usize {
    SAMPLES + SAMPLE_SIZE * layout.analogs as usize + STATUS_WORD_SIZE * layout.statuses.div_ceil(16) as usize
}

/// A number of 32 bits, the low byte first.
fn word(bytes: &[u8]) -> u32 {
    u32::from_le_bytes([bytes[0], bytes[1], bytes[2], bytes[3]])
}

/// The sample that a word says: whether it is missing comes first, and only else is it a number, in two's complement.
fn sample_of(word: u32) -> Sample {
    match word {
        MISSING_WORD => Sample::Missing,
        number => Sample::Is(number as i32),
    }
}

/// Reads a row of binary32 from its bytes. Status k, from 0, is bit k of the words, the lowest first.
fn read_bytes(layout: Layout, bytes: &[u8]) -> Row {
    let (samples, statuses) = bytes[SAMPLES..].split_at(SAMPLE_SIZE * layout.analogs as usize);
    Row {
        time: word(&bytes[TIME..]),
        samples: samples.chunks_exact(SAMPLE_SIZE).map(|sample| sample_of(word(sample))).collect(),
        statuses: (0..layout.statuses as usize).map(|k| statuses[k / 8] >> (k % 8) & 1 == 1).collect(),
    }
}

/// The sample that a number in a text of 1999 says.
fn sample_said(number: i64) -> Sample {
    match number {
        MISSING_NUMBER => Sample::Missing,
        number => Sample::Is(number as i32),
    }
}

/// Reads a row from its plain line in a text of 1999. The first field, the row's number, is not in the row.
fn read_line(layout: Layout, line: &str) -> Row {
    let number = |field: &str| field.parse().expect("a plain field is a number");
    let numbers: Vec<i64> = line.split(',').skip(1).map(number).collect();
    let (samples, statuses) = numbers[1..].split_at(layout.analogs as usize);
    Row {
        time: numbers[0] as u32,
        samples: samples.iter().map(|&number| sample_said(number)).collect(),
        statuses: statuses.iter().map(|&status| status == 1).collect(),
    }
}

/// The rows of a data file that is fine, one after the other, as lines of text or as bytes.
fn print_rows(out: &mut impl Write, layout: Layout, new_kind: Kind, file: &[u8]) -> io::Result<()> {
    let rows = 1..=layout.rows;
    if new_kind == Kind::Ascii {
        let lines = file.split(|&byte| byte == b'\n').map(|line| String::from_utf8_lossy(line));
        rows.zip(lines).try_for_each(|(n, line)| print_row(out, n, &read_line(layout, line.trim_end())))
    } else {
        let chunks = file.chunks_exact(row_size(layout));
        rows.zip(chunks).try_for_each(|(n, bytes)| print_row(out, n, &read_bytes(layout, bytes)))
    }
}

fn all_rows(words: &[OsString]) -> Result<(), Failure> {
    let [cfg, dat] = words else {
        return Err(Failure::Trouble("usage: all_rows CONFIGURATION DATA".to_string()));
    };
    let recording = load(cfg, dat)?;
    let layout = recording.layout;
    let new_kind = if layout.edition == Edition::Year1999 { Kind::Ascii } else { Kind::Binary32 };
    let changed = zagalume::change(layout, &recording.data, new_kind).map_err(Failure::DataFile)?;
    let mut out = BufWriter::new(io::stdout().lock());
    print_layout(&mut out, layout)?;
    print_rows(&mut out, layout, new_kind, &changed)?;
    out.flush()?;
    Ok(())
}

fn main() -> ExitCode {
    run(all_rows)
}

//! A configuration written for a kind of data file.

use crate::config::{self, Config};
use crate::data::Kind;
use crate::numbers::after_spaces;
use crate::{no, put, Answer, MOST_BYTES};
use std::iter::repeat_n;

/// How a line is written.
#[derive(Clone, Copy)]
enum Form {
    /// As it stands.
    Kept,
    /// These fields, counted from 1, are numbers or codes and lose their leading spaces.
    Bare(&'static [usize]),
    /// The kind's word.
    Word,
}

/// Index, a, b, skew, min, max, primary and secondary.
const ANALOG: Form = Form::Bare(&[1, 6, 7, 8, 9, 10, 11, 12]);

/// The index.
const STATUS: Form = Form::Bare(&[1]);

/// The forms of all lines, in their order.
fn forms(found: &Config) -> Vec<Form> {
    let mut forms = vec![Form::Kept, Form::Bare(&[1, 2, 3])];
    forms.extend(repeat_n(ANALOG, found.layout.a));
    forms.extend(repeat_n(STATUS, found.layout.d));
    // Line frequency, number of rates, then each rate with its last row.
    forms.extend([Form::Bare(&[1]), Form::Bare(&[1])]);
    forms.extend(repeat_n(Form::Bare(&[1, 2]), found.last_rows.len()));
    // Two dates, the kind, the time multiplier.
    forms.extend([Form::Kept, Form::Kept, Form::Word, Form::Bare(&[1])]);
    if found.last_lines.is_some() {
        // Both codes; quality and leap second code.
        forms.extend([Form::Bare(&[1, 2]), Form::Kept]);
    }
    forms
}

/// Adds a line without leading spaces in the fields that are `bare`.
fn put_fields(line: &[u8], bare: &[usize], bytes: &mut Vec<u8>) {
    for (number, field) in (1..).zip(line.split(|&byte| byte == b',')) {
        if number > 1 {
            bytes.push(b',');
        }
        bytes.extend_from_slice(if bare.contains(&number) { after_spaces(field) } else { field });
    }
}

/// An accepted configuration as it is written, CR LF on each line.
fn written(cfg: &[u8], found: &Config, kind: Kind) -> Vec<u8> {
    let mut bytes = Vec::new();
    let lines = cfg.split(|&byte| byte == b'\n').map(|line| line.strip_suffix(b"\r").unwrap_or(line));
    for (line, form) in lines.zip(forms(found)) {
        match form {
            Form::Kept => bytes.extend_from_slice(line),
            Form::Bare(fields) => put_fields(line, fields, &mut bytes),
            Form::Word => bytes.extend_from_slice(kind.word().as_bytes()),
        }
        bytes.extend_from_slice(b"\r\n");
    }
    bytes
}

/// The reader's refusals, then 10 for no such kind or one that the edition lacks, then 1 for a result too long.
fn plan(cfg: &[u8], kind: u32) -> Result<Vec<u8>, Answer> {
    let found = config::read(cfg)?;
    let kind = Kind::of(kind).filter(|&kind| found.layout.edition.has(kind)).ok_or(no(10, 0, 0))?;
    let bytes = written(cfg, &found, kind);
    if bytes.len() > MOST_BYTES {
        return Err(no(1, 0, 0));
    }
    Ok(bytes)
}

/// Writes an accepted configuration with the word of a kind, leading spaces of numbers and codes gone, CR LF on each line; 17 comes last.
pub fn write_config(cfg: &[u8], kind: u32, out: &mut [u8]) -> Answer {
    put(plan(cfg, kind), out)
}

//! Recordings of the editions 2013 and 1999: a configuration and a data file of the kind ASCII, binary or binary32.
//! The calls check them, show rows, write rows, change a data file from one kind to another and write the configuration for it.
#![forbid(unsafe_code)]

mod change;
mod config;
mod data;
mod edition;
mod numbers;
#[cfg(test)]
mod tests;
mod write_config;

pub use change::{change, length};
pub use config::config;
pub use data::{check, row, write_row, LayoutNumbers, NONE};
pub use write_config::write_config;

/// An answer: number 0 is "yes"; a "no" has its number and place, and length zero.
#[derive(Debug, Clone, Copy, PartialEq, Eq)]
pub struct Answer {
    pub number: u32,
    pub at: u32,
    pub field: u32,
    pub length: u32,
}

/// A "no" returns its number and place, zeros for every count.
pub(crate) fn no(number: u32, at: u32, field: u32) -> Answer {
    Answer { number, at, field, length: 0 }
}

/// A "yes" returns the length in bytes where the call has one.
pub(crate) fn yes(length: u32) -> Answer {
    Answer { number: 0, at: 0, field: 0, length }
}

/// Puts what is to be written where it goes, and reports its length; too little room is 17, last of all.
pub(crate) fn put(written: Result<Vec<u8>, Answer>, out: &mut [u8]) -> Answer {
    match written {
        Err(answer) => answer,
        Ok(bytes) if out.len() < bytes.len() => no(17, 0, 0),
        Ok(bytes) => {
            out[..bytes.len()].copy_from_slice(&bytes);
            yes(bytes.len() as u32)
        }
    }
}

/// The most bytes of a configuration, and of a data file in a listing.
pub(crate) const MOST_BYTES: usize = 65_536;

/// One recording, whole: the lines listed, or one line of refusal, the configuration's before the data's.
pub fn list(cfg: &[u8], dat: &[u8]) -> String {
    let found = match config::read(cfg) {
        Ok(found) => found,
        Err(answer) => return refusal("cfg", answer),
    };
    if dat.len() > MOST_BYTES {
        return String::from("no dat size\n");
    }
    let layout = found.layout;
    let mut lines = format!("A {} D {} rows {} {}\n", layout.a, layout.d, layout.rows, layout.kind.word());
    let walked = data::walk(&layout, dat, |n, row| {
        lines.push_str(&format!("{n} {}", row.time));
        row.samples.iter().for_each(|sample| lines.push_str(&format!(" {sample}")));
        row.statuses.iter().for_each(|&status| lines.push_str(if status { " 1" } else { " 0" }));
        lines.push('\n');
    });
    match walked {
        Ok(()) => lines,
        Err(answer) => refusal("dat", answer),
    }
}

/// A refusal is one line: the file's word, number, place.
fn refusal(file: &str, answer: Answer) -> String {
    format!("no {} {} {} {}\n", file, answer.number, answer.at, answer.field)
}

//! Reads two files of at most 64 KiB each and lists the result.
#![forbid(unsafe_code)]

use std::ffi::OsStr;
use std::fs::File;
use std::io::{self, Read, Write};
use std::process::ExitCode;

/// One byte more than a file may have, so that a longer one is seen to be longer.
const MOST_READ: u64 = 65_537;

/// The configuration and the data file are named by the two arguments.
fn main() -> ExitCode {
    let arguments: Vec<_> = std::env::args_os().skip(1).collect();
    let [cfg, dat] = arguments.as_slice() else {
        eprintln!("list: two files wanted, a configuration and a data file");
        return ExitCode::from(2);
    };
    let (Some(cfg), Some(dat)) = (read(cfg), read(dat)) else {
        return ExitCode::from(1);
    };
    let listing = second::list(&cfg, &dat);
    match io::stdout().lock().write_all(listing.as_bytes()) {
        Ok(()) => ExitCode::SUCCESS,
        Err(_) => ExitCode::from(1),
    }
}

/// A file as read, cut at 65,537 bytes; one that cannot be read is named on standard error.
fn read(name: &OsStr) -> Option<Vec<u8>> {
    let mut bytes = Vec::new();
    let done = File::open(name).and_then(|file| file.take(MOST_READ).read_to_end(&mut bytes));
    match done {
        Ok(_) => Some(bytes),
        Err(error) => {
            eprintln!("list: {}: {}", name.to_string_lossy(), error);
            None
        }
    }
}

//! first_row CONFIGURATION DATA: loads a recording and prints its layout and its first row, as the listing does, a missing sample as x.

mod recording;

use recording::{load, print_layout, print_row, run, Failure};
use std::ffi::OsString;
use std::io;
use std::process::ExitCode;

fn first_row(words: &[OsString]) -> Result<(), Failure> {
    let [cfg, dat] = words else {
        return Err(Failure::Trouble("usage: first_row CONFIGURATION DATA".to_string()));
    };
    let recording = load(cfg, dat)?;
    let row = zagalume::row(recording.layout, &recording.data, 1).map_err(Failure::DataFile)?;
    let mut out = io::stdout().lock();
    print_layout(&mut out, recording.layout)?;
    print_row(&mut out, 1, &row)?;
    Ok(())
}

fn main() -> ExitCode {
    run(first_row)
}

//! change_kind CONFIGURATION DATA KIND NEW_CONFIGURATION NEW_DATA: changes a recording to another kind (ASCII, binary or binary32) and writes both files, the configuration
//! first. Where either is refused, none is written.

mod recording;

use recording::{load, run, Failure, Recording};
use std::ffi::{OsStr, OsString};
use std::fs;
use std::io::{self, Write};
use std::process::ExitCode;
use zagalume::Kind;

const USAGE: &str =
    "usage: change_kind CONFIGURATION DATA KIND NEW_CONFIGURATION NEW_DATA, where KIND is ASCII, binary or binary32";

fn write(name: &OsStr, bytes: &[u8]) -> Result<(), Failure> {
    fs::write(name, bytes)
        .map_err(|error| Failure::Trouble(format!("{} can't be written: {error}", name.to_string_lossy())))
}

fn change_kind(words: &[OsString]) -> Result<(), Failure> {
    let usage = || Failure::Trouble(USAGE.to_string());
    let [cfg, dat, word, new_cfg, new_dat] = words else {
        return Err(usage());
    };
    let new_kind = word.to_str().and_then(Kind::of_word).ok_or_else(usage)?;
    let Recording { layout, cfg, data } = load(cfg, dat)?;
    let changed_cfg = zagalume::write_config(&cfg, new_kind).map_err(Failure::Configuration)?;
    let changed_data = zagalume::change(layout, &data, new_kind).map_err(Failure::DataFile)?;
    write(new_cfg, &changed_cfg)?;
    write(new_dat, &changed_data)?;
    let (kind, [old, new, cfg]) = (layout.kind, [&data, &changed_data, &changed_cfg].map(Vec::len));
    writeln!(io::stdout(), "{old} bytes of {kind} are {new} bytes of {new_kind}, with a configuration of {cfg} bytes")?;
    Ok(())
}

fn main() -> ExitCode {
    run(change_kind)
}

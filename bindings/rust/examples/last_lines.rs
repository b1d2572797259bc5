//! last_lines CONFIGURATION: prints the edition of a configuration and what its last two lines say: the time codes, the quality and the leap code. A configuration of 1999 has
//! no such lines, and each of these is printed as absent.

mod recording;

use recording::{load_config, run, Failure};
use std::ffi::OsString;
use std::io::{self, Write};
use std::process::ExitCode;
use zagalume::LastLines;

/// The values of the last two lines, each with its name; a local code of x is printed as that.
fn print_lines(out: &mut impl Write, lines: LastLines) -> io::Result<()> {
    let local_code = lines.local_code.map_or("x".to_string(), |minutes| minutes.to_string());
    writeln!(out, "time code {}", lines.time_code)?;
    writeln!(out, "local code {local_code}")?;
    writeln!(out, "quality {}", lines.quality)?;
    writeln!(out, "leap code {}", lines.leap_code)
}

fn last_lines(words: &[OsString]) -> Result<(), Failure> {
    let [cfg] = words else {
        return Err(Failure::Trouble("usage: last_lines CONFIGURATION".to_string()));
    };
    let config = load_config(cfg)?;
    let mut out = io::stdout().lock();
    writeln!(out, "edition {}", config.edition)?;
    match config.last {
        Some(lines) => print_lines(&mut out, lines)?,
        None => writeln!(out, "time code absent\nlocal code absent\nquality absent\nleap code absent")?,
    }
    Ok(())
}

fn main() -> ExitCode {
    run(last_lines)
}

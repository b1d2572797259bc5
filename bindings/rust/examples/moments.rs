//! moments CONFIGURATION: prints date and time of the first sample and of the trigger, and the pre-trigger time, which is the trigger minus the first sample. A recorder without
//! a clock has no date: that is printed as no date, and the pre-trigger time as unknown.

mod recording;

use recording::{load_config, run, Failure};
use std::ffi::OsString;
use std::io::{self, Write};
use std::process::ExitCode;
use zagalume::{Moment, PreTrigger};

fn print_moment(out: &mut impl Write, name: &str, moment: Option<Moment>) -> io::Result<()> {
    match moment {
        None => writeln!(out, "{name} no date"),
        Some(Moment { year, month, day, hour, minute, second, nanosecond }) => {
            writeln!(out, "{name} {day:02}/{month:02}/{year} {hour:02}:{minute:02}:{second:02}.{nanosecond:09}")
        }
    }
}

/// The seconds are rounded down, and the nanoseconds are added to them.
fn print_pre_trigger(out: &mut impl Write, pre_trigger: Option<PreTrigger>) -> io::Result<()> {
    match pre_trigger {
        None => writeln!(out, "pre-trigger time unknown"),
        Some(PreTrigger { seconds, nanoseconds }) => {
            writeln!(out, "pre-trigger time {seconds} s and {nanoseconds} ns")
        }
    }
}

fn moments(words: &[OsString]) -> Result<(), Failure> {
    let [cfg] = words else {
        return Err(Failure::Trouble("usage: moments CONFIGURATION".to_string()));
    };
    let config = load_config(cfg)?;
    let mut out = io::stdout().lock();
    print_moment(&mut out, "first sample", config.first_sample)?;
    print_moment(&mut out, "trigger", config.trigger)?;
    print_pre_trigger(&mut out, config.pre_trigger)?;
    Ok(())
}

fn main() -> ExitCode {
    run(moments)
}

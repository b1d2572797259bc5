//! What the figures were taken on.

use std::fs;
use std::process::Command;

/// A command's output, or nothing where it can't be run.
fn said(command: &str, arguments: &[&str]) -> String {
    let output = Command::new(command).args(arguments).output();
    output.map(|output| String::from_utf8_lossy(&output.stdout).trim().to_string()).unwrap_or_default()
}

/// What follows `name:` on its line.
fn value<'a>(text: &'a str, name: &str) -> Option<&'a str> {
    let line = text.lines().find(|line| line.trim_start().to_lowercase().starts_with(name))?;
    line.split_once(':').map(|(_, value)| value.trim())
}

/// The processor's model. The system's own file does not name it on every machine.
fn processor() -> String {
    let info = fs::read_to_string("/proc/cpuinfo").unwrap_or_default();
    let listed = said("lscpu", &[]);
    value(&info, "model name").or(value(&listed, "model name")).unwrap_or("unknown processor").to_string()
}

/// The load of the last minute: other work on the machine shows here.
pub fn load() -> String {
    let load = fs::read_to_string("/proc/loadavg").unwrap_or_default();
    load.split_whitespace().next().unwrap_or("unknown").to_string()
}

/// Bytes of memory that may be used: most of what is free, or of the limit on the process where that is lower.
pub fn free_memory() -> u64 {
    let info = fs::read_to_string("/proc/meminfo").unwrap_or_default();
    let kilobytes = value(&info, "memavailable").and_then(|text| text.split(' ').next()?.parse().ok());
    let free = kilobytes.unwrap_or(2_000_000u64) * 1024;
    let limits = fs::read_to_string("/proc/self/limits").unwrap_or_default();
    let line = limits.lines().find(|line| line.starts_with("Max address space"));
    let limit = line.and_then(|line| line.split_whitespace().nth(3)?.parse().ok());
    free.min(limit.unwrap_or(u64::MAX)) / 10 * 7
}

/// The lines that say what the figures were taken on.
pub fn describe() -> String {
    let cores = std::thread::available_parallelism().map_or(0, |cores| cores.get());
    let memory = free_memory() / 1_000_000;
    format!(
        "- machine: {}, {}, {cores} cores, {memory} MB of memory taken as usable\n\
         - load of the last minute at the start: {}\n\
         - compiler of the second and the tuned program: {}, opt-level 3, lto, one codegen unit\n",
        said("uname", &["-srm"]),
        processor(),
        load(),
        option_env!("BENCH_RUSTC").unwrap_or("rustc"),
    )
}

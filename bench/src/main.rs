//! Measures the library, the second program and the tuned one on the same recordings in one run, and prints tables.

mod clock;
mod jobs;
mod machine;
mod measure;
mod programs;
mod recording;
mod report;

use jobs::{Buffers, Job};
use measure::{measure, Effort, Figure};
use recording::Recording;
use std::process::ExitCode;
use std::time::{Duration, Instant};

const USAGE: &str = "bench [--rows N] [--job config|write-config|check|show|write|change] [--layout A,D] [--quick]";

const LAYOUTS: [(u32, u32); 3] = [(1, 1), (8, 16), (96, 256)];

/// What is measured in this run, and how long.
struct Choice {
    rows: Vec<u32>,
    layouts: Vec<(u32, u32)>,
    job: Option<String>,
    quick: bool,
}

impl Choice {
    fn from_arguments(mut arguments: impl Iterator<Item = String>) -> Option<Choice> {
        let mut choice = Choice { rows: Vec::new(), layouts: LAYOUTS.to_vec(), job: None, quick: false };
        while let Some(argument) = arguments.next() {
            match argument.as_str() {
                "--quick" => choice.quick = true,
                "--rows" => choice.rows.push(row_count(&arguments.next()?)?),
                "--job" => choice.job = Some(job_name(arguments.next()?)?),
                "--layout" => choice.layouts = vec![layout(&arguments.next()?)?],
                _ => return None,
            }
        }
        if choice.rows.is_empty() {
            choice.rows = vec![1_000, if choice.quick { 10_000 } else { 1_000_000 }];
        }
        Some(choice)
    }

    /// Up to so many rows every row is shown. Each call walks the whole file, so all rows of a million would take days.
    fn most_shown(&self) -> u32 {
        if self.quick {
            return 0;
        }
        1_000
    }

    fn effort(&self) -> Effort {
        let millis = Duration::from_millis;
        if self.quick {
            return Effort { time: millis(100), least_rounds: 2, most_rounds: 5, turn: millis(2) };
        }
        Effort { time: millis(2_500), least_rounds: 2, most_rounds: 15, turn: millis(20) }
    }
}

/// A number of rows that a file may have.
fn row_count(text: &str) -> Option<u32> {
    text.parse().ok().filter(|rows| (1..=1_000_000).contains(rows))
}

/// A name that some job has.
fn job_name(name: String) -> Option<String> {
    Job::all().iter().any(|job| job.name() == name).then_some(name)
}

/// A layout given as `A,D`.
fn layout(text: &str) -> Option<(u32, u32)> {
    let (a, d) = text.split_once(',')?;
    let (a, d) = (a.parse().ok()?, d.parse().ok()?);
    (a <= 96 && d <= 256 && a + d >= 1).then_some((a, d))
}

/// Every job on every recording, each line printed as it is measured.
fn run(choice: &Choice) -> Vec<Figure> {
    let mut figures = Vec::new();
    for &rows in &choice.rows {
        for &(a, d) in &choice.layouts {
            let recording = Recording::new(a, d, rows, machine::free_memory(), choice.most_shown());
            let mut buffers = Buffers::new(&recording);
            for job in Job::all() {
                if choice.job.as_ref().is_some_and(|name| name != job.name()) || !job.fits(&recording) {
                    continue;
                }
                let figure = measure(job, &recording, &mut buffers, choice.effort());
                println!("{}", report::speed_row(&figure));
                figures.push(figure);
            }
        }
    }
    figures
}

const NOTES: &str = "\
- MB is 1,000,000 bytes: of the configuration for config and write-config; of the file for check and change; of the file
  for each row shown, since every call checks the whole file; written for write
- check of ASCII of 1999: the text file of 2013, which is one of 1999 too
- write-config: to binary, which the configuration's own kind is; of the largest layout also one of 65,536 bytes, with
  long names and a space before each real
- the programs take turns, round after round; the best round of each counts; a pass of over 8 seconds is taken once
- buffers: input and output are made and touched before any timing and used again in every pass, so no page is new to a
  pass; the output is filled anew before each program's first pass, whose bytes are compared, and not cleared after that
- show: up to 1,000 rows every row is shown; above that, and with --quick, the first, the middle and the last row
- write: each row goes after the one before it; samples and statuses come from 1,000 rows kept in memory";

fn main() -> ExitCode {
    let Some(choice) = Choice::from_arguments(std::env::args().skip(1)) else {
        eprintln!("{USAGE}");
        return ExitCode::from(2);
    };
    let begun = Instant::now();
    println!("## What was measured, and on what\n\n{}{NOTES}", machine::describe());
    println!("- the clock counts {}", clock::COUNTS);
    if choice.quick {
        println!("- quick: few rounds and shorter files than the whole run; the figures are rough");
    }
    println!("\n## Speed\n\n{}", report::SPEED_HEAD);
    let figures = run(&choice);
    println!("\n## One row shown\n\n{}", report::show_table(&figures));
    println!("## How cost grows with rows (a configuration counts as one row)\n\n{}", report::growth_table(&figures));
    println!("## Short of the targets\n\n{}", report::shortfalls(&figures));
    println!("Load of the last minute at the end: {}; {} s in all.", machine::load(), begun.elapsed().as_secs());
    ExitCode::SUCCESS
}

//! The tables.

use crate::jobs::Job;
use crate::measure::Figure;
use crate::programs::{COUNT, LIBRARY, PROGRAMS, SECOND, TUNED};

/// Least speed of the check of text, in millions of bytes a second.
const TEXT_CHECK_TARGET: f64 = 450.0;

/// Least ratio of the library to the tuned program.
fn target(figure: &Figure) -> f64 {
    match figure.job {
        Job::Check(0, _) => 0.85,
        Job::Check(..) if (figure.a, figure.d) == (1, 1) => 0.85,
        Job::Check(..) => 0.9,
        Job::Change(old, new) if old != 0 && new != 0 => 0.9,
        job if job.has_text() => 0.8,
        _ => 1.0,
    }
}

/// A number with its thousands parted.
fn grouped(number: u64) -> String {
    let digits = number.to_string();
    let mut text = String::new();
    for (index, digit) in digits.chars().enumerate() {
        if index > 0 && (digits.len() - index) % 3 == 0 {
            text.push(',');
        }
        text.push(digit);
    }
    text
}

/// Three figures of a number, at least.
fn short(number: f64) -> String {
    match number {
        _ if number >= 100.0 => grouped(number.round() as u64),
        _ if number >= 10.0 => format!("{number:.1}"),
        _ => format!("{number:.2}"),
    }
}

/// The rows of a file, with a word where they are fewer than asked for.
fn rows(figure: &Figure) -> String {
    if figure.rows == figure.wanted_rows {
        return grouped(figure.rows.into());
    }
    format!("{} (memory is short for {})", grouped(figure.rows.into()), grouped(figure.wanted_rows.into()))
}

/// What a figure is of, as the first cells of a row.
fn subject(figure: &Figure) -> String {
    format!("| {} | {} | {}, {} |", figure.job.name(), figure.job.kinds(), figure.a, figure.d)
}

pub const SPEED_HEAD: &str = "| job | kind | A, D | rows | bytes | library MB/s | second MB/s | tuned MB/s | \
     library / tuned | library / second | rounds |\n|---|---|---|---|---|---|---|---|---|---|---|";

/// A row of the table of speeds.
pub fn speed_row(figure: &Figure) -> String {
    let speeds: Vec<String> = (0..COUNT).map(|program| short(figure.speed(program))).collect();
    format!(
        "{} {} | {} | {} | {:.2} | {:.2} | {} |",
        subject(figure),
        rows(figure),
        grouped(figure.bytes),
        speeds.join(" | "),
        figure.ratio(LIBRARY, TUNED),
        figure.ratio(LIBRARY, SECOND),
        figure.rounds,
    )
}

/// What one call that shows a row costs: each checks the whole file first.
pub fn show_table(figures: &[Figure]) -> String {
    let mut text = "| job | kind | A, D | rows | calls |".to_string();
    for program in &PROGRAMS {
        text.push_str(&format!(" {} us a call |", program.name));
    }
    text.push_str("\n|---|---|---|---|---|---|---|---|\n");
    for figure in figures.iter().filter(|figure| figure.job.name() == "show") {
        let cost = |program: usize| short(figure.best[program] * 1e6 / figure.walks as f64);
        let costs: Vec<String> = (0..COUNT).map(cost).collect();
        let calls = grouped(figure.walks);
        text.push_str(&format!("{} {} | {calls} | {} |\n", subject(figure), rows(figure), costs.join(" | ")));
    }
    text
}

/// How cost grows: nanoseconds a row in the shortest and the longest file of a layout, and the quotient.
pub fn growth_table(figures: &[Figure]) -> String {
    let mut text = "| job | kind | A, D | rows |".to_string();
    for program in &PROGRAMS {
        text.push_str(&format!(" {} ns a row | grows |", program.name));
    }
    text.push_str("\n|---|---|---|---|---|---|---|---|---|---|\n");
    for (index, long) in figures.iter().enumerate() {
        let same = |short: &&Figure| (short.job, short.a, short.d) == (long.job, long.a, long.d);
        let Some(least) = figures[..index].iter().find(same) else { continue };
        text.push_str(&format!("{} {} to {} |", subject(long), rows(least), rows(long)));
        for program in 0..COUNT {
            let (before, after) = (least.row_cost(program), long.row_cost(program));
            text.push_str(&format!(" {} to {} | {:.2} |", short(before), short(after), after / before));
        }
        text.push('\n');
    }
    text
}

/// The figures short of the targets, one line each.
pub fn shortfalls(figures: &[Figure]) -> String {
    let mut text = String::new();
    for figure in figures {
        let target = target(figure);
        let ratio = figure.ratio(LIBRARY, TUNED);
        let place = format!(
            "{} {}, ({}, {}), {} rows",
            figure.job.name(),
            figure.job.kinds(),
            figure.a,
            figure.d,
            rows(figure)
        );
        if ratio < target {
            text.push_str(&format!("- {place}: library / tuned {ratio:.2}, wanted {target:.2}\n"));
        }
        let speed = figure.speed(LIBRARY);
        if matches!(figure.job, Job::Check(0, _)) && speed < TEXT_CHECK_TARGET {
            text.push_str(&format!("- {place}: {} MB/s, wanted {TEXT_CHECK_TARGET:.0}\n", short(speed)));
        }
    }
    if text.is_empty() {
        text.push_str("none\n");
    }
    text
}

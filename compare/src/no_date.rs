//! Dates of zeros, as a recorder without a clock fills them in: which a configuration has, and systematic cases of them.

use crate::configs::config;
use crate::damage::{at_places, Damage};
use crate::draft::{drafts, zero_time, Draft, RECORDING, ZERO_DATE};
use crate::rewritten::by_turns;
use crate::walk::Walk;

/// The date lines of a configuration, each with its number, as far as it is not refused before: they are the first two after line 1 with a slash in their first field.
pub fn date_lines(cfg: &[u8]) -> impl Iterator<Item = (u32, &[u8])> {
    let lines = cfg.split(|&byte| byte == b'\n').map(|line| line.strip_suffix(b"\r").unwrap_or(line));
    (1..).zip(lines).skip(1).filter(|(_, line)| date_of(line).contains(&b'/')).take(2)
}

/// The first field of a line.
fn date_of(line: &[u8]) -> &[u8] {
    line.split(|&byte| byte == b',').next().unwrap_or_default()
}

/// Whether the first sample of an accepted configuration has no date, and whether its trigger has none.
pub fn without_date(cfg: &[u8]) -> [bool; 2] {
    let mut dates = date_lines(cfg).map(|(_, line)| date_of(line) == ZERO_DATE.as_bytes());
    [(); 2].map(|()| dates.next() == Some(true))
}

/// How a date is of zeros that was refused.
pub enum Zeros {
    /// All of it, as the first sample's.
    First,
    /// All of it, as the trigger's.
    Trigger,
    /// Its day, its month or its year.
    InPart,
}

/// How the date is of zeros for which a configuration was refused with 6, at field 1 of this line; nothing where it is not, or where the line has no date.
pub fn zeros_at(cfg: &[u8], line: u32) -> Option<Zeros> {
    let (which, (_, text)) = date_lines(cfg).enumerate().find(|(_, (number, _))| *number == line)?;
    let date = date_of(text);
    if date == ZERO_DATE.as_bytes() {
        return Some(if which == 0 { Zeros::First } else { Zeros::Trigger });
    }
    let in_part = date.split(|&byte| byte == b'/').any(|part| part.iter().all(|&byte| byte == b'0'));
    in_part.then_some(Zeros::InPart)
}

/// Dates of zeros, of zeros in part, of another form and true ones.
#[rustfmt::skip]
const DATES: [&str; 24] = [
    ZERO_DATE, "00/00/2024", "00/02/2024", "03/00/2024", "03/02/0000", "00/02/0000", "03/00/0000", "00/00/0001",
    "00/00/1900", "00/00/9999", "0/0/0000", "00/00/000", "00/00/00000", "000/00/0000", "00-00-0000", "00/00-0000",
    "0000/00/00", " 0/00/0000", "00/00/0000 ", "  /  /    ", "//", "", "03/02/2024", "01/01/1900",
];

/// Times that are not of zeros, or of another form.
#[rustfmt::skip]
const TIMES: [&str; 30] = [
    "00:00:00.000001", "00:00:00.0000001", "00:00:00.00000001", "00:00:00.000000001", "00:00:00.100000",
    "00:00:00.100000000", "00:00:01.000000", "00:00:10.000000", "00:01:00.000000", "00:10:00.000000",
    "01:00:00.000000", "10:00:00.000000", "24:00:00.000000", "00:60:00.000000", "00:00:60.000000",
    "23:59:59.999999999", "09:15:00.000000", "99:99:99.999999", "00:00:00", "0:0:0.000000", "00:00:00:000000",
    "00.00.00.000000", "000000.000000", " 0:00:00.000000", "00:00:00.000000 ", "00:00:00.00000x", "+0:00:00.000000",
    "::.", "x", "",
];

/// What the other date line is meanwhile: a date, no date, of zeros with another time, of zeros in part, a date with a time that is refused.
const OTHERS: [(&str, &str); 5] = [
    ("03/02/2024", "09:15:00.001000"),
    (ZERO_DATE, "00:00:00.00000000"),
    (ZERO_DATE, "00:00:00.00000"),
    ("00/02/2024", "00:00:00.000000"),
    ("03/02/2024", "24:00:00.000000"),
];

/// All cases, in an order that stays.
pub fn walk(walk: &mut Walk) {
    let recording = Draft::of(RECORDING);
    for draft in [recording.of_1999(), recording] {
        for line in [draft.date_line(), draft.date_line() + 1] {
            damaged_zeros(walk, &draft, line);
            dates_and_times(walk, &draft, line);
        }
    }
    for draft in drafts() {
        both_lines(walk, &draft);
    }
}

/// A configuration read, and written.
fn both_calls(walk: &mut Walk, draft: impl Fn() -> Draft) {
    walk.case(|| config(draft().bytes()));
    walk.case(|| by_turns(draft().bytes()));
}

/// Times of zeros, of none to 12 digits after the point, and the others.
fn times() -> Vec<String> {
    let others = TIMES.iter().map(|time| time.to_string());
    (0..=12).map(zero_time).chain(others).collect()
}

/// Every damage, and every digit in place of a byte, at each byte of a line of zeros with each number of places.
fn damaged_zeros(walk: &mut Walk, draft: &Draft, line: usize) {
    let digits = (b'2'..=b'8').map(Damage::Replace);
    let damages: Vec<Damage> = Damage::every().into_iter().chain(digits).collect();
    let few = [Damage::Cut, Damage::Delete, Damage::Replace(b'1'), Damage::Insert(b'0'), Damage::Insert(b' ')];
    for places in 6..=9 {
        let draft = draft.dated(line, ZERO_DATE, &zero_time(places));
        let bytes_before = |line: usize| Draft { lines: draft.lines[..line].to_vec() }.bytes().len();
        let (cfg, range) = (draft.bytes(), bytes_before(line)..=bytes_before(line + 1));
        at_places(walk, &cfg, range.clone(), &damages, config);
        at_places(walk, &cfg, range, &few, by_turns);
    }
}

/// Each date with each time in a line, and the other line in each of some states.
fn dates_and_times(walk: &mut Walk, draft: &Draft, line: usize) {
    let other_line = 2 * draft.date_line() + 1 - line;
    for (other_date, other_time) in OTHERS {
        let draft = draft.dated(other_line, other_date, other_time);
        for date in DATES {
            for time in times() {
                both_calls(walk, || draft.dated(line, date, &time));
            }
        }
    }
}

/// Each of some dates as the first sample's and each as the trigger's, wherever their lines stand.
fn both_lines(walk: &mut Walk, draft: &Draft) {
    let line = draft.date_line();
    let zeros = (5..=10).map(|places| (ZERO_DATE, zero_time(places)));
    let dates = [ZERO_DATE, "03/02/2024", "31/12/9999", "01/01/1900", "00/00/2024", "01/01/0000", "0/0/0000", "//"];
    let times = ["00:00:00.000000", "23:59:59.999999999", "x"];
    let others = dates.iter().flat_map(|&date| times.map(|time| (date, time.to_string())));
    let moments: Vec<(&str, String)> = zeros.chain(others).collect();
    for (first_date, first_time) in &moments {
        for (trigger_date, trigger_time) in &moments {
            both_calls(walk, || draft.dated(line, first_date, first_time).dated(line + 1, trigger_date, trigger_time));
        }
    }
}

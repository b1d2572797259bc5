//! How often each call gave each answer.

use crate::case::{Case, CALLS, POSSIBLE};
use crate::draft::MOST_BYTES;
use crate::no_date::{without_date, zeros_at, Zeros};
use crate::walk::Family;
use second::Answer;

/// What is counted of a call: 0 for yes, 1 to 17 for no, and the sorts of these that follow.
const COUNTED: usize = 29;

/// The refusal 1 of a configuration that would be too long as it is written: the one that was read is not.
const LONG_RESULT: usize = 18;

/// A "yes" to a row or a file with a missing sample.
const YES_MISSING: usize = 19;

/// The same of a text of 1999, where the number 99999 means it.
const YES_NINES: usize = 20;

/// The refusal 10 where a kind is one that the edition lacks.
const LACKING: usize = 21;

/// The refusal 10 of an edition that there is not.
const NO_EDITION: usize = 22;

/// A "yes" to a configuration of which the first sample alone has no date; the pre-trigger time is then unknown.
const NO_FIRST: usize = 23;

/// The same of the trigger alone.
const NO_TRIGGER: usize = 24;

/// The same of both.
const NO_DATES: usize = 25;

/// The refusal 6 of a first sample with a date of zeros, whose time is another.
const ZERO_FIRST: usize = 26;

/// The same of a trigger.
const ZERO_TRIGGER: usize = 27;

/// The refusal 6 of a date of zeros in part.
const HALF_ZERO: usize = 28;

/// The calls that take a configuration, and so can meet a date of zeros.
const WITH_DATES: [&str; 2] = ["config", "write_config"];

/// The calls that take a layout, and so can meet a missing sample.
const WITH_LAYOUT: [&str; 5] = ["check", "row", "write_row", "length", "change"];

/// Counts of answers by call and number: the random cases apart from the others, and in each those of 1999.
#[derive(Default, Clone)]
pub struct Tally([[[[u64; COUNTED]; CALLS.len()]; 2]; 2]);

/// The random cases are counted apart.
fn part(family: Family) -> usize {
    usize::from(family == Family::Random)
}

/// Whether a kind of the case is one that its edition, that of 1999, lacks.
fn lacks_a_kind(case: &Case) -> bool {
    case.is_of_1999() && (case.new_kind() == Some(2) || case.layout().is_some_and(|layout| layout.kind == 2))
}

/// What an answer to a configuration is counted as where its dates are of zeros, and it is about them.
fn counted_by_dates(cfg: &[u8], answer: Answer) -> Option<usize> {
    match (answer.number, answer.field) {
        (0, _) => match without_date(cfg) {
            [true, false] => Some(NO_FIRST),
            [false, true] => Some(NO_TRIGGER),
            [true, true] => Some(NO_DATES),
            [false, false] => None,
        },
        (6, 1) => zeros_at(cfg, answer.at).map(|zeros| match zeros {
            Zeros::First => ZERO_FIRST,
            Zeros::Trigger => ZERO_TRIGGER,
            Zeros::InPart => HALF_ZERO,
        }),
        _ => None,
    }
}

/// What an answer to a case is counted as.
fn counted_as(case: &Case, answer: Answer, missing: bool) -> usize {
    let layout = case.layout();
    match (answer.number, case) {
        _ if missing && case.is_of_1999() && layout.is_some_and(|layout| layout.kind == 0) => YES_NINES,
        _ if missing => YES_MISSING,
        (1, Case::WriteConfig { cfg, .. }) if cfg.len() <= MOST_BYTES => LONG_RESULT,
        (0 | 6, Case::Config { cfg, .. } | Case::WriteConfig { cfg, .. }) => {
            counted_by_dates(cfg, answer).unwrap_or(answer.number as usize)
        }
        (10, _) if lacks_a_kind(case) => LACKING,
        (10, _) if layout.is_some_and(|layout| !matches!(layout.edition, 2013 | 1999)) => NO_EDITION,
        (number, _) => number as usize,
    }
}

/// Whether a call can give what is counted so, asked about a recording of 1999 or about another.
fn can(of_1999: bool, call: usize, counted: usize) -> bool {
    match counted {
        _ if of_1999 && CALLS[call] == "reason" => false,
        8 if of_1999 => false,
        0 => true,
        LONG_RESULT => CALLS[call] == "write_config",
        YES_MISSING => WITH_LAYOUT.contains(&CALLS[call]),
        YES_NINES => of_1999 && WITH_LAYOUT.contains(&CALLS[call]),
        LACKING => of_1999 && POSSIBLE[call].contains(&10),
        NO_EDITION => !of_1999 && WITH_LAYOUT.contains(&CALLS[call]),
        NO_FIRST..=HALF_ZERO => WITH_DATES.contains(&CALLS[call]),
        number => POSSIBLE[call].contains(&(number as u32)),
    }
}

/// What is counted so, in words.
fn name(counted: usize) -> String {
    match counted {
        0 => String::from("yes"),
        LONG_RESULT => String::from("no 1 result"),
        YES_MISSING => String::from("yes missing"),
        YES_NINES => String::from("yes 99999"),
        LACKING => String::from("no 10 kind"),
        NO_EDITION => String::from("no 10 edition"),
        NO_FIRST => String::from("yes no first"),
        NO_TRIGGER => String::from("yes no trigger"),
        NO_DATES => String::from("yes no dates"),
        ZERO_FIRST => String::from("no 6 zero first"),
        ZERO_TRIGGER => String::from("no 6 zero trigger"),
        HALF_ZERO => String::from("no 6 half zero"),
        number => format!("no {number}"),
    }
}

impl Tally {
    /// Counts an answer; whether it is a "yes" to a row or a file with a missing sample is told beside it.
    pub fn count(&mut self, family: Family, case: &Case, answer: Answer, missing: bool) {
        let edition = usize::from(case.is_of_1999());
        self.0[part(family)][edition][case.call()][counted_as(case, answer, missing)] += 1;
    }

    /// Adds what another thread counted.
    pub fn add(&mut self, other: &Tally) {
        let mine = self.0.as_flattened_mut().as_flattened_mut().as_flattened_mut();
        for (mine, theirs) in mine.iter_mut().zip(other.0.as_flattened().as_flattened().as_flattened()) {
            *mine += theirs;
        }
    }

    /// Answers that a call can give and that no case got.
    pub fn never_given(&self) -> Vec<String> {
        let mut list = Vec::new();
        for of_1999 in [false, true] {
            for (call, call_name) in CALLS.iter().enumerate() {
                for counted in (0..COUNTED).filter(|&counted| can(of_1999, call, counted)) {
                    if self.0.iter().all(|part| part[usize::from(of_1999)][call][counted] == 0) {
                        let about = if of_1999 { ", asked about 1999" } else { "" };
                        list.push(format!("{call_name} never answered {}{about}", name(counted)));
                    }
                }
            }
        }
        list
    }

    /// All tables.
    pub fn tables(&self) -> String {
        let about = [(false, false), (false, true), (true, false), (true, true)];
        about.map(|(random, of_1999)| self.table(random, of_1999)).join("\n\n")
    }

    /// A table: a line for each answer, a column for each call.
    fn table(&self, random: bool, of_1999: bool) -> String {
        let part = &self.0[usize::from(random)][usize::from(of_1999)];
        let cases = if random { "random" } else { "kept, syst." };
        let mut text = format!("{:17}", if of_1999 { format!("{cases} 1999") } else { String::from(cases) });
        for call_name in CALLS {
            text.push_str(&format!("{call_name:>13}"));
        }
        for counted in 0..COUNTED {
            text.push_str(&format!("\n{:17}", name(counted)));
            for (call, counts) in part.iter().enumerate() {
                let word = if can(of_1999, call, counted) { counts[counted].to_string() } else { String::from("-") };
                text.push_str(&format!("{word:>13}"));
            }
        }
        text.push_str("\nall              ");
        for counts in part {
            text.push_str(&format!("{:>13}", counts.iter().sum::<u64>()));
        }
        text
    }
}

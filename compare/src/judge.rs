//! Runs a case on the library and on the second program, and compares the answers and every byte lent.

use crate::buffer::{bytes_of, Buffer};
use crate::case::{Case, Layout, CONFIG_PLACES, POSSIBLE};
use crate::configs::config;
use crate::draft::MOST_BYTES;
use crate::files::{has_missing, range};
use crate::lent::{Flush, Lent};
use crate::library;
use crate::no_date::{date_lines, without_date};
use crate::rules::{all_lines, is_bare};
use crate::watch;
use crate::words::{self, MISSING};
use second::Answer;
use std::ops::Range;

/// Bytes of a file above which a change is followed by no more than a length and a check, so that it does not take seconds.
const LARGE: usize = 1 << 20;

/// The places in which a configuration shows its first sample, its trigger, its pre-trigger time, its kind and its edition.
const SHOWN_FIRST: Range<usize> = 12..19;
const SHOWN_TRIGGER: Range<usize> = 19..26;
const SHOWN_PRE_TRIGGER: Range<usize> = 26..28;
const SHOWN_KIND: usize = 28;
const SHOWN_EDITION: usize = 34;

/// What a case must answer, where that is known by itself.
#[derive(Debug, Clone)]
pub struct Expected {
    pub answer: Answer,
    /// The places shown, or none.
    pub places: Vec<i64>,
    /// The bytes written, or none.
    pub bytes: Vec<u8>,
    /// The line that says so.
    pub line: String,
}

/// An answer that is right, and whether it is a "yes" to a row or a file with a missing sample.
pub struct Judged {
    pub answer: Answer,
    pub missing: bool,
}

/// The lent buffers and what stands in them.
pub struct Judge {
    input: Lent,
    output: Lent,
    before: Buffer,
    after: Buffer,
    reasons: Vec<Vec<u8>>,
    word: u64,
}

/// What lies in the buffer lent for reading.
fn input_of(case: &Case) -> &[u8] {
    match case {
        Case::Config { cfg, .. } | Case::WriteConfig { cfg, .. } => cfg,
        Case::Check { file, .. } | Case::Row { file, .. } => file,
        Case::Length { file, .. } | Case::Change { file, .. } => file,
        Case::WriteRow { row, .. } => bytes_of(row),
        Case::Reason { .. } => &[],
    }
}

/// The answer spelled.
fn spelled(answer: Answer) -> String {
    format!("{} at {},{} length {}", answer.number, answer.at, answer.field, answer.length)
}

/// Where two buffers first differ, with the bytes of both from there on.
fn first_difference(found: &[u8], wanted: &[u8]) -> String {
    let at = found.iter().zip(wanted).position(|(f, w)| f != w).unwrap_or(0);
    let part = |bytes: &[u8]| words::spelled(&bytes[at..bytes.len().min(at + 16)]);
    format!("from byte {at} on: {} instead of {}", part(found), part(wanted))
}

/// What every answer keeps: a "yes" has no place, a "no" has no length, and its number is one that the call can give.
fn well_formed(case: &Case, answer: Answer) -> Result<(), String> {
    let fine = match answer.number {
        0 => answer.at == 0 && answer.field == 0,
        number => answer.length == 0 && POSSIBLE[case.call()].contains(&number),
    };
    if fine {
        return Ok(());
    }
    Err(format!("both answer {}, which this call can't", spelled(answer)))
}

/// What every row that is shown keeps: its time has 32 bits, a sample is missing or within the range of its layout, and a status is 0 or 1.
fn row_in_range(layout: Layout, row: &[i64]) -> Result<(), String> {
    let (samples, statuses) = row[1..].split_at(layout.a as usize);
    let range = range(layout);
    let fine = u32::try_from(row[0]).is_ok()
        && samples.iter().all(|sample| *sample == MISSING || range.contains(sample))
        && statuses.iter().all(|status| matches!(status, 0 | 1));
    if fine {
        return Ok(());
    }
    Err(format!("both show {}, which is out of range", words::listed(row)))
}

/// What every configuration that is shown keeps: a date line of zeros has none of its places, another has all, and the pre-trigger time is unknown where either is of zeros.
fn dates_or_none(cfg: &[u8], shown: &[i64]) -> Result<(), String> {
    let [first, trigger] = without_date(cfg);
    let expected = [(SHOWN_FIRST, first), (SHOWN_TRIGGER, trigger), (SHOWN_PRE_TRIGGER, first || trigger)];
    let fine = |(places, none): (Range<usize>, bool)| shown[places].iter().all(|&place| (place == MISSING) == none);
    if expected.into_iter().all(fine) {
        return Ok(());
    }
    Err(format!("both show {}, which are not the dates of its lines", words::listed(shown)))
}

/// The text of a reason, from those that the library gave; numbers without a text are 10, and 17 comes last.
fn reason(texts: &[Vec<u8>], number: u32, out: &mut [u8]) -> Answer {
    let no = |number| Answer { number, at: 0, field: 0, length: 0 };
    let text = match texts.get((number as usize).wrapping_sub(1)) {
        None => return no(10),
        Some(text) if out.len() < text.len() => return no(17),
        Some(text) => text,
    };
    out[..text.len()].copy_from_slice(text);
    Answer { number: 0, at: 0, field: 0, length: text.len() as u32 }
}

impl Judge {
    /// A judge with the texts of the reasons 1, 2, 3 and so on.
    pub fn new(reasons: &[Vec<u8>]) -> Judge {
        Judge {
            input: Lent::to_read(),
            output: Lent::to_write(),
            before: Buffer::default(),
            after: Buffer::default(),
            reasons: reasons.to_vec(),
            word: 0,
        }
    }

    /// Asks the second program, which writes into `after`.
    fn ask_second(&mut self, case: &Case) -> Answer {
        watch::calling("the second program");
        let out = &mut self.after;
        match case {
            Case::Config { cfg, .. } => second::config(cfg, out.places_mut()),
            Case::WriteConfig { cfg, kind, .. } => second::write_config(cfg, *kind, out.bytes_mut()),
            Case::Check { layout, file } => second::check(layout.numbers(), file),
            Case::Row { layout, file, n, .. } => second::row(layout.numbers(), file, *n, out.places_mut()),
            Case::WriteRow { layout, n, row, .. } => second::write_row(layout.numbers(), *n, row, out.bytes_mut()),
            Case::Length { layout, file, new_kind } => second::length(layout.numbers(), file, *new_kind),
            Case::Change { layout, file, new_kind, .. } => {
                second::change(layout.numbers(), file, *new_kind, out.bytes_mut())
            }
            Case::Reason { number, .. } => reason(&self.reasons, *number, out.bytes_mut()),
        }
    }

    /// Asks the library with its buffers against the guards on one side; what it lent for the answer is then in `output`.
    fn ask_library(&mut self, case: &Case, flush: Flush) -> Answer {
        let input = self.input.lend(input_of(case), flush);
        let output = self.output.lend(self.before.bytes(), flush);
        watch::calling(match flush {
            Flush::End => "the library, its buffers' ends before a guard",
            Flush::Start => "the library, its buffers' starts after a guard",
        });
        // SAFETY: both buffers were just lent, as long as the case says.
        unsafe { library::ask(case, input, output) }
    }

    /// Compares the two on one case: the answer, or how they differ. What was written is then in `written`.
    fn compare(&mut self, case: &Case) -> Result<Answer, String> {
        self.before.fill(case.room(), self.word);
        self.after.copy(&self.before);
        let wanted = self.ask_second(case);
        let reported = if wanted.number == 0 { case.reported(wanted.length) } else { 0 };
        if self.after.bytes()[reported..] != self.before.bytes()[reported..] {
            return Err(String::from("the second program changed bytes that it does not report"));
        }
        for flush in [Flush::End, Flush::Start] {
            let found = self.ask_library(case, flush);
            if found != wanted {
                return Err(format!("library {}, second {}", spelled(found), spelled(wanted)));
            }
            if self.output.bytes() != self.after.bytes() {
                let place = first_difference(self.output.bytes(), self.after.bytes());
                return Err(format!("both {}, the library's buffer {place}", spelled(wanted)));
            }
            if !self.input.margin_kept() || !self.output.margin_kept() {
                return Err(format!("both {}, the library wrote beside its buffer", spelled(wanted)));
            }
            self.before.turn(0);
            self.after.turn(reported);
        }
        well_formed(case, wanted)?;
        Ok(wanted)
    }

    /// The first bytes of what was written for the last case.
    fn written(&self, length: usize) -> Vec<u8> {
        self.after.bytes()[..length].to_vec()
    }

    /// Whether a case that was just answered "yes" is about a row or a file with a missing sample.
    fn meets_missing(&mut self, case: &Case) -> bool {
        let samples = |layout: &Layout| 1..1 + layout.a as usize;
        match case {
            Case::Row { layout, .. } => self.after.places_mut()[samples(layout)].contains(&MISSING),
            Case::WriteRow { layout, row, .. } => row[samples(layout)].contains(&MISSING),
            Case::Check { layout, file } => has_missing(*layout, file),
            Case::Length { layout, file, .. } | Case::Change { layout, file, .. } => has_missing(*layout, file),
            Case::Config { .. } | Case::WriteConfig { .. } | Case::Reason { .. } => false,
        }
    }

    /// Judges a case with what follows from it: the answer, or what is wrong. The buffers are filled by the word.
    pub fn judge(&mut self, case: &Case, expected: Option<&Expected>, word: u64) -> Result<Judged, String> {
        self.word = word;
        let answer = self.compare(case)?;
        if let Some(expected) = expected {
            self.hold(answer, expected)?;
        }
        let missing = answer.number == 0 && self.meets_missing(case);
        match case {
            Case::Config { cfg, .. } if answer.number == 0 => {
                dates_or_none(cfg, &self.after.places_mut()[..CONFIG_PLACES])?
            }
            Case::Row { layout, .. } if answer.number == 0 => {
                row_in_range(*layout, &self.after.places_mut()[..layout.places()])?
            }
            Case::Change { layout, file, new_kind, room } => {
                self.follow_change(*layout, file, *new_kind, *room, answer)?
            }
            Case::WriteRow { layout, n, row, .. } => self.follow_written(*layout, *n, row, answer)?,
            Case::WriteConfig { cfg, kind, room } => self.follow_config(cfg, *kind, *room, answer)?,
            _ => (),
        }
        Ok(Judged { answer, missing })
    }

    /// Holds the answer, what is shown and what is written to what they must be.
    fn hold(&mut self, answer: Answer, expected: &Expected) -> Result<(), String> {
        let line = &expected.line;
        if answer != expected.answer {
            return Err(format!("both {}, {line} has {}", spelled(answer), spelled(expected.answer)));
        }
        let shown = &self.after.places_mut()[..expected.places.len()];
        if shown != expected.places {
            return Err(format!("both show {}, {line} has {}", words::listed(shown), words::listed(&expected.places)));
        }
        let written = &self.after.bytes()[..expected.bytes.len()];
        if written != expected.bytes {
            return Err(format!(
                "both write {}, {line} has {}",
                words::spelled(written),
                words::spelled(&expected.bytes)
            ));
        }
        Ok(())
    }

    /// A case that follows from another must be answered "yes".
    fn yes(&mut self, case: &Case) -> Result<Answer, String> {
        let answer = self.compare(case).map_err(|what| format!("then {case}: {what}"))?;
        if answer.number != 0 {
            return Err(format!("then {case}: {}", spelled(answer)));
        }
        Ok(answer)
    }

    /// Row n of a file.
    fn row(&mut self, layout: Layout, file: &[u8], n: u32) -> Result<Vec<i64>, String> {
        let places = layout.places();
        self.yes(&Case::Row { layout, file: file.to_vec(), n, places })?;
        Ok(self.after.places_mut().to_vec())
    }

    /// The length question answers as the change does but for 17; a changed file passes its check, has the same rows, and changes back.
    fn follow_change(&mut self, old: Layout, file: &[u8], kind: u32, room: usize, found: Answer) -> Result<(), String> {
        let changed = self.written(if found.number == 0 { found.length as usize } else { 0 });
        let length = self.compare(&Case::Length { layout: old, file: file.to_vec(), new_kind: kind })?;
        let agree =
            if found.number == 17 { length.number == 0 && length.length as usize > room } else { length == found };
        if !agree {
            return Err(format!("change {}, length {}", spelled(found), spelled(length)));
        }
        if found.number != 0 {
            return Ok(());
        }
        let new = old.of_kind(kind);
        self.yes(&Case::Check { layout: new, file: changed.clone() })?;
        if file.len() > LARGE {
            return Ok(());
        }
        for n in [1, old.rows] {
            if self.row(old, file, n)? != self.row(new, &changed, n)? {
                return Err(format!("row {n} is another after the change"));
            }
        }
        self.follow_back(old, file, new, changed)
    }

    /// Changed back, a file of a binary kind is what it was, and a text its own plain form.
    fn follow_back(&mut self, old: Layout, file: &[u8], new: Layout, changed: Vec<u8>) -> Result<(), String> {
        let mut was = file.to_vec();
        if old.kind == 0 {
            let room = self.yes(&Case::Length { layout: old, file: file.to_vec(), new_kind: 0 })?.length as usize;
            self.yes(&Case::Change { layout: old, file: was, new_kind: 0, room })?;
            was = self.written(room);
        }
        let room = was.len();
        self.yes(&Case::Change { layout: new, file: changed, new_kind: old.kind, room })?;
        if self.written(room) != was {
            return Err(String::from("changed back, the file is another"));
        }
        Ok(())
    }

    /// A first row as it was written is a file of one row, and shows what was given.
    fn follow_written(&mut self, layout: Layout, n: u32, row: &[i64], answer: Answer) -> Result<(), String> {
        if answer.number != 0 || n != 1 {
            return Ok(());
        }
        let file = self.written(answer.length as usize);
        if self.row(Layout { rows: 1, ..layout }, &file, 1)? != row[..layout.places()] {
            return Err(String::from("the written row shows another"));
        }
        Ok(())
    }

    /// What a configuration shows, and the answer to it.
    fn shown(&mut self, cfg: &[u8]) -> Result<(Answer, Vec<i64>), String> {
        let answer = self.compare(&config(cfg.to_vec()))?;
        Ok((answer, self.after.places_mut().to_vec()))
    }

    /// What the reader refuses is refused alike when it is to be written, and 17 is told of a result that is longer than the room.
    fn follow_config(&mut self, cfg: &[u8], kind: u32, room: usize, found: Answer) -> Result<(), String> {
        let result = self.written(found.length as usize);
        let (read, mut shown) = self.shown(cfg)?;
        if read.number != 0 {
            let alike = || format!("write_config {}, config {}", spelled(found), spelled(read));
            return if read == found { Ok(()) } else { Err(alike()) };
        }
        match found.number {
            0 if date_lines(cfg).ne(date_lines(&result)) => {
                Err(format!("the dates are others in {}", words::spelled(&result)))
            }
            0 => {
                shown[SHOWN_KIND] = i64::from(kind);
                self.follow_rewritten(result, kind, &shown)
            }
            17 => {
                let ample = self.yes(&Case::WriteConfig { cfg: cfg.to_vec(), kind, room: MOST_BYTES })?;
                let long = ample.length as usize > room;
                long.then_some(()).ok_or_else(|| format!("write_config has room, and answers {}", spelled(found)))
            }
            _ => Ok(()),
        }
    }

    /// A configuration as it was written shows this, has no space before a number or a code, and stays as it is when it is written again.
    fn follow_rewritten(&mut self, result: Vec<u8>, kind: u32, shown: &[i64]) -> Result<(), String> {
        let (read, new_shown) = self.shown(&result)?;
        if read.number != 0 || new_shown != shown {
            let places = words::listed(&new_shown);
            return Err(format!("the written configuration is read {}, shows {places}", spelled(read)));
        }
        let [a, d, rates] = [shown[0], shown[1], shown[2]].map(|count| count as usize);
        if !is_bare(&result, &all_lines(a, d, rates, shown[SHOWN_EDITION] as u32)) {
            return Err(format!("there is a space before a number, or no CR LF, in {}", words::spelled(&result)));
        }
        let room = result.len();
        self.yes(&Case::WriteConfig { cfg: result.clone(), kind, room })?;
        if self.written(room) != result {
            return Err(String::from("written again, the configuration is another"));
        }
        Ok(())
    }
}

/// The library's texts of the reasons 1 to 17: not empty, of the bytes 32 to 126, no two alike.
pub fn reasons() -> Result<Vec<Vec<u8>>, String> {
    let mut texts: Vec<Vec<u8>> = Vec::new();
    let mut judge = Judge::new(&[]);
    for number in 1..=17 {
        let case = Case::Reason { number, room: 4096 };
        judge.before.fill(case.room(), 0);
        let answer = judge.ask_library(&case, Flush::End);
        if answer.number != 0 {
            return Err(format!("{case}: {}", spelled(answer)));
        }
        let text = judge.output.bytes().get(..answer.length as usize).unwrap_or(&[]).to_vec();
        if text.is_empty() || !text.iter().all(|byte| (32..=126).contains(byte)) || texts.contains(&text) {
            return Err(format!("{case}: the text is {}", words::spelled(&text)));
        }
        texts.push(text);
    }
    Ok(texts)
}
